//! Rows of variable width: texts and lists.

use alloc::vec::Vec;
use core::ffi::c_void;
use core::slice;
use core::str::from_utf8;
use core::sync::atomic::Ordering;

use super::Array;
use crate::arrow::error::{ArrowError, Fault};
use crate::arrow::layout::{Layout, Of};
use crate::arrow::primitive::Unaligned;
use crate::arrow::ranges::Ranges;
use crate::arrow::texts::{Texts, View};

/// Texts and lists.
impl Array {
    /// Returns the range of each row: of texts in the [`bytes`](Array::bytes), of lists in the
    /// [`items`](Array::items). It tests each offset until a call for the whole array has tested
    /// all of them. The ranges of null rows are arbitrary, but in bounds.
    ///
    /// ```
    /// use vortex_bits::arrow::Export;
    ///
    /// let names = Export::texts(["a", "", "bc"], None).into_array().slice(1..);
    /// let (ranges, bytes) = (names.ranges()?, names.bytes()?);
    /// assert_eq!(&bytes[ranges.get(1).unwrap()], b"bc");
    /// # Ok::<(), vortex_bits::arrow::ArrowError>(())
    /// ```
    ///
    /// # Errors
    ///
    /// Returns [`ArrowError::Type`] if the array isn't of texts or lists between offsets: views,
    /// list views and fixed-size lists aren't. Returns [`ArrowError::Malformed`] with
    /// [`Fault::Range`] if an offset is negative or below the one before it, with [`Fault::Short`]
    /// if the rows end after the last item, and with [`Fault::Back`] if these rows are a slice
    /// whose last offset is greater than that of the array.
    pub fn ranges(&self) -> Result<Ranges<'_>, ArrowError> {
        let ranges = self.offsets()?;
        if let Some(items) = self.node.as_ref().children().next() {
            let (wanted, got) = (ranges.end(), items.len);
            if wanted > got {
                return Err(self.malformed(Fault::Short { wanted, got }));
            }
        }
        Ok(ranges)
    }

    fn offsets(&self) -> Result<Ranges<'_>, ArrowError> {
        let ranges = self.untested_ranges()?;
        if !self.is_tested() {
            ranges.ascend().map_err(|fault| self.malformed(fault))?;
            if self.len == self.node.len {
                self.node.ascends.store(true, Ordering::Relaxed);
            }
        }
        self.ends_with_all()?;
        Ok(ranges)
    }

    /// Returns whether a call for the whole array has tested all offsets.
    fn is_tested(&self) -> bool {
        self.node.ascends.load(Ordering::Relaxed)
    }

    /// Returns whether each call tests the offsets of these rows again: they are a slice, and no
    /// call for the whole array has tested all offsets.
    pub(in crate::arrow) fn is_tested_again(&self) -> bool {
        !self.is_tested() && self.len < self.node.len
    }

    /// Returns the range of each row, without a test. The caller must test the rows whose ranges it
    /// uses, such as by [`ranges`](Array::ranges) of a slice.
    pub(in crate::arrow) fn untested_ranges(&self) -> Result<Ranges<'_>, ArrowError> {
        let Layout::Ranges(width, _) = self.node.field.layout else {
            return Err(self.is_not("that of texts or lists"));
        };
        let number = if self.len == 0 { 0 } else { self.len + 1 };
        // SAFETY: there is an offset for each item, and one more.
        let offsets = unsafe { self.bytes_of(number, width) };
        Ok(if width == size_of::<i32>() {
            Ranges::narrow(Unaligned::new(offsets, number))
        } else {
            Ranges::wide(Unaligned::new(offsets, number))
        })
    }

    /// Tests that a slice of texts or lists doesn't end after the last row of the whole array. The
    /// bytes or items reach up to the end of that row, so offsets that go back could make a slice
    /// read past them.
    pub(in crate::arrow) fn ends_with_all(&self) -> Result<(), ArrowError> {
        let [own, all] = [self.start + self.len, self.node.offset + self.node.len];
        match self.node.field.layout {
            Layout::Ranges(width, _) if self.len > 0 && own != all => {
                // SAFETY: there is an offset for each item, and one more.
                let [end, last] = [own, all].map(|row| unsafe { self.node.number_at(row, width) });
                if end > last {
                    return Err(self.malformed(Fault::Back { end, last }));
                }
                Ok(())
            }
            _ => Ok(()),
        }
    }

    /// Returns the bytes of each valid row of texts or binary values. It tests the view of each
    /// valid row, or each offset until a call for the whole array has tested all of them.
    ///
    /// ```
    /// use vortex_bits::Bitmap;
    /// use vortex_bits::arrow::Export;
    ///
    /// let valid = Bitmap::from([true, false, true]);
    /// let names = Export::texts(["a", "", "bc"], Some(valid)).into_array();
    /// let rows = names.texts()?;
    /// assert!(rows.iter().eq([Some(&b"a"[..]), None, Some(b"bc")]));
    /// # Ok::<(), vortex_bits::arrow::ArrowError>(())
    /// ```
    ///
    /// # Errors
    ///
    /// Returns [`ArrowError::Type`] if the array has another type. Returns
    /// [`ArrowError::Malformed`] as [`ranges`](Array::ranges) does, if a valid view isn't in a
    /// buffer, if the size of a buffer of views is negative, or if a buffer with bytes or with
    /// sizes is null.
    pub fn texts(&self) -> Result<Texts<'_>, ArrowError> {
        let Some(views) = self.views() else {
            let (ranges, bytes) = self.joined()?;
            return Ok(Texts::joined(ranges, bytes, self.validity()?));
        };
        let valid = self.validity()?;
        let texts = self
            .view_buffers()
            .and_then(|it| Texts::views(views, it, valid));
        texts.map_err(|fault| self.malformed(fault))
    }

    /// Returns the first valid row of texts or binary values that isn't UTF-8.
    pub(in crate::arrow) fn first_not_utf8(&self) -> Result<Option<usize>, ArrowError> {
        let is_wrong = |row: Option<&[u8]>| row.is_some_and(|it| from_utf8(it).is_err());
        Ok(self.texts()?.iter().position(is_wrong))
    }

    /// Returns the views of an array of views; None for another type. Those of null rows are
    /// arbitrary.
    pub(in crate::arrow) fn views(&self) -> Option<&[View]> {
        let has_views = self.node.field.layout == Layout::Views;
        // SAFETY: there is a view for each item.
        has_views.then(|| unsafe { self.items_of::<View>(self.len) })
    }

    /// Returns the buffers that views name. It reads their sizes in the last buffer of the array.
    pub(in crate::arrow) fn view_buffers(&self) -> Result<Vec<&[u8]>, Fault> {
        let [_, _, buffers @ .., sizes] = &self.node.buffers[..] else {
            return Ok(Vec::new());
        };
        if sizes.is_null() && !buffers.is_empty() {
            return Err(Fault::NoBuffer("sizes"));
        }
        let buffer = |(place, bytes): (usize, &*const c_void)| {
            // SAFETY: there is a size for each buffer.
            let size = unsafe { sizes.cast::<i64>().add(place).read_unaligned() };
            match usize::try_from(size) {
                Ok(0) => Ok(&[][..]),
                Ok(_) if bytes.is_null() => Err(Fault::NoBuffer("bytes")),
                // SAFETY: the buffer has this number of bytes.
                Ok(len) if isize::try_from(len).is_ok() => {
                    Ok(unsafe { slice::from_raw_parts(bytes.cast(), len) })
                }
                _ => Err(Fault::OutOfRange("a size", size)),
            }
        };
        buffers.iter().enumerate().map(buffer).collect()
    }

    /// Returns the offsets of list views and their sizes in items, both as numbers of `width`
    /// bytes.
    pub(in crate::arrow) fn list_view_numbers(&self, width: usize) -> [&[u8]; 2] {
        let is_wide = self.node.field.layout == Layout::ListViews(width);
        let size = if is_wide { self.len * width } else { 0 };
        [1, 2].map(|place| {
            if size == 0 {
                return &[][..];
            }
            let numbers = self.node.buffers[place].cast::<u8>();
            // SAFETY: there are two numbers for each item, in two buffers.
            unsafe { slice::from_raw_parts(numbers.add(self.start * width), size) }
        })
    }

    /// Returns the type ids of a union's rows.
    pub(in crate::arrow) fn type_ids(&self) -> &[u8] {
        if self.len == 0 || !matches!(self.node.field.layout, Layout::Union { .. }) {
            return &[];
        }
        let ids = self.node.buffers[0].cast::<u8>();
        // SAFETY: there is a byte for each item.
        unsafe { slice::from_raw_parts(ids.add(self.start), self.len) }
    }

    /// Returns the index of a row of a dense union in its child.
    ///
    /// # Panics
    ///
    /// Panics if there is no such row, or the union isn't dense.
    pub(in crate::arrow) fn union_offset(&self, row: usize) -> i32 {
        assert!(row < self.len && self.node.field.layout.is_dense());
        let offsets = self.node.buffers[1].cast::<i32>();
        // SAFETY: there is a number for each item.
        unsafe { offsets.add(self.start + row).read_unaligned() }
    }

    /// Returns the bytes of texts or of binary values, including those of the rows before these.
    ///
    /// # Errors
    ///
    /// Returns [`ArrowError::Type`] if the array isn't of texts or binary values between offsets.
    /// Returns [`ArrowError::Malformed`] as [`ranges`](Array::ranges) does, or if the last row ends
    /// after byte 0 and the buffer is null.
    pub fn bytes(&self) -> Result<&[u8], ArrowError> {
        Ok(self.joined()?.1)
    }

    /// Returns the ranges of texts or binary values, and the bytes, after one pass over the
    /// offsets.
    pub(in crate::arrow) fn joined(&self) -> Result<(Ranges<'_>, &[u8]), ArrowError> {
        self.has_bytes()?;
        let ranges = self.offsets()?;
        // SAFETY: the rows passed the tests.
        Ok((ranges, unsafe { self.bytes_up_to(ranges.end())? }))
    }

    pub(in crate::arrow) fn has_bytes(&self) -> Result<(), ArrowError> {
        match self.node.field.layout {
            Layout::Ranges(_, Of::Bytes) => Ok(()),
            _ => Err(self.is_not("that of texts")),
        }
    }

    /// Returns the bytes of texts up to `end`.
    ///
    /// # Safety
    ///
    /// `end` is 0, or [`ranges`](Array::ranges) returns it as an end of these rows or of a slice of
    /// them.
    pub(in crate::arrow) unsafe fn bytes_up_to(&self, end: usize) -> Result<&[u8], ArrowError> {
        if end == 0 {
            return Ok(&[]);
        }
        let bytes = self.node.buffers[2].cast::<u8>();
        if bytes.is_null() {
            return Err(self.malformed(Fault::NoBuffer("bytes")));
        }
        // SAFETY: no row ends after the last one of the array. The buffer has the number of bytes
        // that the last offset says, at most `isize::MAX`.
        Ok(unsafe { slice::from_raw_parts(bytes, end) })
    }

    /// Returns the items of lists, including those of other rows.
    ///
    /// # Errors
    ///
    /// Returns [`ArrowError::Type`] if the array isn't of lists between offsets.
    pub fn items(&self) -> Result<Array, ArrowError> {
        match (self.node.field.layout, self.node.as_ref().children().next()) {
            (Layout::Ranges(_, Of::Items), Some(items)) => Ok(Array::whole(items)),
            _ => Err(self.is_not("that of lists")),
        }
    }
}
