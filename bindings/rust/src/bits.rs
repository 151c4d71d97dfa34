//! A read-only window.

use core::ops::{Bound, RangeBounds};

use crate::bits_mut::alike;
use crate::error::{OutOfBounds, expect};
use crate::iter::{Iter, SetIndices, SetSlices, UnsetIndices, UnsetSlices, Words};
use crate::kernels;

/// A read-only window: the `len` bits starting at bit `offset` of some bytes, least significant bit
/// first. Bit `i` of the bytes is bit `i % 8` of byte `i / 8`, and index `i` of the window is bit
/// `offset + i` of the bytes.
///
/// Results depend on these bits alone, and not on other bits of the bytes. Two windows are equal if
/// they have the same bits, at any offsets.
///
/// ```
/// use vortex_bits::Bits;
///
/// // Which of ten rows are valid, from bit 3 of the first byte on.
/// let valid = Bits::new(&[0b1110_1000, 0b0000_0110], 3, 10);
/// assert_eq!(valid.count_ones(), 6);
/// assert_eq!(valid.select(1), Some(2));
/// assert!(valid.set_indices().eq([0, 2, 3, 4, 6, 7]));
/// assert_eq!(valid.slice(2..5), Bits::new(&[0b111], 0, 3));
/// ```
#[doc(alias("bitslice"))]
#[derive(Clone, Copy, Default)]
pub struct Bits<'a> {
    /// The window is in bounds, and its end is a `usize`.
    bytes: &'a [u8],
    offset: usize,
    len: usize,
}

/// Tests whether the window is in `size` bytes, and ends at a `usize`.
pub(crate) const fn fits(size: usize, offset: usize, len: usize) -> Result<(), OutOfBounds> {
    match offset.checked_add(len) {
        Some(end) if end.div_ceil(8) <= size => Ok(()),
        _ => Err(OutOfBounds::new(offset, len, size.saturating_mul(8))),
    }
}

/// Returns the number of bits of the bytes.
#[track_caller]
pub(crate) fn all_bits(bytes: &[u8]) -> usize {
    let bits = bytes.len().checked_mul(8);
    bits.expect("the number of bits is a usize")
}

/// Returns the index of the first bit of a range among `len` bits, and the number of its bits.
pub(crate) fn within(
    range: &impl RangeBounds<usize>,
    len: usize,
) -> Result<(usize, usize), OutOfBounds> {
    let start = match range.start_bound() {
        Bound::Included(&start) => Some(start),
        Bound::Excluded(&before) => before.checked_add(1),
        Bound::Unbounded => Some(0),
    };
    let end = match range.end_bound() {
        Bound::Included(&last) => last.checked_add(1),
        Bound::Excluded(&end) => Some(end),
        Bound::Unbounded => Some(len),
    };
    let [from, to] = [start, end].map(|it| it.unwrap_or(usize::MAX));
    let is_in = from <= to && to <= len && start.and(end).is_some();
    let has_last = start.is_some() && end.is_none();
    let number = to.saturating_sub(from).saturating_add(has_last.into());
    let error = OutOfBounds::new(from, number, len);
    is_in.then_some((from, number)).ok_or(error)
}

impl<'a> Bits<'a> {
    /// Returns a window of `len` bits from bit `offset` of the bytes on. Does not allocate.
    ///
    /// # Panics
    ///
    /// Panics if the window isn't in bounds of the bytes; [`try_new`](Bits::try_new) returns an
    /// error instead.
    #[inline]
    #[must_use]
    #[track_caller]
    pub fn new(bytes: &'a [u8], offset: usize, len: usize) -> Bits<'a> {
        expect(Bits::try_new(bytes, offset, len))
    }

    /// Returns a window of `len` bits from bit `offset` of the bytes on. Does not allocate.
    ///
    /// # Errors
    ///
    /// Returns [`OutOfBounds`] if the window isn't in bounds of the bytes, or its end isn't a
    /// `usize`.
    ///
    /// ```
    /// use vortex_bits::Bits;
    ///
    /// let refused = Bits::try_new(&[0xFF], 3, 6).unwrap_err();
    /// assert_eq!(Bits::try_new(&[0xFF], 3, 5).map(Bits::count_ones), Ok(5));
    /// assert!(refused.to_string().contains("6 bits"));
    /// ```
    #[inline]
    pub const fn try_new(
        bytes: &'a [u8],
        offset: usize,
        len: usize,
    ) -> Result<Bits<'a>, OutOfBounds> {
        match fits(bytes.len(), offset, len) {
            Ok(()) => Ok(Bits { bytes, offset, len }),
            Err(outside) => Err(outside),
        }
    }

    /// Returns a window of all bits of the bytes.
    ///
    /// # Panics
    ///
    /// Panics if their number overflows a `usize`: the bytes are then at least an eighth of the
    /// address space.
    #[inline]
    #[must_use]
    #[track_caller]
    pub fn from_bytes(bytes: &'a [u8]) -> Bits<'a> {
        Bits::new(bytes, 0, all_bits(bytes))
    }

    /// Returns the bytes of the constructor, including those outside of the window.
    #[inline]
    #[must_use]
    pub const fn bytes(self) -> &'a [u8] {
        self.bytes
    }

    /// Returns the index of the window's first bit in the bytes.
    #[inline]
    #[must_use]
    pub const fn offset(self) -> usize {
        self.offset
    }

    /// Returns the number of bits in the window.
    #[inline]
    #[must_use]
    pub const fn len(self) -> usize {
        self.len
    }

    /// Returns whether the window has no bits.
    #[inline]
    #[must_use]
    pub const fn is_empty(self) -> bool {
        self.len == 0
    }

    /// Returns the bits of a range of indices.
    ///
    /// # Panics
    ///
    /// Panics if the range starts after its end, or ends after the window.
    #[doc(alias("view"))]
    #[inline]
    #[must_use]
    #[track_caller]
    pub fn slice(self, range: impl RangeBounds<usize>) -> Bits<'a> {
        expect(self.try_slice(range))
    }

    /// Returns the bits of a range of indices.
    ///
    /// # Errors
    ///
    /// Returns [`OutOfBounds`] if the range starts after its end, or ends after the window.
    #[inline]
    pub fn try_slice(self, range: impl RangeBounds<usize>) -> Result<Bits<'a>, OutOfBounds> {
        let (start, len) = within(&range, self.len)?;
        Ok(self.part(start, len))
    }

    /// Returns the `len` bits from index `start` on. They must be in the window.
    #[inline]
    pub(crate) fn part(self, start: usize, len: usize) -> Bits<'a> {
        debug_assert!(start <= self.len && len <= self.len - start);
        Bits {
            bytes: self.bytes,
            offset: self.offset + start,
            len,
        }
    }

    /// Returns the bit at an index; None if it is out of bounds.
    #[inline]
    #[must_use]
    pub fn get(self, place: usize) -> Option<bool> {
        let bit = self.offset + place.min(self.len);
        (place < self.len).then(|| self.bytes[bit / 8] >> (bit % 8) & 1 == 1)
    }

    /// Returns the number of set bits. Reads the bytes once.
    ///
    /// ```
    /// use vortex_bits::Bits;
    ///
    /// assert_eq!(Bits::new(&[0b1110_1000, 0b0000_0110], 3, 10).count_ones(), 6);
    /// ```
    #[doc(alias("popcount", "popcnt", "cardinality", "true_count"))]
    #[inline]
    #[must_use]
    pub fn count_ones(self) -> usize {
        kernels::count_ones(self)
    }

    /// Returns the number of unset bits. Reads the bytes once.
    #[doc(alias("null_count", "false_count"))]
    #[inline]
    #[must_use]
    pub fn count_zeros(self) -> usize {
        self.len - self.count_ones()
    }

    /// Returns the index of the `n`-th set bit, counted from 0; None if at most `n` are set. Counts
    /// the bits from the front up to the one it returns; in a window of more than 4,096 bytes (128
    /// in portable code) it may also count bits after that. For more than a few calls
    /// [`Ranks`](crate::Ranks) is faster.
    ///
    /// ```
    /// use vortex_bits::Bits;
    ///
    /// assert_eq!(Bits::new(&[0b1110_1000], 3, 5).select(1), Some(2));
    /// ```
    #[doc(alias("select1", "nth_set"))]
    #[inline]
    #[must_use]
    pub fn select(self, n: usize) -> Option<usize> {
        kernels::select(self, n)
    }

    /// Returns the index of the `n`-th unset bit, counted from 0; None if at most `n` are unset.
    #[doc(alias("select0", "nth_unset"))]
    #[inline]
    #[must_use]
    pub fn select_unset(self, n: usize) -> Option<usize> {
        kernels::select_unset(self, n)
    }

    /// Returns the index of the first set bit; None if all are unset.
    ///
    /// ```
    /// use vortex_bits::Bits;
    ///
    /// let bits = Bits::new(&[0b0111_0110], 0, 7);
    /// assert_eq!((bits.first_set(), bits.first_unset()), (Some(1), Some(0)));
    /// assert_eq!((bits.last_set(), bits.last_unset()), (Some(6), Some(3)));
    /// ```
    #[doc(alias("ffs", "trailing_zeros"))]
    #[inline]
    #[must_use]
    pub fn first_set(self) -> Option<usize> {
        self.next_set(0)
    }

    /// Returns the index of the first unset bit; None if all are set.
    #[inline]
    #[must_use]
    pub fn first_unset(self) -> Option<usize> {
        self.next_unset(0)
    }

    /// Returns the index of the last set bit; None if all are unset. Reads from the end.
    #[doc(alias("leading_zeros"))]
    #[inline]
    #[must_use]
    pub fn last_set(self) -> Option<usize> {
        kernels::last_set(self)
    }

    /// Returns the index of the last unset bit; None if all are set. Reads from the end.
    #[inline]
    #[must_use]
    pub fn last_unset(self) -> Option<usize> {
        self.previous_unset(self.len)
    }

    /// Returns the index of the first set bit at or after `from`; None if there is none, or if
    /// `from` is at least the length. Reads up to the bit that it finds. To walk all of them,
    /// [`set_indices`](Bits::set_indices) is faster.
    ///
    /// ```
    /// use vortex_bits::Bits;
    ///
    /// let bits = Bits::new(&[0b0111_0110], 0, 7);
    /// assert_eq!((bits.next_set(3), bits.next_unset(4)), (Some(4), None));
    /// assert_eq!((bits.previous_set(4), bits.previous_unset(3)), (Some(2), Some(0)));
    /// ```
    #[doc(alias("find_next", "successor"))]
    #[inline]
    #[must_use]
    pub fn next_set(self, from: usize) -> Option<usize> {
        kernels::next_set(self, from)
    }

    /// Returns the index of the first unset bit at or after `from`; None if there is none.
    #[inline]
    #[must_use]
    pub fn next_unset(self, from: usize) -> Option<usize> {
        kernels::next_unset(self, from)
    }

    /// Returns the index of the last set bit before index `before`; None if there is none. A
    /// `before` of at least the length searches all bits.
    #[doc(alias("find_previous", "predecessor"))]
    #[inline]
    #[must_use]
    pub fn previous_set(self, before: usize) -> Option<usize> {
        kernels::previous_set(self, before)
    }

    /// Returns the index of the last unset bit before index `before`; None if there is none.
    #[inline]
    #[must_use]
    pub fn previous_unset(self, before: usize) -> Option<usize> {
        kernels::previous_unset(self, before)
    }

    /// Returns whether any bit is set: false for no bits. Stops once it has read a set bit.
    #[inline]
    #[must_use]
    pub fn any(self) -> bool {
        kernels::any_set(self)
    }

    /// Returns whether all bits are set: true for no bits. Stops once it has read an unset bit.
    #[inline]
    #[must_use]
    pub fn all(self) -> bool {
        kernels::all_set(self)
    }

    /// Returns an iterator over the bits, from front to end.
    #[inline]
    #[must_use]
    pub fn iter(self) -> Iter<'a> {
        Iter::new(self)
    }

    /// Returns an iterator over the indices of the set bits, in ascending order. Like the other
    /// iterators it also runs from the end.
    ///
    /// ```
    /// use vortex_bits::Bits;
    ///
    /// let bits = Bits::new(&[0b0111_0110], 0, 7);
    /// assert_eq!(bits.set_indices().collect::<Vec<_>>(), [1, 2, 4, 5, 6]);
    /// assert_eq!(bits.set_indices().rev().take(2).collect::<Vec<_>>(), [6, 5]);
    /// ```
    #[doc(alias("positions", "iter_ones"))]
    #[inline]
    #[must_use]
    pub fn set_indices(self) -> SetIndices<'a> {
        SetIndices::new(self)
    }

    /// Returns an iterator over the maximal runs of set bits, from front to end, as ranges of
    /// indices.
    ///
    /// ```
    /// use vortex_bits::Bits;
    ///
    /// let bits = Bits::new(&[0b0111_0110], 0, 7);
    /// assert_eq!(bits.set_slices().collect::<Vec<_>>(), [1..3, 4..7]);
    /// ```
    #[doc(alias("runs", "ranges"))]
    #[inline]
    #[must_use]
    pub fn set_slices(self) -> SetSlices<'a> {
        SetSlices::new(self)
    }

    /// Returns an iterator over the indices of the unset bits, in ascending order, such as the
    /// nulls of a column.
    ///
    /// ```
    /// use vortex_bits::Bits;
    ///
    /// let valid = Bits::new(&[0b0111_0110], 0, 7);
    /// assert_eq!(valid.unset_indices().collect::<Vec<_>>(), [0, 3]);
    /// ```
    #[doc(alias("nulls", "iter_zeros"))]
    #[inline]
    #[must_use]
    pub fn unset_indices(self) -> UnsetIndices<'a> {
        UnsetIndices::new(self)
    }

    /// Returns an iterator over the maximal runs of unset bits, from front to end, as ranges of
    /// indices.
    ///
    /// ```
    /// use vortex_bits::Bits;
    ///
    /// let bits = Bits::new(&[0b0110_0010], 0, 7);
    /// assert_eq!(bits.unset_slices().collect::<Vec<_>>(), [0..1, 2..5]);
    /// ```
    #[inline]
    #[must_use]
    pub fn unset_slices(self) -> UnsetSlices<'a> {
        UnsetSlices::new(self)
    }

    /// Returns an iterator over the bits as 64-bit words, with the first bit lowest. Zeros pad
    /// the last word.
    ///
    /// ```
    /// use vortex_bits::Bits;
    ///
    /// let bits = Bits::new(&[0xFF; 10], 3, 70);
    /// assert!(bits.words().eq([u64::MAX, 0b11_1111]));
    /// ```
    #[inline]
    #[must_use]
    pub fn words(self) -> Words<'a> {
        Words::new(self)
    }

    /// Writes each bit to the bool at its index.
    ///
    /// ```
    /// use vortex_bits::Bits;
    ///
    /// let (mut bools, mut bytes) = ([false; 4], [7; 4]);
    /// Bits::new(&[0b0110_1000], 3, 4).copy_to_bools(&mut bools);
    /// Bits::new(&[0b0110_1000], 3, 4).copy_to_bytes(&mut bytes);
    /// assert_eq!((bools, bytes), ([true, false, true, true], [1, 0, 1, 1]));
    /// ```
    ///
    /// # Panics
    ///
    /// Panics if there isn't one bool per bit.
    #[doc(alias("unpack"))]
    #[inline]
    #[track_caller]
    pub fn copy_to_bools(self, out: &mut [bool]) {
        alike(out.len(), self.len);
        kernels::unpack_bools(out, self);
    }

    /// Writes each bit to the byte at its index: 1 if it is set, else 0.
    ///
    /// # Panics
    ///
    /// Panics if there isn't one byte per bit.
    #[doc(alias("unpack", "unpackbits"))]
    #[inline]
    #[track_caller]
    pub fn copy_to_bytes(self, out: &mut [u8]) {
        alike(out.len(), self.len);
        kernels::unpack_bytes(out, self);
    }

    /// Writes the indices of the set bits, in ascending order, to the front of `out`, up to its
    /// length. Returns the number of indices written. The rest of `out` is unchanged.
    ///
    /// ```
    /// use vortex_bits::Bits;
    ///
    /// let mut places = [0; 4];
    /// assert_eq!(Bits::new(&[0b0111_0110], 0, 7).write_set_indices(&mut places), 4);
    /// assert_eq!(places, [1, 2, 4, 5]);
    /// ```
    #[inline]
    pub fn write_set_indices(self, out: &mut [usize]) -> usize {
        kernels::set_indices(self, out)
    }

    /// Writes the indices of the set bits as `u32`, in ascending order, to the front of `out`, up
    /// to its length, and returns the number written. The rest of `out` is unchanged. The indices
    /// can be passed to `values::take`.
    ///
    /// # Panics
    ///
    /// Panics if the window has more than 2^32 bits; `out` is then unchanged.
    ///
    /// ```
    /// use vortex_bits::Bits;
    ///
    /// let mut selected = [0u32; 4];
    /// assert_eq!(Bits::new(&[0b0111_0110], 0, 7).write_set_indices_u32(&mut selected), 4);
    /// assert_eq!(selected, [1, 2, 4, 5]);
    /// ```
    #[doc(alias("positions", "selection_vector"))]
    #[inline]
    #[track_caller]
    pub fn write_set_indices_u32(self, out: &mut [u32]) -> usize {
        assert!(
            u32::try_from(self.len.saturating_sub(1)).is_ok(),
            "a u32 can't index {} bits",
            self.len
        );
        kernels::set_indices(self, out)
    }
}
