//! One bitmap per dictionary code.

use alloc::vec::Vec;
use core::fmt;
use core::ops::Range;

use crate::error::{GroupError, expect};
use crate::group::{no_group, one_each};
use crate::{AlignedBytes, BitIndex, Bitmap, Bits, BitsMut, Mask, SharedBytes, portable};

/// One bitmap per code of a dictionary column: bit `row` of bitmap `code` says whether the row has
/// the code. It grows by batches, each of which is read once. All bitmaps are in one buffer.
///
/// ```
/// use vortex_bits::{Bits, BitmapsByCode};
///
/// let mut cities = BitmapsByCode::with_capacity(3, 8);
/// cities.append(&[2u8, 0, 99, 2], Bits::new(&[0b1011], 0, 4));
/// cities.append(&[0i32, 1], None::<Bits>);
/// assert_eq!(cities.get(2).unwrap().set_indices().collect::<Vec<_>>(), [0, 3]);
///
/// let bitmaps = cities.into_bitmaps();
/// assert_eq!((&bitmaps[0] | &bitmaps[1]).count_ones(), 3);
/// ```
#[doc(alias("bitmap_index", "one_hot", "partition"))]
#[derive(Clone)]
pub struct BitmapsByCode {
    /// `stride` bytes for each code. Bits from row `rows` on are false.
    bytes: AlignedBytes,
    stride: usize,
    codes: usize,
    rows: usize,
}

/// The bytes of a bitmap are a multiple of this, so that each is aligned as the first one.
const ALIGNMENT: usize = 64;

impl BitmapsByCode {
    /// Returns `codes` bitmaps of no rows, with capacity for `rows` rows.
    ///
    /// # Panics
    ///
    /// Panics if the number of bits of all codes (of one, if there is none), each rounded up to a
    /// multiple of 512, exceeds `usize::MAX`, or their bytes exceed the memory that a [`Vec`] can
    /// have. Calls that append panic then too.
    #[must_use]
    #[track_caller]
    pub fn with_capacity(codes: usize, rows: usize) -> BitmapsByCode {
        let stride = rows.div_ceil(8).next_multiple_of(ALIGNMENT);
        let bits = stride.checked_mul(8);
        let bits = bits.and_then(|it| it.checked_mul(codes.max(1)));
        assert!(bits.is_some(), "{codes} bitmaps of {rows} rows");
        BitmapsByCode {
            bytes: AlignedBytes::zeroed(codes * stride),
            stride,
            codes,
            rows: 0,
        }
    }

    /// Returns the number of rows.
    #[inline]
    #[must_use]
    pub const fn len(&self) -> usize {
        self.rows
    }

    /// Returns whether there are no rows.
    #[inline]
    #[must_use]
    pub const fn is_empty(&self) -> bool {
        self.rows == 0
    }

    /// Returns the number of codes.
    #[inline]
    #[must_use]
    pub const fn codes(&self) -> usize {
        self.codes
    }

    /// Returns the bitmap of a code; None if there is no such code.
    #[inline]
    #[must_use]
    pub fn get(&self, code: usize) -> Option<Bits<'_>> {
        let bits = |code| Bits::new(&self.bytes, 8 * self.stride * code, self.rows);
        (code < self.codes).then_some(code).map(bits)
    }

    /// Appends a row per code. It sets the row's bit in the bitmap of its code if `mask` selects
    /// the row, or is None. Rows that it doesn't select, such as nulls, are in no bitmap and may
    /// have any number as their code. Beyond the capacity it allocates at least twice as much.
    ///
    /// # Panics
    ///
    /// Panics if [`try_append`](BitmapsByCode::try_append) returns an error. No row is added then.
    #[track_caller]
    pub fn append<I: BitIndex>(&mut self, codes: &[I], mask: impl Mask) {
        expect(self.try_append(codes, mask));
    }

    /// Appends a row per code, as [`append`](BitmapsByCode::append) does.
    ///
    /// ```
    /// use vortex_bits::{Bits, BitmapsByCode};
    ///
    /// let mut cities = BitmapsByCode::with_capacity(3, 0);
    /// assert!(cities.try_append(&[2, 0, 3], None::<Bits>).is_err());
    /// assert_eq!((cities.len(), cities.codes()), (0, 3));
    /// ```
    ///
    /// # Errors
    ///
    /// Returns [`GroupError`] if `mask` doesn't have one bit per code, and with the first selected
    /// row whose code is negative or not below the number of bitmaps. No row is added then.
    ///
    /// # Panics
    ///
    /// Panics if the number of bits of all codes, each rounded up to a multiple of 512, exceeds
    /// `usize::MAX`, or their bytes exceed the memory that a [`Vec`] can have.
    #[track_caller]
    pub fn try_append<I: BitIndex>(
        &mut self,
        codes: &[I],
        mask: impl Mask,
    ) -> Result<(), GroupError> {
        one_each(codes, codes.len(), &mask)?;
        let end = self.rows.checked_add(codes.len());
        let end = end.expect("the number of rows is a usize");
        if end > 8 * self.stride {
            self.grow(end);
        }
        let (bytes, stride) = (&mut self.bytes, self.stride);
        let past = portable::split_by_code(bytes, stride, self.rows, codes, mask.mask());
        if let Some(row) = past {
            self.clear(self.rows..end);
            return Err(no_group(codes, row, self.codes));
        }
        self.rows = end;
        Ok(())
    }

    /// Returns a bitmap per code. They share one buffer, which is freed with the last of them. Does
    /// not copy it.
    ///
    /// # Panics
    ///
    /// Panics if the bitmaps exceed the memory that a [`Vec`] can have, as those of `usize::MAX`
    /// codes without rows do.
    #[must_use]
    pub fn into_bitmaps(self) -> Vec<Bitmap> {
        let (bits, rows) = (8 * self.stride, self.rows);
        let bytes = SharedBytes::from(self.bytes);
        let bitmap = |code| Bitmap::new(bytes.clone(), bits * code, rows);
        (0..self.codes).map(bitmap).collect()
    }

    #[cold]
    #[track_caller]
    fn grow(&mut self, rows: usize) {
        // Twice the capacity, if its bits are a `usize`.
        let most = usize::MAX / self.codes.max(1);
        let twice = self.stride.checked_mul(16).filter(|&it| it <= most);
        let rows = rows.max(twice.unwrap_or(0));
        let mut grown = BitmapsByCode::with_capacity(self.codes, rows);
        let used = self.rows.div_ceil(8);
        if used > 0 {
            let parts = grown.bytes.chunks_exact_mut(grown.stride);
            for (grown, own) in parts.zip(self.bytes.chunks_exact(self.stride)) {
                grown[..used].copy_from_slice(&own[..used]);
            }
        }
        grown.rows = self.rows;
        *self = grown;
    }

    #[cold]
    fn clear(&mut self, rows: Range<usize>) {
        let capacity = 8 * self.stride;
        for code in 0..self.codes {
            let mut bits = BitsMut::new(&mut self.bytes, capacity * code, capacity);
            bits.slice(rows.clone()).fill(false);
        }
    }
}

impl fmt::Debug for BitmapsByCode {
    fn fmt(&self, f: &mut fmt::Formatter<'_>) -> fmt::Result {
        let bitmaps = (0..self.codes).filter_map(|code| self.get(code));
        f.debug_list().entries(bitmaps).finish()
    }
}

/// Returns `number` bitmaps with a bit per row: bitmap `code` has the rows with this code that
/// `mask` selects; all of them if it is None. Rows that it doesn't select, such as nulls, may have
/// any number as their code. It reads the codes once. The bitmaps share one buffer, of a bit per
/// row and code, rounded up to 64 bytes for each code. [`BitmapsByCode`] does it batch by batch.
///
/// ```
/// use vortex_bits::{Bitmap, Bits, values};
///
/// let valid = Bits::new(&[0b1_0111], 0, 5);
/// let cities = values::bitmaps_by_code(&[2u8, 1, 2, 99, 0], 3, valid);
/// assert_eq!(cities[2], Bitmap::from_indices(5, &[0, 2]));
/// assert_eq!(cities[0], Bitmap::from_indices(5, &[4]));
/// ```
///
/// # Panics
///
/// Panics if [`try_bitmaps_by_code`] returns an error or panics.
#[doc(alias("bitmap_index", "one_hot", "partition"))]
#[must_use]
#[track_caller]
pub fn bitmaps_by_code<I: BitIndex>(codes: &[I], number: usize, mask: impl Mask) -> Vec<Bitmap> {
    expect(try_bitmaps_by_code(codes, number, mask))
}

/// Returns `number` bitmaps with a bit per row, as [`bitmaps_by_code`] does.
///
/// ```
/// use vortex_bits::{Bits, values};
///
/// assert!(values::try_bitmaps_by_code(&[1i8, -1], 2, None::<Bits>).is_err());
/// ```
///
/// # Errors
///
/// Returns [`GroupError`] if `mask` doesn't have one bit per code, and with the first selected row
/// whose code is negative or not below `number`.
///
/// # Panics
///
/// Panics if the number of bits of all codes, each rounded up to a multiple of 512, exceeds
/// `usize::MAX`, or if their bytes or the bitmaps exceed the memory that a [`Vec`] can have.
#[track_caller]
pub fn try_bitmaps_by_code<I: BitIndex>(
    codes: &[I],
    number: usize,
    mask: impl Mask,
) -> Result<Vec<Bitmap>, GroupError> {
    let mut bitmaps = BitmapsByCode::with_capacity(number, codes.len());
    bitmaps.try_append(codes, mask)?;
    Ok(bitmaps.into_bitmaps())
}
