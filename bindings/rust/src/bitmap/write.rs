//! The calls of a bitmap that write to memory of the caller. They are the calls of its window.

use super::Bitmap;
use crate::error::TakeError;
use crate::{BitIndex, Bits, BitsMut, Mask, Value};

/// The calls of [`Bits`] that write to memory of the caller.
impl<B: AsRef<[u8]>> Bitmap<B> {
    /// Writes each bit to the item of `out` at its index.
    ///
    /// ```
    /// use vortex_bits::Bitmap;
    ///
    /// let mut flags = [false; 3];
    /// Bitmap::from([true, false, true]).copy_to_bools(&mut flags);
    /// assert_eq!(flags, [true, false, true]);
    /// ```
    ///
    /// # Panics
    ///
    /// Panics if there isn't one item per bit.
    #[doc(alias("unpack"))]
    #[track_caller]
    pub fn copy_to_bools(&self, out: &mut [bool]) {
        self.bits().copy_to_bools(out);
    }

    /// Writes each bit, as 0 or 1, to the byte of `out` at its index.
    ///
    /// ```
    /// use vortex_bits::Bitmap;
    ///
    /// let mut bytes = [7; 3];
    /// Bitmap::from([true, false, true]).copy_to_bytes(&mut bytes);
    /// assert_eq!(bytes, [1, 0, 1]);
    /// ```
    ///
    /// # Panics
    ///
    /// Panics if there isn't one byte per bit.
    #[doc(alias("unpack"))]
    #[track_caller]
    pub fn copy_to_bytes(&self, out: &mut [u8]) {
        self.bits().copy_to_bytes(out);
    }

    /// Writes the indices of the set bits, in ascending order, to the front of `out`, up to its
    /// length. Returns the number of indices written.
    ///
    /// ```
    /// use vortex_bits::Bitmap;
    ///
    /// let mut places = [0; 2];
    /// assert_eq!(Bitmap::from([true, false, true]).write_set_indices(&mut places), 2);
    /// assert_eq!(places, [0, 2]);
    /// ```
    pub fn write_set_indices(&self, out: &mut [usize]) -> usize {
        self.bits().write_set_indices(out)
    }

    /// Writes the indices of the set bits as `u32`, in ascending order, to the front of `out`, up
    /// to its length: a selection vector. Returns the number of indices written.
    ///
    /// ```
    /// use vortex_bits::Bitmap;
    ///
    /// let mut selected = [0; 2];
    /// assert_eq!(Bitmap::from([true, false, true]).write_set_indices_u32(&mut selected), 2);
    /// assert_eq!(selected, [0, 2]);
    /// ```
    ///
    /// # Panics
    ///
    /// Panics if there are more than 2^32 bits.
    #[track_caller]
    pub fn write_set_indices_u32(&self, out: &mut [u32]) -> usize {
        self.bits().write_set_indices_u32(out)
    }

    /// Writes the values at the set bits to the front of `out`, in their order, and returns their
    /// number. The items of `out` after them are unchanged.
    ///
    /// ```
    /// use vortex_bits::Bitmap;
    ///
    /// let mut kept = [9; 3];
    /// assert_eq!(Bitmap::from([true, false, true]).keep_into(&[5, 6, 7], &mut kept), 2);
    /// assert_eq!(kept, [5, 7, 9]);
    /// ```
    ///
    /// # Panics
    ///
    /// Panics if there isn't one value per bit, or `out` has fewer items than there are set bits.
    #[doc(alias("compress", "filter_into"))]
    #[track_caller]
    pub fn keep_into<T: Value>(&self, values: &[T], out: &mut [T]) -> usize {
        self.bits().keep_into(values, out)
    }

    /// Writes the values, in their order, to the items of `out` whose bit is set, and returns their
    /// number. The other items of `out` are unchanged, and further values are ignored.
    ///
    /// ```
    /// use vortex_bits::Bitmap;
    ///
    /// let mut column = [1, 2, 3];
    /// assert_eq!(Bitmap::from([true, false, true]).scatter_into(&[8, 9], &mut column), 2);
    /// assert_eq!(column, [8, 2, 9]);
    /// ```
    ///
    /// # Panics
    ///
    /// Panics if there isn't one item per bit, or a value per set bit; `out` is unchanged.
    #[doc(alias("expand", "masked_scatter", "put"))]
    #[track_caller]
    pub fn scatter_into<T: Value>(&self, values: &[T], out: &mut [T]) -> usize {
        self.bits().scatter_into(values, out)
    }

    /// Writes the bits that `mask` selects to `out`, in their order.
    ///
    /// ```
    /// use vortex_bits::{Bitmap, BitsMut};
    ///
    /// let (rows, mask) = (Bitmap::from([true, false, true]), Bitmap::from([false, true, true]));
    /// let mut kept = [0];
    /// rows.filter_into(&mask, BitsMut::new(&mut kept, 0, 2));
    /// assert_eq!(kept, [0b10]);
    /// ```
    ///
    /// # Panics
    ///
    /// Panics if `mask` has another length, or `out` doesn't have one bit per set bit of `mask`.
    #[doc(alias("pext", "compress"))]
    #[track_caller]
    pub fn filter_into(&self, mask: impl Mask, out: BitsMut<'_>) {
        self.bits().filter_into(mask, out);
    }

    /// Undoes a filter: writes these bits, in order, to `out` at the set bits of `mask`, and false
    /// elsewhere.
    ///
    /// ```
    /// use vortex_bits::{Bitmap, BitsMut};
    ///
    /// let (mask, kept) = (Bitmap::from([true, false, true]), Bitmap::from([false, true]));
    /// let mut rows = [0];
    /// kept.deposit_into(mask.bits(), BitsMut::new(&mut rows, 0, 3));
    /// assert_eq!(rows, [0b100]);
    /// ```
    ///
    /// # Panics
    ///
    /// Panics if there isn't one bit per set bit of `mask`, or `out` isn't as long as `mask`.
    #[doc(alias("pdep", "scatter", "expand"))]
    #[track_caller]
    pub fn deposit_into(&self, mask: Bits<'_>, out: BitsMut<'_>) {
        self.bits().deposit_into(mask, out);
    }

    /// Writes the bits at the indices to `out`, in the order of the indices.
    ///
    /// # Panics
    ///
    /// Panics if [`try_take_into`](Bitmap::try_take_into) returns an error.
    #[doc(alias("gather"))]
    #[track_caller]
    pub fn take_into<I: BitIndex>(&self, indices: &[I], out: BitsMut<'_>) {
        self.bits().take_into(indices, out);
    }

    /// Writes the bits at the indices to `out`, in the order of the indices.
    ///
    /// ```
    /// use vortex_bits::{Bitmap, BitsMut};
    ///
    /// let (rows, mut taken) = (Bitmap::from([false, true]), [0]);
    /// assert!(rows.try_take_into(&[1, 0, 1], BitsMut::new(&mut taken, 0, 3)).is_ok());
    /// assert_eq!(taken, [0b101]);
    /// ```
    ///
    /// # Errors
    ///
    /// Returns [`TakeError`] if `out` doesn't have one bit per index, and with the first index that
    /// is out of bounds. In the second case the bits of `out` are arbitrary; otherwise they are
    /// unchanged.
    pub fn try_take_into<I: BitIndex>(
        &self,
        indices: &[I],
        out: BitsMut<'_>,
    ) -> Result<(), TakeError> {
        self.bits().try_take_into(indices, out)
    }

    /// Writes the bits at the valid indices to `out` as [`take_into`](Bitmap::take_into) does, and
    /// false for each other index, whatever its number is.
    ///
    /// # Panics
    ///
    /// Panics if [`try_take_valid_into`](Bitmap::try_take_valid_into) returns an error.
    #[doc(alias("gather", "null"))]
    #[track_caller]
    pub fn take_valid_into<I: BitIndex>(
        &self,
        indices: &[I],
        validity: impl Mask,
        out: BitsMut<'_>,
    ) {
        self.bits().take_valid_into(indices, validity, out);
    }

    /// Writes the bits at the valid indices to `out` as
    /// [`try_take_into`](Bitmap::try_take_into) does, and false for each other index, whatever its
    /// number is.
    ///
    /// ```
    /// use vortex_bits::{Bitmap, BitsMut};
    ///
    /// let (rows, valid) = (Bitmap::from([false, true]), Bitmap::from([true, false]));
    /// let mut taken = [0];
    /// assert!(rows.try_take_valid_into(&[1, -1], &valid, BitsMut::new(&mut taken, 3, 2)).is_ok());
    /// assert_eq!(taken, [0b1000]);
    /// ```
    ///
    /// # Errors
    ///
    /// Returns [`TakeError`] if `out` or `validity` doesn't have one bit per index, and with the
    /// first valid index that is out of bounds. In the second case the bits of `out` are arbitrary;
    /// otherwise they are unchanged.
    pub fn try_take_valid_into<I: BitIndex>(
        &self,
        indices: &[I],
        validity: impl Mask,
        out: BitsMut<'_>,
    ) -> Result<(), TakeError> {
        self.bits().try_take_valid_into(indices, validity, out)
    }
}
