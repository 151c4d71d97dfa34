//! Calls of windows that return a new bitmap.

use super::Bitmap;
use crate::error::{TakeError, expect};
use crate::{BitIndex, Bits, Mask};

impl Bits<'_> {
    /// Returns the bits that `mask` selects, in a new bitmap.
    ///
    /// ```
    /// use vortex_bits::{Bitmap, Bits};
    ///
    /// let (valid, mask) = (Bits::new(&[0b0110], 0, 4), Bitmap::from([true, false, true, true]));
    /// assert_eq!(format!("{:?}", valid.filter(&mask)), "Bits(010)");
    /// ```
    ///
    /// # Panics
    ///
    /// Panics if `mask` isn't as long as the window.
    #[doc(alias("pext", "compress"))]
    #[must_use]
    #[track_caller]
    pub fn filter(self, mask: impl Mask) -> Bitmap {
        let mask = mask.of_len(self.len());
        let kept = mask.map_or(self.len(), Bits::count_ones);
        Bitmap::make(kept, |out| self.filter_into(mask, out))
    }

    /// Returns the bits at the indices, in their order, in a new bitmap.
    ///
    /// ```
    /// use vortex_bits::Bits;
    ///
    /// let valid = Bits::new(&[0b0110], 0, 4);
    /// assert_eq!(format!("{:?}", valid.take(&[3u32, 1, 1])), "Bits(011)");
    /// ```
    ///
    /// # Panics
    ///
    /// Panics if an index is out of bounds.
    #[doc(alias("gather"))]
    #[must_use]
    #[track_caller]
    pub fn take<I: BitIndex>(self, indices: &[I]) -> Bitmap {
        expect(self.try_take(indices))
    }

    /// Returns the bits at the indices, in their order, in a new bitmap.
    ///
    /// # Errors
    ///
    /// Returns [`TakeError`] with the first index that is out of bounds.
    pub fn try_take<I: BitIndex>(self, indices: &[I]) -> Result<Bitmap, TakeError> {
        Bitmap::try_make(indices.len(), |out| self.try_take_into(indices, out))
    }

    /// Returns the bits at the valid indices, and false for each other index, whatever its number
    /// is.
    ///
    /// # Panics
    ///
    /// Panics if [`try_take_valid`](Bits::try_take_valid) returns an error.
    #[doc(alias("gather", "null"))]
    #[must_use]
    #[track_caller]
    pub fn take_valid<I: BitIndex>(self, indices: &[I], validity: impl Mask) -> Bitmap {
        expect(self.try_take_valid(indices, validity))
    }

    /// Returns the bits at the valid indices, and false for each other index, whatever its number
    /// is.
    ///
    /// # Errors
    ///
    /// Returns [`TakeError`] if `validity` doesn't have one bit per index, and with the first valid
    /// index that is out of bounds.
    pub fn try_take_valid<I: BitIndex>(
        self,
        indices: &[I],
        validity: impl Mask,
    ) -> Result<Bitmap, TakeError> {
        let len = indices.len();
        Bitmap::try_make(len, |out| self.try_take_valid_into(indices, validity, out))
    }
}
