//! Questions about a bitmap and another window. Written by tools/write-lists from
//! tools/families/questions.txt.

use super::Bitmap;
use crate::Mask;

impl<B: AsRef<[u8]>> Bitmap<B> {
    /// Returns whether no bit is set both here and in `right`. Stops after the first word that has
    /// one.
    ///
    /// ```
    /// use vortex_bits::Bitmap;
    ///
    /// let (left, right) = (Bitmap::from([true, false]), Bitmap::from([true, true]));
    /// assert!(left.is_disjoint(!&left) && !left.is_disjoint(&right));
    /// ```
    ///
    /// # Panics
    ///
    /// Panics if the lengths differ.
    #[doc(alias("intersects"))]
    #[inline]
    #[must_use]
    #[track_caller]
    pub fn is_disjoint(&self, right: impl Mask) -> bool {
        self.bits().is_disjoint(right)
    }

    /// Returns whether each bit set here is set in `right`. Stops after the first word with one
    /// that isn't.
    ///
    /// ```
    /// use vortex_bits::Bitmap;
    ///
    /// let (left, right) = (Bitmap::from([true, false]), Bitmap::from([true, true]));
    /// assert!(left.is_subset(&right) && !right.is_subset(&left));
    /// ```
    ///
    /// # Panics
    ///
    /// Panics if the lengths differ.
    #[doc(alias("contains"))]
    #[inline]
    #[must_use]
    #[track_caller]
    pub fn is_subset(&self, right: impl Mask) -> bool {
        self.bits().is_subset(right)
    }
}
