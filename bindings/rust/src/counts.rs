//! Counts and tests two windows without a third one.

#[cfg(feature = "alloc")]
use crate::Bitmap;
use crate::kernels::{self, Operator};
use crate::{Bits, Mask};

impl Bits<'_> {
    /// Returns the number of bits set here and in `right`. Does not allocate.
    ///
    /// ```
    /// use vortex_bits::Bits;
    ///
    /// let (left, right) = (Bits::new(&[0b1100], 0, 4), Bits::new(&[0b1010], 0, 4));
    /// assert_eq!((left.and_count(right), left.or_count(right)), (1, 3));
    /// assert_eq!((left.xor_count(right), left.and_not_count(right)), (2, 1));
    /// ```
    ///
    /// # Panics
    ///
    /// Panics if the windows differ in length, as do all calls below.
    #[doc(alias("intersection", "popcount"))]
    #[inline]
    #[must_use]
    #[track_caller]
    pub fn and_count(self, right: impl Mask) -> usize {
        self.count(right.of_len(self.len()), Operator::And)
    }

    /// Returns the number of bits set here, in `right`, or in both.
    #[doc(alias("union"))]
    #[inline]
    #[must_use]
    #[track_caller]
    pub fn or_count(self, right: impl Mask) -> usize {
        self.count(right.of_len(self.len()), Operator::Or)
    }

    /// Returns the number of bits set here or in `right`, but not in both: the Hamming distance.
    #[doc(alias("hamming", "symmetric_difference"))]
    #[inline]
    #[must_use]
    #[track_caller]
    pub fn xor_count(self, right: impl Mask) -> usize {
        self.count(right.of_len(self.len()), Operator::Xor)
    }

    /// Returns the number of bits set here and unset in `right`.
    #[doc(alias("difference"))]
    #[inline]
    #[must_use]
    #[track_caller]
    pub fn and_not_count(self, right: impl Mask) -> usize {
        self.count(right.of_len(self.len()), Operator::AndNot)
    }

    /// Returns the number of bits set here and in `right`, and the number of those set here and
    /// unset in `right`: the results of [`and_count`](Bits::and_count) and
    /// [`and_not_count`](Bits::and_not_count). Portable code reads both windows once. Does not
    /// allocate.
    ///
    /// ```
    /// use vortex_bits::Bits;
    ///
    /// let (rows, flag) = (Bits::new(&[0b1101], 0, 4), Bits::new(&[0b1010], 0, 4));
    /// let (with, without) = rows.split_count(flag);
    /// assert_eq!((with, without), (1, 2));
    /// ```
    #[doc(alias("intersection", "difference", "partition"))]
    #[inline]
    #[must_use]
    #[track_caller]
    pub fn split_count(self, right: impl Mask) -> (usize, usize) {
        match right.of_len(self.len()) {
            Some(right) => kernels::split_count(self, right),
            None => (self.count_ones(), 0),
        }
    }

    // Written by tools/write-lists from tools/families/questions.txt.
    /// Returns whether no bit is set both here and in `right`. Stops after the first word that has
    /// one.
    ///
    /// ```
    /// use vortex_bits::Bits;
    ///
    /// let (left, right) = (Bits::new(&[0b1100], 0, 4), Bits::new(&[0b1110], 0, 4));
    /// assert!(left.slice(..2).is_disjoint(right.slice(..2)) && !left.is_disjoint(right));
    /// ```
    #[doc(alias("intersects"))]
    #[inline]
    #[must_use]
    #[track_caller]
    pub fn is_disjoint(self, right: impl Mask) -> bool {
        match right.of_len(self.len()) {
            Some(right) => kernels::is_disjoint(self, right),
            None => !self.any(),
        }
    }

    /// Returns whether each bit set here is set in `right`. Stops after the first word with one
    /// that isn't.
    ///
    /// ```
    /// use vortex_bits::Bits;
    ///
    /// let (left, right) = (Bits::new(&[0b1100], 0, 4), Bits::new(&[0b1110], 0, 4));
    /// assert!(left.is_subset(right) && !right.is_subset(left));
    /// ```
    #[doc(alias("contains"))]
    #[inline]
    #[must_use]
    #[track_caller]
    pub fn is_subset(self, right: impl Mask) -> bool {
        match right.of_len(self.len()) {
            Some(right) => kernels::is_subset(self, right),
            None => true,
        }
    }
    // To here.

    fn count(self, right: Option<Bits<'_>>, operator: Operator) -> usize {
        let Some(right) = right else {
            return match operator {
                Operator::And => self.count_ones(),
                Operator::Or => self.len(),
                Operator::Xor => self.count_zeros(),
                Operator::AndNot => 0,
            };
        };
        kernels::combined_count(self, right, operator)
    }
}

#[cfg(feature = "alloc")]
impl<B: AsRef<[u8]>> Bitmap<B> {
    /// Returns the number of bits set here and in `right`, and the number of those set here and
    /// unset in `right`, as [`Bits::split_count`] does.
    ///
    /// ```
    /// use vortex_bits::Bitmap;
    ///
    /// let (left, right) = (Bitmap::from([true, false, true]), Bitmap::from([true, true, false]));
    /// assert_eq!(left.split_count(&right), (1, 1));
    /// ```
    ///
    /// # Panics
    ///
    /// Panics if the lengths differ.
    #[inline]
    #[must_use]
    #[track_caller]
    pub fn split_count(&self, right: impl Mask) -> (usize, usize) {
        self.bits().split_count(right)
    }
}
