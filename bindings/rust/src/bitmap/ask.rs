//! The read-only calls of a bitmap. They are the calls of its window.

use super::Bitmap;
use crate::error::TakeError;
use crate::iter::{Iter, SetIndices, SetSlices, UnsetIndices, UnsetSlices, Words};
use crate::{BitIndex, Bits, Mask};

/// Each call returns the result of the same one of [`Bits`](crate::Bits).
macro_rules! asks {
    ($($(#[$doc:meta])* $name:ident($($arg:ident: $kind:ty)?) -> $answer:ty;)*) => {
        /// The calls of [`Bits`](crate::Bits).
        impl<B: AsRef<[u8]>> Bitmap<B> {
            $(
                $(#[$doc])*
                #[inline]
                #[must_use]
                pub fn $name(&self, $($arg: $kind)?) -> $answer {
                    self.bits().$name($($arg)?)
                }
            )*
        }
    };
}

asks! {
    /// Returns the number of set bits. Reads the bytes once.
    ///
    /// ```
    /// use vortex_bits::Bitmap;
    ///
    /// let rows = Bitmap::from([true, false, true, false, true]);
    /// assert_eq!(rows.count_ones(), 3);
    /// ```
    count_ones() -> usize;

    /// Returns the number of unset bits. Reads the bytes once.
    ///
    /// ```
    /// use vortex_bits::Bitmap;
    ///
    /// let rows = Bitmap::from([true, false, true, false, true]);
    /// assert_eq!(rows.count_zeros(), 2);
    /// ```
    count_zeros() -> usize;

    /// Returns the bit at an index; None if it is out of bounds.
    ///
    /// ```
    /// use vortex_bits::Bitmap;
    ///
    /// let rows = Bitmap::from([true, false, true, false, true]);
    /// assert_eq!((rows.get(1), rows.get(5)), (Some(false), None));
    /// ```
    get(place: usize) -> Option<bool>;

    /// Returns the index of the `n`-th set bit, counted from 0; None if at most `n` are set.
    ///
    /// ```
    /// use vortex_bits::Bitmap;
    ///
    /// let rows = Bitmap::from([true, false, true, false, true]);
    /// assert_eq!(rows.select(1), Some(2));
    /// ```
    select(n: usize) -> Option<usize>;

    /// Returns the index of the `n`-th unset bit, counted from 0; None if at most `n` are unset.
    ///
    /// ```
    /// use vortex_bits::Bitmap;
    ///
    /// let rows = Bitmap::from([true, false, true, false, true]);
    /// assert_eq!(rows.select_unset(1), Some(3));
    /// ```
    select_unset(n: usize) -> Option<usize>;

    /// Returns the index of the first set bit; None if all are unset.
    ///
    /// ```
    /// use vortex_bits::Bitmap;
    ///
    /// let rows = Bitmap::from([true, false, true, false, true]);
    /// assert_eq!(rows.first_set(), Some(0));
    /// ```
    first_set() -> Option<usize>;

    /// Returns the index of the first unset bit; None if all are set.
    ///
    /// ```
    /// use vortex_bits::Bitmap;
    ///
    /// let rows = Bitmap::from([true, false, true, false, true]);
    /// assert_eq!(rows.first_unset(), Some(1));
    /// ```
    first_unset() -> Option<usize>;

    /// Returns the index of the last set bit; None if all are unset.
    ///
    /// ```
    /// use vortex_bits::Bitmap;
    ///
    /// let rows = Bitmap::from([true, false, true, false, true]);
    /// assert_eq!(rows.last_set(), Some(4));
    /// ```
    last_set() -> Option<usize>;

    /// Returns the index of the last unset bit; None if all are set.
    ///
    /// ```
    /// use vortex_bits::Bitmap;
    ///
    /// let rows = Bitmap::from([true, false, true, false, true]);
    /// assert_eq!(rows.last_unset(), Some(3));
    /// ```
    last_unset() -> Option<usize>;

    /// Returns the index of the first set bit at or after `from`; None if there is none.
    ///
    /// ```
    /// use vortex_bits::Bitmap;
    ///
    /// let rows = Bitmap::from([true, false, true, false, true]);
    /// assert_eq!(rows.next_set(3), Some(4));
    /// ```
    next_set(from: usize) -> Option<usize>;

    /// Returns the index of the first unset bit at or after `from`; None if there is none.
    ///
    /// ```
    /// use vortex_bits::Bitmap;
    ///
    /// let rows = Bitmap::from([true, false, true, false, true]);
    /// assert_eq!(rows.next_unset(2), Some(3));
    /// ```
    next_unset(from: usize) -> Option<usize>;

    /// Returns the index of the last set bit before index `before`; None if there is none.
    ///
    /// ```
    /// use vortex_bits::Bitmap;
    ///
    /// let rows = Bitmap::from([true, false, true, false, true]);
    /// assert_eq!(rows.previous_set(4), Some(2));
    /// ```
    previous_set(before: usize) -> Option<usize>;

    /// Returns the index of the last unset bit before index `before`; None if there is none.
    ///
    /// ```
    /// use vortex_bits::Bitmap;
    ///
    /// let rows = Bitmap::from([true, false, true, false, true]);
    /// assert_eq!(rows.previous_unset(3), Some(1));
    /// ```
    previous_unset(before: usize) -> Option<usize>;

    /// Returns whether any bit is set: false for no bits.
    ///
    /// ```
    /// use vortex_bits::Bitmap;
    ///
    /// let rows = Bitmap::from([true, false, true, false, true]);
    /// assert!(rows.any());
    /// ```
    any() -> bool;

    /// Returns whether all bits are set: true for no bits.
    ///
    /// ```
    /// use vortex_bits::Bitmap;
    ///
    /// let rows = Bitmap::from([true, false, true, false, true]);
    /// assert!(!rows.all());
    /// ```
    all() -> bool;

    /// Returns an iterator over the bits, from front to end.
    ///
    /// ```
    /// use vortex_bits::Bitmap;
    ///
    /// let rows = Bitmap::from([true, false, true, false, true]);
    /// assert_eq!(rows.iter().filter(|&it| it).count(), 3);
    /// ```
    iter() -> Iter<'_>;

    /// Returns an iterator over the indices of the set bits, in ascending order.
    ///
    /// ```
    /// use vortex_bits::Bitmap;
    ///
    /// let rows = Bitmap::from([true, false, true, false, true]);
    /// assert_eq!(rows.set_indices().collect::<Vec<_>>(), [0, 2, 4]);
    /// ```
    set_indices() -> SetIndices<'_>;

    /// Returns an iterator over the maximal runs of set bits, from front to end, as ranges of
    /// indices.
    ///
    /// ```
    /// use vortex_bits::Bitmap;
    ///
    /// let rows = Bitmap::from([true, false, true, false, true]);
    /// assert_eq!(rows.set_slices().count(), 3);
    /// ```
    set_slices() -> SetSlices<'_>;

    /// Returns an iterator over the indices of the unset bits, in ascending order, such as the
    /// nulls of a column.
    ///
    /// ```
    /// use vortex_bits::Bitmap;
    ///
    /// let rows = Bitmap::from([true, false, true, false, true]);
    /// assert_eq!(rows.unset_indices().collect::<Vec<_>>(), [1, 3]);
    /// ```
    unset_indices() -> UnsetIndices<'_>;

    /// Returns an iterator over the maximal runs of unset bits, from front to end, as ranges of
    /// indices.
    ///
    /// ```
    /// use vortex_bits::Bitmap;
    ///
    /// let rows = Bitmap::from([true, false, true, false, true]);
    /// assert_eq!(rows.unset_slices().collect::<Vec<_>>(), [1..2, 3..4]);
    /// ```
    unset_slices() -> UnsetSlices<'_>;

    /// Returns an iterator over the bits as 64-bit words, with the first bit lowest. Zeros pad
    /// the last word.
    ///
    /// ```
    /// use vortex_bits::Bitmap;
    ///
    /// let rows = Bitmap::from([true, false, true, false, true]);
    /// assert_eq!(rows.words().collect::<Vec<_>>(), [0b10101]);
    /// ```
    words() -> Words<'_>;
}

impl<B: AsRef<[u8]>> Bitmap<B> {
    /// Returns the number of bits set here and in `right`. Does not allocate.
    ///
    /// ```
    /// use vortex_bits::Bitmap;
    ///
    /// let (left, right) = (Bitmap::from([true, false]), Bitmap::from([true, true]));
    /// assert_eq!(left.and_count(&right), 1);
    /// ```
    ///
    /// # Panics
    ///
    /// Panics if the lengths differ.
    #[inline]
    #[must_use]
    #[track_caller]
    pub fn and_count(&self, right: impl Mask) -> usize {
        self.bits().and_count(right)
    }

    /// Returns the number of bits set here or in `right`. Does not allocate.
    ///
    /// ```
    /// use vortex_bits::Bitmap;
    ///
    /// let (left, right) = (Bitmap::from([true, false]), Bitmap::from([true, true]));
    /// assert_eq!(left.or_count(&right), 2);
    /// ```
    ///
    /// # Panics
    ///
    /// Panics if the lengths differ.
    #[inline]
    #[must_use]
    #[track_caller]
    pub fn or_count(&self, right: impl Mask) -> usize {
        self.bits().or_count(right)
    }

    /// Returns the number of bits set in exactly one of the two. Does not allocate.
    ///
    /// ```
    /// use vortex_bits::Bitmap;
    ///
    /// let (left, right) = (Bitmap::from([true, false]), Bitmap::from([true, true]));
    /// assert_eq!(left.xor_count(&right), 1);
    /// ```
    ///
    /// # Panics
    ///
    /// Panics if the lengths differ.
    #[inline]
    #[must_use]
    #[track_caller]
    pub fn xor_count(&self, right: impl Mask) -> usize {
        self.bits().xor_count(right)
    }

    /// Returns the number of bits set here and unset in `right`. Does not allocate.
    ///
    /// ```
    /// use vortex_bits::Bitmap;
    ///
    /// let (left, right) = (Bitmap::from([true, false]), Bitmap::from([true, true]));
    /// assert_eq!(left.and_not_count(&right), 0);
    /// ```
    ///
    /// # Panics
    ///
    /// Panics if the lengths differ.
    #[inline]
    #[must_use]
    #[track_caller]
    pub fn and_not_count(&self, right: impl Mask) -> usize {
        self.bits().and_not_count(right)
    }

    /// Returns new bits, true where these are true and `right` is false.
    ///
    /// ```
    /// use vortex_bits::Bitmap;
    ///
    /// let (left, right) = (Bitmap::from([true, true]), Bitmap::from([true, false]));
    /// assert_eq!(left.and_not(&right), Bitmap::from([false, true]));
    /// ```
    ///
    /// # Panics
    ///
    /// Panics if the lengths differ.
    #[must_use]
    #[track_caller]
    pub fn and_not(&self, right: impl Mask) -> Bitmap {
        self.bits().and_not(right)
    }

    /// Returns the bits that `mask` selects.
    ///
    /// ```
    /// use vortex_bits::Bitmap;
    ///
    /// let (valid, mask) = (Bitmap::from([true, false]), Bitmap::from([false, true]));
    /// assert_eq!(valid.filter(&mask), Bitmap::from([false]));
    /// ```
    ///
    /// # Panics
    ///
    /// Panics if `mask` has another length.
    #[must_use]
    #[track_caller]
    pub fn filter(&self, mask: impl Mask) -> Bitmap {
        self.bits().filter(mask)
    }

    /// Returns the bits at the indices, in their order.
    ///
    /// ```
    /// use vortex_bits::Bitmap;
    ///
    /// let valid = Bitmap::from([true, false]);
    /// assert_eq!(valid.take(&[1u32, 1, 0]), Bitmap::from([false, false, true]));
    /// ```
    ///
    /// # Panics
    ///
    /// Panics if an index is out of bounds.
    #[must_use]
    #[track_caller]
    pub fn take<I: BitIndex>(&self, indices: &[I]) -> Bitmap {
        self.bits().take(indices)
    }

    /// Returns the bits at the indices, in their order.
    ///
    /// ```
    /// use vortex_bits::Bitmap;
    ///
    /// let refused = Bitmap::from([true, false]).try_take(&[1u32, 2]).unwrap_err();
    /// assert_eq!(refused.to_string(), "index 2 at position 1 names none of 2 bits");
    /// ```
    ///
    /// # Errors
    ///
    /// Returns [`TakeError`] with the first index that is out of bounds.
    pub fn try_take<I: BitIndex>(&self, indices: &[I]) -> Result<Bitmap, TakeError> {
        self.bits().try_take(indices)
    }

    /// Returns the bits at the valid indices, and false for each other index, whatever its number
    /// is.
    ///
    /// ```
    /// use vortex_bits::Bitmap;
    ///
    /// let (valid, of) = (Bitmap::from([true, false]), Bitmap::from([true, false, true]));
    /// assert_eq!(valid.take_valid(&[0i8, -7, 1], &of), Bitmap::from([true, false, false]));
    /// ```
    ///
    /// # Panics
    ///
    /// Panics if a valid index is out of bounds, or `validity` doesn't have one bit per index.
    #[doc(alias("gather", "null"))]
    #[must_use]
    #[track_caller]
    pub fn take_valid<I: BitIndex>(&self, indices: &[I], validity: impl Mask) -> Bitmap {
        self.bits().take_valid(indices, validity)
    }

    /// Returns the bits at the valid indices, and false for each other index, whatever its number
    /// is.
    ///
    /// ```
    /// use vortex_bits::Bitmap;
    ///
    /// let (valid, of) = (Bitmap::from([true, false]), Bitmap::from([true, false, true]));
    /// assert!(valid.try_take_valid(&[0i8, -7, 1], &of).is_ok());
    /// assert!(valid.try_take_valid(&[0i8, -7, 2], &of).is_err());
    /// ```
    ///
    /// # Errors
    ///
    /// Returns [`TakeError`] if `validity` doesn't have one bit per index, and with the first valid
    /// index that is out of bounds.
    pub fn try_take_valid<I: BitIndex>(
        &self,
        indices: &[I],
        validity: impl Mask,
    ) -> Result<Bitmap, TakeError> {
        self.bits().try_take_valid(indices, validity)
    }

    /// Undoes a filter: returns `mask.len()` bits, with these bits in order at the set bits of
    /// `mask`, and false elsewhere.
    ///
    /// ```
    /// use vortex_bits::Bitmap;
    ///
    /// let (mask, kept) = (Bitmap::from([true, false, true]), Bitmap::from([false, true]));
    /// assert_eq!(kept.deposit(mask.bits()), Bitmap::from([false, false, true]));
    /// ```
    ///
    /// # Panics
    ///
    /// Panics if there isn't one bit per set bit of `mask`.
    #[doc(alias("pdep", "scatter", "expand"))]
    #[must_use]
    #[track_caller]
    pub fn deposit(&self, mask: Bits<'_>) -> Bitmap {
        self.bits().deposit(mask)
    }
}
