//! Bits that may be missing if all are true.

use core::ops::RangeBounds;

use crate::bits::within;
use crate::error::{OutOfBounds, expect};
use crate::mask::sealed::Mask as _;
use crate::{Bits, BitsMut, Mask};

#[cfg(feature = "alloc")]
use crate::error::TakeError;
#[cfg(feature = "alloc")]
use crate::{BitIndex, Bitmap, Grow};

/// Which rows are valid: one bit per row, or no bits if all rows are valid. Arrow leaves out the
/// validity of a column without nulls in the same way. Calls that return an `Option<Bitmap>` return
/// None if all resulting rows are valid because bits are missing. Bits that are present may still
/// be all true; only `==` tests that. Two validities are equal if they have the same valid rows,
/// with bits or without.
///
/// Operators always return a `Bitmap`, as `is null` and `is not null` need: `!`
/// returns which rows are null, `Bitmap::from` which are valid, and `&`, `|` and `^` accept a
/// validity on both sides.
///
/// ```
/// # #[cfg(feature = "alloc")] {
/// use vortex_bits::{Bits, Validity};
///
/// let some = Validity::new(Some(Bits::new(&[0b0110], 0, 4)), 4);
/// let all = Validity::new(None, 4);
/// assert_eq!((some.count_zeros(), all.count_zeros()), (2, 0));
/// assert_eq!(some.and(all).unwrap(), Bits::new(&[0b0110], 0, 4));
/// assert_eq!((all.and(all), all.take(&[3u32, 0]), some.or(all)), (None, None, None));
/// assert_eq!(all, Validity::from(Bits::new(&[0b1111], 0, 4)));
/// assert_eq!((!some, !all), ([true, false, false, true].into(), [false; 4].into()));
/// # }
/// ```
#[doc(alias("null", "NullBuffer"))]
#[derive(Clone, Copy, Debug)]
pub struct Validity<'a> {
    /// One per row.
    bits: Option<Bits<'a>>,
    len: usize,
}

impl<'a> Validity<'a> {
    /// Returns the validity of `len` rows.
    ///
    /// # Panics
    ///
    /// Panics if there are bits, and their number isn't `len`.
    #[inline]
    #[must_use]
    #[track_caller]
    pub fn new(bits: Option<Bits<'a>>, len: usize) -> Validity<'a> {
        Validity {
            bits: bits.and_then(|bits| bits.of_len(len).map(|_| bits)),
            len,
        }
    }

    /// Returns the bits; None if there are none, and so all rows are valid. Bits may still be all
    /// true: [`count_zeros`](Validity::count_zeros) returns 0 then.
    ///
    /// ```
    /// assert!(vortex_bits::Validity::new(None, 4).bits().is_none());
    /// ```
    #[inline]
    #[must_use]
    pub const fn bits(self) -> Option<Bits<'a>> {
        self.bits
    }

    /// Returns the number of rows.
    #[inline]
    #[must_use]
    pub const fn len(self) -> usize {
        self.len
    }

    /// Returns whether there are no rows.
    #[inline]
    #[must_use]
    pub const fn is_empty(self) -> bool {
        self.len == 0
    }

    /// Returns whether a row is valid; None if there is no such row.
    ///
    /// ```
    /// let all = vortex_bits::Validity::new(None, 4);
    /// assert_eq!((all.get(3), all.get(4)), (Some(true), None));
    /// ```
    #[inline]
    #[must_use]
    pub fn get(self, row: usize) -> Option<bool> {
        match self.bits {
            Some(bits) => bits.get(row),
            None => (row < self.len).then_some(true),
        }
    }

    /// Returns the number of valid rows.
    ///
    /// ```
    /// assert_eq!(vortex_bits::Validity::new(None, 4).count_ones(), 4);
    /// ```
    #[inline]
    #[must_use]
    pub fn count_ones(self) -> usize {
        self.bits.map_or(self.len, Bits::count_ones)
    }

    /// Returns the number of null rows.
    ///
    /// ```
    /// assert_eq!(vortex_bits::Validity::new(None, 4).count_zeros(), 0);
    /// ```
    #[inline]
    #[must_use]
    pub fn count_zeros(self) -> usize {
        self.bits.map_or(0, Bits::count_zeros)
    }

    /// Returns the validity of a range of rows.
    ///
    /// ```
    /// assert_eq!(vortex_bits::Validity::new(None, 4).slice(1..).len(), 3);
    /// ```
    ///
    /// # Panics
    ///
    /// Panics if the range starts after its end, or ends after the rows.
    #[must_use]
    #[track_caller]
    pub fn slice(self, range: impl RangeBounds<usize>) -> Validity<'a> {
        expect(self.try_slice(range))
    }

    /// Returns the validity of a range of rows, as [`Validity::slice`] does.
    ///
    /// ```
    /// assert!(vortex_bits::Validity::new(None, 4).try_slice(3..5).is_err());
    /// ```
    ///
    /// # Errors
    ///
    /// Returns [`OutOfBounds`] if the range starts after its end, or ends after the rows.
    pub fn try_slice(self, range: impl RangeBounds<usize>) -> Result<Validity<'a>, OutOfBounds> {
        let (start, len) = within(&range, self.len).map_err(OutOfBounds::of_rows)?;
        let bits = self.bits.map(|bits| bits.part(start, len));
        Ok(Validity { bits, len })
    }

    /// Writes the validity of the rows that a mask selects to `out`, in their order.
    ///
    /// ```
    /// use vortex_bits::{Bits, BitsMut, Validity};
    ///
    /// let (all, mask, mut kept) = (Validity::new(None, 4), Bits::new(&[0b1010], 0, 4), [0]);
    /// all.filter_into(mask, BitsMut::new(&mut kept, 3, 2));
    /// assert_eq!(kept, [0b1_1000]);
    /// ```
    ///
    /// # Panics
    ///
    /// Panics if `mask` doesn't have one bit per row, or `out` doesn't have one bit per selected
    /// row.
    #[track_caller]
    pub fn filter_into(self, mask: impl Mask, mut out: BitsMut<'_>) {
        if let Some(bits) = self.bits {
            return bits.filter_into(mask, out);
        }
        let kept = mask.of_len(self.len).map_or(self.len, Bits::count_ones);
        crate::bits_mut::alike(out.len(), kept);
        out.fill(true);
    }
}

/// Compares the validities row by row: no bits equal bits that are all true.
impl PartialEq for Validity<'_> {
    fn eq(&self, other: &Validity<'_>) -> bool {
        self.len == other.len
            && match (self.bits, other.bits) {
                (None, None) => true,
                (Some(bits), Some(others)) => bits == others,
                (Some(bits), None) | (None, Some(bits)) => bits.all(),
            }
    }
}

impl Eq for Validity<'_> {}

/// Returns a validity with one row per bit.
impl<'a> From<Bits<'a>> for Validity<'a> {
    #[inline]
    fn from(bits: Bits<'a>) -> Validity<'a> {
        Validity::new(Some(bits), bits.len())
    }
}

/// Returns which rows are valid, as for `is not null`: one bit per row, even if the validity has no
/// bits.
///
/// ```
/// use vortex_bits::{Bitmap, Validity};
///
/// assert_eq!(Bitmap::from(Validity::new(None, 4)), Bitmap::new_set(4));
/// ```
#[cfg(feature = "alloc")]
impl From<Validity<'_>> for Bitmap {
    fn from(validity: Validity<'_>) -> Bitmap {
        let all = || Bitmap::new_set(validity.len);
        validity.bits.map_or_else(all, Bitmap::from)
    }
}

/// Calls that allocate. Those with an `Option` return None if all resulting rows are valid because
/// bits are missing. None of them tests whether bits that are present are all true.
#[cfg(feature = "alloc")]
impl Validity<'_> {
    /// Returns which rows are valid here and in `right`. To combine truth values that may be null,
    /// call [`values::and_kleene`](crate::values::and_kleene) and
    /// [`or_kleene`](crate::values::or_kleene).
    ///
    /// # Panics
    ///
    /// Panics if the two differ in their number of rows.
    #[must_use]
    #[track_caller]
    pub fn and(self, right: Validity<'_>) -> Option<Bitmap> {
        right.of_len(self.len);
        match (self.bits, right.bits) {
            (Some(left), Some(right)) => Some(left & right),
            (left, right) => left.or(right).map(Bitmap::from),
        }
    }

    /// Returns which rows are valid here, in `right`, or in both.
    ///
    /// ```
    /// use vortex_bits::{Bits, Validity};
    ///
    /// let [left, right] = [[0b0011], [0b0110]];
    /// let [left, right] = [&left, &right].map(|it| Validity::from(Bits::new(it, 0, 4)));
    /// assert_eq!(left.or(right).unwrap(), Bits::new(&[0b0111], 0, 4));
    /// ```
    ///
    /// # Panics
    ///
    /// Panics if the two differ in their number of rows.
    #[must_use]
    #[track_caller]
    pub fn or(self, right: Validity<'_>) -> Option<Bitmap> {
        right.of_len(self.len);
        Some(self.bits? | right.bits?)
    }

    /// Returns the validity of the rows that a mask selects, in their order.
    ///
    /// ```
    /// use vortex_bits::{Bits, Validity};
    ///
    /// let (mask, all) = (Bits::new(&[0b1010], 0, 4), Validity::new(None, 4));
    /// assert_eq!(all.filter(mask), None);
    /// assert_eq!(Validity::from(mask).filter(mask).unwrap(), Bits::new(&[0b11], 0, 2));
    /// ```
    ///
    /// # Panics
    ///
    /// Panics if `mask` doesn't have one bit per row.
    #[must_use]
    #[track_caller]
    pub fn filter(self, mask: impl Mask) -> Option<Bitmap> {
        mask.of_len(self.len);
        Some(self.bits?.filter(mask))
    }

    /// Appends the validity of the rows that a mask selects to `kept`, in their order: one bit per
    /// row, even if the validity has no bits. With
    /// [`values::filter_onto`](crate::values::filter_onto) it joins the selected rows of batches
    /// into one column. [`Extend`] appends all rows.
    ///
    /// ```
    /// use vortex_bits::{Bitmap, Bits, Validity};
    ///
    /// let (mask, mut valid) = (Bits::new(&[0b1010], 0, 4), Bitmap::growing(0));
    /// for batch in [Validity::new(None, 4), Validity::from(Bits::new(&[0b0010], 0, 4))] {
    ///     batch.filter_onto(mask, &mut valid);
    /// }
    /// valid.extend([Validity::new(None, 2)]);
    /// assert_eq!(format!("{valid:?}"), "Bits(111011)");
    /// ```
    ///
    /// # Panics
    ///
    /// Panics if `mask` doesn't have one bit per row, or if the end of the bits isn't a `usize`.
    /// `kept` is then unchanged.
    #[track_caller]
    pub fn filter_onto<B: Grow>(self, mask: impl Mask, kept: &mut Bitmap<B>) {
        let mask = mask.of_len(self.len);
        let rows = mask.map_or(self.len, Bits::count_ones);
        match self.bits {
            Some(bits) => bits.filter_into(mask, kept.grow(rows)),
            None => kept.append_n(rows, true),
        }
    }

    /// Returns the validity of the rows at the indices.
    ///
    /// # Panics
    ///
    /// Panics if an index names no row.
    #[must_use]
    #[track_caller]
    pub fn take<I: BitIndex>(self, indices: &[I]) -> Option<Bitmap> {
        expect(self.try_take(indices))
    }

    /// Returns the validity of the rows at the indices, as [`Validity::take`] does.
    ///
    /// ```
    /// use vortex_bits::{TakeError, Validity};
    ///
    /// let refused = Validity::new(None, 4).try_take(&[3u32, 4]).unwrap_err();
    /// assert_eq!(refused.to_string(), "index 4 at position 1 names none of 4 bits");
    /// ```
    ///
    /// # Errors
    ///
    /// Returns [`TakeError`] with the first index that names no row.
    pub fn try_take<I: BitIndex>(self, indices: &[I]) -> Result<Option<Bitmap>, TakeError> {
        let Some(bits) = self.bits else {
            return crate::take::all_below(indices, self.len, None).map(|()| None);
        };
        bits.try_take(indices).map(Some)
    }

    /// Returns the validity of the rows at the indices. The indices have their own validity: a null
    /// index gives a null row, whatever its number is.
    ///
    /// ```
    /// use vortex_bits::{Bits, Validity};
    ///
    /// let (rows, indices) = (Validity::new(None, 4), Validity::from(Bits::new(&[0b01], 0, 2)));
    /// assert_eq!(rows.take_valid(&[3, -9], indices).unwrap(), Bits::new(&[0b01], 0, 2));
    /// ```
    ///
    /// # Panics
    ///
    /// Panics if `validity` doesn't have one row per index, or a valid index names no row.
    #[must_use]
    #[track_caller]
    pub fn take_valid<I: BitIndex>(self, indices: &[I], validity: Validity<'_>) -> Option<Bitmap> {
        expect(self.try_take_valid(indices, validity))
    }

    /// Returns the validity of the rows at the valid indices, as [`Validity::take_valid`] does.
    ///
    /// ```
    /// use vortex_bits::Validity;
    ///
    /// let (rows, indices) = (Validity::new(None, 4), Validity::new(None, 1));
    /// assert!(rows.try_take_valid(&[4u32], indices).is_err());
    /// ```
    ///
    /// # Errors
    ///
    /// Returns [`TakeError`] if `validity` doesn't have one row per index, and with the first valid
    /// index that names no row.
    pub fn try_take_valid<I: BitIndex>(
        self,
        indices: &[I],
        validity: Validity<'_>,
    ) -> Result<Option<Bitmap>, TakeError> {
        crate::take::one_each(indices, &validity)?;
        let Some(valid) = validity.bits else {
            return self.try_take(indices);
        };
        let Some(bits) = self.bits else {
            crate::take::all_below(indices, self.len, Some(valid))?;
            return Ok(Some(Bitmap::from(valid)));
        };
        bits.try_take_valid(indices, valid).map(Some)
    }
}
