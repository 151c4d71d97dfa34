//! Filters: the bits and values that a mask selects.

#[cfg(feature = "alloc")]
use alloc::vec::Vec;

use crate::bits_mut::alike;
use crate::mask::sealed::Mask as _;
use crate::{Bits, BitsMut, Mask, Value, kernels};

impl Bits<'_> {
    /// Writes the bits that `mask` selects to `out`, in their order.
    ///
    /// # Panics
    ///
    /// Panics if `mask` isn't as long as the window, or `out` doesn't have one bit per set bit of
    /// `mask`.
    ///
    /// ```
    /// use vortex_bits::{Bits, BitsMut};
    ///
    /// let mut kept = [0];
    /// let (bits, mask) = (Bits::new(&[0b0111_0110], 0, 7), Bits::new(&[0b0100_1011], 0, 7));
    /// bits.filter_into(mask, BitsMut::new(&mut kept, 0, mask.count_ones()));
    /// assert_eq!(kept, [0b1010]);
    /// ```
    #[doc(alias("pext", "compress"))]
    #[track_caller]
    pub fn filter_into(self, mask: impl Mask, mut out: BitsMut<'_>) {
        let Some(mask) = mask.of_len(self.len()) else {
            return out.copy_from(self);
        };
        alike(out.len(), mask.count_ones());
        kernels::filter(&mut out.written(), self, mask);
    }

    /// Writes the values at the set bits to the front of `out`, in their order, and returns their
    /// number. The items of `out` after them are unchanged.
    ///
    /// # Panics
    ///
    /// Panics if there isn't one value per bit, or `out` has fewer items than there are set bits.
    ///
    /// ```
    /// use vortex_bits::Bits;
    ///
    /// let mut kept = [0.0; 4];
    /// let mask = Bits::new(&[0b1011], 0, 4);
    /// assert_eq!(mask.keep_into(&[0.5, 1.5, 2.5, 3.5], &mut kept), 3);
    /// assert_eq!(kept, [0.5, 1.5, 3.5, 0.0]);
    /// ```
    #[doc(alias("compress", "filter_into"))]
    #[track_caller]
    pub fn keep_into<T: Value>(self, values: &[T], out: &mut [T]) -> usize {
        self.of_len(values.len());
        let (kept, room) = (self.count_ones(), out.len());
        assert!(kept <= room, "room for {room} values and {kept} to keep");
        kernels::keep(&mut out[..kept], values, self)
    }
}

/// Returns the values that `mask` selects, in their order; all values if `mask` is None.
///
/// ```
/// use vortex_bits::{Bits, values};
///
/// let mask = Bits::new(&[0b1011], 0, 4);
/// assert_eq!(values::filter(&[0.5, 1.5, 2.5, 3.5], mask), [0.5, 1.5, 3.5]);
/// ```
///
/// # Panics
///
/// Panics if `mask` isn't as long as the values.
#[doc(alias("compress", "select"))]
#[cfg(feature = "alloc")]
#[must_use]
#[track_caller]
pub fn filter<T: Value>(values: &[T], mask: impl Mask) -> Vec<T> {
    let mut kept = Vec::new();
    filter_onto(values, mask, &mut kept);
    kept
}

/// Moves the values that `mask` selects to the front, in their order, and returns their number: a
/// filter in place. The values from that index on are unchanged. If `mask` is None, it selects all.
///
/// ```
/// use vortex_bits::{Bits, values};
///
/// let mut column = vec![0.5, 1.5, 2.5, 3.5];
/// let kept = values::retain(&mut column, Bits::new(&[0b1010], 0, 4));
/// assert_eq!(column, [1.5, 3.5, 2.5, 3.5]);
/// column.truncate(kept);
/// ```
///
/// # Panics
///
/// Panics if `mask` isn't as long as the values, which are then unchanged.
#[doc(alias("compress", "filter", "select"))]
#[track_caller]
pub fn retain<T: Value>(values: &mut [T], mask: impl Mask) -> usize {
    match mask.of_len(values.len()) {
        Some(mask) => kernels::retain(values, mask),
        None => values.len(),
    }
}

/// Appends the values that `mask` selects to `kept`, in their order; all values if `mask` is None.
/// Call it for each batch to join the filtered rows into one column.
///
/// ```
/// use vortex_bits::{Bits, values};
///
/// let mut kept = vec![7];
/// values::filter_onto(&[1, 2, 3], Bits::new(&[0b101], 0, 3), &mut kept);
/// assert_eq!(kept, [7, 1, 3]);
/// ```
///
/// # Panics
///
/// Panics if `mask` isn't as long as the values, and if a `Vec` can't have so many values. `kept`
/// is then unchanged.
#[doc(alias("compress", "concat"))]
#[cfg(feature = "alloc")]
#[track_caller]
pub fn filter_onto<T: Value>(values: &[T], mask: impl Mask, kept: &mut Vec<T>) {
    let Some(mask) = mask.of_len(values.len()) else {
        return kept.extend_from_slice(values);
    };
    let before = kept.len();
    let end = before.checked_add(mask.count_ones());
    kept.resize(end.expect("a number of values is a usize"), T::ZERO);
    kernels::keep(&mut kept[before..], values, mask);
}
