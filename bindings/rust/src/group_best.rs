//! Minimum and maximum by group.

use crate::error::{GroupError, expect};
use crate::group::{no_group, one_each};
use crate::{BitIndex, Compare, Mask, portable};

/// Updates the minimum of each group with the values that `mask` selects and whose code is the
/// index of the group. None stands for a group without a value so far; a group without selected
/// values keeps its minimum. If the mask is None, all rows are selected. Rows that it doesn't
/// select may have any number as their code and their value.
///
/// Values compare as Rust's operators say. A NaN is skipped; a given NaN stays until a number
/// replaces it. Among equal values, such as 0.0 and -0.0, the first one stays.
///
/// ```
/// use vortex_bits::{Bits, values};
///
/// let mut least = [None, Some(3), None];
/// let mask = Bits::new(&[0b1_1011], 0, 5);
/// values::group_min(&mut least, &[1u32, 0, 7, 1, 0], &[5i16, -3, 9, 20, 4], mask);
/// assert_eq!(least, [Some(-3), Some(3), None]);
/// ```
///
/// # Panics
///
/// Panics if [`try_group_min`] returns an error. The minima are then unchanged.
#[doc(alias("group_by", "minimum"))]
#[track_caller]
pub fn group_min<V: Compare, I: BitIndex>(
    minima: &mut [Option<V>],
    codes: &[I],
    values: &[V],
    mask: impl Mask,
) {
    expect(try_group_min(minima, codes, values, mask));
}

/// Updates the minimum of each group with its selected values, as [`group_min`] does.
///
/// ```
/// use vortex_bits::{Bits, values};
///
/// let mut least = [None; 2];
/// assert!(values::try_group_min(&mut least, &[1u8, 2], &[0.5, 1.5], None::<Bits>).is_err());
/// assert_eq!(least, [None, None]);
/// ```
///
/// # Errors
///
/// Returns [`GroupError`] if `values` or `mask` doesn't have one item per code, and with the first
/// selected row whose code is negative or not below the number of minima. The minima are then
/// unchanged.
pub fn try_group_min<V: Compare, I: BitIndex>(
    minima: &mut [Option<V>],
    codes: &[I],
    values: &[V],
    mask: impl Mask,
) -> Result<(), GroupError> {
    best(minima, codes, values, &mask, |value, least| value < least)
}

/// Updates the maximum of each group with the values that `mask` selects and whose code is the
/// index of the group, as [`group_min`] does for the minimum.
///
/// ```
/// use vortex_bits::{Bits, values};
///
/// let mut greatest = [None; 2];
/// values::group_max(&mut greatest, &[1u8, 0, 1], &[0.5, f64::NAN, 2.5], None::<Bits>);
/// assert_eq!(greatest, [None, Some(2.5)]);
/// ```
///
/// # Panics
///
/// Panics if [`try_group_max`] returns an error. The maxima are then unchanged.
#[doc(alias("group_by", "maximum"))]
#[track_caller]
pub fn group_max<V: Compare, I: BitIndex>(
    maxima: &mut [Option<V>],
    codes: &[I],
    values: &[V],
    mask: impl Mask,
) {
    expect(try_group_max(maxima, codes, values, mask));
}

/// Updates the maximum of each group with its selected values, as [`group_max`] does.
///
/// ```
/// use vortex_bits::{Bits, values};
///
/// let mut greatest = [Some(7); 2];
/// assert!(values::try_group_max(&mut greatest, &[0, -1], &[9, 9], None::<Bits>).is_err());
/// assert_eq!(greatest, [Some(7); 2]);
/// ```
///
/// # Errors
///
/// Returns the errors of [`try_group_min`]. The maxima are then unchanged.
pub fn try_group_max<V: Compare, I: BitIndex>(
    maxima: &mut [Option<V>],
    codes: &[I],
    values: &[V],
    mask: impl Mask,
) -> Result<(), GroupError> {
    best(maxima, codes, values, &mask, |value, most| value > most)
}

fn best<V: Compare, I: BitIndex>(
    best: &mut [Option<V>],
    codes: &[I],
    values: &[V],
    mask: &impl Mask,
    is_better: impl Fn(V, V) -> bool,
) -> Result<(), GroupError> {
    one_each(codes, values.len(), mask)?;
    match portable::group_best(best, codes, values, mask.mask(), is_better) {
        Some(row) => Err(no_group(codes, row, best.len())),
        None => Ok(()),
    }
}
