//! Functions over slices of values. `take_into` writes values at indices to a slice, and `take`
//! to a new `Vec`. `filter` selects values by a mask, and `retain` in place. `masked_sum`,
//! `masked_min` and `masked_max` return the sum, the minimum and the maximum of the selected
//! values; `masked_float_sum`, `masked_float_min` and `masked_float_max` do so for floats.
//! `group_counts`, `group_sums`, `group_min` and `group_max` aggregate rows by their codes, and
//! `bitmaps_by_code` returns the rows of each code. `top_k` and `bottom_k` return the first
//! rows of an order. `compare` compares values, into bits, and `is_in` looks them up in a set;
//! `and_compare` and `and_is_in` unset the bits of a mask instead. `and_kleene` and `or_kleene`
//! combine truth values that may be null.
//!
//! Each take has a form with a validity for the indices, and a `try_` form that returns an error
//! instead of a panic.
//!
//! ```
//! # #[cfg(feature = "alloc")] {
//! use vortex_bits::{Bits, values};
//!
//! let column = [10i64, 20, 30, 40];
//! let valid = Bits::new(&[0b011], 0, 3);
//! assert_eq!(values::take(&column, &[3u8, 0]), [40, 10]);
//! assert_eq!(values::take_valid(&column, &[3i32, 1, -1], valid), [40, 20, 0]);
//! assert!(values::try_take(&column, &[4u32]).is_err());
//! # }
//! ```

#[cfg(feature = "alloc")]
use alloc::vec;
#[cfg(feature = "alloc")]
use alloc::vec::Vec;

#[cfg(feature = "alloc")]
pub use crate::by_code::{bitmaps_by_code, try_bitmaps_by_code};
#[cfg(feature = "alloc")]
pub use crate::member::is_in;
pub use crate::member::{and_is_in, is_in_into};
#[cfg(feature = "alloc")]
pub use crate::top::{bottom_k, top_k};

pub use crate::aggregate::{
    masked_checked_sum, masked_max, masked_min, masked_sum, masked_wrapping_sum,
};
pub use crate::compare::{and_compare, and_compare_with, compare_into, compare_with_into};
#[cfg(feature = "alloc")]
pub use crate::compare::{compare, compare_with};
pub use crate::filter::retain;
#[cfg(feature = "alloc")]
pub use crate::filter::{filter, filter_onto};
pub use crate::float::{masked_float_max, masked_float_min, masked_float_sum};
pub use crate::group::{group_counts, group_sums, try_group_counts, try_group_sums};
pub use crate::group_best::{group_max, group_min, try_group_max, try_group_min};
#[cfg(feature = "alloc")]
pub use crate::kleene::{and_kleene, or_kleene};
pub use crate::kleene::{and_kleene_into, or_kleene_into};

use crate::error::{TakeValuesError, expect};
use crate::{BitIndex, Bits, Mask, Value, kernels};

/// Writes the values at the indices to `out`, in the order of the indices.
///
/// # Panics
///
/// Panics if [`try_take_into`] returns an error.
///
/// ```
/// use vortex_bits::values;
///
/// let mut taken = [0.0; 3];
/// values::take_into(&[0.5, 1.5, 2.5], &[2u32, 0, 2], &mut taken);
/// assert_eq!(taken, [2.5, 0.5, 2.5]);
/// ```
#[doc(alias("gather"))]
#[inline]
#[track_caller]
pub fn take_into<T: Value, I: BitIndex>(values: &[T], indices: &[I], out: &mut [T]) {
    expect(try_take_into(values, indices, out));
}

/// Writes the values at the indices to `out`, in the order of the indices.
///
/// # Errors
///
/// Returns [`TakeValuesError`] if `out` doesn't have one item per index, and with the first index
/// that is out of bounds. In the second case the items of `out` are arbitrary; otherwise they are
/// unchanged.
#[inline]
pub fn try_take_into<T: Value, I: BitIndex>(
    values: &[T],
    indices: &[I],
    out: &mut [T],
) -> Result<(), TakeValuesError> {
    try_take_valid_into(values, indices, None::<Bits<'_>>, out)
}

/// Writes the values at the valid indices to `out` as [`take_into`] does, and 0 for each other
/// index, whatever its number is.
///
/// # Panics
///
/// Panics if [`try_take_valid_into`] returns an error.
///
/// ```
/// use vortex_bits::{Bits, values};
///
/// let mut taken = [9; 3];
/// let valid = Bits::new(&[0b101], 0, 3);
/// values::take_valid_into(&[1u8, 2, 3], &[2i64, -1, 0], valid, &mut taken);
/// assert_eq!(taken, [3, 0, 1]);
/// ```
#[doc(alias("gather", "null"))]
#[inline]
#[track_caller]
pub fn take_valid_into<T: Value, I: BitIndex>(
    values: &[T],
    indices: &[I],
    validity: impl Mask,
    out: &mut [T],
) {
    expect(try_take_valid_into(values, indices, validity, out));
}

/// Writes the values at the valid indices to `out` as [`try_take_into`] does, and 0 for each other
/// index, whatever its number is.
///
/// # Errors
///
/// Returns [`TakeValuesError`] if `out` or `validity` doesn't have one item per index, and with the
/// first valid index that is out of bounds. In the second case the items of `out` are arbitrary;
/// otherwise they are unchanged.
#[inline]
pub fn try_take_valid_into<T: Value, I: BitIndex>(
    values: &[T],
    indices: &[I],
    validity: impl Mask,
    out: &mut [T],
) -> Result<(), TakeValuesError> {
    let (room, count) = (out.len(), indices.len());
    if room != count {
        return Err(TakeValuesError::Room {
            room,
            indices: count,
        });
    }
    if let Some(bits) = validity.mask_len().filter(|&bits| bits != count) {
        return Err(TakeValuesError::Validity {
            bits,
            indices: count,
        });
    }
    match kernels::take_values(out, values, indices, validity.mask()) {
        Some(position) => Err(TakeValuesError::Index {
            position,
            index: indices[position].number(),
            values: values.len(),
        }),
        None => Ok(()),
    }
}

/// Returns the values at the indices, in the order of the indices.
///
/// # Panics
///
/// Panics if [`try_take`] returns an error.
#[doc(alias("gather"))]
#[cfg(feature = "alloc")]
#[must_use]
#[inline]
#[track_caller]
pub fn take<T: Value, I: BitIndex>(values: &[T], indices: &[I]) -> Vec<T> {
    expect(try_take(values, indices))
}

/// Returns the values at the indices, in the order of the indices.
///
/// # Errors
///
/// Returns [`TakeValuesError`] with the first index that is out of bounds.
#[cfg(feature = "alloc")]
#[inline]
pub fn try_take<T: Value, I: BitIndex>(
    values: &[T],
    indices: &[I],
) -> Result<Vec<T>, TakeValuesError> {
    try_take_valid(values, indices, None::<Bits<'_>>)
}

/// Returns the values at the valid indices, and 0 for each other index, whatever its number is.
///
/// # Panics
///
/// Panics if [`try_take_valid`] returns an error.
#[doc(alias("gather", "null"))]
#[cfg(feature = "alloc")]
#[must_use]
#[inline]
#[track_caller]
pub fn take_valid<T: Value, I: BitIndex>(
    values: &[T],
    indices: &[I],
    validity: impl Mask,
) -> Vec<T> {
    expect(try_take_valid(values, indices, validity))
}

/// Returns the values at the valid indices, and 0 for each other index, whatever its number is.
///
/// # Errors
///
/// Returns [`TakeValuesError`] if `validity` doesn't have one bit per index, and with the first
/// valid index that is out of bounds.
#[cfg(feature = "alloc")]
#[inline]
pub fn try_take_valid<T: Value, I: BitIndex>(
    values: &[T],
    indices: &[I],
    validity: impl Mask,
) -> Result<Vec<T>, TakeValuesError> {
    let mut taken = vec![T::ZERO; indices.len()];
    try_take_valid_into(values, indices, validity, &mut taken)?;
    Ok(taken)
}
