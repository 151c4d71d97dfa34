//! Sum, minimum and maximum of floats that a mask selects.

use crate::{Mask, Value, kernels, portable};

/// A type of floats: `f32` and `f64`.
#[diagnostic::on_unimplemented(
    message = "`{Self}` is no float",
    label = "values are `f32` or `f64`",
    note = "`values::masked_sum`, `masked_min` and `masked_max` are for whole numbers"
)]
pub trait Float: Value + sealed::Float {}

pub(crate) mod sealed {
    #[cfg(vortex_bits_native)]
    use crate::native::{Kernels, Masked};

    /// The parts that a type of floats provides.
    pub trait Float: Copy + PartialOrd {
        const INFINITY: Self;
        const NEG_INFINITY: Self;
        const NEG_ZERO: Self;

        /// Returns the sum of both, rounded.
        fn plus(self, other: Self) -> Self;

        /// Returns whether both have the same bits.
        fn is(self, other: Self) -> bool;

        /// Returns the C function that sums.
        #[cfg(vortex_bits_native)]
        fn masked_sum(kernels: &Kernels) -> Masked<Self, Self>;
    }

    macro_rules! floats {
        ($($float:ident: $sum:ident;)*) => {$(
            impl super::Float for $float {}

            impl Float for $float {
                const INFINITY: $float = $float::INFINITY;
                const NEG_INFINITY: $float = $float::NEG_INFINITY;
                const NEG_ZERO: $float = -0.0;

                #[inline]
                fn plus(self, other: $float) -> $float {
                    self + other
                }

                #[inline]
                fn is(self, other: $float) -> bool {
                    self.to_bits() == other.to_bits()
                }

                #[cfg(vortex_bits_native)]
                #[inline]
                fn masked_sum(kernels: &Kernels) -> Masked<$float, $float> {
                    kernels.$sum
                }
            }
        )*};
    }

    floats! {
        // Written by tools/write-lists from tools/families/masked_floats.txt.
        f32: masked_sum_f32;
        f64: masked_sum_f64;
        // To here.
    }
}

/// Returns the sum of the floats that `mask` selects, of all if it is None. It starts from 0.0 and
/// adds one float after the other, in the order of the rows, each rounded as IEEE 754 says: the
/// result is that of a plain loop, bit by bit, unless it is NaN.
///
/// ```
/// use vortex_bits::{Bits, values};
///
/// let mask = Bits::new(&[0b1101], 0, 4);
/// assert_eq!(values::masked_float_sum(&[1e16, 7.0, 1.0, -1e16], mask), 0.0);
/// assert_eq!(values::masked_float_sum(&[0.5f32, 0.25], None::<Bits>), 0.75);
/// ```
///
/// # Panics
///
/// Panics if `mask` isn't as long as the values.
#[doc(alias("sum", "total"))]
#[inline]
#[must_use]
#[track_caller]
pub fn masked_float_sum<T: Float>(values: &[T], mask: impl Mask) -> T {
    kernels::masked_float_sum(values, mask.of_len(values.len()))
}

/// Returns the minimum of the floats that `mask` selects, of all if it is None. It skips NaN, and
/// -0.0 is less than 0.0. Returns None if no selected float is a number.
///
/// ```
/// use vortex_bits::{Bits, values};
///
/// let mask = Bits::new(&[0b1101], 0, 4);
/// assert_eq!(values::masked_float_min(&[0.5, -7.0, f64::NAN, -0.5], mask), Some(-0.5));
/// assert_eq!(values::masked_float_min(&[f32::NAN], None::<Bits>), None);
/// ```
///
/// # Panics
///
/// Panics if `mask` isn't as long as the values.
#[doc(alias("min", "minimum"))]
#[inline]
#[must_use]
#[track_caller]
pub fn masked_float_min<T: Float>(values: &[T], mask: impl Mask) -> Option<T> {
    portable::masked_float_min(values, mask.of_len(values.len()))
}

/// Returns the maximum of the floats that `mask` selects, of all if it is None. It skips NaN, and
/// 0.0 is greater than -0.0. Returns None if no selected float is a number.
///
/// ```
/// use vortex_bits::{Bits, values};
///
/// let mask = Bits::new(&[0b1101], 0, 4);
/// assert_eq!(values::masked_float_max(&[0.5, 7.0, f64::NAN, -0.5], mask), Some(0.5));
/// ```
///
/// # Panics
///
/// Panics if `mask` isn't as long as the values.
#[doc(alias("max", "maximum"))]
#[inline]
#[must_use]
#[track_caller]
pub fn masked_float_max<T: Float>(values: &[T], mask: impl Mask) -> Option<T> {
    portable::masked_float_max(values, mask.of_len(values.len()))
}
