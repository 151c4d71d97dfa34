//! Sums, minimum and maximum of the values that a mask selects.

use crate::{Mask, Value, kernels};

/// A type of values that can be summed and ordered: whole numbers. The C functions aggregate those
/// of up to 64 bits, and plain Rust those of 128 bits.
#[diagnostic::on_unimplemented(
    message = "values of `{Self}` are neither summed nor ordered",
    label = "values are whole numbers",
    note = "for floats call `values::masked_float_min`, `masked_float_max` and `masked_float_sum`",
    note = "select those of another type by index: `mask.set_indices().map(|row| values[row])`"
)]
pub trait Summand: Value + Ord + sealed::Summand {}

/// A type of values whose exact sum always fits 128 bits: whole numbers of up to 64 bits.
#[diagnostic::on_unimplemented(
    message = "an exact sum of `{Self}` isn't of 128 bits",
    label = "values are whole numbers of up to 64 bits",
    note = "for floats call `values::masked_float_sum`",
    note = "`values::masked_wrapping_sum` also sums whole numbers of 128 bits"
)]
pub trait WideSummand: Summand + sealed::WideSummand<<Self as WideSummand>::Total> {
    /// The type of an exact sum: `i128` for signed values, `u128` for unsigned ones.
    type Total: Copy;
}

pub(crate) mod sealed {
    #[cfg(vortex_bits_native)]
    use crate::native::{Kernels, Masked, Optional, SignedWide, Wide};

    /// The items that each summable type provides.
    pub trait Summand: Sized {
        /// Returns the sum of both, wrapped around at the end of the type.
        fn wrapping_plus(self, other: Self) -> Self;

        /// The type that the C functions aggregate, with the same layout and order as this one.
        #[cfg(vortex_bits_native)]
        type Laid;

        /// Returns the value of this type that a C function has returned.
        #[cfg(vortex_bits_native)]
        fn from_laid(value: Self::Laid) -> Self;

        /// Returns the C function that sums, wrapped around.
        #[cfg(vortex_bits_native)]
        fn masked_wrapping_sum(kernels: &Kernels) -> Option<Masked<Self::Laid, Self::Laid>>;

        /// Returns the C function that finds the minimum.
        #[cfg(vortex_bits_native)]
        fn masked_min(kernels: &Kernels) -> Option<Masked<Self::Laid, Optional<Self::Laid>>>;

        /// Returns the C function that finds the maximum.
        #[cfg(vortex_bits_native)]
        fn masked_max(kernels: &Kernels) -> Option<Masked<Self::Laid, Optional<Self::Laid>>>;
    }

    /// The items that each type with exact sums (of the type `Total`) provides.
    pub trait WideSummand<Total>: Summand {
        /// The sum of no values.
        const NOTHING: Total;

        /// Returns the sum with one value more.
        fn plus(total: Total, value: Self) -> Total;

        /// Returns the sum as a value; None if it is out of the type's range.
        fn narrow(total: Total) -> Option<Self>;

        /// The type in which C returns such a sum.
        #[cfg(vortex_bits_native)]
        type Halves: Into<Total>;

        /// Returns the C function that sums exactly.
        #[cfg(vortex_bits_native)]
        fn masked_sum(kernels: &Kernels) -> Masked<Self::Laid, Self::Halves>;

        /// Returns the C function that sums, or finds that the sum is out of the type's range.
        #[cfg(vortex_bits_native)]
        fn masked_checked_sum(kernels: &Kernels) -> Masked<Self::Laid, Optional<Self::Laid>>;
    }

    macro_rules! wide {
        ($($value:ty as $laid:ty, $total:ty, $halves:ty: $sum:ident $checked:ident $wrapping:ident
            $min:ident $max:ident;)*) => {$(
            impl super::Summand for $value {}

            impl super::WideSummand for $value {
                type Total = $total;
            }

            impl Summand for $value {
                #[inline]
                fn wrapping_plus(self, other: $value) -> $value {
                    self.wrapping_add(other)
                }

                #[cfg(vortex_bits_native)]
                type Laid = $laid;

                #[cfg(vortex_bits_native)]
                #[inline]
                fn from_laid(value: $laid) -> $value {
                    <$value>::from_ne_bytes(value.to_ne_bytes())
                }

                #[cfg(vortex_bits_native)]
                #[inline]
                fn masked_wrapping_sum(kernels: &Kernels) -> Option<Masked<$laid, $laid>> {
                    Some(kernels.$wrapping)
                }

                #[cfg(vortex_bits_native)]
                #[inline]
                fn masked_min(kernels: &Kernels) -> Option<Masked<$laid, Optional<$laid>>> {
                    Some(kernels.$min)
                }

                #[cfg(vortex_bits_native)]
                #[inline]
                fn masked_max(kernels: &Kernels) -> Option<Masked<$laid, Optional<$laid>>> {
                    Some(kernels.$max)
                }
            }

            impl WideSummand<$total> for $value {
                const NOTHING: $total = 0;

                #[inline]
                fn plus(total: $total, value: $value) -> $total {
                    // A slice has fewer than 2^64 values, so no sum overflows.
                    total + value as $total
                }

                #[inline]
                fn narrow(total: $total) -> Option<$value> {
                    <$value>::try_from(total).ok()
                }

                #[cfg(vortex_bits_native)]
                type Halves = $halves;

                #[cfg(vortex_bits_native)]
                #[inline]
                fn masked_sum(kernels: &Kernels) -> Masked<$laid, $halves> {
                    kernels.$sum
                }

                #[cfg(vortex_bits_native)]
                #[inline]
                fn masked_checked_sum(kernels: &Kernels) -> Masked<$laid, Optional<$laid>> {
                    kernels.$checked
                }
            }
        )*};
    }

    macro_rules! one_by_one {
        ($($value:ty)*) => {$(
            impl super::Summand for $value {}

            impl Summand for $value {
                #[inline]
                fn wrapping_plus(self, other: $value) -> $value {
                    self.wrapping_add(other)
                }

                #[cfg(vortex_bits_native)]
                type Laid = $value;

                #[cfg(vortex_bits_native)]
                #[inline]
                fn from_laid(value: $value) -> $value {
                    value
                }

                #[cfg(vortex_bits_native)]
                #[inline]
                fn masked_wrapping_sum(_: &Kernels) -> Option<Masked<$value, $value>> {
                    None
                }

                #[cfg(vortex_bits_native)]
                #[inline]
                fn masked_min(_: &Kernels) -> Option<Masked<$value, Optional<$value>>> {
                    None
                }

                #[cfg(vortex_bits_native)]
                #[inline]
                fn masked_max(_: &Kernels) -> Option<Masked<$value, Optional<$value>>> {
                    None
                }
            }
        )*};
    }

    wide! {
        // Written by tools/write-lists from tools/families/masked_sums.txt.
        u8 as u8, u128, Wide:
        masked_sum_u8 masked_checked_sum_u8 masked_wrapping_sum_u8 masked_min_u8 masked_max_u8;
        u16 as u16, u128, Wide:
        masked_sum_u16 masked_checked_sum_u16 masked_wrapping_sum_u16 masked_min_u16 masked_max_u16;
        u32 as u32, u128, Wide:
        masked_sum_u32 masked_checked_sum_u32 masked_wrapping_sum_u32 masked_min_u32 masked_max_u32;
        u64 as u64, u128, Wide:
        masked_sum_u64 masked_checked_sum_u64 masked_wrapping_sum_u64 masked_min_u64 masked_max_u64;
        usize as u64, u128, Wide:
        masked_sum_u64 masked_checked_sum_u64 masked_wrapping_sum_u64 masked_min_u64 masked_max_u64;
        i8 as i8, i128, SignedWide:
        masked_sum_i8 masked_checked_sum_i8 masked_wrapping_sum_i8 masked_min_i8 masked_max_i8;
        i16 as i16, i128, SignedWide:
        masked_sum_i16 masked_checked_sum_i16 masked_wrapping_sum_i16 masked_min_i16 masked_max_i16;
        i32 as i32, i128, SignedWide:
        masked_sum_i32 masked_checked_sum_i32 masked_wrapping_sum_i32 masked_min_i32 masked_max_i32;
        i64 as i64, i128, SignedWide:
        masked_sum_i64 masked_checked_sum_i64 masked_wrapping_sum_i64 masked_min_i64 masked_max_i64;
        isize as i64, i128, SignedWide:
        masked_sum_i64 masked_checked_sum_i64 masked_wrapping_sum_i64 masked_min_i64 masked_max_i64;
        // To here.
    }

    one_by_one! { u128 i128 }
}

/// Returns the exact sum of the values that `mask` selects: of all if it is None. It can't
/// overflow.
///
/// ```
/// use vortex_bits::{Bits, values};
///
/// let mask = Bits::new(&[0b1101], 0, 4);
/// let sum = values::masked_sum(&[i64::MAX, 7, i64::MAX, -1], mask);
/// assert_eq!(sum, 2 * i128::from(i64::MAX) - 1);
/// assert_eq!(values::masked_sum(&[200u8, 50, 6], None::<Bits>), 256);
/// ```
///
/// # Panics
///
/// Panics if `mask` isn't as long as the values.
#[doc(alias("sum", "total"))]
#[inline]
#[must_use]
#[track_caller]
pub fn masked_sum<T: WideSummand>(values: &[T], mask: impl Mask) -> T::Total {
    kernels::masked_sum(values, mask.of_len(values.len()))
}

/// Returns the sum of the values that `mask` selects, of all if it is None. Returns None if the sum
/// is out of their type's range; partial sums may be.
///
/// ```
/// use vortex_bits::{Bits, values};
///
/// let mask = Bits::new(&[0b1101], 0, 4);
/// assert_eq!(values::masked_checked_sum(&[100i8, 7, 100, -80], mask), Some(120));
/// assert_eq!(values::masked_checked_sum(&[100i8, 7, 100, -8], mask), None);
/// ```
///
/// # Panics
///
/// Panics if `mask` isn't as long as the values.
#[doc(alias("sum", "sum_checked", "checked_add"))]
#[inline]
#[must_use]
#[track_caller]
pub fn masked_checked_sum<T: WideSummand>(values: &[T], mask: impl Mask) -> Option<T> {
    kernels::masked_checked_sum(values, mask.of_len(values.len()))
}

/// Returns the sum of the values that `mask` selects, of all if it is None, wrapped around at the
/// end of their type.
///
/// ```
/// use vortex_bits::{Bits, values};
///
/// let mask = Bits::new(&[0b1101], 0, 4);
/// assert_eq!(values::masked_wrapping_sum(&[100i8, 7, 100, -8], mask), -64);
/// ```
///
/// # Panics
///
/// Panics if `mask` isn't as long as the values.
#[doc(alias("sum", "wrapping_add"))]
#[inline]
#[must_use]
#[track_caller]
pub fn masked_wrapping_sum<T: Summand>(values: &[T], mask: impl Mask) -> T {
    kernels::masked_wrapping_sum(values, mask.of_len(values.len()))
}

/// Returns the minimum of the values that `mask` selects, of all if it is None. Returns None if
/// there are none.
///
/// ```
/// use vortex_bits::{Bits, values};
///
/// let mask = Bits::new(&[0b1101], 0, 4);
/// assert_eq!(values::masked_min(&[30, -7, 20, 40], mask), Some(20));
/// assert_eq!(values::masked_min(&[30], Bits::new(&[0], 0, 1)), None);
/// ```
///
/// # Panics
///
/// Panics if `mask` isn't as long as the values.
#[doc(alias("min", "minimum"))]
#[inline]
#[must_use]
#[track_caller]
pub fn masked_min<T: Summand>(values: &[T], mask: impl Mask) -> Option<T> {
    kernels::masked_min(values, mask.of_len(values.len()))
}

/// Returns the maximum of the values that `mask` selects, of all if it is None. Returns None if
/// there are none.
///
/// ```
/// use vortex_bits::{Bits, values};
///
/// let mask = Bits::new(&[0b1101], 0, 4);
/// assert_eq!(values::masked_max(&[30, 70, 20, 40], mask), Some(40));
/// ```
///
/// # Panics
///
/// Panics if `mask` isn't as long as the values.
#[doc(alias("max", "maximum"))]
#[inline]
#[must_use]
#[track_caller]
pub fn masked_max<T: Summand>(values: &[T], mask: impl Mask) -> Option<T> {
    kernels::masked_max(values, mask.of_len(values.len()))
}
