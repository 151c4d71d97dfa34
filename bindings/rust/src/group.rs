//! Counts and sums by group.

use crate::error::{GroupError, expect};
use crate::{BitIndex, Mask, Value, kernels};

/// A type of values that can be summed by group: whole numbers of up to 64 bits, and floats.
#[diagnostic::on_unimplemented(
    message = "values of `{Self}` aren't summed by group",
    label = "values are whole numbers of up to 64 bits, or floats"
)]
pub trait GroupSummand: Value + sealed::GroupSummand<<Self as GroupSummand>::Sum> {
    /// The type of a sum: `u64` for unsigned values, `i64` for signed ones, `f64` for floats.
    type Sum: Copy;
}

pub(crate) mod sealed {
    #[cfg(vortex_bits_native)]
    use crate::native::{GroupSums, Kernels};

    /// The items that each type with sums of the type `Sum` provides.
    pub trait GroupSummand<Sum>: Sized {
        /// Returns the sum with one value more.
        fn plus(sum: Sum, value: Self) -> Sum;

        /// The function that undoes [`plus`](GroupSummand::plus); None if `plus` rounds.
        const MINUS: Option<fn(Sum, Self) -> Sum>;

        /// The type that the C functions sum, with the same layout as this one.
        #[cfg(vortex_bits_native)]
        type Laid;

        /// Returns the C functions that sum by group; None if there are none.
        #[cfg(vortex_bits_native)]
        fn group_sums(kernels: &Kernels) -> Option<GroupSums<Sum, Self::Laid>>;
    }

    macro_rules! whole {
        ($($value:ty as $laid:ty, $sum:ty: $by_one:ident $by_two:ident $by_four:ident;)*) => {$(
            impl super::GroupSummand for $value {
                type Sum = $sum;
            }

            impl GroupSummand<$sum> for $value {
                const MINUS: Option<fn($sum, $value) -> $sum> =
                    Some(|sum, value| sum.wrapping_sub(value as $sum));

                #[inline]
                fn plus(sum: $sum, value: $value) -> $sum {
                    sum.wrapping_add(value as $sum)
                }

                #[cfg(vortex_bits_native)]
                type Laid = $laid;

                #[cfg(vortex_bits_native)]
                #[inline]
                fn group_sums(kernels: &Kernels) -> Option<GroupSums<$sum, $laid>> {
                    Some(GroupSums {
                        one_byte: kernels.$by_one,
                        two_bytes: kernels.$by_two,
                        four_bytes: kernels.$by_four,
                    })
                }
            }
        )*};
    }

    macro_rules! floats {
        ($($value:ty)*) => {$(
            impl super::GroupSummand for $value {
                type Sum = f64;
            }

            impl GroupSummand<f64> for $value {
                const MINUS: Option<fn(f64, $value) -> f64> = None;

                #[inline]
                fn plus(sum: f64, value: $value) -> f64 {
                    sum + f64::from(value)
                }

                #[cfg(vortex_bits_native)]
                type Laid = $value;

                #[cfg(vortex_bits_native)]
                #[inline]
                fn group_sums(_: &Kernels) -> Option<GroupSums<f64, $value>> {
                    None
                }
            }
        )*};
    }

    whole! {
        // Written by tools/write-lists from tools/families/groups.txt.
        u8 as u8, u64: group_sums_u8_u8 group_sums_u8_u16 group_sums_u8_u32;
        u16 as u16, u64: group_sums_u16_u8 group_sums_u16_u16 group_sums_u16_u32;
        u32 as u32, u64: group_sums_u32_u8 group_sums_u32_u16 group_sums_u32_u32;
        u64 as u64, u64: group_sums_u64_u8 group_sums_u64_u16 group_sums_u64_u32;
        usize as u64, u64: group_sums_u64_u8 group_sums_u64_u16 group_sums_u64_u32;
        i8 as i8, i64: group_sums_i8_u8 group_sums_i8_u16 group_sums_i8_u32;
        i16 as i16, i64: group_sums_i16_u8 group_sums_i16_u16 group_sums_i16_u32;
        i32 as i32, i64: group_sums_i32_u8 group_sums_i32_u16 group_sums_i32_u32;
        i64 as i64, i64: group_sums_i64_u8 group_sums_i64_u16 group_sums_i64_u32;
        isize as i64, i64: group_sums_i64_u8 group_sums_i64_u16 group_sums_i64_u32;
        // To here.
    }

    floats! { f32 f64 }
}

/// Adds to each count the number of rows that `mask` selects and whose code is the index of the
/// count: the size of each group of a dictionary column. If the mask is None, all rows are
/// selected. Rows that it doesn't select, such as nulls, may have any number as their code. A count
/// wraps around at 2^64.
///
/// ```
/// use vortex_bits::{Bits, values};
///
/// let mut counts = [0, 10, 0];
/// let mask = Bits::new(&[0b1_0111], 0, 5);
/// values::group_counts(&mut counts, &[2u8, 1, 2, 99, 0], mask);
/// assert_eq!(counts, [1, 11, 2]);
/// ```
///
/// # Panics
///
/// Panics if [`try_group_counts`] returns an error. The counts are then unchanged.
#[doc(alias("group_by", "histogram", "value_counts"))]
#[inline]
#[track_caller]
pub fn group_counts<I: BitIndex>(counts: &mut [u64], codes: &[I], mask: impl Mask) {
    expect(try_group_counts(counts, codes, mask));
}

/// Adds to each count the number of selected rows with its code, as [`group_counts`] does.
///
/// # Errors
///
/// Returns [`GroupError`] if `mask` doesn't have one bit per code, and with the first selected row
/// whose code is negative or not below the number of counts. The counts are then unchanged.
///
/// ```
/// use vortex_bits::{Bits, values};
///
/// let mut counts = [0; 2];
/// assert!(values::try_group_counts(&mut counts, &[1u8, 0, 1], None::<Bits>).is_ok());
/// assert!(values::try_group_counts(&mut counts, &[1i8, 0, -1], None::<Bits>).is_err());
/// assert_eq!(counts, [1, 2]);
/// ```
#[inline]
pub fn try_group_counts<I: BitIndex>(
    counts: &mut [u64],
    codes: &[I],
    mask: impl Mask,
) -> Result<(), GroupError> {
    one_each(codes, codes.len(), &mask)?;
    match kernels::group_counts(counts, codes, mask.mask()) {
        Some(row) => Err(no_group(codes, row, counts.len())),
        None => Ok(()),
    }
}

/// Adds each value that `mask` selects to the sum at the index of its row's code. If the mask is
/// None, all rows are selected. Rows that it doesn't select may have any number as their code and
/// their value.
///
/// Sums have 64 bits. Those of whole numbers wrap around at the end of their type. Those of floats
/// are added in the order of the rows, each rounded as IEEE 754 says; an `f32` is first widened.
///
/// ```
/// use vortex_bits::{Bits, values};
///
/// let mut sums = [0, 1000];
/// let mask = Bits::new(&[0b1011], 0, 4);
/// values::group_sums(&mut sums, &[1u32, 0, 7, 1], &[5i16, -3, 9, 20], mask);
/// assert_eq!(sums, [-3, 1025]);
/// ```
///
/// # Panics
///
/// Panics if [`try_group_sums`] returns an error. The sums are then unchanged.
#[doc(alias("group_by"))]
#[inline]
#[track_caller]
pub fn group_sums<V: GroupSummand, I: BitIndex>(
    sums: &mut [V::Sum],
    codes: &[I],
    values: &[V],
    mask: impl Mask,
) {
    expect(try_group_sums(sums, codes, values, mask));
}

/// Adds each selected value to the sum of its row's code, as [`group_sums`] does.
///
/// # Errors
///
/// Returns [`GroupError`] if `values` or `mask` doesn't have one item per code, and with the first
/// selected row whose code is negative or not below the number of sums. The sums are then
/// unchanged.
///
/// ```
/// use vortex_bits::{Bits, values};
///
/// let mut sums = [0.0; 2];
/// let column = [0.5, 2.0, 4.0];
/// assert!(values::try_group_sums(&mut sums, &[1u8, 0, 1], &column, None::<Bits>).is_ok());
/// assert!(values::try_group_sums(&mut sums, &[1u8, 0, 2], &column, None::<Bits>).is_err());
/// assert_eq!(sums, [2.0, 4.5]);
/// ```
#[inline]
pub fn try_group_sums<V: GroupSummand, I: BitIndex>(
    sums: &mut [V::Sum],
    codes: &[I],
    values: &[V],
    mask: impl Mask,
) -> Result<(), GroupError> {
    one_each(codes, values.len(), &mask)?;
    match kernels::group_sums(sums, codes, values, mask.mask()) {
        Some(row) => Err(no_group(codes, row, sums.len())),
        None => Ok(()),
    }
}

/// Tests that there are one value and one bit of the mask per code.
#[inline]
pub(crate) fn one_each<I>(codes: &[I], values: usize, mask: &impl Mask) -> Result<(), GroupError> {
    let rows = codes.len();
    if values != rows {
        return Err(GroupError::Values { values, rows });
    }
    match mask.mask_len().filter(|&bits| bits != rows) {
        Some(bits) => Err(GroupError::Mask { bits, rows }),
        None => Ok(()),
    }
}

#[cold]
pub(crate) fn no_group<I: BitIndex>(codes: &[I], row: usize, groups: usize) -> GroupError {
    GroupError::Code {
        row,
        code: codes[row].number(),
        groups,
    }
}
