//! Compares values with a number or with other values, into bits.

use core::ops::Range;

use crate::bits_mut::alike;
use crate::written::Written;
use crate::{BitsMut, Value, kernels};

#[cfg(feature = "alloc")]
use crate::Bitmap;

/// The comparison of a value with another one.
///
/// Floats compare as Rust's operators do: a NaN isn't equal to, below or above any number, so only
/// `NotEqual` is true of it.
#[derive(Clone, Copy, Debug, PartialEq, Eq, Hash)]
#[repr(u8)]
pub enum Comparison {
    /// `==`
    Equal,
    /// `!=`
    NotEqual,
    /// `<`
    Less,
    /// `<=`
    LessOrEqual,
    /// `>`
    Greater,
    /// `>=`
    GreaterOrEqual,
}

/// A type of values that can be compared: integers and floats. The C functions compare 64 values at
/// once, but integers of 64 bits eight at once. Plain Rust compares integers of 128 bits.
#[diagnostic::on_unimplemented(
    message = "values of `{Self}` aren't compared",
    label = "values are whole numbers or floats",
    note = "`Array::bits` of a column of truth values is a mask already, and `!` negates it",
    note = "those of another type go by a closure: `BitsMut::fill_with`"
)]
pub trait Compare: Value + PartialOrd + sealed::Compare {}

pub(crate) mod sealed {
    use core::any::Any;

    #[cfg(vortex_bits_native)]
    use crate::native::{CompareNumber, CompareOthers, Kernels};

    /// The parts that a type of compared values provides.
    pub trait Compare: Sized {
        /// Returns the value, for a test of its type.
        fn as_any(&self) -> &dyn Any;

        /// The type that the C functions compare. It has the same layout and order as this one.
        #[cfg(vortex_bits_native)]
        type Laid;

        /// Returns the C function that compares with a number, and the number in its type.
        #[cfg(vortex_bits_native)]
        fn with_number(self, kernels: &Kernels) -> Option<(CompareNumber<Self::Laid>, Self::Laid)>;

        /// Returns the C function that compares with other values.
        #[cfg(vortex_bits_native)]
        fn with_others(kernels: &Kernels) -> Option<CompareOthers<Self::Laid>>;
    }

    macro_rules! compared {
        ($($value:ty as $laid:ty, $number:ident, $others:ident;)*) => {$(
            impl super::Compare for $value {}

            impl Compare for $value {
                #[inline]
                fn as_any(&self) -> &dyn Any {
                    self
                }

                #[cfg(vortex_bits_native)]
                type Laid = $laid;

                #[cfg(vortex_bits_native)]
                #[inline]
                fn with_number(self, kernels: &Kernels) -> Option<(CompareNumber<$laid>, $laid)> {
                    Some((kernels.$number, self as $laid))
                }

                #[cfg(vortex_bits_native)]
                #[inline]
                fn with_others(kernels: &Kernels) -> Option<CompareOthers<$laid>> {
                    Some(kernels.$others)
                }
            }
        )*};
    }

    macro_rules! one_by_one {
        ($($value:ty)*) => {$(
            impl super::Compare for $value {}

            impl Compare for $value {
                #[inline]
                fn as_any(&self) -> &dyn Any {
                    self
                }

                #[cfg(vortex_bits_native)]
                type Laid = $value;

                #[cfg(vortex_bits_native)]
                #[inline]
                fn with_number(self, _: &Kernels) -> Option<(CompareNumber<$value>, $value)> {
                    None
                }

                #[cfg(vortex_bits_native)]
                #[inline]
                fn with_others(_: &Kernels) -> Option<CompareOthers<$value>> {
                    None
                }
            }
        )*};
    }

    compared! {
        // Written by tools/write-lists from tools/families/compare.txt.
        u8 as u8, compare_u8, compare_with_u8;
        u16 as u16, compare_u16, compare_with_u16;
        u32 as u32, compare_u32, compare_with_u32;
        u64 as u64, compare_u64, compare_with_u64;
        usize as u64, compare_u64, compare_with_u64;
        i8 as i8, compare_i8, compare_with_i8;
        i16 as i16, compare_i16, compare_with_i16;
        i32 as i32, compare_i32, compare_with_i32;
        i64 as i64, compare_i64, compare_with_i64;
        isize as i64, compare_i64, compare_with_i64;
        f32 as f32, compare_f32, compare_with_f32;
        f64 as f64, compare_f64, compare_with_f64;
        // To here.
    }

    one_by_one! { u128 i128 }
}

/// Writes a bit per value to `out`: the result of `value op number`.
///
/// ```
/// use vortex_bits::{BitsMut, Comparison, values};
///
/// let mut above = [0];
/// let ages = [19u8, 64, 7, 30];
/// values::compare_into(&ages, Comparison::Greater, 18, BitsMut::new(&mut above, 0, 4));
/// assert_eq!(above, [0b1011]);
/// ```
///
/// # Panics
///
/// Panics if `out` doesn't have one bit per value.
#[track_caller]
pub fn compare_into<T: Compare>(values: &[T], op: Comparison, number: T, mut out: BitsMut<'_>) {
    alike(out.len(), values.len());
    kernels::compare(&mut out.written(), values, op, number);
}

/// Unsets each bit of `mask` whose value doesn't satisfy `value op number`. The result is that of
/// `&=` with the result of `compare`, but no bitmap is allocated: all terms of an `and` write one
/// mask. It compares the values at unset bits too.
///
/// ```
/// # #[cfg(feature = "alloc")] {
/// use vortex_bits::{Bitmap, Bits, Comparison, values};
///
/// // where age > 17 and age < 65, of valid ages.
/// let (ages, valid) = ([19u8, 64, 7, 30, 99], Bits::new(&[0b1_0111], 0, 5));
/// let mut rows = Bitmap::from(valid);
/// values::and_compare(&ages, Comparison::Greater, 17, rows.bits_mut());
/// values::and_compare(&ages, Comparison::Less, 65, rows.bits_mut());
/// assert_eq!(rows, Bitmap::from_indices(5, &[0, 1]));
/// # }
/// ```
///
/// # Panics
///
/// Panics if `mask` doesn't have one bit per value.
#[track_caller]
pub fn and_compare<T: Compare>(values: &[T], op: Comparison, number: T, mask: BitsMut<'_>) {
    alike(mask.len(), values.len());
    and_blocks(mask, |out, rows| {
        kernels::compare(out, &values[rows], op, number);
    });
}

/// Unsets each bit of `mask` whose value doesn't satisfy `value op other`, where `other` is the
/// item of `others` at the same index, as [`and_compare`] does for a number.
///
/// ```
/// # #[cfg(feature = "alloc")] {
/// use vortex_bits::{Bitmap, Comparison, values};
///
/// let (mut rows, limits) = (Bitmap::from([true, true, false]), [20, 60, 90]);
/// values::and_compare_with(&[19, 64, 7], Comparison::Less, &limits, rows.bits_mut());
/// assert_eq!(rows, Bitmap::from([true, false, false]));
/// # }
/// ```
///
/// # Panics
///
/// Panics if there isn't one other per value, or `mask` doesn't have one bit per value.
#[track_caller]
pub fn and_compare_with<T: Compare>(values: &[T], op: Comparison, others: &[T], mask: BitsMut<'_>) {
    one_other_each(values, others);
    alike(mask.len(), values.len());
    and_blocks(mask, |out, rows| {
        kernels::compare_with(out, &values[rows.clone()], op, &others[rows]);
    });
}

/// # Panics
///
/// Panics if there isn't one other per value.
#[track_caller]
fn one_other_each<T>(values: &[T], others: &[T]) {
    let (values, others) = (values.len(), others.len());
    assert!(others == values, "{others} others for {values} values");
}

/// Combines `mask` by `&=` with the bits that `write` writes for a range of its rows, a block at a
/// time.
fn and_blocks(mut mask: BitsMut<'_>, write: impl Fn(&mut Written<'_>, Range<usize>)) {
    let mut made = [0; 64];
    let most = 8 * made.len();
    for start in (0..mask.len()).step_by(most) {
        let rows = start..mask.len().min(start + most);
        let mut made = BitsMut::new(&mut made, 0, rows.len());
        write(&mut made.written(), rows.clone());
        mask.part(start, rows.len()).and(made.as_bits());
    }
}

/// Writes a bit per value to `out`: the result of `value op other`, with the one of `others` at the
/// same index.
///
/// ```
/// use vortex_bits::{BitsMut, Comparison, values};
///
/// let mut below = [0xFF];
/// let (ages, limits) = ([19, 64, 7], [20, 64, 7]);
/// let out = BitsMut::new(&mut below, 5, 3);
/// values::compare_with_into(&ages, Comparison::Less, &limits, out);
/// assert_eq!(below, [0b0011_1111]);
/// ```
///
/// # Panics
///
/// Panics if there isn't one other per value, or `out` doesn't have one bit per value.
#[track_caller]
pub fn compare_with_into<T: Compare>(
    values: &[T],
    op: Comparison,
    others: &[T],
    mut out: BitsMut<'_>,
) {
    one_other_each(values, others);
    alike(out.len(), values.len());
    kernels::compare_with(&mut out.written(), values, op, others);
}

/// Returns a bit per value: the result of `value op number`. Combine it with a validity to make
/// nulls false:
///
/// ```
/// use vortex_bits::{Bits, Comparison, Validity, values};
///
/// let (ages, valid) = ([19u8, 64, 7, 30], Validity::new(Some(Bits::new(&[0b0111], 0, 4)), 4));
/// let mut grown = values::compare(&ages, Comparison::GreaterOrEqual, 18);
/// grown &= valid;
/// assert_eq!(grown.set_indices().collect::<Vec<_>>(), [0, 1]);
/// ```
#[doc(alias("eq", "lt", "gt", "neq", "lt_eq", "gt_eq"))]
#[cfg(feature = "alloc")]
#[must_use]
pub fn compare<T: Compare>(values: &[T], op: Comparison, number: T) -> Bitmap {
    Bitmap::make(values.len(), |out| {
        compare_into(values, op, number, out);
    })
}

/// Returns a bit per value: the result of `value op other`, with the one of `others` at the same
/// index.
///
/// ```
/// use vortex_bits::{Bitmap, Comparison, values};
///
/// let prices = [0.5, f64::NAN, -0.0];
/// let same = values::compare_with(&prices, Comparison::Equal, &[0.5, f64::NAN, 0.0]);
/// assert_eq!(same, Bitmap::from([true, false, true]));
/// ```
///
/// # Panics
///
/// Panics if there isn't one other per value.
#[doc(alias("eq", "lt", "gt"))]
#[cfg(feature = "alloc")]
#[must_use]
#[track_caller]
pub fn compare_with<T: Compare>(values: &[T], op: Comparison, others: &[T]) -> Bitmap {
    one_other_each(values, others);
    Bitmap::make(values.len(), |out| {
        compare_with_into(values, op, others, out);
    })
}
