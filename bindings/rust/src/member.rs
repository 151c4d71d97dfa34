//! Which values are members of a set of whole numbers.

use crate::bits_mut::alike;
use crate::{BitIndex, Bits, BitsMut, Mask, portable};

#[cfg(feature = "alloc")]
use crate::Bitmap;

/// Writes a bit per value to `out`: whether `mask` selects it, and it is the index of a set bit of
/// `set`. A negative value, and one that isn't below the length of `set`, is no member. If the mask
/// is None, all values are selected. The parameters are those of `is_in`.
///
/// ```
/// use vortex_bits::{Bits, BitsMut, values};
///
/// let (set, valid, mut found) = (Bits::new(&[0b1_0010], 0, 5), Bits::new(&[0b0111], 0, 4), [0]);
/// values::is_in_into(&[4i64, -1, 1, 4], set, valid, BitsMut::new(&mut found, 2, 4));
/// assert_eq!(found, [0b0001_0100]);
/// ```
///
/// # Panics
///
/// Panics if `mask` or `out` doesn't have one bit per value.
#[doc(alias("contains", "semi_join"))]
#[track_caller]
pub fn is_in_into<'a, I: BitIndex>(
    values: &[I],
    set: impl Into<Bits<'a>>,
    mask: impl Mask,
    mut out: BitsMut<'_>,
) {
    let mask = mask.of_len(values.len());
    alike(out.len(), values.len());
    portable::is_in(&mut out.written(), set.into(), values, mask);
}

/// Unsets each bit of `mask` whose value isn't in the set. The result is that of `&=` with the
/// result of `is_in`, but no bitmap is allocated. Values at unset bits may
/// be any numbers.
///
/// ```
/// # #[cfg(feature = "alloc")] {
/// use vortex_bits::{Bitmap, values};
///
/// let keys = Bitmap::from_indices(50, &[7u32, 42]);
/// let mut rows = Bitmap::from([true, true, false]);
/// values::and_is_in(&[42i64, -7, 7], &keys, rows.bits_mut());
/// assert_eq!(rows, Bitmap::from([true, false, false]));
/// # }
/// ```
///
/// # Panics
///
/// Panics if `mask` doesn't have one bit per value.
#[doc(alias("contains", "semi_join"))]
#[track_caller]
pub fn and_is_in<'a, I: BitIndex>(values: &[I], set: impl Into<Bits<'a>>, mut mask: BitsMut<'_>) {
    alike(mask.len(), values.len());
    portable::and_is_in(&mut mask.written(), set.into(), values);
}

/// Returns a bit per value: whether `mask` selects it, and it is in a set of whole numbers, which
/// are the indices of the set bits of `set`. A negative value, and one that isn't below the length
/// of `set`, isn't in the set. If the mask is None, all values are selected. Values that it doesn't
/// select, such as nulls, may be any numbers.
///
/// It is the semi-join of a column with keys, and `in` of a dictionary's codes: with the validity
/// of the column as the mask the result is that of a `where`, in which nulls are false.
///
/// ```
/// use vortex_bits::{Bitmap, Bits, values};
///
/// let keys = Bitmap::from_indices(100, &[7u32, 42]);
/// let (column, valid) = ([42i64, 7, -7, 1000, 7], Bits::new(&[0b0_1111], 0, 5));
/// let rows = values::is_in(&column, &keys, valid);
/// assert_eq!(rows, Bitmap::from([true, true, false, false, false]));
/// ```
///
/// # Panics
///
/// Panics if `mask` doesn't have one bit per value.
#[doc(alias("contains", "in_list", "semi_join"))]
#[cfg(feature = "alloc")]
#[must_use]
#[track_caller]
pub fn is_in<'a, I: BitIndex>(values: &[I], set: impl Into<Bits<'a>>, mask: impl Mask) -> Bitmap {
    let mask = mask.of_len(values.len());
    let set = set.into();
    Bitmap::make(values.len(), |out| is_in_into(values, set, mask, out))
}
