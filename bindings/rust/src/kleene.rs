//! Combines truth values that may be null, as SQL does.

use crate::bits_mut::alike;
use crate::kernels::{self, Column, Logic};
use crate::mask::sealed::Mask as _;
use crate::{Bits, BitsMut, Mask};

#[cfg(feature = "alloc")]
use crate::Bitmap;

/// Writes `a and b` of truth values that may be null, by three-valued (Kleene's) logic, as in SQL.
/// A result is false if one of the two is false, even if the other one is null. Otherwise it is
/// null if one is null.
///
/// `a` and `b` are windows, or bitmaps by reference. `a_valid` and `b_valid` have a bit per truth
/// value, true if it isn't null. None means that no value is null (write `None::<Bits>` if the type
/// cannot be inferred).
///
/// It writes to `trues` which results are true (false if null), and to `valid` which are valid. It
/// ignores the bits of `a` and `b` at nulls.
///
/// ```
/// use vortex_bits::{Bits, BitsMut, values};
///
/// // True, true, false and null, with true, false, true and false.
/// let (a, a_valid, b) = (Bits::new(&[0b0011], 0, 4), Bits::new(&[0b0111], 0, 4), [0b0101]);
/// let (b, mut trues, mut valid) = (Bits::new(&b, 0, 4), [0], [0]);
/// let into = (BitsMut::new(&mut trues, 0, 4), BitsMut::new(&mut valid, 2, 4));
/// values::and_kleene_into(a, a_valid, b, None::<Bits>, into.0, into.1);
/// assert_eq!((trues, valid), ([0b0001], [0b11_1100]));
/// ```
///
/// # Panics
///
/// Panics if the windows and masks differ in length.
#[doc(alias("null", "3VL"))]
#[track_caller]
pub fn and_kleene_into<'a, 'b>(
    a: impl Into<Bits<'a>>,
    a_valid: impl Mask,
    b: impl Into<Bits<'b>>,
    b_valid: impl Mask,
    trues: BitsMut<'_>,
    valid: BitsMut<'_>,
) {
    let both = columns(a.into(), &a_valid, b.into(), &b_valid);
    combine_into(both, Logic::And, trues, valid);
}

/// Writes `a or b` of truth values that may be null, by three-valued logic. A result is true if one
/// of the two is true, even if the other one is null. Otherwise it is null if one is null. The
/// parameters are those of [`and_kleene_into`].
///
/// ```
/// use vortex_bits::{Bits, BitsMut, values};
///
/// let (a, a_valid, b) = (Bits::new(&[0b0011], 0, 4), Bits::new(&[0b0111], 0, 4), [0b0101]);
/// let (b, mut trues, mut valid) = (Bits::new(&b, 0, 4), [0], [0]);
/// let into = (BitsMut::new(&mut trues, 0, 4), BitsMut::new(&mut valid, 0, 4));
/// values::or_kleene_into(a, a_valid, b, None::<Bits>, into.0, into.1);
/// assert_eq!((trues, valid), ([0b0111], [0b0111]));
/// ```
///
/// # Panics
///
/// Panics if the windows and masks differ in length.
#[doc(alias("null", "3VL"))]
#[track_caller]
pub fn or_kleene_into<'a, 'b>(
    a: impl Into<Bits<'a>>,
    a_valid: impl Mask,
    b: impl Into<Bits<'b>>,
    b_valid: impl Mask,
    trues: BitsMut<'_>,
    valid: BitsMut<'_>,
) {
    let both = columns(a.into(), &a_valid, b.into(), &b_valid);
    combine_into(both, Logic::Or, trues, valid);
}

/// Returns `a and b` of truth values that may be null, by three-valued (Kleene's) logic, as in SQL.
/// A result is false if one of the two is false, even if the other one is null. Otherwise it is
/// null if one is null.
///
/// `a` and `b` are windows, or bitmaps by reference. `a_valid` and `b_valid` have a bit per truth
/// value, true if it isn't null. None means that no value is null (write `None::<Bits>` if the type
/// cannot be inferred).
///
/// Returns which results are true (false if null), and which are valid: None if all are. It ignores
/// the bits of `a` and `b` at nulls.
///
/// A `where` clause needs three-valued logic only if it has a `not`. Without one you get the same
/// rows if you first `&` each column of truth values with its validity, and then combine the
/// columns by `&` and `|`. To `not` a result, negate which are true and keep which are valid; at
/// the end of the clause, `&` both.
///
/// ```
/// use vortex_bits::{Bits, Comparison, values};
///
/// // Which of five people are above 17 and below 190 cm? A null is 0.
/// let (ages, heights) = ([19, 64, 7, 0, 30], [180, 0, 0, 195, 192]);
/// let (ages_valid, heights_valid) = (Bits::new(&[0b10111], 0, 5), Bits::new(&[0b11001], 0, 5));
/// let grown = values::compare(&ages, Comparison::Greater, 17);
/// let small = values::compare(&heights, Comparison::Less, 190);
///
/// let (both, valid) = values::and_kleene(&grown, ages_valid, &small, heights_valid);
/// assert_eq!(both.set_indices().collect::<Vec<_>>(), [0]);
/// assert_eq!(valid.as_ref().unwrap().unset_indices().collect::<Vec<_>>(), [1]);
/// assert_eq!(both, (grown & ages_valid) & (small & heights_valid));
///
/// // `where not (age > 17 and height < 190)`: the null is not among these.
/// let others = !both & valid;
/// assert_eq!(others.set_indices().collect::<Vec<_>>(), [2, 3, 4]);
/// ```
///
/// # Panics
///
/// Panics if the windows and masks differ in length.
#[doc(alias("null", "3VL"))]
#[cfg(feature = "alloc")]
#[must_use]
#[track_caller]
pub fn and_kleene<'a, 'b>(
    a: impl Into<Bits<'a>>,
    a_valid: impl Mask,
    b: impl Into<Bits<'b>>,
    b_valid: impl Mask,
) -> (Bitmap, Option<Bitmap>) {
    match columns(a.into(), &a_valid, b.into(), &b_valid) {
        [(a, None), (b, None)] => (a & b, None),
        [a, b] => combined(a, b, Logic::And),
    }
}

/// Returns `a or b` of truth values that may be null, by three-valued logic. A result is true if
/// one of the two is true, even if the other one is null. Otherwise it is null if one is null. The
/// parameters and the results are those of [`and_kleene`].
///
/// ```
/// use vortex_bits::{Bits, values};
///
/// // True, false and null with null, which has true bits here.
/// let (a, a_valid, nulls) = (Bits::new(&[0b101], 0, 3), Bits::new(&[0b011], 0, 3), [0; 1]);
/// let (either, valid) = values::or_kleene(a, a_valid, a, Bits::new(&nulls, 0, 3));
/// assert_eq!(either, Bits::new(&[0b001], 0, 3));
/// assert_eq!(valid, Some(either));
///
/// // With true there is no null.
/// let (either, valid) = values::or_kleene(a, a_valid, Bits::new(&[0b111], 0, 3), None::<Bits>);
/// assert_eq!((either.all(), valid), (true, None));
/// ```
///
/// # Panics
///
/// Panics if the windows and masks differ in length.
#[doc(alias("null", "3VL"))]
#[cfg(feature = "alloc")]
#[must_use]
#[track_caller]
pub fn or_kleene<'a, 'b>(
    a: impl Into<Bits<'a>>,
    a_valid: impl Mask,
    b: impl Into<Bits<'b>>,
    b_valid: impl Mask,
) -> (Bitmap, Option<Bitmap>) {
    match columns(a.into(), &a_valid, b.into(), &b_valid) {
        [(a, None), (b, None)] => (a | b, None),
        [a, b] => combined(a, b, Logic::Or),
    }
}

/// Returns two columns, after a test that their lengths are the same.
#[track_caller]
fn columns<'a>(
    a: Bits<'a>,
    a_valid: &'a impl Mask,
    b: Bits<'a>,
    b_valid: &'a impl Mask,
) -> [Column<'a>; 2] {
    let (a_valid, b_valid) = (a_valid.of_len(a.len()), b_valid.of_len(b.len()));
    b.of_len(a.len());
    [(a, a_valid), (b, b_valid)]
}

#[track_caller]
fn combine_into(
    [a, b]: [Column<'_>; 2],
    logic: Logic,
    mut trues: BitsMut<'_>,
    mut valid: BitsMut<'_>,
) {
    alike(trues.len(), a.0.len());
    alike(valid.len(), a.0.len());
    let (trues, valid) = (&mut trues.written(), &mut valid.written());
    kernels::combine_truths(trues, valid, a, b, logic);
}

/// Combines two columns of the same length: returns which results are true, and which are valid.
#[cfg(feature = "alloc")]
fn combined(a: Column<'_>, b: Column<'_>, logic: Logic) -> (Bitmap, Option<Bitmap>) {
    let mut valid = Bitmap::new_unset(a.0.len());
    let trues = Bitmap::make(a.0.len(), |trues| {
        combine_into([a, b], logic, trues, valid.bits_mut());
    });
    (trues, (!valid.all()).then_some(valid))
}
