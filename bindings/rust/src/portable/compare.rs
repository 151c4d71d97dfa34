//! Compares values, 64 into a word.

use core::array;

use super::write::{fill, pack, pack_wide};
use crate::compare::{Compare, Comparison};
use crate::written::Written;

/// Writes a bit per value: the result of its comparison with the number. There is one value per
/// bit.
pub fn compare<T: Compare>(out: &mut Written<'_>, values: &[T], op: Comparison, number: T) {
    match (op, signed(&number)) {
        (Comparison::Equal, _) => pack_one(out, values, |value| value == number),
        (Comparison::NotEqual, _) => pack_one(out, values, |value| value != number),
        (Comparison::Less, Some(end)) => below(out, values, Some(end), 0),
        (Comparison::Greater, Some(last)) => below(out, values, last.checked_add(1), u64::MAX),
        (Comparison::Less, None) => pack_one(out, values, |value| value < number),
        (Comparison::LessOrEqual, _) => pack_one(out, values, |value| value <= number),
        (Comparison::Greater, None) => pack_one(out, values, |value| value > number),
        (Comparison::GreaterOrEqual, _) => pack_one(out, values, |value| value >= number),
    }
}

/// Returns the value if it is of the type `i64`.
#[inline]
fn signed<T: Compare>(value: &T) -> Option<i64> {
    value.as_any().downcast_ref().copied()
}

/// Packs with the code that is fastest for the type.
#[inline]
fn pack_one<T: Compare>(out: &mut Written<'_>, values: &[T], is_true: impl Fn(T) -> bool) {
    let is_float = values.first().is_some_and(|it| it.as_any().is::<f64>());
    if is_float {
        pack_wide(out, values, is_true, 0);
    } else {
        pack(out, values, is_true);
    }
}

/// Packs whether each value of the type `i64` is below `end`, with the bits of `flip` negated. All
/// values are below None.
///
/// The sign of the difference shows it, unless the two numbers have different signs. For `<` and
/// `>` this takes half the instructions; for `<=` and `>=` the compiler's own code takes fewer.
fn below<T: Compare>(out: &mut Written<'_>, values: &[T], end: Option<i64>, flip: u64) {
    let number = |value: T| signed(&value).unwrap_or_default();
    match end {
        None => fill(out, flip == 0),
        Some(end @ 0..) => {
            let is_below = |value| number(value) | number(value).wrapping_sub(end);
            pack_wide(out, values, |value| is_below(value) < 0, flip);
        }
        Some(end) => {
            let is_below = |value| number(value) & number(value).wrapping_sub(end);
            pack_wide(out, values, |value| is_below(value) < 0, flip);
        }
    }
}

/// Writes a bit per value: the result of its comparison with the other value at the same index.
/// There is one value and one other per bit.
pub fn compare_with<T: PartialOrd + Copy>(
    out: &mut Written<'_>,
    values: &[T],
    op: Comparison,
    others: &[T],
) {
    match op {
        Comparison::Equal => pack_pairs(out, values, others, |a, b| a == b),
        Comparison::NotEqual => pack_pairs(out, values, others, |a, b| a != b),
        Comparison::Less => pack_pairs(out, values, others, |a, b| a < b),
        Comparison::LessOrEqual => pack_pairs(out, values, others, |a, b| a <= b),
        Comparison::Greater => pack_pairs(out, values, others, |a, b| a > b),
        Comparison::GreaterOrEqual => pack_pairs(out, values, others, |a, b| a >= b),
    }
}

fn pack_pairs<T: Copy>(
    out: &mut Written<'_>,
    values: &[T],
    others: &[T],
    hold: impl Fn(T, T) -> bool,
) {
    for (i, (values, others)) in values.chunks(64).zip(others.chunks(64)).enumerate() {
        let word = match (values.first_chunk(), others.first_chunk()) {
            (Some(values), Some(others)) => word_of(values, others, &hold),
            _ => few(values, others, &hold),
        };
        out.write(64 * i, values.len(), word);
    }
}

fn word_of<T: Copy>(values: &[T; 64], others: &[T; 64], hold: impl Fn(T, T) -> bool) -> u64 {
    let answers = array::from_fn(|at| hold(values[at], others[at]));
    super::write::word_of(&answers, |answer| answer)
}

/// Does the same for fewer than 64 values.
fn few<T: Copy>(values: &[T], others: &[T], hold: impl Fn(T, T) -> bool) -> u64 {
    let digits = values.iter().zip(others).enumerate();
    digits.fold(0, |word, (at, (&value, &other))| {
        word | u64::from(hold(value, other)) << at
    })
}
