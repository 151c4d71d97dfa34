//! Combines truth values that may be null by three-valued logic: long columns by operators on
//! words, columns of at most one word at once.

use super::word::{low, only_word};
use super::{combine, combine_into, copy, fill, negate};
use crate::Bits;
use crate::kernels::{Column, Logic, Operator};
use crate::written::Written;

/// Writes which truth values are true, and which aren't null.
pub fn combine_truths(
    trues: &mut Written<'_>,
    valid: &mut Written<'_>,
    left: Column<'_>,
    right: Column<'_>,
    logic: Logic,
) {
    let decides = logic == Logic::Or;
    // The bits that one of the two columns decides alone.
    write_where(trues, left, decides);
    write_where(valid, right, decides);
    combine(trues, valid.as_bits(), Operator::Or);
    match (left.1, right.1) {
        (Some(left), Some(right)) => combine_into(valid, left, right, Operator::And),
        (Some(one), None) | (None, Some(one)) => copy(valid, one),
        (None, None) => fill(valid, true),
    }
    combine(valid, trues.as_bits(), Operator::Or);
    if !decides {
        // True is valid and not false. All false results are valid, so that `xor` removes them.
        combine(trues, valid.as_bits(), Operator::Xor);
    }
}

/// Writes which truth values are valid and equal to `which`.
fn write_where(out: &mut Written<'_>, (bits, valid): Column<'_>, which: bool) {
    match (valid, which) {
        (Some(valid), true) => combine_into(out, valid, bits, Operator::And),
        (Some(valid), false) => combine_into(out, valid, bits, Operator::AndNot),
        (None, true) => copy(out, bits),
        (None, false) => {
            copy(out, bits);
            negate(out);
        }
    }
}

/// Does the same for at most 64 truth values.
#[inline]
pub fn combine_truth_word(
    trues: &mut Written<'_>,
    valid: &mut Written<'_>,
    left: Column<'_>,
    right: Column<'_>,
    logic: Logic,
) {
    let len = trues.len();
    let [left, right] = [left, right].map(|(bits, valid)| known(bits, valid, len));
    let (are_true, are_false) = match logic {
        Logic::And => (left.0 & right.0, left.1 | right.1),
        Logic::Or => (left.0 | right.0, left.1 & right.1),
    };
    trues.write(0, len, are_true);
    valid.write(0, len, are_true | are_false);
}

/// Returns which truth values are true, and which are false, as the lowest bits of words.
#[inline]
fn known(bits: Bits<'_>, valid: Option<Bits<'_>>, len: usize) -> (u64, u64) {
    let (bits, valid) = (only_word(bits), valid.map_or(low(len), only_word));
    (valid & bits, valid & !bits)
}
