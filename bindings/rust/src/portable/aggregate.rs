//! Sums, minimum and maximum of values and of floats, 64 at a time.

use super::word::words;
use crate::Bits;
use crate::aggregate::{Summand, WideSummand};
use crate::float::Float;

pub fn masked_sum<T: WideSummand>(values: &[T], mask: Option<Bits<'_>>) -> T::Total {
    fold(values, mask, T::NOTHING, T::plus)
}

pub fn masked_checked_sum<T: WideSummand>(values: &[T], mask: Option<Bits<'_>>) -> Option<T> {
    T::narrow(masked_sum(values, mask))
}

pub fn masked_wrapping_sum<T: Summand>(values: &[T], mask: Option<Bits<'_>>) -> T {
    fold(values, mask, T::ZERO, T::wrapping_plus)
}

pub fn masked_min<T: Summand>(values: &[T], mask: Option<Bits<'_>>) -> Option<T> {
    from_first(values, mask, Ord::min)
}

pub fn masked_max<T: Summand>(values: &[T], mask: Option<Bits<'_>>) -> Option<T> {
    from_first(values, mask, Ord::max)
}

pub fn masked_float_sum<T: Float>(values: &[T], mask: Option<Bits<'_>>) -> T {
    fold(values, mask, T::ZERO, T::plus)
}

pub fn masked_float_min<T: Float>(values: &[T], mask: Option<Bits<'_>>) -> Option<T> {
    let lesser = |best: T, value: T| if value < best { value } else { best };
    extreme(values, mask, [T::INFINITY, T::NEG_ZERO], lesser)
}

pub fn masked_float_max<T: Float>(values: &[T], mask: Option<Bits<'_>>) -> Option<T> {
    let greater = |best: T, value: T| if value > best { value } else { best };
    extreme(values, mask, [T::NEG_INFINITY, T::ZERO], greater)
}

/// Returns the best of the selected numbers; None if there are none. `better` returns the better
/// one of a number and a value: the number if they are equal or the value is NaN. No number is
/// worse than `worst`, and `zero` is the better one of both zeros.
#[inline]
fn extreme<T: Float>(
    values: &[T],
    mask: Option<Bits<'_>>,
    [worst, zero]: [T; 2],
    better: impl Fn(T, T) -> T + Copy,
) -> Option<T> {
    let best = match mask {
        Some(_) => fold(values, mask, worst, better),
        None => in_lanes(values, worst, better),
    };
    let is_there = |number: T| fold(values, mask, false, |any, value| any | value.is(number));
    if best == zero && is_there(zero) {
        return Some(zero);
    }
    (best != worst || is_there(worst)).then_some(best)
}

/// Returns the same as [`all`] if the order of the values and repeated `start`s don't matter. It
/// keeps eight partial results until the end, so that no addition waits for the one before it.
#[inline]
fn in_lanes<T: Copy>(values: &[T], start: T, add: impl Fn(T, T) -> T + Copy) -> T {
    let mut lanes = [start; 8];
    let blocks = values.chunks_exact(lanes.len());
    let rest = all(blocks.remainder(), start, add);
    for block in blocks {
        let both = lanes.iter_mut().zip(block);
        both.for_each(|(lane, &value)| *lane = add(*lane, value));
    }
    lanes.into_iter().fold(rest, add)
}

/// Returns the first value, after `add` has added the others to it.
#[inline]
fn from_first<T: Copy>(
    values: &[T],
    mask: Option<Bits<'_>>,
    add: impl Fn(T, T) -> T + Copy,
) -> Option<T> {
    let first = mask.map_or(Some(0), |mask| super::next_set(mask, 0))?;
    // `add` also gets the first value, which it leaves as it is.
    let first = *values.get(first)?;
    Some(fold(values, mask, first, add))
}

/// Returns `start`, after `add` has added the selected values to it, in order. A mask has one bit
/// per value; without one all values are selected.
#[inline]
fn fold<T: Copy, S>(
    values: &[T],
    mask: Option<Bits<'_>>,
    start: S,
    add: impl Fn(S, T) -> S + Copy,
) -> S {
    match mask {
        None => all(values, start, add),
        Some(mask) => words(mask)
            .zip(values.chunks(64))
            .fold(start, |state, (mask, values)| {
                of_word(values, mask, state, add)
            }),
    }
}

/// Does the same with at most 64 values and a word of their bits.
#[inline]
fn of_word<T: Copy, S>(values: &[T], mask: u64, start: S, add: impl Fn(S, T) -> S) -> S {
    if mask.count_ones() as usize == values.len() {
        return all(values, start, add);
    }
    let (mut state, mut left) = (start, mask);
    while left != 0 {
        state = add(state, values[left.trailing_zeros() as usize]);
        left &= left - 1;
    }
    state
}

#[inline]
fn all<T: Copy, S>(values: &[T], start: S, add: impl Fn(S, T) -> S) -> S {
    values.iter().fold(start, |state, &value| add(state, value))
}
