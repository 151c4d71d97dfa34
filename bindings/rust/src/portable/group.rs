//! Counts and sums by group, 64 rows at a time.

use super::word::{low, word_at};
use crate::group::GroupSummand;
use crate::{BitIndex, Bits};

/// Counts the selected rows of each group. A mask has one bit per code. Returns the first selected
/// row whose code has no count, with the counts unchanged; None if there is none.
pub fn group_counts<I: BitIndex>(
    counts: &mut [u64],
    codes: &[I],
    mask: Option<Bits<'_>>,
) -> Option<usize> {
    let plus = |count: u64, _| count.wrapping_add(1);
    let minus = |count: u64, _| count.wrapping_sub(1);
    add_or_undo(counts, (codes, codes), mask, plus, minus)
}

/// Adds the selected values to the sums of their groups. There is one value per code. Returns the
/// first selected row whose code has no sum, with the sums unchanged; None if there is none.
pub fn group_sums<V: GroupSummand, I: BitIndex>(
    sums: &mut [V::Sum],
    codes: &[I],
    values: &[V],
    mask: Option<Bits<'_>>,
) -> Option<usize> {
    if let Some(minus) = V::MINUS {
        return add_or_undo(sums, (codes, values), mask, V::plus, minus);
    }
    let past = first_past(codes, mask, sums.len());
    if past.is_none() {
        add(sums, (codes, values), mask, V::plus);
    }
    past
}

/// Replaces the best value of each group by each selected value of the group that is better. There
/// is one value per code. A value that doesn't equal itself, such as a NaN, isn't better than any,
/// and each other one is better than it. Returns the first selected row whose code has no best
/// value, with these unchanged; None if there is none.
pub fn group_best<V: PartialOrd + Copy, I: BitIndex>(
    best: &mut [Option<V>],
    codes: &[I],
    values: &[V],
    mask: Option<Bits<'_>>,
    is_better: impl Fn(V, V) -> bool,
) -> Option<usize> {
    let past = first_past(codes, mask, best.len());
    if past.is_none() {
        let is_number = |it: &V| it.partial_cmp(it).is_some();
        add(best, (codes, values), mask, |best, value: V| {
            let is_first = best.filter(is_number).is_none_or(|it| is_better(value, it));
            if is_first && is_number(&value) {
                Some(value)
            } else {
                best
            }
        });
    }
    past
}

/// Adds as [`add`] does. If a code has no total, it calls `minus` to subtract the values that the
/// rows before it have added.
#[inline]
fn add_or_undo<I: BitIndex, V: Copy, S: Copy>(
    totals: &mut [S],
    (codes, values): (&[I], &[V]),
    mask: Option<Bits<'_>>,
    plus: impl Fn(S, V) -> S,
    minus: impl Fn(S, V) -> S,
) -> Option<usize> {
    let past = add(totals, (codes, values), mask, plus)?;
    let mask = mask.map(|mask| mask.part(0, past));
    add(totals, (&codes[..past], &values[..past]), mask, minus);
    Some(past)
}

/// Adds each selected value to the total of its row's group, up to a code that has no total.
/// Returns that row.
#[inline]
fn add<I: BitIndex, V: Copy, S: Copy>(
    totals: &mut [S],
    (codes, values): (&[I], &[V]),
    mask: Option<Bits<'_>>,
    plus: impl Fn(S, V) -> S,
) -> Option<usize> {
    let mut is_past = |code: I, value: V| {
        let Some(total) = code.place().and_then(|place| totals.get_mut(place)) else {
            return true;
        };
        *total = plus(*total, value);
        false
    };
    let mut blocks = codes.chunks(64).zip(values.chunks(64)).enumerate();
    blocks.find_map(|(i, (codes, values))| {
        let selected = selected(mask, i, codes.len());
        let past = if selected == low(codes.len()) {
            let mut rows = codes.iter().zip(values);
            rows.position(|(&code, &value)| is_past(code, value))
        } else {
            first_set(selected, |row| is_past(codes[row], values[row]))
        };
        past.map(|row| 64 * i + row)
    })
}

/// Returns the first selected row whose code isn't below `groups`.
#[inline]
pub fn first_past<I: BitIndex>(
    codes: &[I],
    mask: Option<Bits<'_>>,
    groups: usize,
) -> Option<usize> {
    let is_past = |code: &I| code.place().is_none_or(|place| place >= groups);
    codes.chunks(64).enumerate().find_map(|(i, codes)| {
        if !I::any_past(codes, groups) {
            return None;
        }
        let past = first_set(selected(mask, i, codes.len()), |row| is_past(&codes[row]));
        past.map(|row| 64 * i + row)
    })
}

/// Returns the first set bit of a word that passes the test.
#[inline]
fn first_set(word: u64, mut test: impl FnMut(usize) -> bool) -> Option<usize> {
    let mut left = word;
    while left != 0 {
        let row = left.trailing_zeros() as usize;
        if test(row) {
            return Some(row);
        }
        left &= left - 1;
    }
    None
}

/// Returns the bits of the `len` rows from row `64 * i` on.
#[inline]
fn selected(mask: Option<Bits<'_>>, i: usize, len: usize) -> u64 {
    mask.map_or(low(len), |mask| word_at(mask, i))
}
