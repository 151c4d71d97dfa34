//! The best values of a column, 64 at a time.

use alloc::vec::Vec;

use super::word::{low, word_at};
use super::write::word_of;
use crate::Bits;

/// Merges the selected values into the best ones of the rows before: at most `k`, the best first. A
/// mask has one bit per value, and the first value is that of row `first`. `is_better` is false for
/// equal values, and for a value that equals none, such as a NaN.
#[inline]
pub fn keep_best<T: PartialOrd + Copy>(
    best: &mut Vec<(T, usize)>,
    (k, first): (usize, usize),
    values: &[T],
    mask: Option<Bits<'_>>,
    is_better: impl Fn(T, T) -> bool + Copy,
) {
    /// The least number of values beyond `k` that it collects before it sorts them.
    const SPARE: usize = 64;
    if k == 0 {
        return;
    }
    let (most, mut sorted) = (k.saturating_add(k.max(SPARE)), best.len());
    let mut last = best.get(k - 1).copied();
    for (i, values) in values.chunks(64).enumerate() {
        let mut left = mask.map_or(low(values.len()), |mask| word_at(mask, i));
        if let Some((last, _)) = last {
            left &= better(values, |value| is_better(value, last));
        }
        while left != 0 {
            let row = left.trailing_zeros() as usize;
            if values[row].partial_cmp(&values[row]).is_some() {
                best.push((values[row], first + 64 * i + row));
            }
            left &= left - 1;
        }
        if best.len() >= most {
            sort(best, is_better);
            best.truncate(k);
            (sorted, last) = (best.len(), best.get(k - 1).copied());
        }
    }
    match best.len() - sorted {
        0 => {}
        1..=FEW => insert(best, sorted, is_better),
        _ => sort(best, is_better),
    }
    best.truncate(k);
}

/// The greatest number of new values that are inserted. A sort of all values would compare each of
/// them and allocate memory for half of them. The sort and the moves of so few values need only the
/// stack.
const FEW: usize = 16;

/// Inserts the values from index `sorted` on among those before, each one after its equals. It
/// doesn't allocate.
fn insert<T: Copy>(
    best: &mut [(T, usize)],
    sorted: usize,
    is_better: impl Fn(T, T) -> bool + Copy,
) {
    sort(&mut best[sorted..], is_better);
    // Inserts the last new value first. The other new ones move along in front of it, so that each
    // old value moves once.
    let mut end = sorted;
    for added in (1..=best.len() - sorted).rev() {
        let (value, _) = best[end + added - 1];
        let place = best[..end].partition_point(|&(other, _)| !is_better(value, other));
        best[place..end + added].rotate_right(added);
        end = place;
    }
}

/// Returns which of up to 64 values pass the test. In most blocks none does; a loop without
/// branches tests that first.
#[inline]
fn better<T: Copy>(values: &[T], is_better: impl Fn(T) -> bool + Copy) -> u64 {
    if !values
        .iter()
        .fold(false, |any, &value| any | is_better(value))
    {
        return 0;
    }
    match values.first_chunk() {
        Some(values) => word_of(values, is_better),
        None => super::write::few(values, is_better),
    }
}

/// Sorts the values, the best first. They come in the order of their rows, and the sort keeps it
/// for equal ones.
fn sort<T: Copy>(best: &mut [(T, usize)], is_better: impl Fn(T, T) -> bool) {
    best.sort_by(|&(one, _), &(other, _)| is_better(other, one).cmp(&is_better(one, other)));
}
