//! Filters bits and values by a mask, values also in place, and scatters them to the indices of a
//! mask's set bits.

use super::word::{only_word, word_at, words};
use crate::Bits;
use crate::written::Written;

/// Writes the bits of `source` that `mask` selects to the front of `out`. `mask` is as long as
/// `source`, and `out` has space for the selected bits.
pub fn filter(out: &mut Written<'_>, source: Bits<'_>, mask: Bits<'_>) {
    // The lowest `full` bits of `pending` are to be written from `at` on.
    let (mut at, mut pending, mut full) = (0, 0, 0);
    for i in 0..mask.len().div_ceil(64) {
        let chosen = word_at(mask, i);
        if chosen == 0 {
            continue;
        }
        let (kept, word) = (chosen.count_ones(), compress(word_at(source, i), chosen));
        pending |= word << full;
        full += kept;
        if full >= 64 {
            out.write(at, 64, pending);
            at += 64;
            full -= 64;
            // The highest `full` bits of this word are left.
            pending = word.checked_shr(kept - full).unwrap_or(0);
        }
    }
    out.write(at, full as usize, pending);
}

/// Writes the values that `mask` selects to `out`, and returns their number. There is one value per
/// bit of `mask`, and one item of `out` per set bit.
#[inline]
pub fn keep<T: Copy>(out: &mut [T], values: &[T], mask: Bits<'_>) -> usize {
    /// If a word of 64 selects at least this number of values, it is faster to write each value.
    /// The code expects each word to select the same number as the last one did.
    const MANY: usize = 28;
    let (mut at, mut last) = (0, 0);
    for (mask, values) in words(mask).zip(values.chunks(64)) {
        if mask == 0 {
            last = 0;
            continue;
        }
        let out = &mut out[at..];
        last = match (out.first_chunk_mut(), values.first_chunk()) {
            (Some(out), Some(values)) if mask == u64::MAX => {
                *out = *values;
                64
            }
            (Some(out), Some(values)) if last >= MANY => write_each(out, values, mask),
            _ => write_kept(out, values, mask),
        };
        at += last;
    }
    at
}

/// Writes each value over the last one if that isn't selected, without a branch. The items after
/// the selected ones hold anything. Returns the number of selected values.
#[inline]
fn write_each<T: Copy>(out: &mut [T; 64], values: &[T; 64], mask: u64) -> usize {
    let mut at = 0;
    for (values, mask) in values.chunks_exact(8).zip(mask.to_le_bytes()) {
        // There is space: no more values are selected than it has read.
        let Some(out) = out[at..].first_chunk_mut::<8>() else {
            return at;
        };
        let mut kept = 0;
        for (row, &value) in values.iter().enumerate() {
            out[kept % 8] = value;
            kept += usize::from(mask >> row & 1);
        }
        at += kept;
    }
    at
}

/// Writes the selected values one by one, and returns their number.
#[inline]
fn write_kept<T: Copy>(out: &mut [T], values: &[T], mask: u64) -> usize {
    let (mut at, mut left) = (0, mask);
    while left != 0 {
        out[at] = values[left.trailing_zeros() as usize];
        at += 1;
        left &= left - 1;
    }
    at
}

/// Moves the values that `mask` selects to the front, and returns their number. The values from
/// that index on are unchanged. There is one value per bit of `mask`.
#[inline]
pub fn retain<T: Copy>(values: &mut [T], mask: Bits<'_>) -> usize {
    let mut at = 0;
    for (i, mask) in words(mask).enumerate() {
        if mask == u64::MAX {
            values.copy_within(64 * i..64 * i + 64, at);
            at += 64;
            continue;
        }
        let mut left = mask;
        while left != 0 {
            values[at] = values[64 * i + left.trailing_zeros() as usize];
            at += 1;
            left &= left - 1;
        }
    }
    at
}

/// Returns the bits of `word` at the set bits of `mask`, moved together at the low end (`pext`).
///
/// Round k moves the bits whose number of gaps below them has bit k set (Hacker's Delight, 7-4).
fn compress(word: u64, mask: u64) -> u64 {
    if mask == u64::MAX || mask == 0 {
        return word & mask;
    }
    if mask.count_ones() <= FEW {
        return one_by_one(word, mask);
    }
    let (mut word, mut mask, mut gaps) = (word & mask, mask, !mask << 1);
    for step in [1, 2, 4, 8, 16, 32] {
        let odd = [1, 2, 4, 8, 16, 32]
            .iter()
            .fold(gaps, |odd, by| odd ^ odd << by);
        let moved = odd & mask;
        mask = mask ^ moved | moved >> step;
        let digits = word & moved;
        word = word ^ digits | digits >> step;
        gaps &= !odd;
    }
    word
}

/// For a mask of up to this number of set bits, a step per bit is faster than the rounds.
const FEW: u32 = 16;

/// Returns the same as [`compress`] does, by a step for each set bit of the mask.
fn one_by_one(word: u64, mask: u64) -> u64 {
    let (mut kept, mut left, mut at) = (0, mask, 0);
    while left != 0 {
        kept |= (word >> left.trailing_zeros() & 1) << at;
        at += 1;
        left &= left - 1;
    }
    kept
}

/// Writes the bits of `source` to the indices of the set bits of `mask`, and false elsewhere.
/// `source` has one bit per set bit of `mask`, and `out` is as long as `mask`.
pub fn deposit(out: &mut Written<'_>, source: Bits<'_>, mask: Bits<'_>) {
    let mut at = 0;
    for (i, mask) in words(mask).enumerate() {
        let kept = mask.count_ones() as usize;
        let word = expand(only_word(source.part(at, kept)), mask);
        out.write(64 * i, (out.len() - 64 * i).min(64), word);
        at += kept;
    }
}

/// Returns the lowest bits of `word`, one per set bit of `mask`, at the indices of those (`pdep`).
fn expand(word: u64, mask: u64) -> u64 {
    let (mut digits, mut left, mut placed) = (word, mask, 0);
    while left != 0 {
        placed |= left & left.wrapping_neg() & (digits & 1).wrapping_neg();
        digits >>= 1;
        left &= left - 1;
    }
    placed
}

/// Writes the values, one for each set bit of `mask`, to the items at the indices of these. `out`
/// is as long as `mask`.
#[inline]
pub fn scatter<T: Copy>(out: &mut [T], values: &[T], mask: Bits<'_>) {
    let mut rest = values;
    for (mask, out) in words(mask).zip(out.chunks_mut(64)) {
        let (values, behind) = rest.split_at(mask.count_ones() as usize);
        rest = behind;
        if values.len() == out.len() {
            out.copy_from_slice(values);
            continue;
        }
        let mut left = mask;
        for &value in values {
            out[left.trailing_zeros() as usize] = value;
            left &= left - 1;
        }
    }
}
