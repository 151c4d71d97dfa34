//! Writes the indices of set bits, and runs of set and unset bits, into a slice. It reads nothing
//! once the slice is full.

use super::word::{low, word_at};
use crate::Bits;
use crate::kernels::{Index, Run};

pub fn set_slices(bits: Bits<'_>, out: &mut [Run]) -> usize {
    slices(bits, out, |word| word)
}

pub fn unset_slices(bits: Bits<'_>, out: &mut [Run]) -> usize {
    slices(bits, out, |word| !word)
}

/// Returns the `i`-th word of a window after `seen` maps it, with zeros after the window's end.
#[inline]
fn seen_at(bits: Bits<'_>, i: usize, seen: impl Fn(u64) -> u64) -> u64 {
    seen(word_at(bits, i)) & low(bits.len() - 64 * i)
}

pub fn set_indices<I: Index>(bits: Bits<'_>, out: &mut [I]) -> usize {
    let (mut written, mut i) = (0, 0);
    while written < out.len() && i < bits.len().div_ceil(64) {
        let mut word = word_at(bits, i);
        while word != 0 {
            let Some(place) = out.get_mut(written) else {
                return written;
            };
            *place = I::of(64 * i + word.trailing_zeros() as usize);
            word &= word - 1;
            written += 1;
        }
        i += 1;
    }
    written
}

/// Writes the runs of set bits after `seen` maps each word. Each bit that differs from the one
/// before it begins or ends a run.
#[inline]
fn slices(bits: Bits<'_>, out: &mut [Run], seen: impl Fn(u64) -> u64 + Copy) -> usize {
    let (mut written, mut i) = (0, 0);
    let (mut begun, mut last) = (None, 0);
    while written < out.len() && i < bits.len().div_ceil(64) {
        let word = seen_at(bits, i, seen);
        let mut edges = word ^ (word << 1 | last);
        last = word >> 63;
        while edges != 0 {
            let place = 64 * i + edges.trailing_zeros() as usize;
            edges &= edges - 1;
            let Some(start) = begun.take() else {
                begun = Some(place);
                continue;
            };
            let Some(run) = out.get_mut(written) else {
                return written;
            };
            *run = Run { start, end: place };
            written += 1;
        }
        i += 1;
    }
    if let (Some(start), Some(run)) = (begun, out.get_mut(written)) {
        let end = bits.len();
        *run = Run { start, end };
        written += 1;
    }
    written
}
