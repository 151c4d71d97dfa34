//! The results of the calls, by loops over single bits.

use std::ops::Range;

use vortex_bits::Bits;

use crate::case::bit;

pub fn bits(window: Bits<'_>) -> Vec<bool> {
    let start = window.offset();
    (start..start + window.len())
        .map(|i| bit(window.bytes(), i))
        .collect()
}

/// The indices of the bits that are `value`.
pub fn places(list: &[bool], value: bool) -> Vec<usize> {
    (0..list.len()).filter(|&i| list[i] == value).collect()
}

/// The runs of true bits, each as long as can be.
pub fn runs(list: &[bool]) -> Vec<Range<usize>> {
    let mut runs: Vec<Range<usize>> = Vec::new();
    for start in places(list, true) {
        match runs.last_mut() {
            Some(run) if run.end == start => run.end += 1,
            _ => runs.push(start..start + 1),
        }
    }
    runs
}

/// Words of 64, the first bit lowest.
pub fn words(list: &[bool]) -> Vec<u64> {
    let word = |bits: &[bool]| (0..bits.len()).map(|i| u64::from(bits[i]) << i).sum();
    list.chunks(64).map(word).collect()
}
