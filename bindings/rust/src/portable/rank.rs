//! Rank and select over a table with an entry for each block of 512 bits. With a table of another
//! window the results mean nothing.

use super::count::{count_ones, select, select_unset};
use crate::Bits;
use crate::rank::BLOCK;

fn block(bits: Bits<'_>, i: usize) -> Bits<'_> {
    bits.part(BLOCK * i, (bits.len() - BLOCK * i).min(BLOCK))
}

/// Writes the number of set bits before each block, and returns the number of blocks.
pub fn block_counts(bits: Bits<'_>, table: &mut [usize]) -> usize {
    let mut before = 0;
    for (i, entry) in table.iter_mut().enumerate() {
        *entry = before;
        before += count_ones(block(bits, i));
    }
    table.len()
}

/// Returns the number of set bits among the first `place` bits, which is at most the length.
pub fn rank(bits: Bits<'_>, table: &[usize], place: usize) -> usize {
    let Some(last) = table.len().checked_sub(1) else {
        return 0;
    };
    let i = (place / BLOCK).min(last);
    table[i].wrapping_add(count_ones(bits.part(BLOCK * i, place - BLOCK * i)))
}

pub fn ranked_select(bits: Bits<'_>, table: &[usize], n: usize) -> Option<usize> {
    let (i, before) = last_block(table.len(), n, |i| table[i])?;
    Some(BLOCK * i + select(block(bits, i), n - before)?)
}

pub fn ranked_select_unset(bits: Bits<'_>, table: &[usize], n: usize) -> Option<usize> {
    let (i, before) = last_block(table.len(), n, |i| (BLOCK * i).wrapping_sub(table[i]))?;
    Some(BLOCK * i + select_unset(block(bits, i), n - before)?)
}

/// Returns the last block with at most `n` bits before it, and their number. Does a binary search.
fn last_block(blocks: usize, n: usize, before: impl Fn(usize) -> usize) -> Option<(usize, usize)> {
    let (mut start, mut end) = (0, blocks);
    while start < end {
        let middle = start + (end - start) / 2;
        if before(middle) <= n {
            start = middle + 1;
        } else {
            end = middle;
        }
    }
    let i = start.checked_sub(1)?;
    Some((i, before(i)))
}
