//! Searches for some bytes in many rows at once. It compares the first and the last byte at 64
//! indices by vectors, and then all bytes where both match.

use core::ops::Range;

use super::block::Block;
use super::row::eight_at;
use super::test::Text;
use crate::portable::{low, word_of};

/// The bytes that a search looks for, at least one.
#[derive(Clone, Copy)]
pub(super) struct Part<'a> {
    text: Text<'a>,
    first: u8,
    last: u8,
}

impl<'a> Part<'a> {
    /// Returns the part with these bytes; None if there are none.
    pub(super) fn new(bytes: &'a [u8]) -> Option<Self> {
        let (first, last) = (*bytes.first()?, *bytes.last()?);
        let text = Text::new(bytes);
        Some(Part { text, first, last })
    }

    #[inline]
    fn len(&self) -> usize {
        self.text.bytes.len()
    }

    /// Returns whether the part is at an index of some bytes.
    #[inline]
    fn is_at(&self, bytes: &[u8], place: usize) -> bool {
        self.text.begins(eight_at(bytes, place))
            && (self.len() <= 8 || bytes[place..].starts_with(self.text.bytes))
    }

    /// Returns which of the 64 indices from `place` on have the first byte of the part, with its
    /// last byte at the same distance as in the part.
    #[inline]
    fn candidates(&self, bytes: &[u8], place: usize) -> u64 {
        let firsts = sixty_four(bytes, place);
        let lasts = sixty_four(bytes, place + self.len() - 1);
        let mut both = [0; 64];
        for ((both, first), last) in both.iter_mut().zip(&firsts).zip(&lasts) {
            *both = u8::from(*first == self.first) & u8::from(*last == self.last);
        }
        // Most groups of 64 have no candidate. It is faster to test that before packing the bits.
        match both.iter().fold(0, |any, both| any | both) {
            0 => 0,
            _ => word_of(&both, |both| both == 1),
        }
    }

    /// Returns which rows of a block, among those of a range that isn't empty, contain the part.
    pub(super) fn rows(&self, block: Block<'_>, rows: &Range<usize>) -> u64 {
        let (mut place, end) = (block.range(rows.start).start, block.range(rows.end - 1).end);
        let mut passed = 0;
        while place + self.len() <= end {
            let left = end - self.len() + 1 - place;
            let candidates = self.candidates(block.bytes(), place) & low(left.min(64));
            let (found, next) = self.found(block, place, candidates);
            passed |= found;
            place = next;
        }
        passed
    }

    /// Returns the rows of a block that contain the part at one of the candidates, which are among
    /// the 64 indices from `start` on, and the index at which the search continues. After a match
    /// it skips the rest of the row.
    #[inline]
    fn found(&self, block: Block<'_>, start: usize, candidates: u64) -> (u64, usize) {
        let (mut passed, mut left) = (0, candidates);
        while left != 0 {
            let place = start + left.trailing_zeros() as usize;
            left &= left - 1;
            if !self.is_at(block.bytes(), place) {
                continue;
            }
            let row = block.row_of(place);
            let end = block.range(row).end;
            passed |= u64::from(place + self.len() <= end) << row;
            if end >= start + 64 {
                return (passed, end);
            }
            left &= !low(end - start);
        }
        (passed, start + 64)
    }
}

/// Returns 64 bytes from an index on. Missing bytes are 0.
#[inline]
fn sixty_four(bytes: &[u8], place: usize) -> [u8; 64] {
    let all = bytes.get(place..place.wrapping_add(64));
    match all.and_then(|all| all.first_chunk()) {
        Some(all) => *all,
        None => last_of(bytes, place),
    }
}

/// Returns the bytes from an index on, fewer than 64, with zeros after them.
#[cold]
fn last_of(bytes: &[u8], place: usize) -> [u8; 64] {
    let (mut all, bytes) = ([0; 64], bytes.get(place..).unwrap_or_default());
    for (all, byte) in all.iter_mut().zip(bytes) {
        *all = *byte;
    }
    all
}
