//! A row of texts, and tests of one.

use core::ops::Range;

use crate::portable::first_eight;

/// A row: a range of the bytes of a buffer. Most rows fail a test by their length, so tests compare
/// it before any byte. They read eight bytes at once, even past the row, unless the buffer ends.
#[derive(Clone, Copy)]
pub(super) struct Row<'a> {
    buffer: &'a [u8],
    start: usize,
    end: usize,
}

impl<'a> Row<'a> {
    /// Returns the row in a range of a buffer. It has no bytes if the range isn't in bounds.
    #[inline]
    pub(super) fn new(buffer: &'a [u8], range: &Range<usize>) -> Row<'a> {
        let (start, end) = (range.start, range.end);
        Row { buffer, start, end }
    }

    /// Returns the row that has all of the bytes.
    #[inline]
    pub(super) fn whole(bytes: &'a [u8]) -> Row<'a> {
        Row::new(bytes, &(0..bytes.len()))
    }

    /// Returns the number of bytes; an arbitrary one if the range isn't in bounds.
    #[inline]
    pub(super) fn len(self) -> usize {
        self.end.wrapping_sub(self.start)
    }

    /// Returns the bytes; None if the range isn't in bounds.
    #[inline]
    pub(super) fn bytes(self) -> Option<&'a [u8]> {
        self.buffer.get(self.start..self.end)
    }

    /// Returns the first eight bytes as a little-endian number. Bytes after the end of the row are
    /// arbitrary.
    #[inline]
    pub(super) fn any_eight(self) -> u64 {
        eight_at(self.buffer, self.start)
    }

    /// Returns the first eight bytes as a little-endian number. Those that the row doesn't have
    /// are 0.
    #[inline]
    pub(super) fn first_eight(self) -> u64 {
        /// A mask of the lowest `n` bytes, for each `n`.
        const LOW: [u64; 9] = {
            let mut low = [u64::MAX; 9];
            let mut len = 0;
            while len < 8 {
                low[len] = (1 << (8 * len)) - 1;
                len += 1;
            }
            low
        };
        self.any_eight() & LOW[self.len().min(8)]
    }
}

/// Tests whether a row contains these bytes.
#[inline]
pub(super) fn contains(part: &[u8], row: Row<'_>) -> bool {
    match part {
        [] => row.bytes().is_some(),
        [first, rest @ ..] => {
            let is_in = |row| has(row, *first, rest);
            row.len() > rest.len() && row.bytes().is_some_and(is_in)
        }
    }
}

/// Returns whether the bytes contain `first` with `rest` after it. It looks for `first` in eight
/// bytes at once.
fn has(bytes: &[u8], first: u8, rest: &[u8]) -> bool {
    let is_there = |place: usize| {
        let found = bytes.get(place..).and_then(|behind| behind.split_first());
        found.is_some_and(|(byte, behind)| *byte == first && behind.starts_with(rest))
    };
    let mut start = 0;
    while start < bytes.len() {
        let mut places = equal_to(first_eight(&bytes[start..]), first);
        while places != 0 {
            if is_there(start + places.trailing_zeros() as usize / 8) {
                return true;
            }
            places &= places - 1;
        }
        start += 8;
    }
    false
}

/// Sets the highest bit of each byte of the word that equals `byte`, and of some bytes above it.
#[inline]
fn equal_to(word: u64, byte: u8) -> u64 {
    const ONES: u64 = u64::from_ne_bytes([1; 8]);
    let other = word ^ (ONES * u64::from(byte));
    other.wrapping_sub(ONES) & !other & ONES << 7
}

/// Returns eight bytes from an index on as a little-endian number. Missing bytes are 0. It tests
/// only whether the eight bytes end in bounds; the slow path is for the last ones.
#[inline]
pub(super) fn eight_at(bytes: &[u8], place: usize) -> u64 {
    let eight = bytes.get(place..place.wrapping_add(8));
    match eight.and_then(|eight| eight.first_chunk()) {
        Some(eight) => u64::from_le_bytes(*eight),
        None => last_of(bytes, place),
    }
}

/// Returns the bytes from an index on, fewer than eight, as a number.
#[cold]
fn last_of(bytes: &[u8], place: usize) -> u64 {
    first_eight(bytes.get(place..).unwrap_or_default())
}
