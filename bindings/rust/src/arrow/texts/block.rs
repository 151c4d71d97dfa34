//! Up to 64 rows of texts that follow each other in one buffer.

use core::ops::Range;

use super::row::{Row, eight_at};
use crate::arrow::ranges::{Ranges, Spans};
use crate::portable::word_of;

/// The bytes of up to 64 rows, and where the rows are in them. There are always 64: those behind
/// the last one are empty. So loops over them have a known length, and the compiler vectorizes
/// them.
#[derive(Clone, Copy)]
pub(super) struct Block<'a> {
    /// From the start of the first row to the end of the buffer.
    bytes: &'a [u8],
    spans: &'a Spans,
}

impl<'a> Block<'a> {
    /// Returns the block of up to 64 rows of a buffer, and writes their spans. It returns None if
    /// the rows have too many bytes.
    #[inline]
    pub(super) fn new(
        ranges: Ranges<'_>,
        rows: Range<usize>,
        bytes: &'a [u8],
        spans: &'a mut Spans,
    ) -> Option<Self> {
        let start = ranges.write_spans(rows, spans)?;
        let bytes = bytes.get(start..)?;
        Some(Block { bytes, spans })
    }

    /// Returns the bytes from the start of the first row to the end of the buffer.
    #[inline]
    pub(super) fn bytes(self) -> &'a [u8] {
        self.bytes
    }

    /// Returns the range of a row in the bytes.
    #[inline]
    pub(super) fn range(self, row: usize) -> Range<usize> {
        let start = self.spans.starts[row] as usize;
        start..start + self.spans.lens[row] as usize
    }

    #[inline]
    pub(super) fn row(self, row: usize) -> Row<'a> {
        Row::new(self.bytes, &self.range(row))
    }

    /// Returns the rows whose number of bytes passes the test.
    #[inline]
    pub(super) fn lens_that(self, test: impl Fn(u32) -> bool) -> u64 {
        let halves = [self.spans.lens.first_chunk(), self.spans.lens.last_chunk()];
        let [low, high] = halves.map(|lens| lens.map_or(0, |lens| half(lens, &test)));
        u64::from(low) | u64::from(high) << 32
    }

    /// Returns eight bytes from index `behind` of a row on, as a little-endian number. Bytes after
    /// the end of the row are arbitrary.
    #[inline]
    pub(super) fn eight(self, row: usize, behind: usize) -> u64 {
        eight_at(self.bytes, self.spans.starts[row] as usize + behind)
    }

    /// Returns which of `rows` pass a test of their first eight bytes as a little-endian number.
    /// Bytes after the end of the row are arbitrary.
    #[inline]
    pub(super) fn starts_that(self, rows: u64, test: impl Fn(u64) -> bool) -> u64 {
        eights_that(self.bytes, &self.spans.starts, rows, test)
    }

    /// Does the same for the eight bytes that begin `back` bytes before the end of the row.
    #[inline]
    pub(super) fn ends_that(self, back: u32, rows: u64, test: impl Fn(u64) -> bool) -> u64 {
        let mut places = self.spans.starts;
        for (place, len) in places.iter_mut().zip(&self.spans.lens) {
            *place = (*place + len).wrapping_sub(back);
        }
        eights_that(self.bytes, &places, rows, test)
    }

    /// Returns which of the 64 rows has the byte at an index.
    #[inline]
    pub(super) fn row_of(self, place: usize) -> usize {
        let starts = &self.spans.starts;
        starts.partition_point(|start| *start as usize <= place) - 1
    }
}

/// Returns which of 32 numbers pass the test. It is a separate function with a result of 32 bits,
/// so that the compiler uses vectors with 32 bits per number: a result of 64 bits takes twice as
/// many instructions.
#[inline(never)]
fn half(numbers: &[u32; 32], test: impl Fn(u32) -> bool) -> u32 {
    let numbers = DIGITS.iter().zip(numbers);
    numbers.fold(0, |word, (digit, number)| {
        word | if test(*number) { *digit } else { 0 }
    })
}

/// The bit of each of 32 rows.
const DIGITS: [u32; 32] = {
    let mut digits = [1; 32];
    let mut row = 1;
    while row < 32 {
        digits[row] = digits[row - 1] << 1;
        row += 1;
    }
    digits
};

/// Returns which of 64 indices pass the test, among those whose bit of `wanted` is set. The test
/// gets the eight bytes from an index on, as a little-endian number.
#[inline]
fn eights_that(bytes: &[u8], places: &[u32; 64], wanted: u64, test: impl Fn(u64) -> bool) -> u64 {
    let (mut passed, end) = ([false; 64], 64 - wanted.leading_zeros() as usize);
    // Eight at once, so that the compiler unrolls the inner loop. It reads no group of eight after
    // that of the last wanted index: later indices may be those of empty rows at the end of the
    // bytes, which are slower to read.
    let eights = passed.chunks_exact_mut(8).zip(places.chunks_exact(8));
    for (passed, places) in eights.take(end.div_ceil(8)) {
        for (passed, place) in passed.iter_mut().zip(places) {
            *passed = test(eight_at(bytes, *place as usize));
        }
    }
    wanted & word_of(&passed, |passed| passed)
}
