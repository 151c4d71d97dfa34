//! Tests of rows, one by one or 64 at once.

use super::block::Block;
use super::row::{self, Row};
use super::search::Part;
use crate::arrow::ranges::each_set;
use crate::portable::{first_eight, low};

/// A test of rows.
pub(super) trait Test {
    /// From this number of rows of 64 on, it is faster to test a block than each row.
    const MANY: u32;

    /// Whether the code expects that most rows are no [`candidates`](Test::candidates).
    const IS_RARE: bool = false;

    /// Tests a row.
    fn of_row(&self, row: Row<'_>) -> bool;

    /// Returns which of `rows` may pass the test, if that takes much less time than the test.
    #[inline]
    fn candidates(&self, _: Block<'_>, rows: u64) -> u64 {
        rows
    }

    /// Returns which rows of a block pass the test, among those whose bit of `rows` is set and that
    /// [`candidates`](Test::candidates) returned. Other bits are arbitrary.
    fn of_candidates(&self, block: Block<'_>, rows: u64) -> u64;
}

/// Some bytes, and the first eight of them as a number.
#[derive(Clone, Copy)]
pub(super) struct Text<'a> {
    pub(super) bytes: &'a [u8],
    /// The number of bytes. No row of a block has `u32::MAX`.
    len: u32,
    first: u64,
    /// A mask of the first eight bytes that the text has.
    digits: u64,
}

impl<'a> Text<'a> {
    pub(super) fn new(bytes: &'a [u8]) -> Self {
        Text {
            bytes,
            len: u32::try_from(bytes.len()).unwrap_or(u32::MAX),
            first: first_eight(bytes),
            digits: low(8 * bytes.len().min(8)),
        }
    }

    /// Returns whether eight bytes begin as the text does.
    #[inline]
    pub(super) fn begins(&self, eight: u64) -> bool {
        (eight ^ self.first) & self.digits == 0
    }

    /// Returns the rows that match, among those whose first eight bytes match. Calls `test` only if
    /// the text is longer.
    #[inline]
    fn all(&self, rows: u64, test: impl Fn(usize) -> bool) -> u64 {
        if self.bytes.len() <= 8 {
            rows
        } else {
            each_set(rows, test)
        }
    }
}

/// Tests whether a row has exactly these bytes.
pub(super) struct Equals<'a>(Text<'a>);

impl<'a> Equals<'a> {
    pub(super) fn new(text: &'a [u8]) -> Self {
        Equals(Text::new(text))
    }
}

impl Test for Equals<'_> {
    const MANY: u32 = 16;
    const IS_RARE: bool = true;

    #[inline]
    fn of_row(&self, row: Row<'_>) -> bool {
        row.len() == self.0.bytes.len() && row.bytes() == Some(self.0.bytes)
    }

    #[inline]
    fn candidates(&self, block: Block<'_>, rows: u64) -> u64 {
        rows & block.lens_that(|len| len == self.0.len)
    }

    fn of_candidates(&self, block: Block<'_>, rows: u64) -> u64 {
        let text = &self.0;
        match text.bytes.len() {
            0..=8 => each_set(rows, |row| text.begins(block.eight(row, 0))),
            // The first eight bytes and the last eight are the whole text. It compares both without
            // a branch.
            9..=16 => {
                let behind = text.bytes.len() - 8;
                let last = first_eight(&text.bytes[behind..]);
                each_set(rows, |row| {
                    let other = block.eight(row, 0) ^ text.first;
                    other | block.eight(row, behind) ^ last == 0
                })
            }
            _ => each_set(rows, |row| {
                text.begins(block.eight(row, 0)) && block.row(row).bytes() == Some(text.bytes)
            }),
        }
    }
}

/// Tests whether a row comes before a text.
pub(super) struct LessThan<'a>(&'a [u8]);

impl<'a> LessThan<'a> {
    pub(super) fn new(text: &'a [u8]) -> Self {
        LessThan(text)
    }
}

impl Test for LessThan<'_> {
    const MANY: u32 = 24;

    #[inline]
    fn of_row(&self, row: Row<'_>) -> bool {
        row.bytes().is_some_and(|row| row < self.0)
    }

    fn of_candidates(&self, block: Block<'_>, rows: u64) -> u64 {
        each_set(rows, |row| self.of_row(block.row(row)))
    }
}

/// Tests whether a row begins with these bytes.
pub(super) struct StartsWith<'a>(Text<'a>);

impl<'a> StartsWith<'a> {
    pub(super) fn new(start: &'a [u8]) -> Self {
        StartsWith(Text::new(start))
    }
}

impl Test for StartsWith<'_> {
    const MANY: u32 = 24;

    #[inline]
    fn of_row(&self, row: Row<'_>) -> bool {
        let start = &self.0;
        row.len() >= start.bytes.len()
            && start.begins(row.any_eight())
            && row
                .bytes()
                .is_some_and(|row| start.bytes.len() <= 8 || row.starts_with(start.bytes))
    }

    fn of_candidates(&self, block: Block<'_>, rows: u64) -> u64 {
        let start = &self.0;
        let fit = rows & block.lens_that(|len| len >= start.len);
        let begin = block.starts_that(fit, |eight| start.begins(eight));
        start.all(begin, |row| {
            block
                .row(row)
                .bytes()
                .is_some_and(|row| row.starts_with(start.bytes))
        })
    }
}

/// Tests whether a row ends with these bytes.
pub(super) struct EndsWith<'a>(Text<'a>);

impl<'a> EndsWith<'a> {
    pub(super) fn new(end: &'a [u8]) -> Self {
        EndsWith(Text::new(end))
    }
}

impl Test for EndsWith<'_> {
    const MANY: u32 = 24;

    #[inline]
    fn of_row(&self, row: Row<'_>) -> bool {
        let end = self.0.bytes;
        row.len() >= end.len() && row.bytes().is_some_and(|row| row.ends_with(end))
    }

    fn of_candidates(&self, block: Block<'_>, rows: u64) -> u64 {
        let end = &self.0;
        let fit = rows & block.lens_that(|len| len >= end.len);
        let found = block.ends_that(end.len, fit, |eight| end.begins(eight));
        end.all(found, |row| {
            block
                .row(row)
                .bytes()
                .is_some_and(|row| row.ends_with(end.bytes))
        })
    }
}

/// Tests whether a row contains these bytes.
pub(super) struct Contains<'a>(pub &'a [u8]);

impl Test for Contains<'_> {
    const MANY: u32 = 20;

    #[inline]
    fn of_row(&self, row: Row<'_>) -> bool {
        row::contains(self.0, row)
    }

    /// It searches the bytes of consecutive rows in one pass.
    fn of_candidates(&self, block: Block<'_>, rows: u64) -> u64 {
        /// Rows of up to this number of bytes are searched even if their bits aren't needed: that
        /// is faster than to begin again behind them.
        const SHORT: u32 = 16;
        let Some(part) = Part::new(self.0) else {
            return rows;
        };
        let (mut passed, mut left) = (0, rows | block.lens_that(|len| len <= SHORT));
        while left != 0 {
            let from = left.trailing_zeros() as usize;
            let number = (left >> from).trailing_ones() as usize;
            passed |= match number {
                1 => u64::from(self.of_row(block.row(from))) << from,
                _ => part.rows(block, &(from..from + number)),
            };
            left &= !(low(number) << from);
        }
        passed
    }
}
