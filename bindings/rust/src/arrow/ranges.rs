//! The range of bytes or items that each row of texts or lists has.

mod offsets;

use core::fmt;
use core::iter::FusedIterator;
use core::mem;
use core::ops::Range;

use super::error::Fault;
use super::primitive::Unaligned;
use crate::Bits;
pub(super) use offsets::{Offset, Spans};

/// The range of each row, in the bytes of texts or in the items of lists.
/// [`Array::ranges`](super::Array::ranges) returns it. The ranges ascend: each row begins at the
/// end of the one before it.
#[derive(Clone, Copy)]
pub struct Ranges<'a>(Offsets<'a>);

/// One offset more than there are rows, or none. The offsets of the rows that are read ascend: each
/// is at least the one before.
#[derive(Clone, Copy)]
pub(super) enum Offsets<'a> {
    Narrow(Unaligned<'a, i32>),
    Wide(Unaligned<'a, i64>),
}

impl<'a> Ranges<'a> {
    /// Returns the ranges between offsets of 32 bits, without a test.
    pub(super) fn narrow(offsets: Unaligned<'a, i32>) -> Self {
        Ranges(Offsets::Narrow(offsets))
    }

    /// Returns the ranges between offsets of 64 bits, without a test.
    pub(super) fn wide(offsets: Unaligned<'a, i64>) -> Self {
        Ranges(Offsets::Wide(offsets))
    }

    /// Tests each offset.
    pub(super) fn ascend(&self) -> Result<(), Fault> {
        match self.0 {
            Offsets::Narrow(offsets) => offsets::ascend(offsets),
            Offsets::Wide(offsets) => offsets::ascend(offsets),
        }
    }

    /// Returns the number of rows.
    #[inline]
    #[must_use]
    pub fn len(&self) -> usize {
        let offsets = match self.0 {
            Offsets::Narrow(offsets) => offsets.len(),
            Offsets::Wide(offsets) => offsets.len(),
        };
        offsets.saturating_sub(1)
    }

    /// Returns whether there are no rows.
    #[inline]
    #[must_use]
    pub fn is_empty(&self) -> bool {
        self.len() == 0
    }

    #[inline]
    fn offset(&self, place: usize) -> Option<usize> {
        let offset = match self.0 {
            Offsets::Narrow(offsets) => i64::from(offsets.get(place)?),
            Offsets::Wide(offsets) => offsets.get(place)?,
        };
        usize::try_from(offset).ok()
    }

    /// Returns the range of a row; None if there is no such row.
    #[inline]
    #[must_use]
    pub fn get(&self, row: usize) -> Option<Range<usize>> {
        self.span(row..row.checked_add(1)?)
    }

    /// Returns the range from the start of the first row to the end of the last; None if a row
    /// doesn't exist, or the ranges have no offsets.
    #[inline]
    pub(super) fn span(&self, rows: Range<usize>) -> Option<Range<usize>> {
        Some(self.offset(rows.start)?..self.offset(rows.end)?)
    }

    /// Writes the spans of up to 64 rows, and returns the start of the first. It returns None if a
    /// row doesn't exist, or the rows have more bytes or items than an `i32` can represent.
    #[inline]
    pub(super) fn write_spans(&self, rows: Range<usize>, out: &mut Spans) -> Option<usize> {
        let all = self.span(rows.clone())?;
        i32::try_from(all.len()).ok()?;
        match self.0 {
            Offsets::Narrow(offsets) => offsets::write_spans(offsets, rows, out),
            Offsets::Wide(offsets) => offsets::write_spans(offsets, rows, out),
        }
        Some(all.start)
    }

    /// Writes the end offsets of these rows as if the first of them began at `start`, as numbers of
    /// the same width.
    pub(super) fn write_ends(&self, rows: Range<usize>, start: usize, out: &mut [u8]) {
        match self.0 {
            Offsets::Narrow(offsets) => offsets::write_ends(offsets, rows, start, out),
            Offsets::Wide(offsets) => offsets::write_ends(offsets, rows, start, out),
        }
    }

    /// Returns whether a row has bytes or items, though its bit is unset. The bits are those of the
    /// rows from `first` on.
    pub(super) fn any_unset(&self, first: usize, valid: Bits<'_>) -> bool {
        match self.0 {
            Offsets::Narrow(offsets) => offsets::any_unset(offsets, first, valid),
            Offsets::Wide(offsets) => offsets::any_unset(offsets, first, valid),
        }
    }

    /// Returns the offsets, with their width.
    pub(super) fn offsets(self) -> Offsets<'a> {
        self.0
    }

    /// Returns the end of the last row; 0 if there is no row.
    pub(super) fn end(&self) -> usize {
        self.offset(self.len()).unwrap_or(0)
    }

    /// Returns an iterator over the ranges of the rows.
    #[inline]
    #[must_use]
    pub fn iter(self) -> RangesIter<'a> {
        RangesIter {
            ranges: self,
            rows: 0..self.len(),
            start: self.offset(0).unwrap_or(0),
            end: self.end(),
        }
    }
}

/// An iterator over the ranges of rows. [`Ranges::iter`] returns it.
///
/// ```
/// use vortex_bits::arrow::Export;
///
/// let names = Export::texts(["a", "", "bc"], None).into_array();
/// let mut longest = 0;
/// for row in names.ranges()? {
///     longest = longest.max(row.len());
/// }
/// assert_eq!(longest, 2);
/// # Ok::<(), vortex_bits::arrow::ArrowError>(())
/// ```
#[derive(Clone)]
pub struct RangesIter<'a> {
    ranges: Ranges<'a>,
    rows: Range<usize>,
    /// The start of the first row that is left, and the end of the last one.
    start: usize,
    end: usize,
}

impl RangesIter<'_> {
    /// Returns the indices of the rows that are left.
    #[inline]
    pub(super) fn rows(&self) -> Range<usize> {
        self.rows.clone()
    }
}

impl Iterator for RangesIter<'_> {
    type Item = Range<usize>;

    #[inline]
    fn next(&mut self) -> Option<Range<usize>> {
        let end = self.ranges.offset(self.rows.next()? + 1)?;
        Some(mem::replace(&mut self.start, end)..end)
    }

    #[inline]
    fn nth(&mut self, n: usize) -> Option<Range<usize>> {
        let range = self.ranges.get(self.rows.nth(n)?)?;
        self.start = range.end;
        Some(range)
    }

    #[inline]
    fn size_hint(&self) -> (usize, Option<usize>) {
        self.rows.size_hint()
    }

    #[inline]
    fn last(mut self) -> Option<Range<usize>> {
        self.next_back()
    }

    #[inline]
    fn fold<A, F: FnMut(A, Range<usize>) -> A>(self, first: A, f: F) -> A {
        match self.ranges.0 {
            Offsets::Narrow(offsets) => {
                offsets::fold_rows(offsets, self.rows, self.start, first, f)
            }
            Offsets::Wide(offsets) => offsets::fold_rows(offsets, self.rows, self.start, first, f),
        }
    }
}

impl DoubleEndedIterator for RangesIter<'_> {
    #[inline]
    fn next_back(&mut self) -> Option<Range<usize>> {
        let start = self.ranges.offset(self.rows.next_back()?)?;
        Some(start..mem::replace(&mut self.end, start))
    }

    #[inline]
    fn nth_back(&mut self, n: usize) -> Option<Range<usize>> {
        let range = self.ranges.get(self.rows.nth_back(n)?)?;
        self.end = range.start;
        Some(range)
    }
}

impl ExactSizeIterator for RangesIter<'_> {}
impl FusedIterator for RangesIter<'_> {}

impl<'a> IntoIterator for Ranges<'a> {
    type Item = Range<usize>;
    type IntoIter = RangesIter<'a>;

    #[inline]
    fn into_iter(self) -> RangesIter<'a> {
        self.iter()
    }
}

impl<'a> IntoIterator for &Ranges<'a> {
    type Item = Range<usize>;
    type IntoIter = RangesIter<'a>;

    #[inline]
    fn into_iter(self) -> RangesIter<'a> {
        self.iter()
    }
}

impl fmt::Debug for RangesIter<'_> {
    fn fmt(&self, f: &mut fmt::Formatter<'_>) -> fmt::Result {
        f.debug_list().entries(self.clone()).finish()
    }
}

impl fmt::Debug for Ranges<'_> {
    fn fmt(&self, f: &mut fmt::Formatter<'_>) -> fmt::Result {
        f.debug_list().entries(self.iter()).finish()
    }
}

/// Returns the set bits of a word whose indices pass the test.
#[inline]
pub(super) fn each_set(word: u64, test: impl Fn(usize) -> bool) -> u64 {
    let (mut passed, mut left) = (0, word);
    while left != 0 {
        let digit = left.trailing_zeros();
        passed |= u64::from(test(digit as usize)) << digit;
        left &= left - 1;
    }
    passed
}
