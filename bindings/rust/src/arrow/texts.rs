//! The bytes of texts and binary values, row by row.

mod block;
mod in_place;
mod predicates;
mod row;
mod search;
mod test;
mod wanted;

use alloc::vec::Vec;
use core::fmt;
use core::iter::FusedIterator;
use core::ops::Range;

use super::error::Fault;
use super::ranges::{Ranges, RangesIter};
use crate::Validity;

/// The bytes of each valid row of texts or binary values. [`Array::texts`](super::Array::texts)
/// returns it.
#[derive(Clone)]
pub struct Texts<'a> {
    rows: Rows<'a>,
    valid: Validity<'a>,
}

#[derive(Clone)]
enum Rows<'a> {
    /// The rows follow each other in one buffer.
    Joined(Ranges<'a>, &'a [u8]),
    /// Each row is in its view, or in one of the buffers.
    Views(&'a [View], Vec<&'a [u8]>),
}

/// The length; then up to 12 bytes, or the first four bytes, the buffer's index and the offset in
/// it.
pub(super) type View = [u8; 16];

impl<'a> Texts<'a> {
    pub(super) fn joined(ranges: Ranges<'a>, bytes: &'a [u8], valid: Validity<'a>) -> Self {
        let rows = Rows::Joined(ranges, bytes);
        Texts { rows, valid }
    }

    /// Returns the texts of views, after a test of each view of a valid row.
    pub(super) fn views(
        views: &'a [View],
        buffers: Vec<&'a [u8]>,
        valid: Validity<'a>,
    ) -> Result<Self, Fault> {
        let is_wrong = |&row: &usize| viewed(&views[row], &buffers).is_none();
        let wrong = match valid.bits() {
            Some(bits) => bits.set_indices().find(is_wrong),
            None => (0..views.len()).find(is_wrong),
        };
        if let Some(row) = wrong {
            return Err(Fault::View(row));
        }
        let rows = Rows::Views(views, buffers);
        Ok(Texts { rows, valid })
    }

    /// Returns the number of rows.
    #[inline]
    #[must_use]
    pub fn len(&self) -> usize {
        self.valid.len()
    }

    /// Returns whether there are no rows.
    #[inline]
    #[must_use]
    pub fn is_empty(&self) -> bool {
        self.len() == 0
    }

    /// Returns the bytes of a row; None if it is null, or there is no such row.
    #[inline]
    #[must_use]
    pub fn get(&self, row: usize) -> Option<&'a [u8]> {
        if !self.valid.get(row)? {
            return None;
        }
        match &self.rows {
            Rows::Joined(ranges, bytes) => bytes.get(ranges.get(row)?),
            Rows::Views(views, buffers) => viewed(views.get(row)?, buffers),
        }
    }

    /// Returns which rows are valid, as [`Array::validity`](super::Array::validity) does.
    #[inline]
    #[must_use]
    pub fn validity(&self) -> Validity<'a> {
        self.valid
    }

    /// Returns an iterator over the rows. A null row is None.
    #[inline]
    #[must_use]
    pub fn iter(&self) -> TextsIter<'a, '_> {
        let source = match &self.rows {
            Rows::Joined(ranges, bytes) => Source::Joined(ranges.iter(), bytes),
            Rows::Views(views, buffers) => Source::Views(0..views.len(), views, buffers),
        };
        let valid = self.valid;
        TextsIter { source, valid }
    }
}

/// An iterator over texts or binary values. [`Texts::iter`] returns it.
///
/// ```
/// use vortex_bits::arrow::Export;
///
/// let names = Export::texts_or_nulls([Some("a"), None, Some("bc")]).into_array();
/// let mut bytes = 0;
/// for name in &names.texts()? {
///     bytes += name.map_or(0, <[u8]>::len);
/// }
/// assert_eq!(bytes, 3);
/// # Ok::<(), vortex_bits::arrow::ArrowError>(())
/// ```
#[derive(Clone)]
pub struct TextsIter<'a, 'b> {
    source: Source<'a, 'b>,
    /// The validity of all rows, including those that the iterator has passed.
    valid: Validity<'a>,
}

#[derive(Clone)]
enum Source<'a, 'b> {
    Joined(RangesIter<'a>, &'a [u8]),
    Views(Range<usize>, &'a [View], &'b [&'a [u8]]),
}

/// Takes a step over the rows, and returns the text of the row that it reaches.
macro_rules! step {
    ($walk:expr, $next:ident($($n:expr)?), |$rows:ident| $row:expr) => {{
        let valid = $walk.valid;
        match &mut $walk.source {
            Source::Joined(ranges, bytes) => {
                let $rows = ranges.rows();
                let (row, range) = ($row, ranges.$next($($n)?)?);
                Some(bytes.get(range).filter(|_| valid.get(row) == Some(true)))
            }
            Source::Views(rows, views, buffers) => {
                let row = rows.$next($($n)?)?;
                let is_valid = valid.get(row) == Some(true);
                Some(viewed(&views[row], buffers).filter(|_| is_valid))
            }
        }
    }};
}

impl<'a> Iterator for TextsIter<'a, '_> {
    type Item = Option<&'a [u8]>;

    #[inline]
    fn next(&mut self) -> Option<Option<&'a [u8]>> {
        step!(self, next(), |rows| rows.start)
    }

    #[inline]
    fn nth(&mut self, n: usize) -> Option<Option<&'a [u8]>> {
        step!(self, nth(n), |rows| rows.start.saturating_add(n))
    }

    #[inline]
    fn size_hint(&self) -> (usize, Option<usize>) {
        match &self.source {
            Source::Joined(ranges, _) => ranges.size_hint(),
            Source::Views(rows, ..) => rows.size_hint(),
        }
    }

    #[inline]
    fn last(mut self) -> Option<Option<&'a [u8]>> {
        self.next_back()
    }

    /// It matches the layout once, and not for each row.
    #[inline]
    fn fold<A, F: FnMut(A, Option<&'a [u8]>) -> A>(self, first: A, mut f: F) -> A {
        let valid = self.valid.bits();
        let is_valid = |row| valid.is_none_or(|valid| valid[row]);
        match self.source {
            Source::Joined(ranges, bytes) if valid.is_none() => {
                ranges.fold(first, |all, range| f(all, bytes.get(range)))
            }
            Source::Joined(ranges, bytes) => {
                let mut rows = ranges.rows();
                ranges.fold(first, |all, range| {
                    let is_valid = rows.next().is_some_and(is_valid);
                    f(all, bytes.get(range).filter(|_| is_valid))
                })
            }
            Source::Views(rows, views, buffers) => rows.fold(first, |all, row| {
                f(all, viewed(&views[row], buffers).filter(|_| is_valid(row)))
            }),
        }
    }
}

impl<'a> DoubleEndedIterator for TextsIter<'a, '_> {
    #[inline]
    fn next_back(&mut self) -> Option<Option<&'a [u8]>> {
        step!(self, next_back(), |rows| rows.end.wrapping_sub(1))
    }
}

impl ExactSizeIterator for TextsIter<'_, '_> {}
impl FusedIterator for TextsIter<'_, '_> {}

impl<'a, 'b> IntoIterator for &'b Texts<'a> {
    type Item = Option<&'a [u8]>;
    type IntoIter = TextsIter<'a, 'b>;

    #[inline]
    fn into_iter(self) -> TextsIter<'a, 'b> {
        self.iter()
    }
}

impl fmt::Debug for TextsIter<'_, '_> {
    fn fmt(&self, f: &mut fmt::Formatter<'_>) -> fmt::Result {
        f.debug_list().entries(self.clone()).finish()
    }
}

impl fmt::Debug for Texts<'_> {
    fn fmt(&self, f: &mut fmt::Formatter<'_>) -> fmt::Result {
        f.debug_list().entries(self.iter()).finish()
    }
}

/// Returns the bytes of a view; None if they aren't in any of the buffers.
pub(super) fn viewed<'a>(view: &'a View, buffers: &[&'a [u8]]) -> Option<&'a [u8]> {
    let number = |at: usize| {
        let bytes = view[at..].first_chunk()?;
        usize::try_from(i32::from_ne_bytes(*bytes)).ok()
    };
    let (len, short) = (number(0)?, &view[4..]);
    if len <= short.len() {
        return short.get(..len);
    }
    let (buffer, start) = (number(8)?, number(12)?);
    buffers.get(buffer)?.get(start..start.checked_add(len)?)
}
