//! Predicates over texts: bitmaps of the rows that pass.

use core::ops::Range;

use super::block::Block;
use super::row::Row;
use super::test::{Contains, EndsWith, Equals, LessThan, StartsWith, Test};
use super::wanted::Wanted;
use super::{Rows, Texts, viewed};
use crate::Bitmap;
use crate::arrow::ranges::{Spans, each_set};
use crate::portable::{low, only_word};
use crate::prefetch;
use crate::written::Written;

/// Predicates over the bytes of each row.
///
/// A null row passes none of them, so these masks are those of a `where`.
/// [`validity`](Texts::validity) returns which rows are null, for [`and_kleene`] and a `not`.
///
/// [`and_kleene`]: crate::values::and_kleene
impl Texts<'_> {
    /// Returns a bitmap of the rows that have exactly these bytes.
    ///
    /// ```
    /// use vortex_bits::Bitmap;
    /// use vortex_bits::arrow::Export;
    ///
    /// let names = Export::texts_or_nulls([Some("a"), None, Some("bc")]).into_array();
    /// let texts = names.texts()?;
    /// assert_eq!(texts.equals("bc"), Bitmap::from([false, false, true]));
    ///
    /// // where name <> 'bc': neither equal nor null.
    /// let others = !texts.equals("bc") & texts.validity();
    /// assert_eq!(others, Bitmap::from([true, false, false]));
    /// # Ok::<(), vortex_bits::arrow::ArrowError>(())
    /// ```
    #[must_use]
    pub fn equals(&self, text: impl AsRef<[u8]>) -> Bitmap {
        self.test(&Equals::new(text.as_ref()))
    }

    /// Returns a bitmap of the rows that come before a text in the order of their bytes. For UTF-8
    /// that is the order of the code points.
    ///
    /// ```
    /// use vortex_bits::Bitmap;
    /// use vortex_bits::arrow::Export;
    ///
    /// let names = Export::texts_or_nulls([Some("a"), None, Some("bc"), Some("c")]).into_array();
    /// assert_eq!(names.texts()?.less_than("bc"), Bitmap::from([true, false, false, false]));
    /// # Ok::<(), vortex_bits::arrow::ArrowError>(())
    /// ```
    #[must_use]
    pub fn less_than(&self, text: impl AsRef<[u8]>) -> Bitmap {
        self.test(&LessThan::new(text.as_ref()))
    }

    /// Returns a bitmap of the rows that begin with these bytes, as `like 'b%'`.
    ///
    /// ```
    /// use vortex_bits::Bitmap;
    /// use vortex_bits::arrow::Export;
    ///
    /// let names = Export::texts_or_nulls([Some("ab"), None, Some("bc")]).into_array();
    /// assert_eq!(names.texts()?.starts_with("b"), Bitmap::from([false, false, true]));
    /// # Ok::<(), vortex_bits::arrow::ArrowError>(())
    /// ```
    #[must_use]
    pub fn starts_with(&self, start: impl AsRef<[u8]>) -> Bitmap {
        self.test(&StartsWith::new(start.as_ref()))
    }

    /// Returns a bitmap of the rows that end with these bytes, as `like '%b'`.
    ///
    /// ```
    /// use vortex_bits::Bitmap;
    /// use vortex_bits::arrow::Export;
    ///
    /// let names = Export::texts_or_nulls([Some("ab"), None, Some("bc")]).into_array();
    /// assert_eq!(names.texts()?.ends_with("b"), Bitmap::from([true, false, false]));
    /// # Ok::<(), vortex_bits::arrow::ArrowError>(())
    /// ```
    #[must_use]
    pub fn ends_with(&self, end: impl AsRef<[u8]>) -> Bitmap {
        self.test(&EndsWith::new(end.as_ref()))
    }

    /// Returns a bitmap of the rows that contain these bytes, as `like '%b%'`. The time for each
    /// row is at most proportional to the length of the row times the length of the bytes.
    ///
    /// ```
    /// use vortex_bits::Bitmap;
    /// use vortex_bits::arrow::Export;
    ///
    /// let names = Export::texts_or_nulls([Some("abc"), None, Some("ac")]).into_array();
    /// assert_eq!(names.texts()?.contains("b"), Bitmap::from([true, false, false]));
    /// # Ok::<(), vortex_bits::arrow::ArrowError>(())
    /// ```
    #[must_use]
    pub fn contains(&self, part: impl AsRef<[u8]>) -> Bitmap {
        self.test(&Contains(part.as_ref()))
    }

    /// Returns a bitmap of the rows that are one of the texts, as `in ('a', 'c')`. It sorts the
    /// texts once. For more than 16 texts it then does at most one binary search per row, and none
    /// for most rows that the length or the first eight bytes exclude.
    ///
    /// ```
    /// use vortex_bits::Bitmap;
    /// use vortex_bits::arrow::Export;
    ///
    /// let names = Export::texts_or_nulls([Some("a"), None, Some("bc"), Some("c")]).into_array();
    /// assert_eq!(names.texts()?.is_in(["c", "a"]), Bitmap::from([true, false, false, true]));
    /// # Ok::<(), vortex_bits::arrow::ArrowError>(())
    /// ```
    #[must_use]
    pub fn is_in(&self, texts: impl IntoIterator<Item = impl AsRef<[u8]>>) -> Bitmap {
        self.test(&Wanted::new(texts))
    }

    /// Returns a bitmap of the valid rows that pass the test.
    #[inline]
    fn test<T: Test>(&self, test: &T) -> Bitmap {
        Bitmap::make(self.len(), |mut out| {
            let (out, all) = (&mut out.written(), |_: &Written<'_>, _, len| low(len));
            if T::IS_RARE {
                self.write::<GROUP>(out, all, test);
            } else {
                self.write::<1>(out, all, test);
            }
        })
    }

    /// Writes a bit per row: whether it is selected, valid and passes the test. `selected` gets the
    /// window, the index of a first row and a number of rows up to 64, and returns the bits of the
    /// selected ones.
    ///
    /// If few rows of a block between offsets may pass, it asks for the first bytes of each, and
    /// tests them after all blocks of a group. A group has up to `BLOCKS` blocks. In a group of one
    /// block it tests each row at once.
    #[inline]
    pub(super) fn write<const BLOCKS: usize>(
        &self,
        out: &mut Written<'_>,
        selected: impl Fn(&Written<'_>, usize, usize) -> u64,
        test: &impl Test,
    ) {
        let (valid, mut spans) = (self.valid.bits(), None);
        for start in (0..self.len()).step_by(64 * BLOCKS) {
            let group = start..self.len().min(start + 64 * BLOCKS);
            let mut words = [Found::default(); BLOCKS];
            for (word, block) in words.iter_mut().zip(blocks(&group)) {
                let (start, len) = (block.start, block.len());
                let valid = valid.map_or(u64::MAX, |valid| only_word(valid.part(start, len)));
                let rows = selected(out, start, len) & valid;
                *word = self.tested(block, rows, test, group.len() > 64, &mut spans);
            }
            for (word, block) in words.into_iter().zip(blocks(&group)) {
                let passed = word.passed | self.each(block.start, word.left, test);
                out.write(block.start, block.len(), passed);
            }
        }
    }

    /// Tests the rows of a block whose bit of `wanted` is set. If `leaves` is true, it leaves
    /// candidates for later: those of rows between offsets, unless there are many.
    #[inline]
    fn tested<T: Test>(
        &self,
        rows: Range<usize>,
        wanted: u64,
        test: &T,
        leaves: bool,
        spans: &mut Option<Spans>,
    ) -> Found {
        let (start, mut wanted) = (rows.start, wanted);
        if let (Rows::Joined(ranges, bytes), true) = (&self.rows, wanted.count_ones() >= T::MANY) {
            if let Some(block) = Block::new(*ranges, rows, bytes, spans.get_or_insert_default()) {
                wanted = test.candidates(block, wanted);
                if !leaves || wanted.count_ones() > RARE {
                    let passed = test.of_candidates(block, wanted) & wanted;
                    return Found { passed, left: 0 };
                }
            }
        }
        match &self.rows {
            Rows::Joined(ranges, bytes) if leaves && wanted.count_ones() <= RARE => {
                each_set(wanted, |row| {
                    let range = ranges.get(start + row).unwrap_or_default();
                    prefetch::line(bytes.as_ptr().wrapping_add(range.start));
                    true
                });
                let (passed, left) = (0, wanted);
                Found { passed, left }
            }
            _ => {
                let (passed, left) = (self.each(start, wanted, test), 0);
                Found { passed, left }
            }
        }
    }

    /// Returns which of 64 rows from `start` on pass the test, among those whose bit of `wanted` is
    /// set.
    #[inline]
    fn each(&self, start: usize, wanted: u64, test: &impl Test) -> u64 {
        match &self.rows {
            Rows::Joined(ranges, bytes) => each_set(wanted, |row| {
                let range = ranges.get(start + row);
                range.is_some_and(|range| test.of_row(Row::new(bytes, &range)))
            }),
            Rows::Views(views, buffers) => each_set(wanted, |row| {
                let row = viewed(&views[start + row], buffers);
                row.is_some_and(|row| test.of_row(Row::whole(row)))
            }),
        }
    }
}

/// The rows of a block that passed a test, and those that are still to be tested.
#[derive(Clone, Copy, Default)]
struct Found {
    passed: u64,
    left: u64,
}

/// The number of blocks of a group. Few candidates of each block, one line each, fit in the
/// smallest cache.
pub(super) const GROUP: usize = 16;

/// The greatest number of candidates of a block that are left for later. More candidates are near
/// one another, and the processor finds their lines by itself.
const RARE: u32 = 8;

/// Returns the blocks of up to 64 rows that a group has.
#[inline]
fn blocks(group: &Range<usize>) -> impl Iterator<Item = Range<usize>> {
    let end = group.end;
    let starts = group.clone().step_by(64);
    starts.map(move |start| start..end.min(start + 64))
}
