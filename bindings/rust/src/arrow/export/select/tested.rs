//! Tests the offsets of texts or lists before their rows are copied. It tests the selected rows
//! alone if they are few rows of slices, or if those of all rows don't pass the tests: rows that
//! aren't selected cause no error.

use alloc::vec::Vec;
use core::slice;

use super::memory::reserved;
use super::rows::Rows;
use super::{SPARSE, of_column};
use crate::arrow::array::Array;
use crate::arrow::error::{ArrowError, Fault};
use crate::arrow::field::Field;
use crate::arrow::ranges::Ranges;

/// Ranges, and the bytes that they are in.
type Joined<'a> = (Ranges<'a>, &'a [u8]);

/// Returns the ranges of the lists of each array. Those of rows that aren't selected are arbitrary.
pub(super) fn lists<'a>(
    field: &Field,
    of: &'a [Array],
    rows: Rows<'_>,
) -> Result<Vec<Ranges<'a>>, ArrowError> {
    if !are_few(of, rows) {
        if let Ok(ranges) = of.iter().map(Array::ranges).collect() {
            return Ok(ranges);
        }
    }
    ends(field, of, rows)?;
    of.iter().map(Array::untested_ranges).collect()
}

/// Returns the ranges and the bytes of the texts of each array, as [`lists`] does.
pub(super) fn texts<'a>(
    field: &Field,
    of: &'a [Array],
    rows: Rows<'_>,
) -> Result<Vec<Joined<'a>>, ArrowError> {
    if !are_few(of, rows) {
        if let Ok(joined) = of.iter().map(Array::joined).collect() {
            return Ok(joined);
        }
    }
    selected_texts(field, of, rows)
}

/// Tests the selected rows alone, and returns what [`texts`] does.
fn selected_texts<'a>(
    field: &Field,
    of: &'a [Array],
    rows: Rows<'_>,
) -> Result<Vec<Joined<'a>>, ArrowError> {
    let ends = ends(field, of, rows)?;
    let texts = of.iter().zip(ends).map(|(one, end)| {
        // SAFETY: `end` is 0, or that of a slice that passed the tests.
        let bytes = unsafe { one.bytes_up_to(end)? };
        Ok((one.untested_ranges()?, bytes))
    });
    let texts: Result<_, _> = texts.collect();
    texts.map_err(of_column(field))
}

/// Returns the ranges and the bytes of the texts of one array, as [`texts`] does.
pub(super) fn texts_of<'a>(
    field: &Field,
    of: &'a Array,
    rows: Rows<'_>,
) -> Result<Joined<'a>, ArrowError> {
    let one = slice::from_ref(of);
    if !are_few(one, rows) {
        if let Ok(joined) = of.joined() {
            return Ok(joined);
        }
    }
    selected_texts(field, one, rows).map(|it| it[0])
}

/// Returns whether the rows are at most one in [`SPARSE`] of those of slices. It is then faster to
/// test the rows one by one. The rows of a whole array are tested once for all calls.
fn are_few(of: &[Array], rows: Rows<'_>) -> bool {
    let slices = of.iter().filter(|it| it.is_tested_again());
    let all = slices.map(Array::len).fold(0, usize::saturating_add);
    rows.len() <= all / SPARSE
}

/// Tests the selected rows, one run after the other. Returns for each array the greatest end of
/// them.
fn ends(field: &Field, of: &[Array], rows: Rows<'_>) -> Result<Vec<usize>, ArrowError> {
    let mut ends = reserved(field, of.len())?;
    ends.resize(of.len(), 0);
    rows.each(|_, run| -> Result<(), ArrowError> {
        let Some(one) = run.of else {
            return Ok(());
        };
        let part = of[one].slice(run.start..run.start + run.len);
        let ranges = part.ranges();
        let ranges = ranges.map_err(|error| after(run.start, error))?;
        ends[one] = ranges.end().max(ends[one]);
        Ok(())
    })
    .map_err(of_column(field))?;
    Ok(ends)
}

/// Returns the error of a slice with the row in its array. The slice begins after `before` rows.
fn after(before: usize, mut error: ArrowError) -> ArrowError {
    if let ArrowError::Malformed {
        fault: Fault::Range { row, .. },
        ..
    } = &mut error
    {
        *row += before;
    }
    error
}
