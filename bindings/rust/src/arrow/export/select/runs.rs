//! Selects rows of run-end-encoded arrays.

use alloc::vec::Vec;

use super::made::{Made, Nulls};
use super::memory::{push, zeroed};
use super::rows::{Rows, Run, Runs};
use super::{of_column, put, too_long, whole};
use crate::arrow::array::Array;
use crate::arrow::error::{ArrowError, Fault};
use crate::arrow::field::Field;
use crate::arrow::layout::{Kind, Layout};
use crate::arrow::node::row_of;

/// The index of an array, and of a value in it; None for a null row.
type Value = Option<(usize, usize)>;

/// New runs. Two neighbours never have the same value.
#[derive(Default)]
struct Kept {
    values: Runs,
    /// The number of rows up to the end of each run.
    ends: Vec<usize>,
    last: Option<Value>,
}

/// Selects rows: new ends, and one value for each run that still has a row.
pub(super) fn runs(field: &Field, of: &[Array], rows: Rows<'_>) -> Result<Made, ArrowError> {
    let Layout::Fixed(Kind::Signed, width) = field.children[0].layout else {
        return Err(Fault::RunEnds(field.children[0].format.clone()).into());
    };
    let most = i64::MAX >> (64 - 8 * width);
    if i64::try_from(rows.len()).is_ok_and(|len| len > most) {
        return Err(too_long(field, "rows of runs", rows.len(), most));
    }
    let (ends, mut kept) = (whole(of, 0), Kept::default());
    rows.each(|before, run| match run.of {
        Some(one) => kept.add_rows(field, (one, &of[one], &ends[one]), before, run),
        None => kept.add(field, None, before + run.len),
    })
    .map_err(of_column(field))?;
    let mut numbers = zeroed(field, kept.ends.len(), width)?;
    for (place, end) in kept.ends.iter().enumerate() {
        put(&mut numbers, place, width, *end);
    }
    let ends = Made::of([numbers]).array(kept.ends.len(), Nulls::Marked(None));
    let mut made = Made::default();
    made.below.push(ends);
    made.items(field, 1, of, kept.values)?;
    Ok(made)
}

impl Kept {
    /// Adds rows of an array after the first `before` rows.
    fn add_rows(
        &mut self,
        field: &Field,
        (one, of, ends): (usize, &Array, &Array),
        before: usize,
        run: Run,
    ) -> Result<(), ArrowError> {
        let mut done = 0;
        while done < run.len {
            let (value, left) = run_at(of, ends, of.start + run.start + done)?;
            done += left.min(run.len - done);
            self.add(field, Some((one, value)), before + done)?;
        }
        Ok(())
    }

    /// Adds rows of one value up to row `end`.
    fn add(&mut self, field: &Field, value: Value, end: usize) -> Result<(), ArrowError> {
        if self.last == Some(value) {
            self.ends.pop();
        } else {
            let (of, start) = (value.map(|it| it.0), value.map_or(0, |it| it.1));
            self.values.push(field, Run { of, start, len: 1 })?;
        }
        self.last = Some(value);
        push(field, &mut self.ends, end)
    }
}

/// Returns the run that has an item, and how many rows of the run there are from the item on.
/// `item` counts from the start of the array, including the items before its offset.
fn run_at(of: &Array, ends: &Array, item: usize) -> Result<(usize, usize), ArrowError> {
    let width = ends.node.field.layout.widest().0;
    // SAFETY: there is an end for each run.
    let end = |run: usize| unsafe { ends.node.number_at(ends.start + run, width) };
    let is_behind = |run: usize| row_of(end(run)).is_some_and(|it| it > item);
    let (mut low, mut high) = (0, ends.len());
    while low < high {
        let middle = low.midpoint(high);
        if is_behind(middle) {
            high = middle;
        } else {
            low = middle + 1;
        }
    }
    let last = if low < ends.len() { end(low) } else { 0 };
    match row_of(last) {
        Some(row) if row > item => Ok((low, row - item)),
        _ => Err(of.malformed(Fault::Runs {
            end: last,
            wanted: item + 1,
        })),
    }
}
