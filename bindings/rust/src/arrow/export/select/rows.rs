//! The rows that a selection copies.

use alloc::vec::Vec;

use super::memory::{push, reserved, too_many};
use crate::Bits;
use crate::arrow::array::Array;
use crate::arrow::error::ArrowError;
use crate::arrow::field::Field;

/// Consecutive rows of one of several arrays. They are null if `of` is None.
#[derive(Clone, Copy)]
pub(super) struct Run {
    pub of: Option<usize>,
    pub start: usize,
    pub len: usize,
}

/// The selected rows, in their order.
#[derive(Clone, Copy)]
pub(super) enum Rows<'a> {
    /// The rows of one array that a mask selects, and their number.
    Mask(Bits<'a>, usize),
    /// The rows of one array at indices, with a bit per index. A row is null if its bit is false.
    Places(&'a [usize], Option<Bits<'a>>),
    /// The rows of runs, and their number.
    Runs(&'a [Run], usize),
}

impl Rows<'_> {
    pub(super) fn len(self) -> usize {
        match self {
            Rows::Mask(_, len) | Rows::Runs(_, len) => len,
            Rows::Places(places, _) => places.len(),
        }
    }

    /// Returns whether the selection adds null rows that are in no array.
    pub(super) fn has_nulls(self) -> bool {
        match self {
            Rows::Mask(..) => false,
            Rows::Places(_, valid) => valid.is_some_and(|valid| !valid.all()),
            Rows::Runs(runs, _) => runs.iter().any(|run| run.of.is_none()),
        }
    }

    /// Calls `take` for each run, with the number of rows before it.
    pub(super) fn each<E>(
        self,
        mut take: impl FnMut(usize, Run) -> Result<(), E>,
    ) -> Result<(), E> {
        let mut before = 0;
        let mut next = |run: Run| {
            before += run.len;
            take(before - run.len, run)
        };
        match self {
            Rows::Mask(mask, _) => mask.set_slices().try_for_each(|rows| {
                next(Run {
                    of: Some(0),
                    start: rows.start,
                    len: rows.len(),
                })
            }),
            Rows::Places(places, valid) => {
                places.iter().enumerate().try_for_each(|(row, &start)| {
                    let is_valid = valid.is_none_or(|valid| valid[row]);
                    next(Run {
                        of: is_valid.then_some(0),
                        start,
                        len: 1,
                    })
                })
            }
            Rows::Runs(runs, _) => runs.iter().copied().try_for_each(next),
        }
    }

    /// Calls `take` for each run as [`Rows::each`] does, if it can't fail.
    pub(super) fn for_each(self, mut take: impl FnMut(usize, Run)) {
        let taken: Result<(), core::convert::Infallible> = self.each(|before, run| {
            take(before, run);
            Ok(())
        });
        let Ok(()) = taken;
    }
}

/// Runs that are added one by one. A run that continues the last one is merged with it.
#[derive(Default)]
pub(super) struct Runs {
    all: Vec<Run>,
    len: usize,
    /// The least start and the greatest end of the runs of rows that arrays have.
    span: Option<(usize, usize)>,
}

impl Runs {
    /// Returns all rows of arrays of these lengths. It returns an error if their number isn't a
    /// `usize`, or if memory runs out.
    pub(super) fn whole(
        field: &Field,
        lens: impl IntoIterator<Item = usize>,
    ) -> Result<Runs, ArrowError> {
        let mut runs = Runs::default();
        for (of, len) in lens.into_iter().enumerate() {
            let (of, start) = (Some(of), 0);
            runs.push(field, Run { of, start, len })?;
        }
        Ok(runs)
    }

    pub(super) fn len(&self) -> usize {
        self.len
    }

    pub(super) fn rows(&self) -> Rows<'_> {
        Rows::Runs(&self.all, self.len)
    }

    /// Cuts each array to its rows from the first to the last that a run has: the rows outside are
    /// then neither copied nor tested.
    pub(super) fn cut(&mut self, field: &Field, of: &mut [Array]) -> Result<(), ArrowError> {
        let mut spans = reserved(field, of.len())?;
        spans.resize(of.len(), if of.len() == 1 { self.span } else { None });
        for run in self.all.iter().filter(|_| of.len() > 1) {
            if let Some(one) = run.of {
                let end = run.start + run.len;
                let (first, last) = spans[one].get_or_insert((run.start, end));
                (*first, *last) = (run.start.min(*first), end.max(*last));
            }
        }
        for (one, span) in of.iter_mut().zip(&spans) {
            let (start, end) = span.unwrap_or_default();
            *one = one.slice(start..end);
        }
        if spans.iter().flatten().all(|(start, _)| *start == 0) {
            return Ok(());
        }
        for run in &mut self.all {
            let span = run.of.and_then(|one| spans[one]);
            run.start -= span.map_or(0, |(start, _)| start);
        }
        Ok(())
    }

    /// Returns the arrays that have rows, and these runs of them; if none has rows, the first
    /// array. So the dictionary of an array without rows isn't joined with others.
    pub(super) fn of_full(
        field: &Field,
        of: &[Array],
        rows: Rows<'_>,
    ) -> Result<(Vec<Array>, Runs), ArrowError> {
        let (mut full, mut places) = (reserved(field, of.len())?, reserved(field, of.len())?);
        for one in of {
            places.push(full.len());
            full.extend((!one.is_empty()).then(|| one.clone()));
        }
        if full.is_empty() {
            full.extend(of.first().cloned());
        }
        let mut runs = Runs::default();
        rows.each(|_, run| {
            let of = run.of.map(|one| places[one]);
            runs.push(field, Run { of, ..run })
        })?;
        Ok((full, runs))
    }

    /// Adds a run. It returns an error if the number of rows isn't a `usize`, or if memory runs
    /// out.
    pub(super) fn push(&mut self, field: &Field, run: Run) -> Result<(), ArrowError> {
        let len = self.len.checked_add(run.len);
        self.len = len.ok_or_else(|| too_many(field))?;
        if run.of.is_some() && run.len > 0 {
            let end = run.start + run.len;
            let (first, last) = self.span.get_or_insert((run.start, end));
            (*first, *last) = (run.start.min(*first), end.max(*last));
        }
        match self.all.last_mut() {
            _ if run.len == 0 => Ok(()),
            Some(last) if last.is_before(run) => {
                last.len += run.len;
                Ok(())
            }
            _ => push(field, &mut self.all, run),
        }
    }
}

impl Run {
    /// Returns whether `other` begins at the end of this run.
    fn is_before(self, other: Run) -> bool {
        let is_next = self.of.is_none() || self.start + self.len == other.start;
        self.of == other.of && is_next
    }
}
