//! Selected rows: one of them, or all.

use std::io::{self, Write};

use vortex_bits::Bitmap;

use crate::csv::Dialect;
use crate::engine::{Batch, Output};
use crate::error::Error;
use crate::rows::write_row;

/// The search for the n-th selected row.
#[derive(Clone, Debug)]
pub struct Nth {
    /// The number of selected rows before it that aren't read yet.
    before: u64,
    /// The row, once it is read.
    pub found: Option<Row>,
}

/// A row with its fields.
#[derive(Clone, Debug, PartialEq)]
pub struct Row {
    /// Its number, from 1 on.
    pub number: u64,
    /// The line of the file in which it begins.
    pub line: u64,
    /// Its fields.
    pub fields: Vec<Vec<u8>>,
}

impl Nth {
    /// Returns the search for the selected row after `before` others.
    #[must_use]
    pub fn new(before: u64) -> Nth {
        Nth {
            before,
            found: None,
        }
    }
}

impl Output for Nth {
    fn take(&mut self, batch: &Batch<'_>, kept: &Bitmap) -> Result<(), Error> {
        if self.found.is_some() {
            return Ok(());
        }
        let place = usize::try_from(self.before)
            .ok()
            .and_then(|n| kept.select(n));
        let Some(row) = place else {
            self.before -= kept.count_ones() as u64;
            return Ok(());
        };
        self.found = Some(Row {
            number: batch.before + row as u64 + 1,
            line: batch.rows.line(row),
            fields: batch.rows.row(row).map(<[u8]>::to_vec).collect(),
        });
        Ok(())
    }
}

/// A writer of the selected rows, with some of their columns, as CSV.
pub struct Writer<'a, W, E> {
    out: W,
    dialect: Dialect,
    columns: &'a [usize],
    error: E,
}

impl<'a, W: Write, E: Fn(io::Error) -> Error> Writer<'a, W, E> {
    /// Returns a writer of these columns. `error` converts the system's errors.
    pub fn new(out: W, dialect: Dialect, columns: &'a [usize], error: E) -> Writer<'a, W, E> {
        Writer {
            out,
            dialect,
            columns,
            error,
        }
    }

    /// Writes one row. `field` returns the field of a column.
    ///
    /// # Errors
    ///
    /// Returns an error if the output can't be written.
    pub fn row<'b>(&mut self, field: impl Fn(usize) -> &'b [u8]) -> Result<(), Error> {
        let fields = self.columns.iter().map(|&column| field(column));
        write_row(&mut self.out, self.dialect, fields).map_err(&self.error)
    }

    /// Writes the buffered rest.
    ///
    /// # Errors
    ///
    /// Returns an error if the output can't be written.
    pub fn finish(&mut self) -> Result<(), Error> {
        self.out.flush().map_err(&self.error)
    }
}

impl<W: Write, E: Fn(io::Error) -> Error> Output for Writer<'_, W, E> {
    fn take(&mut self, batch: &Batch<'_>, kept: &Bitmap) -> Result<(), Error> {
        kept.set_indices()
            .try_for_each(|row| self.row(|column| batch.rows.field(row, column)))
    }
}
