//! The first pass over a file: the type of each column, and the range of its numbers.

use std::fmt;

use crate::error::{Error, shown};
use crate::number;
use crate::rows::Rows;
use crate::table::{Table, find};

/// The type of a column.
#[derive(Clone, Copy, Debug, PartialEq, Eq)]
pub enum Kind {
    /// Whole numbers of 64 bits.
    Whole,
    /// Floats of 64 bits.
    Float,
    /// Texts, which compare by their bytes.
    Text,
}

impl Kind {
    /// Returns the type with this name on the command line.
    #[must_use]
    pub fn named(name: &str) -> Option<Kind> {
        [Kind::Whole, Kind::Float, Kind::Text]
            .into_iter()
            .find(|kind| kind.to_string() == name)
    }

    /// Returns a description of the fields of this type, for an error.
    fn wanted(self) -> &'static str {
        match self {
            Kind::Whole => "a whole number of 64 bits",
            Kind::Float => "a decimal number",
            Kind::Text => "a text",
        }
    }

    /// Returns whether a field that isn't empty has this type.
    fn has(self, field: &[u8]) -> bool {
        match self {
            Kind::Whole => number::whole(field).is_some(),
            Kind::Float => number::float(field).is_some(),
            Kind::Text => true,
        }
    }
}

impl fmt::Display for Kind {
    fn fmt(&self, f: &mut fmt::Formatter<'_>) -> fmt::Result {
        f.pad(match self {
            Kind::Whole => "whole",
            Kind::Float => "float",
            Kind::Text => "text",
        })
    }
}

/// The least and the greatest number of a column, and the mean of all.
#[derive(Clone, Copy, Debug, PartialEq)]
pub struct Spread<T> {
    /// The least number.
    pub least: T,
    /// The greatest number.
    pub greatest: T,
    /// The mean, rounded.
    pub mean: f64,
}

/// The spread of a column of numbers.
#[derive(Clone, Copy, Debug, PartialEq)]
pub enum Range {
    /// The spread of integers.
    Whole(Spread<i64>),
    /// The spread of floats.
    Float(Spread<f64>),
}

/// A column of the file.
#[derive(Clone, Debug)]
pub struct Column {
    /// Its name.
    pub name: String,
    /// Its type.
    pub kind: Kind,
    /// The range of its numbers; None for texts, and if all fields are empty.
    pub range: Option<Range>,
}

/// The result of the first pass.
#[derive(Clone, Debug)]
pub struct Survey {
    /// The number of rows.
    pub rows: u64,
    /// The columns.
    pub columns: Vec<Column>,
}

impl Survey {
    /// Reads a file once. `kinds` has the types that the user gave, each with its column.
    ///
    /// # Errors
    ///
    /// Returns an error if the file can't be read, isn't CSV, or a field doesn't have the type that
    /// the user gave.
    pub fn of(table: &Table, kinds: &[(usize, Kind)]) -> Result<Survey, Error> {
        let mut seen = vec![Seen::default(); table.names().len()];
        for &(column, kind) in kinds {
            seen[column].given = Some(kind);
        }
        let (mut rows, mut batches) = (0, table.batches("finding the types of the columns")?);
        while let Some(batch) = batches.next_batch()? {
            for (column, seen) in seen.iter_mut().enumerate() {
                seen.add(table, batch, column)?;
            }
            rows += batch.len() as u64;
        }
        let named = table.names().iter().zip(seen);
        let columns = named.map(|(name, seen)| seen.column(name)).collect();
        Ok(Survey { rows, columns })
    }

    /// Returns the index of a column, as [`find`] does.
    ///
    /// # Errors
    ///
    /// Returns a message if no column has the name, or several have it.
    pub fn find(&self, name: &str) -> Result<usize, String> {
        find(self.columns.iter().map(|column| column.name.as_str()), name)
    }
}

/// The kinds of fields of a column that the pass has read so far.
#[derive(Clone, Copy, Debug, Default)]
struct Seen {
    /// The type that the user gave.
    given: Option<Kind>,
    /// Whether a field isn't a number.
    texts: bool,
    /// Whether a field is a number with a point or an exponent.
    floats: bool,
    /// Whether a field is an integer beyond 64 bits.
    beyond: bool,
    whole: Option<(i64, i64)>,
    float: Option<(f64, f64)>,
    sum: f64,
    numbers: u64,
}

impl Seen {
    fn add(&mut self, table: &Table, rows: &Rows, column: usize) -> Result<(), Error> {
        if self.texts {
            return Ok(());
        }
        let fields = rows.column(column).enumerate();
        for (row, field) in fields.filter(|(_, field)| !field.is_empty()) {
            if let Some(kind) = self.given.filter(|kind| !kind.has(field)) {
                return Err(wrong_field(table, rows.line(row), column, field, kind));
            }
            self.add_field(field);
        }
        Ok(())
    }

    #[allow(clippy::cast_precision_loss, reason = "a mean is rounded")]
    fn add_field(&mut self, field: &[u8]) {
        if let Some(number) = number::whole(field) {
            self.whole = Some(widened(self.whole, number));
            self.sum += number as f64;
        } else if let Some(number) = number::float(field) {
            let is_whole = number::is_digits(field);
            self.beyond |= is_whole;
            self.floats |= !is_whole;
            self.float = Some(widened(self.float, number));
            self.sum += number;
        } else {
            self.texts = true;
        }
        self.numbers += 1;
    }

    /// Returns the type of the column. A column without a number is text. A column of integers
    /// beyond 64 bits is text too, because floats would lose digits.
    fn kind(&self) -> Kind {
        let is_text = self.texts || self.numbers == 0 || (self.beyond && !self.floats);
        self.given.unwrap_or(match (is_text, self.floats) {
            (true, _) => Kind::Text,
            (false, true) => Kind::Float,
            (false, false) => Kind::Whole,
        })
    }

    fn column(self, name: &str) -> Column {
        let kind = self.kind();
        Column {
            name: name.to_string(),
            kind,
            range: self.range(kind),
        }
    }

    #[allow(
        clippy::cast_precision_loss,
        reason = "numbers of a column of floats are floats"
    )]
    fn range(&self, kind: Kind) -> Option<Range> {
        let mean = self.sum / self.numbers as f64;
        match kind {
            Kind::Text => None,
            Kind::Whole => {
                let (least, greatest) = self.whole?;
                Some(Range::Whole(Spread {
                    least,
                    greatest,
                    mean,
                }))
            }
            Kind::Float => {
                let wholes = self
                    .whole
                    .map(|(least, greatest)| (least as f64, greatest as f64));
                let all = [self.float, wholes].into_iter().flatten();
                let both = all.reduce(|a, b| (a.0.min(b.0), a.1.max(b.1)));
                both.map(|(least, greatest)| {
                    Range::Float(Spread {
                        least,
                        greatest,
                        mean,
                    })
                })
            }
        }
    }
}

fn widened<T: PartialOrd + Copy>(range: Option<(T, T)>, number: T) -> (T, T) {
    let (least, greatest) = range.unwrap_or((number, number));
    let least = if number < least { number } else { least };
    (least, if number > greatest { number } else { greatest })
}

/// Returns the error of a field that doesn't have its column's type.
pub(crate) fn wrong_field(
    table: &Table,
    line: u64,
    column: usize,
    field: &[u8],
    kind: Kind,
) -> Error {
    let (column, field, wanted) = (table.column_of(column), shown(field, 40), kind.wanted());
    let wrong = format!("{column}: \"{field}\" is not {wanted}, the type of this column");
    Error::data(table.path(), line, wrong)
}
