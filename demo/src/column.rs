//! The columns of a batch, as values with their validity.

use vortex_bits::{Bitmap, Validity, Value};

use crate::error::Error;
use crate::number;
use crate::rows::Rows;
use crate::survey::{Kind, wrong_field};
use crate::table::Table;

/// The values of a column.
#[derive(Clone, Debug)]
pub enum Values {
    /// Whole numbers, with 0 at nulls.
    Whole(Vec<i64>),
    /// Floats, with 0 at nulls.
    Float(Vec<f64>),
    /// Texts, which stay in the rows.
    Text,
}

/// A column of a batch. An empty field is a null.
#[derive(Clone, Debug)]
pub struct Column {
    /// Its values.
    pub values: Values,
    valid: Option<Bitmap>,
    len: usize,
}

impl Column {
    /// Reads a column of some rows.
    ///
    /// # Errors
    ///
    /// Returns [`Error::Data`] if a field doesn't have the type: the file has changed since the
    /// survey.
    pub fn read(table: &Table, rows: &Rows, place: usize, kind: Kind) -> Result<Column, Error> {
        let wrong = |row: usize| {
            let field = rows.field(row, place);
            wrong_field(table, rows.line(row), place, field, kind)
        };
        let values = match kind {
            Kind::Whole => Values::Whole(numbers(rows, place, number::whole).map_err(wrong)?),
            Kind::Float => Values::Float(numbers(rows, place, number::float).map_err(wrong)?),
            Kind::Text => Values::Text,
        };
        let valid: Bitmap = rows.column(place).map(|field| !field.is_empty()).collect();
        let valid = (!valid.all()).then_some(valid);
        Ok(Column {
            values,
            valid,
            len: rows.len(),
        })
    }

    /// Returns the values of a column of whole numbers.
    ///
    /// # Panics
    ///
    /// Panics if the column has another type.
    #[must_use]
    pub fn wholes(&self) -> &[i64] {
        match &self.values {
            Values::Whole(values) => values,
            _ => unreachable!("a column of whole numbers"),
        }
    }

    /// Returns the values of a column of floats.
    ///
    /// # Panics
    ///
    /// Panics if the column has another type.
    #[must_use]
    pub fn floats(&self) -> &[f64] {
        match &self.values {
            Values::Float(values) => values,
            _ => unreachable!("a column of floats"),
        }
    }

    /// Returns which rows aren't null.
    #[must_use]
    pub fn validity(&self) -> Validity<'_> {
        Validity::new(self.valid.as_ref().map(Bitmap::bits), self.len)
    }

    /// Returns a bit per row, true if it isn't null; None if no row is null.
    #[must_use]
    pub fn valid(&self) -> Option<Bitmap> {
        self.valid.clone()
    }
}

/// Returns the numbers of a column, 0 at nulls. The error is the first row with another text.
fn numbers<T: Value + Default>(
    rows: &Rows,
    place: usize,
    read: impl Fn(&[u8]) -> Option<T>,
) -> Result<Vec<T>, usize> {
    let fields = rows.column(place).enumerate();
    let number = |(row, field): (usize, &[u8])| match field {
        [] => Ok(T::default()),
        field => read(field).ok_or(row),
    };
    fields.map(number).collect()
}
