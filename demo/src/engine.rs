//! The second pass over a file: selects the rows of a condition, batch by batch, and passes them to
//! outputs.

use vortex_bits::Bitmap;

use crate::column::Column;
use crate::error::Error;
use crate::query::Filter;
use crate::rows::Rows;
use crate::survey::Survey;
use crate::table::Table;

/// Some rows of the file, with the columns that the filter or an output uses.
pub struct Batch<'a> {
    /// The rows as texts.
    pub rows: &'a Rows,
    /// The number of rows before these.
    pub before: u64,
    columns: Vec<Option<Column>>,
}

impl Batch<'_> {
    /// Returns a column that the filter or an output uses.
    ///
    /// # Panics
    ///
    /// Panics if neither the filter nor an output uses the column.
    #[must_use]
    pub fn column(&self, place: usize) -> &Column {
        self.columns[place]
            .as_ref()
            .expect("a column that is used is read")
    }
}

/// An output: a consumer of the selected rows.
pub trait Output {
    /// Returns the columns whose values it uses.
    fn uses(&self) -> Vec<usize> {
        Vec::new()
    }

    /// Processes the next batch, with a bit per row: true if it is selected.
    ///
    /// # Errors
    ///
    /// Returns an error if a file can't be written.
    fn take(&mut self, batch: &Batch<'_>, kept: &Bitmap) -> Result<(), Error>;
}

/// Reads the file once, and passes each batch to each output.
///
/// # Errors
///
/// Returns an error if the file can't be read or has changed, or an output fails.
pub fn run(
    table: &Table,
    survey: &Survey,
    filter: Option<&Filter>,
    outputs: &mut [&mut dyn Output],
) -> Result<(), Error> {
    let mut uses = vec![false; survey.columns.len()];
    let filtered = filter.map(Filter::uses).unwrap_or_default();
    for place in outputs.iter().flat_map(|it| it.uses()).chain(filtered) {
        uses[place] = true;
    }
    let (mut before, mut batches) = (0, table.batches("answering")?);
    while let Some(rows) = batches.next_batch()? {
        let columns = columns(table, survey, rows, &uses)?;
        let batch = Batch {
            rows,
            before,
            columns,
        };
        let kept = match filter {
            Some(filter) => filter.kept(&batch),
            None => Bitmap::new_set(rows.len()),
        };
        for output in outputs.iter_mut() {
            output.take(&batch, &kept)?;
        }
        before += rows.len() as u64;
    }
    Ok(())
}

fn columns(
    table: &Table,
    survey: &Survey,
    rows: &Rows,
    uses: &[bool],
) -> Result<Vec<Option<Column>>, Error> {
    let columns = survey.columns.iter().zip(uses).enumerate();
    let read = |(place, (column, is_used)): (usize, (&crate::survey::Column, &bool))| {
        is_used
            .then(|| Column::read(table, rows, place, column.kind))
            .transpose()
    };
    columns.map(read).collect()
}
