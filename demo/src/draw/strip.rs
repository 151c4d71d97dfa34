//! The selected rows, as a strip of cells.

use vortex_bits::Bitmap;

use crate::engine::{Batch, Output};
use crate::error::Error;

/// All rows of a file from left to right, as cells with about the same number of rows.
#[derive(Clone, Debug)]
pub struct Strip {
    rows: u64,
    /// The number of selected rows in each cell.
    kept: Vec<u64>,
}

impl Strip {
    /// Returns a strip of `rows` rows in at most `cells` cells, without a selected row yet.
    #[must_use]
    pub fn new(rows: u64, cells: usize) -> Strip {
        let cells = usize::try_from(rows).unwrap_or(cells).min(cells);
        Strip {
            rows,
            kept: vec![0; cells],
        }
    }

    /// Returns the first row of a cell, or of the one after the last.
    fn start(&self, cell: usize) -> u64 {
        let start = u128::from(self.rows) * cell as u128 / (self.kept.len() as u128).max(1);
        u64::try_from(start).unwrap_or(u64::MAX)
    }

    /// Returns the share of selected rows in each cell, from 0 to 1.
    #[allow(
        clippy::cast_precision_loss,
        reason = "a shade needs no more than two digits"
    )]
    pub fn shares(&self) -> impl Iterator<Item = f64> {
        let cells = self.kept.iter().enumerate();
        cells.map(|(cell, &kept)| kept as f64 / (self.start(cell + 1) - self.start(cell)) as f64)
    }

    /// Returns the strip as a line of characters: a darker one has more selected rows.
    #[must_use]
    pub fn line(&self) -> String {
        self.shares().map(shade).collect()
    }
}

/// Returns a dot if no row is selected, and a full block if all are.
fn shade(share: f64) -> char {
    match share {
        0.0 => '·',
        share if share < 1.0 / 3.0 => '░',
        share if share < 2.0 / 3.0 => '▒',
        share if share < 1.0 => '▓',
        _ => '█',
    }
}

impl Output for Strip {
    fn take(&mut self, batch: &Batch<'_>, kept: &Bitmap) -> Result<(), Error> {
        let end = batch.before + kept.len() as u64;
        let place = |row: u64| usize::try_from(row.clamp(batch.before, end) - batch.before);
        for cell in 0..self.kept.len() {
            let (Ok(from), Ok(to)) = (place(self.start(cell)), place(self.start(cell + 1))) else {
                continue;
            };
            self.kept[cell] += kept.bits().slice(from..to).count_ones() as u64;
        }
        Ok(())
    }
}
