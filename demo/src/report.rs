//! The output without another option: the columns, the selected rows, and a histogram.

use std::io::{self, Write};
use std::path::Path;

use crate::draw::{Histogram, Strip};
use crate::error::shown;
use crate::found::Row;
use crate::progress::grouped;
use crate::query::Aggregate;
use crate::summary::Summary;
use crate::survey::Survey;

/// The number of characters that a table shows of a text.
const CELL: usize = 24;
/// The number of characters of the longest bar of a histogram.
const BAR: usize = 48;
/// The number of cells of the strip in a terminal.
pub const STRIP: usize = 72;

/// The contents of a report.
pub struct Report<'a> {
    /// The first line.
    pub title: String,
    /// The condition, if there is one.
    pub condition: Option<&'a str>,
    /// The columns.
    pub survey: &'a Survey,
    /// The number of selected rows.
    pub kept: u64,
    /// The summary of each column, in their order.
    pub summaries: &'a [Summary],
    /// The selected rows.
    pub strip: &'a Strip,
    /// The values of a column.
    pub histogram: Option<&'a Histogram>,
}

impl Report<'_> {
    /// Writes the report.
    ///
    /// # Errors
    ///
    /// Returns an error if `out` can't be written.
    pub fn write(&self, out: &mut impl Write) -> io::Result<()> {
        writeln!(out, "{}", self.title)?;
        if let Some(condition) = self.condition {
            writeln!(out, "where {}", shown(condition.as_bytes(), 1000))?;
        }
        writeln!(out)?;
        self.write_table(out)?;
        if self.condition.is_some() && self.survey.rows > 0 {
            self.write_strip(out)?;
        }
        let Some(histogram) = self.histogram else {
            return Ok(());
        };
        let name = &self.survey.columns[histogram.column()].name;
        let of = if self.condition.is_some() {
            " of the kept rows"
        } else {
            ""
        };
        writeln!(
            out,
            "\n{}{of}, by where each bin begins",
            shown(name.as_bytes(), CELL)
        )?;
        for line in histogram.lines(BAR) {
            writeln!(out, "{line}")?;
        }
        Ok(())
    }

    fn write_table(&self, out: &mut impl Write) -> io::Result<()> {
        let head = ["column", "type", "nulls", "least", "greatest", "sum"].map(str::to_string);
        let columns = self.survey.columns.iter().zip(self.summaries);
        let row = |(column, summary): (&crate::survey::Column, &Summary)| {
            let answer = |aggregate| shown(&summary.answer(aggregate), CELL);
            [
                shown(column.name.as_bytes(), CELL),
                column.kind.to_string(),
                grouped(self.kept - summary.count),
                answer(Aggregate::Min),
                answer(Aggregate::Max),
                answer(Aggregate::Sum),
            ]
        };
        let rows: Vec<[String; 6]> = std::iter::once(head).chain(columns.map(row)).collect();
        let mut widths = [0; 6];
        for row in &rows {
            for (width, cell) in widths.iter_mut().zip(row) {
                *width = cell.chars().count().max(*width);
            }
        }
        for row in &rows {
            writeln!(out, "{}", aligned(row, widths))?;
        }
        Ok(())
    }

    fn write_strip(&self, out: &mut impl Write) -> io::Result<()> {
        let (line, last) = (
            self.strip.line(),
            format!("row {}", grouped(self.survey.rows)),
        );
        // With few rows the strip is shorter than its two labels.
        let width = line.chars().count().saturating_sub("row 1".len());
        let width = width.max(" ".len() + last.len());
        writeln!(
            out,
            "\nkept rows, from · none to █ all\n{line}\nrow 1{last:>width$}"
        )
    }
}

/// Aligns the first two cells to the left, and the others to the right.
fn aligned(row: &[String; 6], widths: [usize; 6]) -> String {
    let cells = row
        .iter()
        .zip(widths)
        .enumerate()
        .map(|(place, (cell, width))| {
            if place < 2 {
                format!("{cell:<width$}")
            } else {
                format!("{cell:>width$}")
            }
        });
    cells.collect::<Vec<_>>().join("  ").trim_end().to_string()
}

/// Returns the first line of a report: the file and the [`counts`].
#[must_use]
pub fn title(file: &Path, survey: &Survey, kept: Option<u64>) -> String {
    let file = shown(file.to_string_lossy().as_bytes(), 200);
    format!("{file}: {}", counts(survey, kept))
}

/// Returns the name of a file without its folder.
#[must_use]
pub fn base(file: &Path) -> String {
    let file = file.to_string_lossy();
    let base = file.rsplit('/').next().unwrap_or_default();
    shown(base.as_bytes(), 200)
}

/// Returns the number of rows and columns as text, with the number of selected rows if there is a
/// condition.
#[must_use]
#[allow(
    clippy::cast_precision_loss,
    reason = "a share needs no more than three digits"
)]
pub fn counts(survey: &Survey, kept: Option<u64>) -> String {
    let (rows, columns) = (survey.rows, survey.columns.len() as u64);
    let counts = format!("{}, {}", counted(rows, "row"), counted(columns, "column"));
    let Some(kept) = kept else {
        return counts;
    };
    let share = 100.0 * kept as f64 / rows.max(1) as f64;
    format!("{counts}; {} kept, {share:.1} %", grouped(kept))
}

/// Writes one row, a field per line.
///
/// # Errors
///
/// Returns an error if `out` can't be written.
pub fn write_row(out: &mut impl Write, row: &Row, survey: &Survey) -> io::Result<()> {
    writeln!(
        out,
        "row {}, from line {} on",
        grouped(row.number),
        grouped(row.line)
    )?;
    let names = survey
        .columns
        .iter()
        .map(|column| shown(column.name.as_bytes(), CELL));
    let names: Vec<String> = names.collect();
    let width = names
        .iter()
        .map(|name| name.chars().count())
        .max()
        .unwrap_or(0);
    for (name, field) in names.iter().zip(&row.fields) {
        let line = format!("  {name:<width$}  {}", shown(field, 1000));
        writeln!(out, "{}", line.trim_end())?;
    }
    Ok(())
}

fn counted(number: u64, thing: &str) -> String {
    let end = if number == 1 { "" } else { "s" };
    format!("{} {thing}{end}", grouped(number))
}
