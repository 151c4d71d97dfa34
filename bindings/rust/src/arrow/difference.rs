//! Compares rows with a type.

use alloc::format;
use alloc::string::String;

use super::array::Array;
use super::error::{ArrowError, Of};
use super::export::Export;
use super::field::{Field, NULLABLE};
use super::layout::Layout;
use crate::Validity;

/// The words for two types in an error.
pub(super) struct Between {
    pub rows: &'static str,
    pub wanted: &'static str,
    /// Whether to compare names too.
    pub has_names: bool,
}

/// Returns a message about the first difference between the type of rows and a wanted type: the
/// wanted names of the columns from the outermost one on, and the two things that differ. Returns
/// None if the rows have the type.
///
/// Metadata may differ. If no row is null, rows of a nullable type also match a type that allows no
/// null. All other flags of the wanted type have to be flags of the rows.
pub(super) fn difference(
    rows: &Export,
    wanted: &Field,
    between: &Between,
) -> Result<Option<String>, ArrowError> {
    let mut found = between.types(rows.field(), wanted);
    if found.is_none() && loses_nulls(rows.field(), wanted) {
        found = rows.look(|rows| Ok(between.nulls(rows, wanted)))?;
    }
    Ok(found.map(|(column, what)| format!("{}{what}", Of(&column))))
}

/// Returns the [`difference`] of imported rows.
pub(super) fn difference_of(rows: &Array, wanted: &Field, between: &Between) -> Option<String> {
    let mut found = between.types(rows.field(), wanted);
    if found.is_none() && loses_nulls(rows.field(), wanted) {
        found = between.nulls(rows, wanted);
    }
    found.map(|(column, what)| format!("{}{what}", Of(&column)))
}

/// Returns whether a column may have nulls and the wanted one allows none.
fn loses_nulls(rows: &Field, wanted: &Field) -> bool {
    let mut below = rows.fields().chain(rows.dictionary());
    let mut wanted_below = wanted.fields().chain(wanted.dictionary());
    (rows.is_nullable() && !wanted.is_nullable())
        || below.any(|rows| {
            wanted_below
                .next()
                .is_some_and(|wanted| loses_nulls(rows, wanted))
        })
}

impl Between {
    /// Returns the first column whose types differ, and the difference; None if there is none.
    fn types(&self, rows: &Field, wanted: &Field) -> Option<(String, String)> {
        if let Some(what) = self.own(rows, wanted) {
            return Some((String::new(), what));
        }
        let mut columns = rows.fields().zip(wanted.fields()).enumerate();
        let in_columns = columns.find_map(|(place, (of_rows, of_wanted))| {
            let (below, what) = self.types(of_rows, of_wanted)?;
            Some((under(&wanted.name_of(place), &below), what))
        });
        in_columns.or_else(|| {
            let (below, what) = self.types(rows.dictionary()?, wanted.dictionary()?)?;
            Some((under("dictionary", &below), what))
        })
    }

    /// Returns a difference of the two themselves, without their children.
    fn own(&self, rows: &Field, wanted: &Field) -> Option<String> {
        let (one, other) = (self.rows, self.wanted);
        if rows.format != wanted.format {
            let [rows, wanted] = [&rows.format, &wanted.format];
            return Some(format!("{one} has {rows:?}, {other} {wanted:?}"));
        }
        if self.has_names && rows.name != wanted.name {
            let [rows, wanted] = [&rows.name, &wanted.name];
            return Some(format!("{one} has the name {rows:?}, {other} {wanted:?}"));
        }
        let [columns, wanted_columns] = [rows, wanted].map(|it| it.children.len());
        if columns != wanted_columns {
            return Some(format!(
                "{one} has the number of columns {columns}, {other} {wanted_columns}"
            ));
        }
        if wanted.flags & !NULLABLE & !rows.flags != 0 {
            let [rows, wanted] = [rows.flags, wanted.flags];
            return Some(format!("{one} has the flags {rows}, {other} {wanted}"));
        }
        match (rows.dictionary(), wanted.dictionary()) {
            (Some(_), None) => Some(format!("{one} has a dictionary, {other} none")),
            (None, Some(_)) => Some(format!("{one} has no dictionary, {other} one")),
            _ => None,
        }
    }

    /// Returns the first column that has nulls if the wanted one allows none.
    fn nulls(&self, rows: &Array, wanted: &Field) -> Option<(String, String)> {
        let loses_nulls = rows.field().is_nullable() && !wanted.is_nullable();
        let nulls = if loses_nulls { null_count(rows) } else { 0 };
        if nulls > 0 {
            let (one, other) = (self.rows, self.wanted);
            let what = format!("{one} has the number of nulls {nulls}, {other} none");
            return Some((String::new(), what));
        }
        let mut columns = rows.parts().zip(wanted.fields()).enumerate();
        let in_columns = columns.find_map(|(place, (of_rows, of_wanted))| {
            let (below, what) = self.nulls(&of_rows, of_wanted)?;
            Some((under(&wanted.name_of(place), &below), what))
        });
        in_columns.or_else(|| {
            let (below, what) = self.nulls(&rows.dictionary()?, wanted.dictionary()?)?;
            Some((under("dictionary", &below), what))
        })
    }
}

/// Returns the number of null rows. Only a producer's 0 is used: other numbers may be wrong, and
/// slices don't have them. Unions and run-end-encoded arrays have their nulls in the children only.
fn null_count(rows: &Array) -> usize {
    match rows.field().layout {
        Layout::Nulls => rows.len(),
        _ => rows.validity().map_or(0, Validity::count_zeros),
    }
}

/// Returns the name of a column within another one.
fn under(parent: &str, below: &str) -> String {
    let point = if below.is_empty() { "" } else { "." };
    format!("{parent}{point}{below}")
}
