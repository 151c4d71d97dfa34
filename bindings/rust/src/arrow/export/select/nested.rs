//! Selects rows of types with children, and of columns with a dictionary.

use alloc::vec::Vec;

use super::made::Made;
use super::memory::{reserved, too_many, zeroed};
use super::nodes::{self, Nodes, only};
use super::rows::{Rows, Run, Runs};
use super::{fixed, of_column, put, selected, too_long};
use crate::Bits;
use crate::arrow::array::Array;
use crate::arrow::error::{ArrowError, Fault};
use crate::arrow::export::shared;
use crate::arrow::field::Field;
use crate::arrow::layout::{Kind, Layout};
use crate::bytes::AlignedBytes;

/// Selects rows of structs: the same rows of each column.
pub(super) fn structs(field: &Field, of: &[Array], rows: Rows<'_>) -> Result<Made, ArrowError> {
    let mut made = Made::default();
    made.columns(field, of, rows)?;
    Ok(made)
}

/// Selects rows of fixed-size lists.
pub(super) fn fixed_lists(
    field: &Field,
    each: usize,
    of: &[Array],
    rows: Rows<'_>,
) -> Result<Made, ArrowError> {
    let mut items = Runs::default();
    rows.each(
        |_,
         Run {
             of: one,
             start,
             len,
         }| {
            let before = one.map_or(0, |one| of[one].start);
            let len = len.checked_mul(each).ok_or_else(|| too_many(field))?;
            let start = (before + start) * each;
            let of = one;
            items.push(field, Run { of, start, len })
        },
    )?;
    let mut made = Made::default();
    made.items(field, 0, of, items)?;
    Ok(made)
}

/// Selects rows of list views: their offsets and sizes. The items are those of all arrays with a
/// valid row. `valid` has a bit per row.
pub(super) fn list_views(
    field: &Field,
    width: usize,
    of: &[Array],
    rows: Rows<'_>,
    valid: Option<Bits<'_>>,
) -> Result<Made, ArrowError> {
    let of_all = of.iter().map(|it| it.node.as_ref().child(0));
    if let Some(items) = only(of_all, nodes::items) {
        let numbers = of.iter().map(|it| it.list_view_numbers(width));
        let numbers = numbers.map(|[offsets, sizes]| (offsets, sizes));
        let (offsets, sizes): (Vec<&[u8]>, Vec<&[u8]>) = numbers.unzip();
        let offsets = fixed::values(field, width, &offsets, rows)?;
        let mut made = Made::of([offsets, fixed::values(field, width, &sizes, rows)?]);
        made.below.push(shared(items, items.offset, items.len));
        return Ok(made);
    }
    let used = with_valid_rows(field, of.len(), rows, valid)?;
    let items = || used.arrays(of).map(|it| it.node.as_ref().child(0));
    let one = only(items(), nodes::items);
    let items = Nodes::of(items(), nodes::items);
    let before = used.each_before(&items);
    let number = items.each.iter().map(Array::len);
    let number = number.fold(0, usize::saturating_add);
    if width == 4 && one.is_none() && i32::try_from(number).is_err() {
        return Err(too_long(field, "items of lists", number, i32::MAX.into()));
    }
    let mut offsets = zeroed(field, rows.len(), width)?;
    let mut sizes = zeroed(field, rows.len(), width)?;
    let moved = move_lists(of, width, rows, valid, &before, [&mut offsets, &mut sizes]);
    moved.map_err(of_column(field))?;
    let mut made = Made::of([offsets, sizes]);
    if let Some(items) = one {
        made.below.push(shared(items, items.offset, items.len));
        return Ok(made);
    }
    let all = all_rows(field, &items.each)?;
    made.children(field, |_| &items.each[..], |_| all.rows())?;
    Ok(made)
}

/// Writes the offsets and sizes of list views. `before` has for each array the number of items in
/// front of its own. Null rows get 0, since theirs may be any numbers.
fn move_lists(
    of: &[Array],
    width: usize,
    rows: Rows<'_>,
    valid: Option<Bits<'_>>,
    before: &[usize],
    [offsets, sizes]: [&mut [u8]; 2],
) -> Result<(), ArrowError> {
    rows.each(|at, run| {
        let Some(one) = run.of else {
            return Ok(());
        };
        for (at, row) in (at..).zip(run.start..run.start + run.len) {
            if valid.is_none_or(|valid| valid[at]) {
                let (start, len) = list_view(&of[one], width, row)?;
                put(offsets, at, width, start.saturating_add(before[one]));
                put(sizes, at, width, len);
            }
        }
        Ok(())
    })
}

/// Returns the first item and the number of items of a list view.
fn list_view(of: &Array, width: usize, row: usize) -> Result<(usize, usize), ArrowError> {
    let ([offsets, sizes], items) = (of.list_view_numbers(width), of.node.as_ref().child(0).len);
    let (start, size) = (signed(offsets, row, width), signed(sizes, row, width));
    let end = start.saturating_add(size);
    match (usize::try_from(start), usize::try_from(size)) {
        (Ok(first), Ok(len)) if usize::try_from(end).is_ok_and(|it| it <= items) => {
            Ok((first, len))
        }
        _ => Err(of.malformed(Fault::Range { row, start, end })),
    }
}

/// Reads a signed number of four or eight bytes.
fn signed(bytes: &[u8], place: usize, width: usize) -> i64 {
    let bytes = &bytes[place * width..][..width];
    match (bytes.first_chunk(), bytes.first_chunk()) {
        (Some(eight), _) => i64::from_ne_bytes(*eight),
        (_, Some(four)) => i32::from_ne_bytes(*four).into(),
        _ => 0,
    }
}

/// Selects rows of a column with a dictionary: the indices. The items are those of all arrays with
/// a valid row. `valid` has a bit per row.
pub(super) fn coded(
    field: &Field,
    items: &Field,
    of: &[Array],
    rows: Rows<'_>,
    valid: Option<Bits<'_>>,
) -> Result<Made, ArrowError> {
    let width = field.layout.widest().0;
    let used = with_valid_rows(field, of.len(), rows, valid)?;
    let dictionaries = || {
        used.arrays(of)
            .filter_map(|it| it.node.as_ref().dictionary())
    };
    if let Some(one) = only(dictionaries(), nodes::items) {
        let mut made = Made::of([fixed::own_values(field, width, of, rows)?]);
        let len = one.len;
        made.dictionary = Some(shared(one, one.offset, len));
        // If there is no item, no row can name one.
        if len == 0 && rows.has_nulls() && !field.is_nullable() {
            return Err(of_column(field)(of[0].lost(0, 0, 0)));
        }
        return Ok(made);
    }
    let dictionaries = Nodes::of(dictionaries(), nodes::items);
    let before = used.each_before(&dictionaries);
    let mut made = Made::of([moved_indices(field, of, rows, &before)?]);
    let all = all_rows(field, &dictionaries.each)?;
    let items = selected(items, &dictionaries.each, all.rows());
    made.dictionary = Some(items.map_err(|error| match &field.name {
        name if name.is_empty() => error.under("dictionary"),
        name => error.under("dictionary").under(name),
    })?);
    Ok(made)
}

/// Which arrays' items or dictionaries the selected rows need.
struct Used(Vec<bool>);

impl Used {
    /// Returns those arrays.
    fn arrays<'a>(&'a self, of: &'a [Array]) -> impl Iterator<Item = &'a Array> {
        let used = of.iter().zip(&self.0).filter(|(_, is_used)| **is_used);
        used.map(|(it, _)| it)
    }

    /// Returns for each array the number of items in front of its own; 0 for arrays that aren't
    /// used. `items` are those of the used arrays.
    fn each_before(&self, items: &Nodes) -> Vec<usize> {
        let mut before = items.before(Array::len);
        let each = self.0.iter();
        let each = each.map(|is_used| if *is_used { before.next() } else { None });
        each.map(Option::unwrap_or_default).collect()
    }
}

/// Returns which arrays are used: those with a selected row that is valid. If there is none, the
/// first one is.
fn with_valid_rows(
    field: &Field,
    arrays: usize,
    rows: Rows<'_>,
    valid: Option<Bits<'_>>,
) -> Result<Used, ArrowError> {
    let mut used: Vec<bool> = reserved(field, arrays)?;
    used.resize(arrays, arrays == 1);
    if arrays > 1 {
        rows.for_each(|at, run| {
            let is_used = valid.is_none_or(|valid| valid.slice(at..at + run.len).any());
            if let Some(one) = run.of.filter(|_| is_used) {
                used[one] = true;
            }
        });
    }
    if let (false, Some(first)) = (used.contains(&true), used.first_mut()) {
        *first = true;
    }
    Ok(Used(used))
}

/// Selects indices. `before` has for each array the number of items in front of its own. Null rows
/// get 0.
fn moved_indices(
    field: &Field,
    of: &[Array],
    rows: Rows<'_>,
    before: &[usize],
) -> Result<AlignedBytes, ArrowError> {
    let width = field.layout.widest().0;
    let is_signed = matches!(field.layout, Layout::Fixed(Kind::Signed, _));
    let most = u64::MAX >> (64 - 8 * width + usize::from(is_signed));
    let mut moved = zeroed(field, rows.len(), width)?;
    rows.each(|at, run| {
        let Some(one) = run.of else {
            return Ok(());
        };
        let (rows, valid) = (run.start..run.start + run.len, of[one].validity()?);
        of[one].each_index_of(rows, |row, index| {
            if valid.get(row) == Some(false) {
                return Ok(());
            }
            let index = index.saturating_add(before[one]);
            if u64::try_from(index).is_ok_and(|it| it > most) {
                let most = i64::try_from(most).unwrap_or(i64::MAX);
                let items = index.saturating_add(1);
                return Err(too_long(field, "items of a dictionary", items, most));
            }
            put(&mut moved, at + row - run.start, width, index);
            Ok(())
        })
    })
    .map_err(of_column(field))?;
    Ok(moved)
}

/// Returns all rows of the arrays.
fn all_rows(field: &Field, of: &[Array]) -> Result<Runs, ArrowError> {
    Runs::whole(field, of.iter().map(Array::len))
}
