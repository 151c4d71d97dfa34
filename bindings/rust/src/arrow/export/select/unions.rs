//! Selects rows of unions.

use alloc::vec::Vec;

use super::made::Made;
use super::memory::zeroed;
use super::rows::{Rows, Run, Runs};
use super::{of_column, put, too_long};
use crate::arrow::array::Array;
use crate::arrow::error::{ArrowError, Fault};
use crate::arrow::field::Field;
use crate::arrow::layout;
use crate::bytes::AlignedBytes;

/// The children that type ids name.
struct Ids {
    /// The child of each id.
    children: [Option<u8>; 128],
    /// The id of the first child. Null rows have it.
    first: Option<u8>,
}

impl Ids {
    fn of(field: &Field) -> Ids {
        let (mut children, mut first) = ([None; 128], None);
        for (child, id) in (0..).zip(layout::type_ids(&field.format)) {
            children[usize::from(id)] = Some(child);
            first = first.or(Some(id));
        }
        Ids { children, first }
    }

    /// Returns the child of a row.
    fn child(&self, of: &Array, row: usize, id: u8) -> Result<usize, ArrowError> {
        let child = self.children.get(usize::from(id)).copied().flatten();
        child.map(usize::from).ok_or_else(|| {
            let id = i8::from_ne_bytes([id]);
            of.malformed(Fault::TypeId { row, id })
        })
    }

    /// Returns the id of null rows.
    fn of_nulls(&self, field: &Field) -> Result<u8, ArrowError> {
        self.first.ok_or_else(|| ArrowError::Type {
            column: field.name.clone(),
            format: field.format.clone(),
            wanted: "that of rows that may be null",
        })
    }
}

/// Selects rows of a sparse union: the type ids of the rows, and the same rows of each child.
pub(super) fn sparse(field: &Field, of: &[Array], rows: Rows<'_>) -> Result<Made, ArrowError> {
    let ids = Ids::of(field);
    let mut types = zeroed(field, rows.len(), 1)?;
    rows.each(|before, run| {
        let out = &mut types[before..before + run.len];
        let Some(one) = run.of.map(|one| &of[one]) else {
            out.fill(ids.of_nulls(field)?);
            return Ok(());
        };
        out.copy_from_slice(&one.type_ids()[run.start..][..run.len]);
        let mut rows = (run.start..).zip(&*out);
        rows.try_for_each(|(row, id)| ids.child(one, row, *id).map(drop))
    })
    .map_err(of_column(field))?;
    let mut made = Made::of([types]);
    made.columns(field, of, rows)?;
    Ok(made)
}

/// New rows of a dense union.
struct Dense {
    types: AlignedBytes,
    offsets: AlignedBytes,
    /// The selected items of each child.
    items: Vec<Runs>,
}

/// Selects rows of a dense union: the type ids of the rows, new offsets, and of each child only the
/// items that the rows name.
pub(super) fn dense(field: &Field, of: &[Array], rows: Rows<'_>) -> Result<Made, ArrowError> {
    let ids = Ids::of(field);
    let mut kept = Dense {
        types: zeroed(field, rows.len(), 1)?,
        offsets: zeroed(field, rows.len(), size_of::<i32>())?,
        items: field.children.iter().map(|_| Runs::default()).collect(),
    };
    rows.each(|before, run| match run.of {
        Some(one) => (0..run.len).try_for_each(|row| {
            let (id, child, start) = of[one].item_of_union(&ids, run.start + row)?;
            let (of, len) = (Some(one), 1);
            kept.add(field, before + row, (id, child), Run { of, start, len })
        }),
        None => (before..before + run.len).try_for_each(|row| {
            let (of, start, len) = (None, 0, 1);
            let id = ids.of_nulls(field)?;
            kept.add(field, row, (id, 0), Run { of, start, len })
        }),
    })
    .map_err(of_column(field))?;
    let Dense {
        types,
        offsets,
        items,
    } = kept;
    let mut made = Made::of([types, offsets]);
    for (place, items) in items.into_iter().enumerate() {
        made.items(field, place, of, items)?;
    }
    Ok(made)
}

impl Dense {
    /// Adds an item of a child as a row.
    fn add(
        &mut self,
        field: &Field,
        row: usize,
        (id, child): (u8, usize),
        item: Run,
    ) -> Result<(), ArrowError> {
        let offset = self.items[child].len();
        if i32::try_from(offset).is_err() {
            return Err(too_long(field, "items of a union", offset, i32::MAX.into()));
        }
        self.types[row] = id;
        put(&mut self.offsets, row, size_of::<i32>(), offset);
        self.items[child].push(field, item)
    }
}

impl Array {
    /// Returns the type id of a row of a dense union, its child, and the index of its item in the
    /// child.
    fn item_of_union(&self, ids: &Ids, row: usize) -> Result<(u8, usize, usize), ArrowError> {
        let id = self.type_ids()[row];
        let child = ids.child(self, row, id)?;
        let (offset, items) = (self.union_offset(row), self.node.as_ref().child(child).len);
        match usize::try_from(offset) {
            Ok(item) if item < items => Ok((id, child, item)),
            _ => Err(self.malformed(Fault::Item { row, offset, items })),
        }
    }
}
