//! Selects rows of texts, lists and views.

use alloc::vec::Vec;
use core::ffi::c_void;

use super::made::Made;
use super::memory::zeroed;
use super::nodes::{self, Nodes, only};
use super::rows::{Rows, Run, Runs};
use super::{fixed, joined, of_column, put, tested, too_long};
use crate::Bits;
use crate::arrow::array::Array;
use crate::arrow::error::{ArrowError, Fault};
use crate::arrow::field::Field;
use crate::arrow::layout::{Layout, Of};
use crate::arrow::ranges::Ranges;
use crate::arrow::texts::{View, viewed};
use crate::bytes::AlignedBytes;

/// Selects rows of texts: new offsets, and the bytes of the rows. `valid` has a bit per row.
pub(super) fn texts(
    field: &Field,
    width: usize,
    of: &[Array],
    rows: Rows<'_>,
    valid: Option<Bits<'_>>,
) -> Result<Made, ArrowError> {
    if let [one] = of {
        if let Some(made) = joined::rows(field, one, rows, valid)? {
            return Ok(made);
        }
    }
    let joined = tested::texts(field, of, rows)?;
    let (ranges, bytes): (Vec<_>, Vec<_>) = joined.into_iter().unzip();
    let copied = |valid| {
        let (offsets, parts) = offsets(field, width, &ranges, rows, valid)?;
        let bytes = fixed::values(field, 1, &bytes, parts.rows())?;
        Ok(Made::of([offsets, bytes]))
    };
    // Copying the bytes of null rows too takes fewer runs, but there may be too many bytes.
    match copied(None) {
        Err(_) if valid.is_some() => copied(valid),
        made => made,
    }
}

/// Selects rows of lists: new offsets, and the items of the rows. `valid` has a bit per row.
pub(super) fn lists(
    field: &Field,
    width: usize,
    of: &[Array],
    rows: Rows<'_>,
    valid: Option<Bits<'_>>,
) -> Result<Made, ArrowError> {
    let ranges = tested::lists(field, of, rows)?;
    let (offsets, parts) = offsets(field, width, &ranges, rows, valid)?;
    let mut made = Made::of([offsets]);
    made.items(field, 0, of, parts)?;
    Ok(made)
}

/// Returns the offsets of the rows one after the other, and the ranges of bytes or items that they
/// have in the arrays. Rows whose bit of `valid` is unset have none, whatever their offsets are.
fn offsets(
    field: &Field,
    width: usize,
    of: &[Ranges<'_>],
    rows: Rows<'_>,
    valid: Option<Bits<'_>>,
) -> Result<(AlignedBytes, Runs), ArrowError> {
    let mut kept = Kept {
        field,
        width,
        offsets: zeroed(field, rows.len().saturating_add(1), width)?,
        parts: Runs::default(),
    };
    rows.each(|before, run| {
        let Some(ranges) = run.of.map(|one| of[one]).filter(|_| run.len > 0) else {
            kept.add_nulls(before, run.len);
            return Ok(());
        };
        match valid {
            Some(valid) if run.len > 1 => {
                let valid = valid.slice(before..before + run.len);
                kept.add_valid(ranges, before, run, valid)
            }
            Some(valid) if !valid[before] => {
                kept.add_nulls(before, 1);
                Ok(())
            }
            _ => kept.add(ranges, before, run),
        }
    })?;
    Ok((kept.offsets, kept.parts))
}

/// The offsets of the rows so far, and their ranges of bytes or items.
struct Kept<'a> {
    field: &'a Field,
    width: usize,
    offsets: AlignedBytes,
    parts: Runs,
}

impl Kept<'_> {
    /// Adds a run after the first `before` rows.
    #[inline]
    fn add(&mut self, ranges: Ranges<'_>, before: usize, run: Run) -> Result<(), ArrowError> {
        let (end, most) = (self.parts.len(), most(self.width));
        let rows = run.start..run.start + run.len;
        let span = ranges.span(rows.clone()).unwrap_or_default();
        let all = end.checked_add(span.len());
        if all.is_none_or(|all| is_beyond(all, most)) {
            let ends = rows.filter_map(|row| ranges.get(row));
            let ends = ends.map(|it| end.saturating_add(it.end - span.start));
            return Err(long(self.field, ends));
        }
        let (start, len) = (span.start, span.len());
        self.parts.push(self.field, Run { start, len, ..run })?;
        let out = &mut self.offsets[(before + 1) * self.width..][..run.len * self.width];
        ranges.write_ends(rows, end, out);
        Ok(())
    }

    /// Adds the valid rows of a run, and null rows without bytes or items.
    fn add_valid(
        &mut self,
        ranges: Ranges<'_>,
        before: usize,
        run: Run,
        valid: Bits<'_>,
    ) -> Result<(), ArrowError> {
        if !ranges.any_unset(run.start, valid) {
            return self.add(ranges, before, run);
        }
        let mut done = 0;
        for rows in valid.set_slices() {
            self.add_nulls(before + done, rows.start - done);
            let (start, len) = (run.start + rows.start, rows.len());
            self.add(ranges, before + rows.start, Run { start, len, ..run })?;
            done = rows.end;
        }
        self.add_nulls(before + done, run.len - done);
        Ok(())
    }

    /// Adds null rows after the first `before` rows.
    fn add_nulls(&mut self, before: usize, len: usize) {
        let (end, width) = (self.parts.len(), self.width);
        (before + 1..=before + len).for_each(|row| put(&mut self.offsets, row, width, end));
    }
}

/// Returns the greatest end that an offset of `width` bytes can represent.
fn most(width: usize) -> i64 {
    if width == 4 {
        i32::MAX.into()
    } else {
        i64::MAX
    }
}

fn is_beyond(end: usize, most: i64) -> bool {
    !i64::try_from(end).is_ok_and(|end| end <= most)
}

/// Returns the error of rows with these ends, one of which the offsets can't represent.
#[cold]
pub(super) fn long(field: &Field, mut ends: impl Iterator<Item = usize>) -> ArrowError {
    let (most, what) = match field.layout {
        Layout::Ranges(width, Of::Items) => (most(width), "items of lists"),
        layout => (most(layout.widest().0), "bytes of texts"),
    };
    let number = ends.find(|end| is_beyond(*end, most)).unwrap_or(usize::MAX);
    match field.layout {
        Layout::Ranges(4, Of::Bytes) => ArrowError::LongTexts {
            column: field.name.clone(),
            bytes: number,
        },
        _ => too_long(field, what, number, most),
    }
}

/// Selects rows of views: the views, and the buffers of all arrays. `valid` has a bit per row. Null
/// rows get empty views, since those that they have may name a buffer that isn't there.
pub(super) fn views(
    field: &Field,
    of: &[Array],
    rows: Rows<'_>,
    valid: Option<Bits<'_>>,
) -> Result<Made, ArrowError> {
    let width = size_of::<View>();
    let nodes = || of.iter().map(|it| it.node.as_ref());
    if let Some(node) = only(nodes(), nodes::viewed) {
        let mut views = fixed::own_values(field, width, of, rows)?;
        let nulls = valid.into_iter().flat_map(Bits::unset_indices);
        nulls.for_each(|row| views[row * width..][..width].fill(0));
        let mut made = Made::of([views]);
        made.shared.extend_from_slice(nodes::viewed(node));
        made.keep(node);
        return Ok(made);
    }
    let nodes = Nodes::of(nodes(), nodes::viewed);
    // The sizes come after the buffers of texts, the validity and the views before them.
    let buffers = nodes.each.iter().map(|it| {
        let buffers = it.view_buffers();
        buffers.map_err(|fault| ArrowError::from(fault).of(&field.name))
    });
    let buffers = buffers.collect::<Result<Vec<_>, _>>()?;
    let before = nodes.before(|it| it.node.buffers.len() - 3);
    let parts: Vec<_> = before
        .zip(nodes.places.iter().map(|place| &buffers[*place][..]))
        .collect();
    let mut made = Made::of([moved_views(field, of, rows, valid, &parts)?]);
    let buffers = buffers.concat();
    let mut sizes = zeroed(field, buffers.len(), size_of::<i64>())?;
    for (place, buffer) in buffers.iter().enumerate() {
        put(&mut sizes, place, size_of::<i64>(), buffer.len());
    }
    made.shared = buffers.iter().map(|it| it.as_ptr().cast()).collect();
    made.shared.push(sizes.address().cast::<c_void>());
    made.keep_all(&nodes.each, sizes);
    Ok(made)
}

/// Selects views. `parts` has for each array its buffers, and the number of buffers in front of
/// these. The views of null rows are empty.
fn moved_views(
    field: &Field,
    of: &[Array],
    rows: Rows<'_>,
    valid: Option<Bits<'_>>,
    parts: &[(usize, &[&[u8]])],
) -> Result<AlignedBytes, ArrowError> {
    let mut moved = zeroed(field, rows.len(), size_of::<View>())?;
    rows.each(|at, run| -> Result<(), ArrowError> {
        let Some(one) = run.of else {
            return Ok(());
        };
        let (views, (before, buffers)) = (of[one].views().unwrap_or_default(), parts[one]);
        for (at, row) in (at..).zip(run.start..run.start + run.len) {
            if valid.is_none_or(|valid| valid[at]) {
                let text = viewed(&views[row], buffers);
                let text = text.ok_or_else(|| of[one].malformed(Fault::View(row)));
                let text = text.map_err(of_column(field))?;
                let view = moved_view(field, views[row], text.len(), before)?;
                moved[at * size_of::<View>()..][..size_of::<View>()].copy_from_slice(&view);
            }
        }
        Ok(())
    })?;
    Ok(moved)
}

/// Returns the view of a text of `len` bytes, with `before` buffers in front of its own.
fn moved_view(
    field: &Field,
    mut view: View,
    len: usize,
    before: usize,
) -> Result<View, ArrowError> {
    if len > 12 {
        let buffer = u32::from_ne_bytes([view[8], view[9], view[10], view[11]]);
        let buffer = usize::try_from(buffer).unwrap_or(usize::MAX);
        let moved = buffer.saturating_add(before);
        let moved = i32::try_from(moved)
            .map_err(|_| too_long(field, "buffers of views", moved, i32::MAX.into()))?;
        view[8..12].copy_from_slice(&moved.to_ne_bytes());
    }
    Ok(view)
}
