//! Reads the arrays of a tree, and tests their numbers.

use alloc::sync::Arc;
use alloc::vec;
use alloc::vec::Vec;
use core::ffi::c_void;
use core::ptr::{self, NonNull};
use core::sync::atomic::AtomicBool;

use super::{OriginOf, Tested, row_of};
use crate::arrow::error::{ArrowError, Fault};
use crate::arrow::ffi::ArrowArray;
use crate::arrow::field::{Field, child, count};
use crate::arrow::layout::Layout;
use crate::arrow::pointers::Pointers;

impl Tested {
    /// Reads the numbers and the buffers of an array, without those below it.
    ///
    /// # Safety
    ///
    /// As for `Node::borrowed`.
    unsafe fn read(
        array: &ArrowArray,
        field: &Arc<Field>,
        origin: OriginOf,
    ) -> Result<Tested, ArrowError> {
        if array.release.is_none() {
            return Err(Fault::Released("ArrowArray").into());
        }
        let (offset, len) = window(array, field.layout)?;
        let nulls = null_count(array)?;
        // SAFETY: the caller promises it.
        let buffers = unsafe { buffers(array, field.layout)? };
        let (validity, values) = in_use(&buffers, field.layout, len)?;
        let has_validity = field.layout.has_validity();
        if has_validity && validity.is_null() && nulls > Some(0) {
            return Err(Fault::NoBuffer("validity").into());
        }
        let all_valid = validity.is_null() || nulls == Some(0);
        Ok(Tested {
            field: Arc::clone(field),
            offset,
            len,
            validity: if all_valid { ptr::null() } else { validity },
            values,
            below: 0,
            nulls: if all_valid && has_validity {
                Some(0)
            } else {
                nulls
            },
            ascends: AtomicBool::new(false),
            buffers,
            // SAFETY: the caller promises it.
            origin: unsafe { origin(array) },
            owner: None,
        })
    }
}

/// Reads an array and all arrays below it. The array itself comes first.
///
/// # Safety
///
/// As for `Node::borrowed`.
pub(super) unsafe fn all(
    array: &ArrowArray,
    field: &Arc<Field>,
    origin: OriginOf,
) -> Result<Vec<Tested>, ArrowError> {
    // SAFETY: the caller promises it.
    let mut all = vec![unsafe { Tested::read(array, field, origin)? }];
    // SAFETY: the caller promises it.
    unsafe { read_below(&mut all, 0, array, origin)? };
    Ok(all)
}

/// Reads the arrays below the one at an index: its children and its dictionary, and then those
/// below each of them.
///
/// # Safety
///
/// As for `Node::borrowed`. `array` is the array at the index.
unsafe fn read_below(
    all: &mut Vec<Tested>,
    place: usize,
    array: &ArrowArray,
    origin: OriginOf,
) -> Result<(), ArrowError> {
    let (field, first) = (Arc::clone(&all[place].field), all.len());
    all[place].below = first;
    // SAFETY: the caller promises it.
    unsafe { read_children(all, &field, array, origin)? };
    for place in 0..field.children.len() {
        // SAFETY: the caller promises it. The children were read in their order, from `first` on.
        let below = unsafe {
            let below = child(array.children, place)?.as_ref();
            read_below(all, first + place, below, origin)
        };
        below.map_err(|error| error.under(&field.name_of(place)))?;
    }
    if let Some(items) = NonNull::new(array.dictionary) {
        let place = first + field.children.len();
        // SAFETY: the caller promises it. The dictionary was read after the children.
        let below = unsafe { read_below(all, place, items.as_ref(), origin) };
        below.map_err(|error| error.under("dictionary"))?;
    }
    Ok(())
}

/// Returns the offset and the length, after a test that the items fit in memory.
fn window(array: &ArrowArray, layout: Layout) -> Result<(usize, usize), Fault> {
    let (offset, length) = (array.offset, array.length);
    let (start, len) = (
        count("offset", offset, None)?,
        count("length", length, None)?,
    );
    let (width, more) = layout.widest();
    let items = start.checked_add(len).and_then(|end| end.checked_add(more));
    let size = items.and_then(|items| items.checked_mul(width));
    match size.map(isize::try_from) {
        Some(Ok(_)) => Ok((start, len)),
        _ => Err(Fault::TooLong { offset, length }),
    }
}

/// Returns the number of nulls; None if the producer didn't count them.
fn null_count(array: &ArrowArray) -> Result<Option<usize>, Fault> {
    let (null_count, length) = (array.null_count, array.length);
    match usize::try_from(null_count) {
        Ok(nulls) if null_count <= length => Ok(Some(nulls)),
        Err(_) if null_count == -1 => Ok(None),
        _ => Err(Fault::NullCount { null_count, length }),
    }
}

/// The greatest number of buffers of an array of views: a view names one with a number of 32 bits.
const MOST_BUFFERS: i64 = i32::MAX as i64 + 4;

/// Returns the pointers to the buffers.
///
/// # Safety
///
/// As for `Node::borrowed`.
unsafe fn buffers(array: &ArrowArray, layout: Layout) -> Result<Pointers, Fault> {
    let too_many = Fault::OutOfRange("n_buffers", array.n_buffers);
    let least = layout.buffers().unwrap_or(array.n_buffers.max(3));
    let number = count("n_buffers", array.n_buffers, Some(least))?;
    if number > 0 && array.buffers.is_null() {
        return Err(Fault::Null("buffers"));
    }
    if least > MOST_BUFFERS {
        return Err(too_many);
    }
    // SAFETY: there are `number` pointers.
    Pointers::try_from_fn(number, |place| unsafe { *array.buffers.add(place) }).ok_or(too_many)
}

/// Returns the buffers of the validity and of the values; null if the layout has none.
fn in_use(
    buffers: &[*const c_void],
    layout: Layout,
    len: usize,
) -> Result<(*const u8, *const u8), Fault> {
    let buffer = |place: usize| buffers.get(place).map_or(ptr::null(), |it| it.cast::<u8>());
    let mut wanted = layout.wanted().iter().filter(|_| len > 0);
    if let Some((_, what)) = wanted.find(|(place, _)| buffer(*place).is_null()) {
        return Err(Fault::NoBuffer(what));
    }
    if !layout.has_validity() {
        return Ok((ptr::null(), ptr::null()));
    }
    Ok((buffer(0), buffer(1)))
}

/// Reads the children of an array and its dictionary, without those below them.
///
/// # Safety
///
/// As for `Node::borrowed`.
unsafe fn read_children(
    all: &mut Vec<Tested>,
    field: &Field,
    array: &ArrowArray,
    origin: OriginOf,
) -> Result<(), ArrowError> {
    let wanted = i64::try_from(field.children.len()).ok();
    count("n_children", array.n_children, wanted)?;
    let (offset, len) = window(array, field.layout)?;
    let items = items_of_child(array, field.layout, offset + len)?;
    let first = all.len();
    all.reserve(field.children.len());
    for (place, of) in field.children.iter().enumerate() {
        // SAFETY: the caller promises it.
        let child = unsafe { nth_child(array, place, of, origin, items) };
        all.push(child.map_err(|error| error.under(&field.name_of(place)))?);
    }
    if field.layout == Layout::Runs && len > 0 {
        // SAFETY: the caller promises it.
        unsafe { runs(&all[first..], offset + len) }.map_err(|fault| {
            let place = usize::from(matches!(fault, Fault::Short { .. }));
            ArrowError::from(fault).under(&field.name_of(place))
        })?;
    }
    // SAFETY: the caller promises it.
    all.extend(unsafe { dictionary(array, field, origin)? });
    Ok(())
}

/// Returns the least number of items that each child needs if the array's items end at `end`.
fn items_of_child(array: &ArrowArray, layout: Layout, end: usize) -> Result<usize, Fault> {
    let (offset, length) = (array.offset, array.length);
    match layout {
        Layout::Struct => Ok(end),
        Layout::Union { is_sparse, .. } if is_sparse => Ok(end),
        Layout::Lists(each) => end
            .checked_mul(each)
            .filter(|items| isize::try_from(*items).is_ok())
            .ok_or(Fault::TooLong { offset, length }),
        Layout::Runs => Ok(usize::from(length > 0)),
        _ => Ok(0),
    }
}

/// Tests that each run has a value, and that the runs reach up to `wanted` rows.
///
/// # Safety
///
/// The nodes are the ends of runs, at least one, and the values.
unsafe fn runs(children: &[Tested], wanted: usize) -> Result<(), Fault> {
    let [ends, values] = children else {
        return Ok(());
    };
    let (number, got) = (ends.len, values.len);
    if got < number {
        return Err(Fault::Short {
            wanted: number,
            got,
        });
    }
    let (last, width) = (ends.offset + number - 1, ends.field.layout.widest().0);
    // SAFETY: there is a number for each run.
    let end = unsafe { ends.number_at(last, width) };
    match row_of(end) {
        Some(row) if row >= wanted => Ok(()),
        _ => Err(Fault::Runs { end, wanted }),
    }
}

/// Reads a child, without those below it, and tests that it has at least `wanted` items.
///
/// # Safety
///
/// As for `Node::borrowed`, and there are more than `place` children.
unsafe fn nth_child(
    array: &ArrowArray,
    place: usize,
    field: &Arc<Field>,
    origin: OriginOf,
    wanted: usize,
) -> Result<Tested, ArrowError> {
    // SAFETY: the caller promises it.
    let node = unsafe { Tested::read(child(array.children, place)?.as_ref(), field, origin)? };
    if node.len < wanted {
        let got = node.len;
        return Err(Fault::Short { wanted, got }.into());
    }
    Ok(node)
}

/// Reads the dictionary, without those below it.
///
/// # Safety
///
/// As for `Node::borrowed`.
unsafe fn dictionary(
    array: &ArrowArray,
    field: &Field,
    origin: OriginOf,
) -> Result<Option<Tested>, ArrowError> {
    match (NonNull::new(array.dictionary), &field.dictionary) {
        (None, None) => Ok(None),
        // SAFETY: the caller promises it.
        (Some(items), Some(field)) => unsafe { Tested::read(items.as_ref(), field, origin) }
            .map(Some)
            .map_err(|error| error.under("dictionary")),
        _ => Err(Fault::Dictionary.into()),
    }
}
