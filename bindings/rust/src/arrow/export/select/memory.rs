//! Memory for rows, each with an error if it runs out.

use alloc::vec::Vec;

use crate::arrow::error::ArrowError;
use crate::arrow::field::Field;
use crate::bytes::AlignedBytes;

/// Allocates `len` values of `width` bytes, all 0.
pub(super) fn zeroed(field: &Field, len: usize, width: usize) -> Result<AlignedBytes, ArrowError> {
    let bytes = len.checked_mul(width);
    let zeros = bytes.and_then(AlignedBytes::try_zeroed);
    zeros.ok_or_else(|| none_for(field, bytes.unwrap_or(usize::MAX)))
}

/// Allocates the bytes of `len` bits, all true.
pub(in crate::arrow::export) fn all_true(
    field: &Field,
    len: usize,
) -> Result<AlignedBytes, ArrowError> {
    let mut bytes = zeroed(field, len.div_ceil(8), 1)?;
    bytes.fill(u8::MAX);
    Ok(bytes)
}

/// Allocates capacity for `bytes` bytes, without contents.
pub(super) fn with_room(field: &Field, bytes: usize) -> Result<AlignedBytes, ArrowError> {
    AlignedBytes::try_with_capacity(bytes).ok_or_else(|| none_for(field, bytes))
}

/// Returns an empty vector with capacity for `len` items.
pub(super) fn reserved<T>(field: &Field, len: usize) -> Result<Vec<T>, ArrowError> {
    let mut items = Vec::new();
    match items.try_reserve_exact(len) {
        Ok(()) => Ok(items),
        Err(_) => Err(none_for(field, len.saturating_mul(size_of::<T>()))),
    }
}

/// Appends an item.
#[inline]
pub(super) fn push<T>(field: &Field, items: &mut Vec<T>, item: T) -> Result<(), ArrowError> {
    if items.try_reserve(1).is_err() {
        // It requests twice the capacity, at least four items.
        let wanted = items.capacity().saturating_mul(2).max(4);
        return Err(none_for(field, wanted.saturating_mul(size_of::<T>())));
    }
    items.push(item);
    Ok(())
}

#[cold]
fn none_for(field: &Field, bytes: usize) -> ArrowError {
    ArrowError::Memory {
        column: field.name.clone(),
        bytes,
    }
}

/// Returns the error for more rows or items than a `usize` counts.
#[cold]
pub(super) fn too_many(field: &Field) -> ArrowError {
    none_for(field, usize::MAX)
}
