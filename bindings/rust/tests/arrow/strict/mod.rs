//! A checker of the interface, written from Arrow's documents alone. It tests each number of a
//! struct, and each offset, index, size, type and text that a consumer follows, and reads each byte
//! that a consumer may read.
mod array;
mod buffers;
mod format;
mod schema;
mod stream;

pub use format::{Sign, Type, parse};
pub use stream::batches;

use array::check;
use schema::Tree;

use crate::raw;

/// How much of an array is looked at.
#[derive(Clone, Copy, PartialEq)]
pub enum Look {
    /// The numbers of structs and which pointers are null, for an array that is exported as it was
    /// imported. Flags may be any.
    Numbers,
    /// The items too.
    Items,
}

/// What is wrong, and where: the children from the outermost one on.
pub type Checked<T> = Result<T, String>;

/// What is wrong of a child.
pub fn under<T>(answer: Checked<T>, child: impl std::fmt::Display) -> Checked<T> {
    answer.map_err(|wrong| format!("{child}: {wrong}"))
}

/// Whether something holds, else what doesn't.
pub fn holds(is_so: bool, what: impl FnOnce() -> String) -> Checked<()> {
    if is_so { Ok(()) } else { Err(what()) }
}

/// Tests that an array is valid for its type. Returns the number of arrays that were tested.
///
/// # Safety
///
/// The pointers are null or point to what the structs say.
pub unsafe fn looked_at(array: &raw::Array, schema: &raw::Schema, look: Look) -> Checked<usize> {
    // SAFETY: as for this function.
    unsafe { check(array, &Tree::read(schema, look)?, look) }
}
