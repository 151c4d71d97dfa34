//! Exports fields as schemas.

use alloc::boxed::Box;
use alloc::ffi::CString;
use alloc::vec::Vec;
use core::ptr;

use super::export::number;
use super::ffi::{ArrowSchema, Below, Owned};
use super::field::Field;

/// The memory of a schema, until it is released.
struct Held {
    format: CString,
    name: CString,
    metadata: Vec<u8>,
    below: Below<ArrowSchema>,
}

impl Field {
    pub(super) fn schema(&self) -> Owned<ArrowSchema> {
        let mut held = Box::new(Held {
            format: c_string(&self.format),
            name: c_string(&self.name),
            metadata: self.metadata.clone(),
            below: Below::new(self.fields().map(Field::schema).collect()),
        });
        if let Some(dictionary) = self.dictionary() {
            held.below.set_dictionary(dictionary.schema());
        }
        let mut schema = ArrowSchema {
            format: held.format.as_ptr(),
            name: held.name.as_ptr(),
            metadata: if held.metadata.is_empty() {
                ptr::null()
            } else {
                held.metadata.as_ptr().cast()
            },
            flags: self.flags,
            n_children: number(held.below.children.len()),
            children: held.below.children.as_mut_ptr(),
            dictionary: held.below.dictionary,
            release: Some(release),
            private_data: ptr::null_mut(),
        };
        schema.private_data = Box::into_raw(held).cast();
        // SAFETY: it is as the interface requires, and no one else has it.
        unsafe { Owned::take(&raw mut schema) }
    }
}

/// Returns the text up to its first character 0.
pub(super) fn c_string(text: &str) -> CString {
    let text = text.split('\0').next().unwrap_or_default();
    CString::new(text).unwrap_or_default()
}

/// # Safety
///
/// [`Field::schema`] made the schema, and it isn't released.
unsafe extern "C" fn release(schema: *mut ArrowSchema) {
    // SAFETY: the caller promises it.
    unsafe {
        drop(Box::from_raw((*schema).private_data.cast::<Held>()));
        schema.write(ArrowSchema::empty());
    }
}
