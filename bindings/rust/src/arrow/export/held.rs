//! The memory of exported arrays.

use alloc::boxed::Box;
use alloc::sync::Arc;
use core::any::Any;

use super::number;
use super::select::Owners;
use crate::Bitmap;
use crate::arrow::ffi::{ArrowArray, Below, Owned};
use crate::arrow::node::{Node, Origin};
use crate::arrow::pointers::Pointers;

/// The memory of an array, until it is released.
pub(super) struct Held {
    pub buffers: Pointers,
    pub below: Below<ArrowArray>,
    pub kept: Kept,
}

/// The owners of the buffers of an array.
#[allow(dead_code, reason = "their drops free the buffers")]
pub(super) enum Kept {
    /// The owner of the values, and the validity.
    Column(Arc<dyn Any + Send + Sync>, Option<Bitmap>),
    /// The validity.
    Struct(Option<Bitmap>),
    /// The owners of new rows.
    New(Owners),
    /// The array whose buffers they are.
    Node(Node),
}

impl Held {
    /// Returns the array. `nulls` is None if the number of nulls isn't known, which the struct says
    /// as -1.
    pub(super) fn array(
        self,
        len: usize,
        nulls: Option<usize>,
        offset: usize,
    ) -> Owned<ArrowArray> {
        let private = Box::into_raw(Box::new(self));
        // SAFETY: nothing else refers to it. The pointers to its buffers come from the one to it.
        let held = unsafe { &mut *private };
        let mut array = ArrowArray {
            length: number(len),
            null_count: nulls.map_or(-1, number),
            offset: number(offset),
            n_buffers: number(held.buffers.len()),
            n_children: number(held.below.children.len()),
            buffers: held.buffers.as_mut_ptr(),
            children: held.below.children.as_mut_ptr(),
            dictionary: held.below.dictionary,
            release: Some(release),
            private_data: private.cast(),
        };
        // SAFETY: the array is as the interface requires. Its bits and values stay where they are
        // as long as `kept` lives, which may be dropped on any thread. No one else has the array.
        unsafe { Owned::take(&raw mut array) }
    }
}

/// # Safety
///
/// [`Held::array`] made the array, and it isn't released.
unsafe extern "C" fn release(array: *mut ArrowArray) {
    // SAFETY: the caller promises it.
    unsafe {
        drop(Box::from_raw((*array).private_data.cast::<Held>()));
        array.write(ArrowArray::empty());
    }
}

/// Returns what an array shares with others.
///
/// # Safety
///
/// [`Held::array`] made the array, and it isn't released.
pub(in crate::arrow) unsafe fn origin(array: &ArrowArray) -> Origin {
    // SAFETY: the caller promises it.
    match unsafe { &(*array.private_data.cast::<Held>()).kept } {
        Kept::Node(node) => Origin {
            node: Some(node.clone()),
            shared: None,
        },
        Kept::New((.., shared)) => Origin {
            node: None,
            shared: shared.clone(),
        },
        Kept::Column(..) | Kept::Struct(_) => Origin::default(),
    }
}
