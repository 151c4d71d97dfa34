//! The structs of the Arrow C data and stream interfaces.

use alloc::boxed::Box;
use alloc::vec::Vec;
use core::ffi::{c_char, c_int, c_void};
use core::ptr;

/// `struct ArrowSchema`: the type of an array, its name, and the types of its children. It is plain
/// data: only its owner releases it. [`Array::from_raw`](super::Array::from_raw) takes it over.
#[repr(C)]
#[derive(Debug)]
pub struct ArrowSchema {
    /// The type, as a text that ends with 0: `l` for `i64`, `+s` for a struct.
    pub format: *const c_char,
    /// The name, as a text that ends with 0; null if there is none.
    pub name: *const c_char,
    /// Keys with their values, in the layout of the interface; null if there are none.
    pub metadata: *const c_char,
    /// The sum of the flags: 1 if the order of the dictionary is meaningful, 2 if items may be
    /// null, 4 if the keys of a map are sorted.
    pub flags: i64,
    /// The number of children.
    pub n_children: i64,
    /// `n_children` pointers to the children.
    pub children: *mut *mut ArrowSchema,
    /// The type of the dictionary's items; null if the array has no dictionary.
    pub dictionary: *mut ArrowSchema,
    /// The callback that releases the struct; None if it is released.
    pub release: Option<unsafe extern "C" fn(*mut ArrowSchema)>,
    /// A pointer for the producer's own use.
    pub private_data: *mut c_void,
}

/// `struct ArrowArray`: the buffers of an array, and its children. It is plain data: only its owner
/// releases it. [`Array::from_raw`](super::Array::from_raw) takes it over.
#[repr(C)]
#[derive(Debug)]
pub struct ArrowArray {
    /// The number of items.
    pub length: i64,
    /// The number of null items; -1 if the producer didn't count them.
    pub null_count: i64,
    /// The number of items in the buffers before the first one of the array.
    pub offset: i64,
    /// The number of buffers.
    pub n_buffers: i64,
    /// The number of children.
    pub n_children: i64,
    /// `n_buffers` pointers to the buffers.
    pub buffers: *mut *const c_void,
    /// `n_children` pointers to the children.
    pub children: *mut *mut ArrowArray,
    /// The dictionary's items; null if the array has no dictionary.
    pub dictionary: *mut ArrowArray,
    /// The callback that releases the struct; None if it is released.
    pub release: Option<unsafe extern "C" fn(*mut ArrowArray)>,
    /// A pointer for the producer's own use.
    pub private_data: *mut c_void,
}

/// `struct ArrowArrayStream`: arrays of one type, one after the other. It is plain data: only its
/// owner releases it. [`Stream::from_raw`](super::Stream::from_raw) takes it over.
#[repr(C)]
#[derive(Debug)]
pub struct ArrowArrayStream {
    /// Fills a schema. Returns 0, or an errno.
    pub get_schema: Option<unsafe extern "C" fn(*mut ArrowArrayStream, *mut ArrowSchema) -> c_int>,
    /// Fills an array, a released one at the end of the stream. Returns 0, or an errno.
    pub get_next: Option<unsafe extern "C" fn(*mut ArrowArrayStream, *mut ArrowArray) -> c_int>,
    /// Returns the error of the last call, as a text that is valid until the next call; null if
    /// there is no text.
    pub get_last_error: Option<unsafe extern "C" fn(*mut ArrowArrayStream) -> *const c_char>,
    /// The callback that releases the struct; None if it is released.
    pub release: Option<unsafe extern "C" fn(*mut ArrowArrayStream)>,
    /// A pointer for the producer's own use.
    pub private_data: *mut c_void,
}

impl ArrowSchema {
    /// Returns a released struct, for a producer to fill.
    #[must_use]
    pub const fn empty() -> ArrowSchema {
        ArrowSchema {
            format: ptr::null(),
            name: ptr::null(),
            metadata: ptr::null(),
            flags: 0,
            n_children: 0,
            children: ptr::null_mut(),
            dictionary: ptr::null_mut(),
            release: None,
            private_data: ptr::null_mut(),
        }
    }
}

impl ArrowArray {
    /// Returns a released struct, for a producer to fill.
    #[must_use]
    pub const fn empty() -> ArrowArray {
        ArrowArray {
            length: 0,
            null_count: 0,
            offset: 0,
            n_buffers: 0,
            n_children: 0,
            buffers: ptr::null_mut(),
            children: ptr::null_mut(),
            dictionary: ptr::null_mut(),
            release: None,
            private_data: ptr::null_mut(),
        }
    }
}

impl ArrowArrayStream {
    /// Returns a released struct, for a producer to fill.
    #[must_use]
    pub const fn empty() -> ArrowArrayStream {
        ArrowArrayStream {
            get_schema: None,
            get_next: None,
            get_last_error: None,
            release: None,
            private_data: ptr::null_mut(),
        }
    }
}

/// A struct of the interface, which has one owner.
pub(super) trait Raw: Sized {
    /// A released struct.
    const EMPTY: Self;

    fn release(&self) -> Option<unsafe extern "C" fn(*mut Self)>;
}

macro_rules! raw {
    ($($name:ident)*) => {$(
        impl Raw for $name {
            const EMPTY: $name = $name::empty();

            fn release(&self) -> Option<unsafe extern "C" fn(*mut $name)> {
                self.release
            }
        }
    )*};
}

raw!(ArrowSchema ArrowArray ArrowArrayStream);

/// A struct that is released when it is dropped, on any thread.
pub(super) struct Owned<S: Raw>(S);

// SAFETY: the caller of `Owned::take` promises that the struct may be used and released on any
// thread, and that no one else has it.
unsafe impl<S: Raw> Send for Owned<S> {}

// SAFETY: a `&Owned` only reads the struct.
unsafe impl<S: Raw> Sync for Owned<S> {}

impl<S: Raw> Owned<S> {
    pub(super) const fn empty() -> Owned<S> {
        Owned(S::EMPTY)
    }

    /// Moves the struct here, and leaves a released one.
    ///
    /// # Safety
    ///
    /// The pointer is null, or leads to a struct that may be read and written. The struct is
    /// released or as the interface requires. It may be used and released on any thread, and no one
    /// else does so.
    pub(super) unsafe fn take(raw: *mut S) -> Owned<S> {
        if raw.is_null() {
            return Owned::empty();
        }
        // SAFETY: the struct may be read and written. The interface calls this copy a move.
        Owned(unsafe { raw.replace(S::EMPTY) })
    }

    /// Returns the struct, which the caller has to release.
    pub(super) fn into_raw(mut self) -> S {
        core::mem::replace(&mut self.0, S::EMPTY)
    }

    pub(super) fn is_released(&self) -> bool {
        self.0.release().is_none()
    }

    pub(super) fn get(&self) -> &S {
        &self.0
    }

    pub(super) fn as_mut_ptr(&mut self) -> *mut S {
        &raw mut self.0
    }
}

impl<S: Raw> Drop for Owned<S> {
    fn drop(&mut self) {
        if let Some(release) = self.0.release() {
            // SAFETY: the struct isn't released, and this is its owner. The callback marks it as
            // released.
            unsafe { release(&raw mut self.0) }
        }
    }
}

/// The structs below an exported one. Each is freed with it, and released unless a consumer took it
/// over before.
pub(super) struct Below<S: Raw> {
    /// The addresses of the owned children.
    pub children: Vec<*mut S>,
    /// Null if there is none.
    pub dictionary: *mut S,
    /// All children in one allocation, which stays where it is.
    _owned: Vec<Owned<S>>,
}

impl<S: Raw> Below<S> {
    pub(super) fn new(mut children: Vec<Owned<S>>) -> Below<S> {
        Below {
            children: children.iter_mut().map(Owned::as_mut_ptr).collect(),
            dictionary: ptr::null_mut(),
            _owned: children,
        }
    }

    /// Replaces the dictionary.
    pub(super) fn set_dictionary(&mut self, dictionary: Owned<S>) {
        let before = core::mem::replace(&mut self.dictionary, dictionary.boxed());
        // SAFETY: `Owned::boxed` returned it, and it is no longer here.
        unsafe { free(before) };
    }
}

impl<S: Raw> Owned<S> {
    fn boxed(self) -> *mut S {
        Box::into_raw(Box::new(self.into_raw()))
    }
}

impl<S: Raw> Drop for Below<S> {
    fn drop(&mut self) {
        // SAFETY: `Owned::boxed` returned it, and only this frees it.
        unsafe { free(self.dictionary) };
    }
}

/// # Safety
///
/// The pointer is null, or [`Owned::boxed`] returned it. No one uses it from now on.
unsafe fn free<S: Raw>(raw: *mut S) {
    if !raw.is_null() {
        // SAFETY: the caller promises it.
        drop(unsafe { (Owned::take(raw), Box::from_raw(raw)) });
    }
}
