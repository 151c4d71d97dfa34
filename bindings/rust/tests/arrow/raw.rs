//! The structs of the interface once more, as its specification prints them, and a producer of them
//! that counts how often each is released.
use std::ffi::{CString, c_char, c_int, c_void};
use std::ptr;
use std::sync::Arc;
use std::sync::atomic::{AtomicUsize, Ordering};

use vortex_bits::arrow::{self, ArrowError};

#[repr(C)]
pub struct Schema {
    pub format: *const c_char,
    pub name: *const c_char,
    pub metadata: *const c_char,
    pub flags: i64,
    pub n_children: i64,
    pub children: *mut *mut Schema,
    pub dictionary: *mut Schema,
    pub release: Option<unsafe extern "C" fn(*mut Schema)>,
    pub private_data: *mut c_void,
}

#[repr(C)]
pub struct Array {
    pub length: i64,
    pub null_count: i64,
    pub offset: i64,
    pub n_buffers: i64,
    pub n_children: i64,
    pub buffers: *mut *const c_void,
    pub children: *mut *mut Array,
    pub dictionary: *mut Array,
    pub release: Option<unsafe extern "C" fn(*mut Array)>,
    pub private_data: *mut c_void,
}

#[repr(C)]
pub struct Stream {
    pub get_schema: Option<unsafe extern "C" fn(*mut Stream, *mut Schema) -> c_int>,
    pub get_next: Option<unsafe extern "C" fn(*mut Stream, *mut Array) -> c_int>,
    pub get_last_error: Option<unsafe extern "C" fn(*mut Stream) -> *const c_char>,
    pub release: Option<unsafe extern "C" fn(*mut Stream)>,
    pub private_data: *mut c_void,
}

/// How often something was released.
#[derive(Clone, Default)]
pub struct Count(Arc<AtomicUsize>);

impl Count {
    pub fn add(&self) {
        self.0.fetch_add(1, Ordering::SeqCst);
    }

    pub fn get(&self) -> usize {
        self.0.load(Ordering::SeqCst)
    }
}

/// Bytes that stay where they are.
pub struct Buffer {
    _words: Vec<u128>,
    _bytes: Box<[u8]>,
    pointer: *const c_void,
}

impl Buffer {
    /// Bytes that begin `shift` behind a multiple of 16, with others around them.
    pub fn new(bytes: &[u8], shift: usize) -> Buffer {
        let mut all = vec![0; shift];
        all.extend_from_slice(bytes);
        all.resize(all.len().next_multiple_of(16) + 16, 0xA5);
        let words = all.chunks_exact(16);
        let words: Vec<_> = words
            .map(|it| u128::from_ne_bytes(it.try_into().unwrap()))
            .collect();
        let pointer = words.as_ptr().cast::<u8>().wrapping_add(shift).cast();
        Buffer {
            _words: words,
            _bytes: Box::default(),
            pointer,
        }
    }

    /// These bytes without others around them, so that a tool can detect reads past their end.
    pub fn exact(bytes: &[u8]) -> Buffer {
        let bytes: Box<[u8]> = bytes.into();
        let pointer = bytes.as_ptr().cast();
        Buffer {
            _words: Vec::new(),
            _bytes: bytes,
            pointer,
        }
    }
}

struct HeldArray {
    _buffers: Vec<Option<Buffer>>,
    pointers: Vec<*const c_void>,
    children: Vec<*mut Array>,
    dictionary: *mut Array,
    count: Count,
}

unsafe extern "C" fn release_array(array: *mut Array) {
    unsafe {
        let held = Box::from_raw((*array).private_data.cast::<HeldArray>());
        for &child in held.children.iter().chain([&held.dictionary]) {
            if !child.is_null() {
                if let Some(release) = (*child).release {
                    release(child);
                }
                drop(Box::from_raw(child));
            }
        }
        held.count.add();
        (*array).release = None;
    }
}

impl Array {
    /// An array with these buffers; None is a null pointer.
    pub fn new(length: i64, buffers: Vec<Option<Buffer>>, count: &Count) -> Array {
        Array::of(length, buffers, vec![], None, count)
    }

    pub fn of(
        length: i64,
        buffers: Vec<Option<Buffer>>,
        children: Vec<Array>,
        dictionary: Option<Array>,
        count: &Count,
    ) -> Array {
        let boxed = |it| Box::into_raw(Box::new(it));
        let pointer = |it: &Option<Buffer>| it.as_ref().map_or(ptr::null(), |it| it.pointer);
        let mut held = Box::new(HeldArray {
            pointers: buffers.iter().map(pointer).collect(),
            _buffers: buffers,
            children: children.into_iter().map(boxed).collect(),
            dictionary: dictionary.map_or(ptr::null_mut(), boxed),
            count: count.clone(),
        });
        let count = |len| i64::try_from(len).unwrap();
        let mut array = Array {
            length,
            null_count: -1,
            offset: 0,
            n_buffers: count(held.pointers.len()),
            n_children: count(held.children.len()),
            buffers: held.pointers.as_mut_ptr(),
            children: held.children.as_mut_ptr(),
            dictionary: held.dictionary,
            release: Some(release_array),
            private_data: ptr::null_mut(),
        };
        array.private_data = Box::into_raw(held).cast();
        array
    }

    pub fn at(mut self, offset: i64) -> Array {
        self.offset = offset;
        self
    }

    pub fn nulls(mut self, null_count: i64) -> Array {
        self.null_count = null_count;
        self
    }

    /// An array of values, with a validity if one is given.
    pub fn values(length: i64, valid: Option<&[u8]>, values: &[u8], count: &Count) -> Array {
        let valid = valid.map(|it| Buffer::new(it, 0));
        Array::new(length, vec![valid, Some(Buffer::new(values, 0))], count)
    }
}

struct HeldSchema {
    format: CString,
    name: Option<CString>,
    children: Vec<*mut Schema>,
    dictionary: *mut Schema,
    count: Count,
}

unsafe extern "C" fn release_schema(schema: *mut Schema) {
    unsafe {
        let held = Box::from_raw((*schema).private_data.cast::<HeldSchema>());
        for &child in held.children.iter().chain([&held.dictionary]) {
            if !child.is_null() {
                if let Some(release) = (*child).release {
                    release(child);
                }
                drop(Box::from_raw(child));
            }
        }
        held.count.add();
        (*schema).release = None;
    }
}

impl Schema {
    pub fn new(name: &str, format: &str, count: &Count) -> Schema {
        Schema::of(name, format, vec![], None, count)
    }

    pub fn of(
        name: &str,
        format: &str,
        children: Vec<Schema>,
        dictionary: Option<Schema>,
        count: &Count,
    ) -> Schema {
        let boxed = |it| Box::into_raw(Box::new(it));
        let mut held = Box::new(HeldSchema {
            format: CString::new(format).unwrap(),
            name: (!name.is_empty()).then(|| CString::new(name).unwrap()),
            children: children.into_iter().map(boxed).collect(),
            dictionary: dictionary.map_or(ptr::null_mut(), boxed),
            count: count.clone(),
        });
        let mut schema = Schema {
            format: held.format.as_ptr(),
            name: held.name.as_ref().map_or(ptr::null(), |it| it.as_ptr()),
            metadata: ptr::null(),
            flags: 2,
            n_children: i64::try_from(held.children.len()).unwrap(),
            children: held.children.as_mut_ptr(),
            dictionary: held.dictionary,
            release: Some(release_schema),
            private_data: ptr::null_mut(),
        };
        schema.private_data = Box::into_raw(held).cast();
        schema
    }
}

/// Imports both structs, which the crate then owns.
pub fn import(mut array: Array, mut schema: Schema) -> Result<arrow::Array, ArrowError> {
    // SAFETY: they are as the interface asks for, except for numbers and null pointers.
    let answer =
        unsafe { arrow::Array::from_raw((&raw mut array).cast(), (&raw mut schema).cast()) };
    assert!(array.release.is_none() && schema.release.is_none());
    answer
}

/// Imports an array of this format, without a name.
pub fn import_as(array: Array, format: &str) -> Result<arrow::Array, ArrowError> {
    import(array, Schema::new("", format, &Count::default()))
}

/// A struct of a text with a dictionary, a list and a number, with offsets.
pub fn rows(count: &Count) -> (Array, Schema) {
    let bytes = || Some(Buffer::new(&[0xFF; 64], 0));
    let texts = Array::new(3, vec![None, bytes(), bytes()], count).nulls(0);
    let indices = vec![bytes(), bytes()];
    let word = Array::of(9, indices, vec![], Some(texts), count).at(2);
    let items = Array::values(5, None, &[7; 40], count).at(1).nulls(0);
    let list = Array::of(9, vec![bytes(), bytes()], vec![items], None, count).at(4);
    let number = Array::values(9, None, &[9; 64], count).nulls(0);
    let columns = vec![word, list, number];
    let array = Array::of(6, vec![None], columns, None, count)
        .at(3)
        .nulls(0);
    let texts = Schema::new("", "u", count);
    let mut word = Schema::of("word", "c", vec![], Some(texts), count);
    word.flags = 3;
    let items = vec![Schema::new("item", "l", count)];
    let list = Schema::of("list", "+l", items, None, count);
    let columns = vec![word, list, Schema::new("number", "I", count)];
    (array, Schema::of("", "+s", columns, None, count))
}
