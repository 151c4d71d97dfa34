//! Streams.
use std::mem::{MaybeUninit, transmute};

use vortex_bits::arrow::{ArrowArrayStream, ExportStream};

use super::{Checked, Look, Tree, check, holds, under};
use crate::raw::{Array, Schema, Stream};

/// Returns the lengths of the batches of a stream, and the errno of its last call. Tests that each
/// batch is valid for the stream's type, and releases everything.
pub fn batches(stream: ExportStream) -> Checked<(Vec<i64>, i32)> {
    // SAFETY: the types are laid out alike.
    let mut stream = unsafe { transmute::<ArrowArrayStream, Stream>(stream.into_raw()) };
    let answer = read(&mut stream);
    // SAFETY: it isn't released.
    unsafe { stream.release.unwrap()(&raw mut stream) };
    holds(stream.release.is_none(), || "it isn't released".into())?;
    answer
}

fn read(stream: &mut Stream) -> Checked<(Vec<i64>, i32)> {
    let tree = schema(stream)?;
    schema(stream)?;
    let mut lens = Vec::new();
    loop {
        let mut array = MaybeUninit::<Array>::uninit();
        // SAFETY: the stream isn't released, and the array may be written.
        let errno = unsafe { stream.get_next.unwrap()(stream, array.as_mut_ptr()) };
        // SAFETY: it isn't released.
        let text = unsafe { stream.get_last_error.unwrap()(stream) };
        if errno != 0 {
            return Ok((lens, errno));
        }
        holds(text.is_null(), || "a text without an error".into())?;
        // SAFETY: it is filled.
        let mut array = unsafe { array.assume_init() };
        let Some(release) = array.release else {
            return Ok((lens, 0));
        };
        // SAFETY: it is as the interface asks for.
        under(unsafe { check(&array, &tree, Look::Items) }, lens.len())?;
        lens.push(array.length);
        // SAFETY: it isn't released.
        unsafe { release(&raw mut array) };
        holds(array.release.is_none(), || "a batch isn't released".into())?;
    }
}

fn schema(stream: &mut Stream) -> Checked<Tree> {
    let mut schema = MaybeUninit::<Schema>::uninit();
    // SAFETY: the stream isn't released, and the schema may be written.
    let errno = unsafe { stream.get_schema.unwrap()(stream, schema.as_mut_ptr()) };
    holds(errno == 0, || format!("get_schema: {errno}"))?;
    // SAFETY: it is filled.
    let mut schema = unsafe { schema.assume_init() };
    // SAFETY: it is as the interface asks for.
    let tree = unsafe { Tree::read(&schema, Look::Items) };
    // SAFETY: it isn't released.
    unsafe { schema.release.unwrap()(&raw mut schema) };
    holds(schema.release.is_none(), || {
        "a schema isn't released".into()
    })?;
    tree
}
