//! Imports and exports arrays of the [Arrow C data interface] and streams of the C stream
//! interface. These are the structs, their owners, and views of their bits and values.
//!
//! [`Stream`] reads the batches of another part of the program. The columns of an [`Array`] return
//! slices of values, [`Bits`](crate::Bits) and a [`Validity`](crate::Validity). [`Export`] passes a
//! [`Bitmap`](crate::Bitmap) and values to any consumer. Neither direction copies a value, except
//! that [`Export::texts`] and the like copy texts. [`Array::filter`], [`Array::take`] and
//! [`Export::concat`] copy rows of every type.
//!
//! ```
//! use vortex_bits::arrow::{Export, ExportStream, Field, Stream};
//! use vortex_bits::{Bitmap, Comparison, values};
//!
//! // The producer: another part of the program, here a stream of two batches.
//! let batches = [[7i32, 0, 9], [2, 8, 4]].map(|values| {
//!     let valid = Bitmap::from(values.map(|value| value != 0));
//!     Ok(Export::batch([Export::values(values.to_vec(), Some(valid)).named("a")]))
//! });
//! let mut given = ExportStream::new(Field::batch([Field::new("a", "i")?]), batches).into_raw();
//!
//! // SAFETY: the stream is as the interface requires, and no one else has it.
//! let stream = unsafe { Stream::from_raw(&raw mut given)? };
//! let mut kept = Vec::new();
//! for batch in stream {
//!     let batch = batch?;
//!     let a = batch.column("a")?;
//!     let mut mask = values::compare(a.values::<i32>()?, Comparison::Greater, 5);
//!     mask &= a.validity()?;
//!     values::filter_onto(a.values::<i32>()?, &mask, &mut kept);
//! }
//! assert_eq!(kept, [7, 9, 8]);
//! # Ok::<(), vortex_bits::arrow::ArrowError>(())
//! ```
//!
//! The structs come from outside, so their numbers are tested: lengths, offsets, numbers of nulls,
//! buffers and children, which buffers are present, formats, and that each child has enough items
//! for its parent, except those of list views. With `unsafe` the caller promises the rest: each
//! pointer leads to as much memory as the numbers say. A batch may have columns of fixed-size
//! lists, list views, unions and run-end-encoded rows. No accessor returns their rows, but filter,
//! take and concat copy them. [`Export::from`](Export) exports an [`Array`] of any type unchanged.
//!
//! [Arrow C data interface]: https://arrow.apache.org/docs/format/CDataInterface.html

mod array;
mod difference;
mod error;
mod export;
mod ffi;
mod field;
mod layout;
mod node;
mod pointers;
mod primitive;
mod ranges;
mod schema;
mod stream;
mod texts;

pub use array::Array;
pub use error::{ArrowError, Fault, StreamError};
pub use export::{Export, TextsMut};
pub use ffi::{ArrowArray, ArrowArrayStream, ArrowSchema};
pub use field::Field;
pub use primitive::{Primitive, Unaligned};
pub use ranges::{Ranges, RangesIter};
pub use stream::{ExportStream, Stream};
pub use texts::{Texts, TextsIter};
