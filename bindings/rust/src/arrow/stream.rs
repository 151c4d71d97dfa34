//! Streams of arrays: imports and exports.

use alloc::boxed::Box;
use alloc::ffi::CString;
use alloc::string::String;
use alloc::sync::Arc;
use core::ffi::{CStr, c_char, c_int};
use core::fmt;
use core::iter::FusedIterator;
#[cfg(feature = "std")]
use core::mem;
#[cfg(feature = "std")]
use core::panic::AssertUnwindSafe;
use core::ptr;

use super::array::Array;
use super::difference::{Between, difference};
use super::error::{ArrowError, EINVAL, Fault, StreamError};
use super::export::{Export, origin};
use super::ffi::{ArrowArray, ArrowArrayStream, ArrowSchema, Owned};
use super::field::Field;
use super::node::{OriginOf, unknown};
use super::schema::c_string;

/// The errno if a producer reports none, or panics.
const EIO: i32 = 5;
/// The greatest number of panics that are caught when the value of a panic is dropped.
#[cfg(feature = "std")]
const MOST_PANICS: usize = 64;

/// An iterator over the arrays of a stream of the Arrow C stream interface. Most producers send
/// batches, whose [`columns`](Array::columns) you read. After an error it ends. Dropping the stream
/// releases it; its arrays remain usable.
pub struct Stream {
    raw: Owned<ArrowArrayStream>,
    field: Arc<Field>,
    is_ended: bool,
    /// It may be called with the arrays of the stream.
    origin: OriginOf,
}

impl Stream {
    /// Takes over the stream, leaves `stream` released, and requests the type of its arrays.
    ///
    /// # Errors
    ///
    /// Returns [`ArrowError::Stream`] if the stream reports an error, and [`ArrowError::Malformed`]
    /// if a struct isn't as the interface requires, or if the type has more than 64 levels. The
    /// stream is released then.
    ///
    /// # Safety
    ///
    /// The pointer is null, or leads to a stream that may be read and written. The stream is
    /// released or is as the interface requires. So are the schema and the arrays that it returns,
    /// as for [`Array::from_raw`]. The callbacks may be called on any thread, one at a time, and no
    /// one else calls them.
    pub unsafe fn from_raw(stream: *mut ArrowArrayStream) -> Result<Stream, ArrowError> {
        // SAFETY: the caller promises it.
        let mut raw = unsafe { Owned::take(stream) };
        if raw.is_released() {
            return Err(Fault::Released("ArrowArrayStream").into());
        }
        let get_schema = raw.get().get_schema.ok_or(Fault::Null("get_schema"))?;
        let mut schema = Owned::<ArrowSchema>::empty();
        // SAFETY: the stream isn't released, and the schema may be written.
        let errno = unsafe { get_schema(raw.as_mut_ptr(), schema.as_mut_ptr()) };
        answered(&mut raw, "get_schema", errno)?;
        if raw.is_released() {
            return Err(Fault::Released("ArrowArrayStream").into());
        }
        // SAFETY: the caller promises it.
        let field = unsafe { Field::read(schema.get(), 0)? };
        Ok(Stream {
            raw,
            field: Arc::new(field),
            is_ended: false,
            origin: unknown,
        })
    }

    /// Returns the type of the stream's arrays.
    #[must_use]
    pub fn field(&self) -> &Field {
        &self.field
    }

    fn get_next(&mut self) -> Result<Option<Array>, ArrowError> {
        // The last call may have released the stream together with its array.
        if self.raw.is_released() {
            return Err(Fault::Released("ArrowArrayStream").into());
        }
        let get_next = self.raw.get().get_next.ok_or(Fault::Null("get_next"))?;
        let mut array = Owned::<ArrowArray>::empty();
        // SAFETY: the stream isn't released, and the array may be written.
        let errno = unsafe { get_next(self.raw.as_mut_ptr(), array.as_mut_ptr()) };
        answered(&mut self.raw, "get_next", errno)?;
        if array.is_released() {
            return Ok(None);
        }
        // SAFETY: the caller of `from_raw` promised it, and it is an array of the stream.
        unsafe { Array::of(array, &self.field, self.origin) }.map(Some)
    }
}

/// Returns the error of a call of the stream, if its errno isn't 0.
fn answered(
    raw: &mut Owned<ArrowArrayStream>,
    call: &'static str,
    errno: c_int,
) -> Result<(), ArrowError> {
    if errno == 0 {
        return Ok(());
    }
    let text = match raw.get().get_last_error {
        // SAFETY: the stream isn't released, and its last call returned an error.
        Some(get_last_error) if !raw.is_released() => unsafe {
            text(get_last_error(raw.as_mut_ptr()))
        },
        _ => String::new(),
    };
    let error = StreamError { errno, text };
    Err(ArrowError::Stream { call, error })
}

/// # Safety
///
/// The pointer is null, or leads to a text that ends with 0.
unsafe fn text(pointer: *const c_char) -> String {
    if pointer.is_null() {
        return String::new();
    }
    // SAFETY: the caller promises it.
    let text = unsafe { CStr::from_ptr(pointer) };
    text.to_string_lossy().into_owned()
}

impl Iterator for Stream {
    type Item = Result<Array, ArrowError>;

    fn next(&mut self) -> Option<Result<Array, ArrowError>> {
        if self.is_ended {
            return None;
        }
        let next = self.get_next().transpose();
        self.is_ended = !matches!(next, Some(Ok(_)));
        next
    }
}

impl FusedIterator for Stream {}

impl fmt::Debug for Stream {
    fn fmt(&self, f: &mut fmt::Formatter<'_>) -> fmt::Result {
        f.debug_struct("Stream")
            .field("field", &self.field)
            .field("is_ended", &self.is_ended)
            .finish_non_exhaustive()
    }
}

/// A stream of the Arrow C stream interface over batches of this program, for any consumer.
/// Dropping it releases the stream, unless a consumer has taken it.
///
/// ```
/// use vortex_bits::arrow::{Export, ExportStream, Field, StreamError};
///
/// let full = StreamError { errno: 28, text: "no room".into() };
/// let batches = [Ok(Export::values(vec![1i64, 2], None).named("a")), Err(full)];
/// let mut stream = ExportStream::new(Field::new("a", "l")?, batches).into_stream()?;
/// assert_eq!(stream.next().unwrap()?.values::<i64>()?, [1, 2]);
/// let error = stream.next().unwrap().unwrap_err();
/// assert_eq!(error.to_string(), "get_next: errno 28: no room");
/// assert!(stream.next().is_none());
/// # Ok::<(), vortex_bits::arrow::ArrowError>(())
/// ```
pub struct ExportStream {
    raw: Owned<ArrowArrayStream>,
}

impl ExportStream {
    /// Returns a stream of these batches. The iterator makes each batch when the consumer requests
    /// it. The stream ends with the first None of the iterator, even if later calls would return
    /// more.
    ///
    /// Each batch must have the names, the types and the flags of `field`. A column that may have
    /// nulls in `field` may be one without nulls in a batch. The reverse is allowed too, if no row
    /// is null (nulls in dictionaries, in the items of lists, runs and unions, and below null rows
    /// of a struct count even if no row has them). The metadata may differ. If a batch doesn't
    /// match, the consumer gets EINVAL and a text. It names the first column with another name or
    /// type or, if there is none, the first with nulls; it names no column if the batch itself
    /// differs, as by its number of columns. Code that makes batches from another producer's arrays
    /// can use `?`: an [`ArrowError`] becomes a [`StreamError`].
    ///
    /// If the iterator panics, the consumer gets EIO with the text of the panic, from this call and
    /// from each later one. Without the feature `std`, or with `panic = "abort"`, the program
    /// aborts. It also aborts if the iterator panics when it is dropped with the stream.
    #[must_use]
    pub fn new<I>(field: Field, batches: I) -> ExportStream
    where
        I: IntoIterator<Item = Result<Export, StreamError>, IntoIter: Send + 'static>,
    {
        let producer = Box::new(Producer {
            field,
            batches: Box::new(batches.into_iter().fuse()),
            error: CString::default(),
        });
        let mut raw = ArrowArrayStream {
            get_schema: Some(get_schema),
            get_next: Some(get_next),
            get_last_error: Some(get_last_error),
            release: Some(release),
            private_data: Box::into_raw(producer).cast(),
        };
        // SAFETY: it is as the interface requires, and no one else has it.
        let raw = unsafe { Owned::take(&raw mut raw) };
        ExportStream { raw }
    }

    /// Returns the struct. Its new owner has to release it, on any thread: it is plain data here,
    /// so its memory leaks if no one does.
    #[must_use]
    pub fn into_raw(self) -> ArrowArrayStream {
        self.raw.into_raw()
    }

    /// Returns the stream as an imported one, for readers of this crate.
    ///
    /// # Errors
    ///
    /// Returns [`ArrowError::Malformed`] with [`Fault::Deep`] if the type has more than 64 levels:
    /// its own, and those of its children and dictionaries, as [`Export::try_into_array`] does.
    pub fn into_stream(mut self) -> Result<Stream, ArrowError> {
        // It is tested before there is a schema, which has its own copy of each shared child.
        // SAFETY: `new` made the stream, this is its only owner, and no call of it is running.
        let producer = unsafe { Producer::of(self.raw.as_mut_ptr()) };
        producer.field.is_shallow()?;
        // SAFETY: it is as the interface requires, and this is its only owner.
        let stream = unsafe { Stream::from_raw(self.raw.as_mut_ptr())? };
        // `Held::array` made its arrays, as those of all exports.
        Ok(Stream { origin, ..stream })
    }
}

impl fmt::Debug for ExportStream {
    fn fmt(&self, f: &mut fmt::Formatter<'_>) -> fmt::Result {
        f.debug_struct("ExportStream").finish_non_exhaustive()
    }
}

/// The producer of a stream's batches.
struct Producer {
    field: Field,
    batches: Box<dyn Iterator<Item = Result<Export, StreamError>> + Send>,
    /// The text of the last call's error.
    error: CString,
}

impl Producer {
    /// Returns the producer of a stream.
    ///
    /// # Safety
    ///
    /// [`ExportStream::new`] made the stream, and it isn't released; no other reference to the
    /// producer is alive.
    unsafe fn of<'a>(stream: *mut ArrowArrayStream) -> &'a mut Producer {
        // SAFETY: the caller promises it.
        unsafe { &mut *(*stream).private_data.cast::<Producer>() }
    }

    /// Returns the next batch. After a panic of the iterator it returns that error in each call.
    fn next(&mut self) -> Result<Owned<ArrowArray>, StreamError> {
        let next = caught(|| self.next_batch());
        next.unwrap_or_else(|error| {
            let again = Box::new(core::iter::repeat(error.clone()).map(Err));
            let broken = core::mem::replace(&mut self.batches, again);
            // The iterator's state may be broken, so that dropping it may panic too.
            drop(caught(|| drop(broken)));
            Err(error)
        })
    }

    fn next_batch(&mut self) -> Result<Owned<ArrowArray>, StreamError> {
        let Some(batch) = self.batches.next().transpose()? else {
            return Ok(Owned::empty());
        };
        match difference(&batch, &self.field, &OF_BATCH)? {
            None => Ok(batch.into_owned()),
            Some(text) => Err(StreamError {
                errno: EINVAL,
                text,
            }),
        }
    }
}

/// The words for a batch and for the type of its stream in an error.
const OF_BATCH: Between = Between {
    rows: "the batch",
    wanted: "the stream",
    has_names: true,
};

/// Returns the result of `make`, or an error if it panics: no caller in C can catch a panic.
#[cfg(feature = "std")]
fn caught<T>(make: impl FnOnce() -> T) -> Result<T, StreamError> {
    std::panic::catch_unwind(AssertUnwindSafe(make)).map_err(|panic| StreamError {
        errno: EIO,
        text: alloc::format!("panicked: {}", text_of(panic)),
    })
}

/// Returns the text of a panic; empty if it has none.
#[cfg(feature = "std")]
fn text_of(panic: Box<dyn core::any::Any + Send>) -> String {
    let other = match panic.downcast::<String>() {
        Ok(text) => return *text,
        Err(other) => other,
    };
    match other.downcast::<&str>() {
        Ok(text) => String::from(*text),
        Err(other) => {
            discard(other);
            String::new()
        }
    }
}

/// Drops the value of a panic. Dropping it may panic too, and so may dropping the value of that
/// panic: after the last one that is caught, its memory leaks.
#[cfg(feature = "std")]
fn discard(panic: Box<dyn core::any::Any + Send>) {
    let mut left = Some(panic);
    for _ in 0..MOST_PANICS {
        let Some(value) = left.take() else {
            return;
        };
        left = std::panic::catch_unwind(AssertUnwindSafe(|| drop(value))).err();
    }
    mem::forget(left);
}

/// Returns the result of `make`: a panic aborts the program.
#[cfg(not(feature = "std"))]
#[allow(clippy::unnecessary_wraps, reason = "as with `std`")]
fn caught<T>(make: impl FnOnce() -> T) -> Result<T, StreamError> {
    Ok(make())
}

unsafe extern "C" fn get_schema(stream: *mut ArrowArrayStream, out: *mut ArrowSchema) -> c_int {
    // SAFETY: the consumer calls it as the interface requires.
    unsafe {
        let producer = Producer::of(stream);
        producer.error = CString::default();
        out.write(producer.field.schema().into_raw());
    }
    0
}

unsafe extern "C" fn get_next(stream: *mut ArrowArrayStream, out: *mut ArrowArray) -> c_int {
    // SAFETY: the consumer calls it as the interface requires.
    let producer = unsafe { Producer::of(stream) };
    let (array, errno, text) = match producer.next() {
        Ok(array) => (array, 0, String::new()),
        Err(StreamError { errno: 0, text }) => (Owned::empty(), EIO, text),
        Err(StreamError { errno, text }) => (Owned::empty(), errno, text),
    };
    producer.error = c_string(&text);
    // SAFETY: the consumer calls it as the interface requires.
    unsafe { out.write(array.into_raw()) };
    errno
}

unsafe extern "C" fn get_last_error(stream: *mut ArrowArrayStream) -> *const c_char {
    // SAFETY: the consumer calls it as the interface requires.
    let producer = unsafe { Producer::of(stream) };
    if producer.error.is_empty() {
        return ptr::null();
    }
    producer.error.as_ptr()
}

unsafe extern "C" fn release(stream: *mut ArrowArrayStream) {
    // SAFETY: the consumer calls it as the interface requires: `ExportStream::new` made the stream,
    // and it isn't released.
    unsafe {
        drop(Box::from_raw((*stream).private_data.cast::<Producer>()));
        stream.write(ArrowArrayStream::empty());
    }
}
