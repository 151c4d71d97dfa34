//! Streams whose producer releases them within one of their callbacks: the crate makes no call
//! after that, and each stream is released once.
use std::ffi::{c_char, c_int};
use std::ptr;

use vortex_bits::arrow::{ArrowError, Stream};

use crate::raw::{self, Array, Count, Schema};

/// The call in which the producer releases the stream.
#[derive(Clone, Copy, Debug, PartialEq)]
enum In {
    Schema,
    /// The batch of this number.
    Next(usize),
    LastError,
    None,
}

/// What a producer does, and how often it was called.
struct Producer {
    releases: In,
    batches: usize,
    errno: c_int,
    calls: usize,
    /// The number of calls after the release.
    late: usize,
    released: usize,
}

/// The producer of a stream, which outlives the release. Counts the call.
unsafe fn called<'a>(stream: *mut raw::Stream) -> &'a mut Producer {
    unsafe {
        let producer = &mut *(*stream).private_data.cast::<Producer>();
        producer.late += usize::from((*stream).release.is_none());
        producer.calls += 1;
        producer
    }
}

unsafe extern "C" fn get_schema(stream: *mut raw::Stream, out: *mut Schema) -> c_int {
    unsafe {
        let producer = called(stream);
        out.write(Schema::new("a", "C", &Count::default()));
        if producer.releases == In::Schema {
            release(stream);
            return producer.errno;
        }
    }
    0
}

unsafe extern "C" fn get_next(stream: *mut raw::Stream, out: *mut Array) -> c_int {
    unsafe {
        let producer = called(stream);
        let number = producer.batches;
        producer.batches += 1;
        if number < 2 {
            out.write(Array::values(1, None, &[7], &Count::default()));
        } else {
            (*out).release = None;
        }
        if producer.releases == In::Next(number) {
            release(stream);
        }
        if number < 2 { 0 } else { producer.errno }
    }
}

unsafe extern "C" fn get_last_error(stream: *mut raw::Stream) -> *const c_char {
    unsafe {
        if called(stream).releases == In::LastError {
            release(stream);
        }
    }
    ptr::null()
}

unsafe extern "C" fn release(stream: *mut raw::Stream) {
    unsafe {
        called(stream).released += 1;
        (*stream).release = None;
    }
}

/// Reads a stream. Returns its batches or errors, the number of calls, and that of releases.
fn read(releases: In, errno: c_int) -> (Vec<String>, usize, usize) {
    let mut producer = Producer {
        releases,
        batches: 0,
        errno,
        calls: 0,
        late: 0,
        released: 0,
    };
    let mut stream = raw::Stream {
        get_schema: Some(get_schema),
        get_next: Some(get_next),
        get_last_error: Some(get_last_error),
        release: Some(release),
        private_data: (&raw mut producer).cast(),
    };
    // SAFETY: it is as the interface asks for, except for its releases.
    let read = match unsafe { Stream::from_raw((&raw mut stream).cast()) } {
        Err(error) => vec![error.to_string()],
        Ok(mut stream) => {
            let batch = stream.by_ref().map(|it| it.map(|it| it.len().to_string()));
            let read: Vec<_> = batch.take(4).collect();
            assert!(stream.next().is_none());
            let said = |it: Result<String, ArrowError>| it.unwrap_or_else(|it| it.to_string());
            read.into_iter().map(said).collect()
        }
    };
    assert_eq!(producer.late, 0, "{releases:?}");
    (read, producer.calls, producer.released)
}

#[test]
fn no_stream_is_called_when_it_is_released() {
    let lost = "ArrowArrayStream is released";
    let rows = |count: usize, then: &[&str]| {
        let rows = ["1"; 2].into_iter().take(count);
        rows.chain(then.iter().copied())
            .map(String::from)
            .collect::<Vec<_>>()
    };
    // The release counts as a call too, also one by the producer within a callback.
    assert_eq!(read(In::None, 0), (rows(2, &[]), 5, 1));
    assert_eq!(read(In::None, 5), (rows(2, &["get_next: errno 5"]), 6, 1));
    assert_eq!(read(In::Schema, 0), (rows(0, &[lost]), 2, 1));
    assert_eq!(
        read(In::Schema, 5),
        (rows(0, &["get_schema: errno 5"]), 2, 1)
    );
    assert_eq!(read(In::Next(0), 0), (rows(1, &[lost]), 3, 1));
    assert_eq!(read(In::Next(1), 0), (rows(2, &[lost]), 4, 1));
    assert_eq!(read(In::Next(1), 5), (rows(2, &[lost]), 4, 1));
    // A callback that releases the stream may still return the end or an error.
    assert_eq!(read(In::Next(2), 0), (rows(2, &[]), 5, 1));
    assert_eq!(
        read(In::Next(2), 5),
        (rows(2, &["get_next: errno 5"]), 5, 1)
    );
    assert_eq!(
        read(In::LastError, 5),
        (rows(2, &["get_next: errno 5"]), 6, 1)
    );
}
