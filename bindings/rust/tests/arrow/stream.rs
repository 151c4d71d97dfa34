//! Imported and exported streams.
use std::ffi::{CString, c_char, c_int};
use std::ptr;

use vortex_bits::Bitmap;
use vortex_bits::arrow::{ArrowError, Export, ExportStream, Field, Stream, StreamError};

use crate::raw::{self, Array, Count, Schema};

/// A producer by hand: some batches of a column, and then an error or the end.
struct Producer {
    left: u8,
    errno: c_int,
    text: Option<CString>,
    format: &'static str,
    made: Count,
    released: Count,
}

unsafe fn producer<'a>(stream: *mut raw::Stream) -> &'a mut Producer {
    unsafe { &mut *(*stream).private_data.cast() }
}

unsafe extern "C" fn get_schema(stream: *mut raw::Stream, out: *mut Schema) -> c_int {
    let producer = unsafe { producer(stream) };
    if producer.format.is_empty() {
        return producer.errno;
    }
    let a = Schema::new("a", producer.format, &producer.released);
    unsafe { out.write(Schema::of("", "+s", vec![a], None, &producer.released)) };
    0
}

unsafe extern "C" fn get_next(stream: *mut raw::Stream, out: *mut Array) -> c_int {
    let producer = unsafe { producer(stream) };
    if producer.left == 0 {
        unsafe { (*out).release = None };
        return producer.errno;
    }
    producer.left -= 1;
    producer.made.add();
    let a = Array::values(3, None, &[producer.left; 3], &producer.released);
    let rows = Array::of(3, vec![None], vec![a], None, &producer.released);
    unsafe { out.write(rows) };
    0
}

unsafe extern "C" fn get_last_error(stream: *mut raw::Stream) -> *const c_char {
    let text = unsafe { &producer(stream).text };
    text.as_ref().map_or(ptr::null(), |text| text.as_ptr())
}

unsafe extern "C" fn release(stream: *mut raw::Stream) {
    unsafe {
        producer(stream).released.add();
        drop(Box::from_raw((*stream).private_data.cast::<Producer>()));
        (*stream).release = None;
    }
}

/// How many batches were made, and how often a struct was released.
#[derive(Default)]
struct Counts {
    made: Count,
    released: Count,
}

fn raw_stream(left: u8, errno: c_int, text: Option<&str>, counts: &Counts) -> raw::Stream {
    let producer = Producer {
        left,
        errno,
        text: text.map(|it| CString::new(it).unwrap()),
        format: "C",
        made: counts.made.clone(),
        released: counts.released.clone(),
    };
    raw::Stream {
        get_schema: Some(get_schema),
        get_next: Some(get_next),
        get_last_error: Some(get_last_error),
        release: Some(release),
        private_data: Box::into_raw(Box::new(producer)).cast(),
    }
}

fn import(mut stream: raw::Stream) -> Result<Stream, ArrowError> {
    // SAFETY: it is as the interface asks for, except for callbacks that are missing.
    let answer = unsafe { Stream::from_raw((&raw mut stream).cast()) };
    assert!(stream.release.is_none());
    answer
}

#[test]
fn batches_come_in_order_and_each_struct_is_released_once() {
    let counts = Counts::default();
    let mut stream = import(raw_stream(3, 0, None, &counts)).unwrap();
    assert_eq!(counts.released.get(), 2);
    assert_eq!(stream.field().fields().next().unwrap().name(), "a");
    let batches: Vec<_> = stream.by_ref().collect::<Result<_, _>>().unwrap();
    assert!(stream.next().is_none() && stream.next().is_none());
    drop(stream);
    assert_eq!((counts.made.get(), counts.released.get()), (3, 3));
    // Batches stay when their stream is gone.
    let firsts = batches
        .iter()
        .map(|batch| batch.column("a").unwrap().values::<u8>().unwrap()[0]);
    assert_eq!(firsts.collect::<Vec<_>>(), [2, 1, 0]);
    drop(batches);
    assert_eq!(counts.released.get(), 9);
}

#[test]
fn a_stream_that_is_dropped_halfway_is_released_once() {
    let counts = Counts::default();
    let mut stream = import(raw_stream(100, 0, None, &counts)).unwrap();
    let kept = stream.nth(1).unwrap().unwrap().column("a").unwrap();
    drop(stream);
    assert_eq!((counts.made.get(), counts.released.get()), (2, 5));
    assert_eq!(kept.values::<u8>(), Ok(&[98; 3][..]));
    drop(kept);
    assert_eq!(counts.released.get(), 7);
}

#[test]
fn errors_have_their_errno_and_text_and_end_the_stream() {
    for (text, said) in [(Some("no disc"), "errno 5: no disc"), (None, "errno 5")] {
        let counts = Counts::default();
        let mut stream = import(raw_stream(1, 5, text, &counts)).unwrap();
        assert!(stream.next().unwrap().is_ok());
        let refused = stream.next().unwrap().unwrap_err();
        assert_eq!(refused.to_string(), format!("get_next: {said}"));
        let ArrowError::Stream { call, error } = refused else {
            panic!("an error of the stream");
        };
        assert_eq!((call, error.errno), ("get_next", 5));
        assert_eq!(error.text, text.unwrap_or_default());
        assert!(stream.next().is_none());
        drop(stream);
        assert_eq!(counts.released.get(), 5);
    }
    let mut of_schema = raw_stream(1, 22, Some("no schema"), &Counts::default());
    // SAFETY: it isn't released.
    unsafe { producer(&raw mut of_schema).format = "" };
    let refused = import(of_schema).unwrap_err();
    assert_eq!(refused.to_string(), "get_schema: errno 22: no schema");
}

#[test]
fn callbacks_and_schemas_that_are_missing_are_named() {
    let said = |spoil: fn(&mut raw::Stream)| {
        let counts = Counts::default();
        let mut stream = raw_stream(1, 5, None, &counts);
        spoil(&mut stream);
        let answer = import(stream).and_then(|mut stream| stream.next().unwrap());
        let text = answer.map(drop).unwrap_err().to_string();
        (text, counts.released.get() > 0)
    };
    assert_eq!(
        said(|it| it.get_schema = None),
        ("get_schema is null".into(), true)
    );
    assert_eq!(
        said(|it| it.get_next = None),
        ("get_next is null".into(), true)
    );
    let silent = said(|it| {
        it.get_last_error = None;
        // SAFETY: it isn't released.
        unsafe { producer(it).left = 0 };
    });
    assert_eq!(silent, ("get_next: errno 5".into(), true));
    let malformed = said(|it| {
        // SAFETY: it isn't released.
        unsafe { producer(it).format = "?" };
    });
    assert_eq!(malformed.0, "column \"a\": no type has the format \"?\"");
    let unfilled = said(|it| {
        // SAFETY: it isn't released; it returns 0 and no schema.
        unsafe { (producer(it).format, producer(it).errno) = ("", 0) };
    });
    assert_eq!(unfilled.0, "ArrowSchema is released");
    let mut released = raw_stream(1, 5, None, &Counts::default());
    // SAFETY: it isn't released.
    unsafe { released.release.unwrap()(&raw mut released) };
    assert_eq!(
        import(released).unwrap_err().to_string(),
        "ArrowArrayStream is released"
    );
    // SAFETY: it is null.
    let null = unsafe { Stream::from_raw(ptr::null_mut()) };
    assert_eq!(
        null.unwrap_err().to_string(),
        "ArrowArrayStream is released"
    );
}

#[test]
fn a_batch_of_another_type_is_refused_and_released() {
    let counts = Counts::default();
    let mut stream = raw_stream(2, 0, None, &counts);
    // SAFETY: it isn't released.
    unsafe { producer(&raw mut stream).format = "n" };
    let mut stream = import(stream).unwrap();
    let refused = stream.next().unwrap().unwrap_err();
    assert_eq!(
        refused.to_string(),
        "column \"a\": n_buffers is 2 in place of 0"
    );
    assert!(stream.next().is_none());
    assert_eq!(counts.released.get(), 4);
}

fn batch(values: &[i64]) -> Export {
    Export::batch([Export::values(values.to_vec(), None).named("a")])
}

fn field() -> Field {
    Field::batch([Field::new("a", "l").unwrap()])
}

#[test]
fn exported_streams_give_their_schema_and_batches() {
    let batches = [batch(&[1, 2]), batch(&[]), batch(&[3])].map(Ok);
    let mut raw = ExportStream::new(field(), batches).into_raw();
    let mut schema = vortex_bits::arrow::ArrowSchema::empty();
    // A consumer may ask for the schema more than once.
    for _ in 0..2 {
        // SAFETY: it isn't released.
        unsafe {
            assert_eq!(raw.get_schema.unwrap()(&raw mut raw, &raw mut schema), 0);
            assert!(raw.get_last_error.unwrap()(&raw mut raw).is_null());
            assert_eq!(schema.n_children, 1);
            schema.release.unwrap()(&raw mut schema);
        }
    }
    // SAFETY: it is as the interface asks for.
    let stream = unsafe { Stream::from_raw(&raw mut raw).unwrap() };
    let all = stream.map(|batch| {
        let a = batch.unwrap().column("a").unwrap();
        a.values::<i64>().unwrap().to_vec()
    });
    assert_eq!(all.collect::<Vec<_>>(), [vec![1, 2], vec![], vec![3]]);
}

/// A consumer may ask again, after its own end of a loop.
#[test]
fn exported_streams_end_once() {
    let mut calls = 0;
    let batches = std::iter::from_fn(move || {
        calls += 1;
        (calls != 2).then(|| Ok(batch(&[calls])))
    });
    let mut raw = ExportStream::new(field(), batches).into_raw();
    let mut array = vortex_bits::arrow::ArrowArray::empty();
    for is_end in [false, true, true, true] {
        // SAFETY: neither struct is released before these calls, unless it is the end.
        unsafe {
            assert_eq!(raw.get_next.unwrap()(&raw mut raw, &raw mut array), 0);
            assert_eq!(array.release.is_none(), is_end);
            array.release.inspect(|release| release(&raw mut array));
        }
    }
    // SAFETY: it isn't released.
    unsafe { raw.release.unwrap()(&raw mut raw) };
}

#[test]
fn exported_streams_say_what_is_wrong() {
    let full = |errno| {
        Err(StreamError {
            errno,
            text: "full\0!".to_string(),
        })
    };
    let of = |batches: Vec<Result<Export, StreamError>>| {
        let mut stream = ExportStream::new(field(), batches).into_stream().unwrap();
        let answers: Vec<_> = stream.by_ref().collect();
        answers.into_iter().last().unwrap().unwrap_err().to_string()
    };
    assert_eq!(
        of(vec![Ok(batch(&[1])), full(28)]),
        "get_next: errno 28: full"
    );
    assert_eq!(of(vec![full(0)]), "get_next: errno 5: full");
    let bools = Export::batch([Export::bits(Bitmap::new_set(2), None).named("a")]);
    assert_eq!(
        of(vec![Ok(batch(&[1])), Ok(bools)]),
        "get_next: errno 22: column \"a\": the batch has \"b\", the stream \"l\""
    );
}

/// The error of a stream of one type for a batch of another type.
fn difference(batch: Export, stream: Field) -> String {
    let batches = [Ok(Export::batch([batch]))];
    let stream = ExportStream::new(Field::batch([stream]), batches);
    let said = stream.into_stream().unwrap().next().unwrap();
    let said = said.map(drop).unwrap_err().to_string();
    let prefix = "get_next: errno 22: ";
    said.strip_prefix(prefix).unwrap_or(&said).to_string()
}

#[test]
fn exported_streams_name_the_column_of_another_type() {
    let field = |name, format| Field::new(name, format).unwrap();
    let values = || Export::values([0i8], None).named("a");
    let coded = || values().with_dictionary(Export::texts(["x"], None));
    for (batch, stream, wanted) in [
        (
            Export::texts(["x"], None).named("s"),
            field("s", "u"),
            "column \"s\": the batch has \"U\", the stream \"u\"",
        ),
        (
            values(),
            field("b", "c"),
            "column \"b\": the batch has the name \"a\", the stream \"b\"",
        ),
        (
            values(),
            Field::batch([field("b", "c"), field("c", "c")]),
            "column \"0\": the batch has \"c\", the stream \"+s\"",
        ),
        (
            Export::batch([values()]),
            Field::batch([field("b", "c"), field("c", "c")]),
            "column \"0\": the batch has the number of columns 1, the stream 2",
        ),
        (
            Export::batch([values()]),
            Field::batch([field("a", "C")]),
            "column \"0.a\": the batch has \"c\", the stream \"C\"",
        ),
        (
            coded().unwrap(),
            field("a", "c"),
            "column \"a\": the batch has a dictionary, the stream none",
        ),
        (
            values(),
            field("a", "c").with_dictionary(field("", "U")).unwrap(),
            "column \"a\": the batch has no dictionary, the stream one",
        ),
        (
            coded().unwrap(),
            field("a", "c").with_dictionary(field("", "vu")).unwrap(),
            "column \"a.dictionary\": the batch has \"U\", the stream \"vu\"",
        ),
    ] {
        assert_eq!(difference(batch, stream), wanted);
    }
    let gap = Export::values([0i8, 1], Some([true, false].into())).named("a");
    assert_eq!(
        difference(gap, field("a", "c").nullable(false)),
        "column \"a\": the batch has the number of nulls 1, the stream none"
    );
}

/// The consumer of a query's batches gets its errors, including those of the stream that it reads.
#[test]
fn errors_of_arrays_become_those_of_streams() {
    let doubled = |stream: Stream| {
        let batches = stream.map(|rows| {
            let rows = rows?;
            let column = rows.column("a")?;
            let values = column.values::<u8>()?.iter().map(|&it| i64::from(it) * 2);
            Ok(batch(&values.collect::<Vec<_>>()))
        });
        ExportStream::new(field(), batches).into_stream().unwrap()
    };
    let read = import(raw_stream(1, 28, Some("no room"), &Counts::default())).unwrap();
    let mut stream = doubled(read);
    let first = stream.next().unwrap().unwrap().column("a").unwrap();
    assert_eq!(first.values::<i64>(), Ok(&[0; 3][..]));
    let said = |stream: &mut Stream| stream.next().unwrap().map(drop).unwrap_err();
    assert_eq!(said(&mut stream).to_string(), "get_next: errno 28: no room");
    let mut raw = raw_stream(1, 0, None, &Counts::default());
    // SAFETY: it isn't released.
    unsafe { producer(&raw mut raw).format = "c" };
    assert_eq!(
        said(&mut doubled(import(raw).unwrap())).to_string(),
        "get_next: errno 22: column \"a\": format \"c\" isn't that of values of u8"
    );
}

#[test]
fn exported_streams_drop_what_is_left() {
    let left = std::sync::Arc::new(());
    let make = || {
        let held = std::sync::Arc::clone(&left);
        let batches = (0..9).map(move |row| {
            let _ = &held;
            Ok(batch(&[row]))
        });
        ExportStream::new(field(), batches)
    };
    drop(make());
    let mut stream = make().into_stream().unwrap();
    let first = stream.next().unwrap().unwrap();
    assert_eq!(std::sync::Arc::strong_count(&left), 2);
    drop(stream);
    assert_eq!(std::sync::Arc::strong_count(&left), 1);
    assert_eq!(first.len(), 1);
    assert!(format!("{:?}", make()).starts_with("ExportStream"));
}
