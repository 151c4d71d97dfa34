//! Panics in the iterator that makes the batches of a stream: the consumer gets an errno and a
//! text, and the program doesn't end.
use std::ffi::CStr;
use std::panic::{resume_unwind, set_hook, take_hook};
use std::sync::Mutex;

use vortex_bits::arrow::{
    ArrowArray, ArrowError, Export, ExportStream, Field, Stream, StreamError,
};
use vortex_bits::{Bitmap, Bits, GroupError, values};

/// The hook is one for all threads.
static HOOK: Mutex<()> = Mutex::new(());

/// Calls `ask` without output of panics, and returns its result.
fn silent<T>(ask: impl FnOnce() -> T) -> T {
    let _one = HOOK.lock().unwrap();
    let hook = take_hook();
    set_hook(Box::new(|_| ()));
    let answer = ask();
    set_hook(hook);
    answer
}

fn field() -> Field {
    Field::batch([Field::new("a", "l").unwrap()])
}

fn batch(values: Vec<i64>) -> Export {
    Export::batch([Export::values(values, None).named("a")])
}

/// The stream of an operator that takes the rows at indices of each batch.
fn taken(indices: &'static [u32], by_question_mark: bool) -> Stream {
    let batches = [batch(vec![1, 2, 3]), batch(vec![4])].map(Ok);
    let given = ExportStream::new(field(), batches).into_stream().unwrap();
    let rows = given.map(move |rows| {
        let column = rows?.column("a")?;
        let column = column.values::<i64>()?;
        let taken = if by_question_mark {
            values::try_take(column, indices)?
        } else {
            values::take(column, indices)
        };
        Ok(batch(taken))
    });
    ExportStream::new(field(), rows).into_stream().unwrap()
}

/// The batches of a stream, or why there is none.
fn read(stream: Stream) -> Vec<Result<Vec<i64>, String>> {
    let values = |rows: Result<vortex_bits::arrow::Array, ArrowError>| {
        let rows = rows.map_err(|error| error.to_string())?;
        Ok(rows.column("a").unwrap().values::<i64>().unwrap().to_vec())
    };
    stream.map(values).collect()
}

#[test]
fn a_bad_index_in_a_batch_is_an_errno() {
    let wanted = "index 2 at position 1 names none of 1 values";
    let first = Ok(vec![1, 3, 1]);
    assert_eq!(
        silent(|| read(taken(&[0, 2, 0], false))),
        [
            first.clone(),
            Err(format!("get_next: errno 5: panicked: {wanted}"))
        ]
    );
    assert_eq!(
        read(taken(&[0, 2, 0], true)),
        [first, Err(format!("get_next: errno 22: {wanted}"))]
    );
}

/// The error of rows whose second code names no group.
fn grouped() -> GroupError {
    values::try_group_counts(&mut [0; 2], &[1i32, 5], None::<Bits<'_>>).unwrap_err()
}

#[test]
fn refusals_of_windows_are_errors_of_streams() {
    let bits = Bits::new(&[0b101], 0, 3);
    let errors: [StreamError; 5] = [
        values::try_take(&[1u8], &[1u8]).unwrap_err().into(),
        bits.try_take(&[3]).unwrap_err().into(),
        Bits::try_new(&[0], 4, 5).unwrap_err().into(),
        Bitmap::try_from_indices(9, &[9]).unwrap_err().into(),
        grouped().into(),
    ];
    let said = errors.map(|error| error.to_string());
    assert_eq!(
        said[0],
        "errno 22: index 1 at position 0 names none of 1 values"
    );
    assert_eq!(
        said[1],
        "errno 22: index 3 at position 0 names none of 3 bits"
    );
    assert_eq!(
        said[2],
        "errno 22: the 5 bits from bit 4 on are not among 8 bits"
    );
    assert_eq!(
        said[3],
        "errno 22: index 9 at position 0 names none of 9 bits"
    );
    assert_eq!(said[4], "errno 22: code 5 of row 1 names none of 2 groups");
    let error = ArrowError::from(grouped());
    assert_eq!(StreamError::from(error.clone()).text, error.to_string());
    assert_eq!(said[4], format!("errno 22: {error}"));
}

/// Batches that panic in some way at the second one.
fn panicking(panic: fn()) -> ExportStream {
    let batches = (0..9).map(move |row| {
        if row == 1 {
            panic();
        }
        Ok(batch(vec![row]))
    });
    ExportStream::new(field(), batches)
}

/// A value whose drop panics again.
struct Again;

impl Drop for Again {
    fn drop(&mut self) {
        panic!("again");
    }
}

#[test]
fn each_panic_is_an_errno() {
    let panics: [(fn(), &str); 4] = [
        (|| panic!("at {}", 1), "panicked: at 1"),
        (|| panic!("at one"), "panicked: at one"),
        (|| resume_unwind(Box::new(7)), "panicked: "),
        (|| resume_unwind(Box::new(Again)), "panicked: "),
    ];
    for (panic, text) in panics {
        let read = silent(|| read(panicking(panic).into_stream().unwrap()));
        assert_eq!(
            read,
            [Ok(vec![0]), Err(format!("get_next: errno 5: {text}"))]
        );
    }
}

/// Later calls return the error too: an end would hide that rows are missing.
#[test]
fn a_stream_that_panicked_says_so_in_each_later_call() {
    let mut raw = panicking(|| panic!("lost")).into_raw();
    let mut array = ArrowArray::empty();
    let mut next = || {
        // SAFETY: the stream isn't released, and the array may be written.
        let errno = unsafe { raw.get_next.unwrap()(&raw mut raw, &raw mut array) };
        if let Some(release) = array.release {
            // SAFETY: it isn't released.
            unsafe { release(&raw mut array) };
        }
        errno
    };
    assert_eq!(silent(|| [next(), next(), next(), next()]), [0, 5, 5, 5]);
    // SAFETY: the stream isn't released.
    let said = unsafe { CStr::from_ptr(raw.get_last_error.unwrap()(&raw mut raw)) };
    assert_eq!(said, c"panicked: lost");
    // SAFETY: the stream isn't released.
    unsafe { raw.release.unwrap()(&raw mut raw) };
}

/// An iterator whose state is broken is dropped at once, which may panic too.
struct Broken(#[allow(dead_code, reason = "dropped")] Again);

impl Iterator for Broken {
    type Item = Result<Export, StreamError>;

    fn next(&mut self) -> Option<Self::Item> {
        panic!("broken")
    }
}

#[test]
fn an_iterator_that_panics_when_it_is_dropped_too_is_an_errno() {
    let read = silent(|| {
        read(
            ExportStream::new(field(), Broken(Again))
                .into_stream()
                .unwrap(),
        )
    });
    assert_eq!(
        read,
        [Err("get_next: errno 5: panicked: broken".to_string())]
    );
}

/// The value of a panic whose drop panics with such a value again.
struct WithoutEnd;

impl Drop for WithoutEnd {
    fn drop(&mut self) {
        resume_unwind(Box::new(WithoutEnd));
    }
}

#[test]
fn a_panic_whose_value_panics_without_end_is_an_errno() {
    let batches =
        (0..1).map(|_| -> Result<Export, StreamError> { resume_unwind(Box::new(WithoutEnd)) });
    let mut stream = ExportStream::new(field(), batches).into_stream().unwrap();
    let error = stream.next().unwrap().unwrap_err();
    assert_eq!(error.to_string(), "get_next: errno 5: panicked: ");
}
