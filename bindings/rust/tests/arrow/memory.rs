//! Selected rows when memory runs out: each large request of a call is refused in turn. And what
//! calls request for rows of several arrays, and what a chain of calls keeps.
use std::alloc::{GlobalAlloc, Layout, System};
use std::cell::Cell;
use std::ptr;

use vortex_bits::arrow::{Array, ArrowError, Export, ExportStream};
use vortex_bits::{Bitmap, Bits};

use crate::export::{ReadBack, raw_of};
use crate::made::{KINDS, Maker};
use crate::ranges::{offsets, view};
use crate::raw::{self, Buffer, Count, Schema, import};

/// Refuses large requests as the thread's [`LEFT`] and [`MOST`] say, and counts bytes.
struct Refusing;

/// Requests for rows have more bytes than this; those for structs have fewer.
const LARGE: usize = 2048;

thread_local! {
    /// The number of large requests before the first one that is refused, as all after it are.
    static LEFT: Cell<usize> = const { Cell::new(usize::MAX) };
    /// A request of more bytes is refused.
    static MOST: Cell<usize> = const { Cell::new(usize::MAX) };
    /// The bytes of the last request that was refused.
    static REFUSED: Cell<usize> = const { Cell::new(0) };
    /// The bytes of all requests.
    static ASKED: Cell<usize> = const { Cell::new(0) };
    /// The bytes of all requests whose memory was given back.
    static FREED: Cell<usize> = const { Cell::new(0) };
}

// SAFETY: each call is that of the system's allocator, or returns null.
unsafe impl GlobalAlloc for Refusing {
    unsafe fn alloc(&self, layout: Layout) -> *mut u8 {
        ASKED.with(|asked| asked.set(asked.get() + layout.size()));
        let is_refused = layout.size() > LARGE
            && LEFT.with(|left| left.replace(left.get().saturating_sub(1)) == 0);
        if is_refused || layout.size() > MOST.get() {
            REFUSED.set(layout.size());
            return ptr::null_mut();
        }
        // SAFETY: the caller's.
        unsafe { System.alloc(layout) }
    }

    unsafe fn dealloc(&self, at: *mut u8, layout: Layout) {
        FREED.with(|freed| freed.set(freed.get() + layout.size()));
        // SAFETY: the caller's.
        unsafe { System.dealloc(at, layout) }
    }
}

#[global_allocator]
static ALLOCATOR: Refusing = Refusing;

/// Runs `call` with each large request refused in turn, until none is. Returns the number of
/// refusals. If the crate can't return an error for one, the process ends.
fn refused(call: impl Fn() -> Result<Export, ArrowError>) -> usize {
    if call().is_err() {
        return 0;
    }
    let is_refused = |left: &usize| {
        LEFT.set(*left);
        let result = call();
        LEFT.set(usize::MAX);
        match result {
            Ok(_) => false,
            Err(ArrowError::Memory { bytes, .. }) => {
                // Up to 63 bytes more are for the alignment.
                let least = REFUSED.get().saturating_sub(63);
                assert!(bytes >= least, "request {left}: {bytes} bytes of {least}");
                true
            }
            Err(other) => panic!("request {left}: {other}"),
        }
    };
    (0..usize::MAX).take_while(is_refused).count()
}

#[test]
fn bytes_of_null_texts_need_no_memory() {
    const LONG: i64 = 1 << 20;
    let none = Count::default();
    let ends: Vec<u8> = [0, 1, 1 + LONG, 2 + LONG]
        .iter()
        .flat_map(|it: &i64| it.to_ne_bytes())
        .collect();
    let mut bytes = vec![b'n'; 2 + (1 << 20)];
    (bytes[0], bytes[1 + (1 << 20)]) = (b'x', b'y');
    let buffers = vec![
        Some(Buffer::new(&[0b101], 0)),
        Some(Buffer::new(&ends, 0)),
        Some(Buffer::new(&bytes, 0)),
    ];
    let texts = raw::import_as(raw::Array::new(3, buffers, &none), "U").unwrap();
    let parts = [texts.clone(), texts.clone()];
    MOST.set(1 << 16);
    let all = texts.filter(None::<Bits>);
    let joined = Export::concat(texts.field(), &parts);
    MOST.set(usize::MAX);
    for (rows, times) in [(all, 1), (joined, 2)] {
        let rows = rows.unwrap().into_array();
        let wanted = [Some(&b"x"[..]), None, Some(b"y")].repeat(times);
        assert!(rows.texts().unwrap().iter().eq(wanted));
    }
}

/// Returns the result, and the bytes of all requests.
fn asked<T>(call: impl FnOnce() -> T) -> (T, usize) {
    let before = ASKED.get();
    let result = call();
    (result, ASKED.get() - before)
}

#[test]
fn selections_return_an_error_if_memory_runs_out() {
    const ROWS: usize = 20_000;
    let mut maker = Maker::new(5, false);
    let mask: Bitmap = (0..ROWS).map(|row| row % 3 > 0).collect();
    let indices: Vec<u32> = (0..20_000).map(|at| at * 7919 % 20_000).collect();
    // Two equal arrays in different memory.
    let mut equal = |kind| {
        let trees = [
            maker.clone().tree_of(kind, ROWS, 2),
            maker.tree_of(kind, ROWS, 2),
        ];
        trees.map(|(array, schema)| import(array, schema).unwrap())
    };
    for kind in 0..KINDS {
        for both in [(); 3].map(|()| equal(kind)) {
            let one = &both[0];
            let filters = refused(|| one.filter(&mask));
            let takes = refused(|| one.take(&indices));
            let joins = refused(|| Export::concat(one.field(), &both));
            // The indices of a take are always copied.
            assert!(takes > 0, "{one:?}");
            assert!(takes > filters, "{one:?}");
            assert!(kind != 0 || joins > 0, "{one:?}");
        }
    }
}

#[test]
fn texts_return_an_error_if_memory_runs_out() {
    const ROWS: usize = 40_000;
    let mask: Bitmap = (0..ROWS).map(|row| row % 3 > 0).collect();
    let indices: Vec<u16> = (0..40_000).rev().collect();
    let texts = (0..ROWS).map(|row| (row % 5 > 0).then_some("a"));
    let texts = Export::texts_or_nulls(texts);
    let views: Vec<Option<&str>> = (0..ROWS).map(|row| (row % 5 > 0).then_some(LONG)).collect();
    for texts in [texts.narrow().unwrap().into_array(), of_views(&views)] {
        let coded = Export::values(indices.clone(), None).with_dictionary(texts.clone().into());
        let coded = coded.unwrap().into_array();
        for number in [
            refused(|| Export::texts_kept(&texts, &mask)),
            refused(|| Export::texts_kept(&texts, None::<Bits>)),
            refused(|| Export::texts_taken(&texts, &indices)),
            refused(|| Export::texts_taken_valid(&texts, &indices, &mask)),
            refused(|| coded.dictionary_texts()),
        ] {
            // For the validity and for the rows.
            assert!(number > 1, "{texts:?}");
        }
    }
}

const LONG: &str = "thirteen text";

/// Views of texts, which are all long and in one buffer.
fn of_views(rows: &[Option<&str>]) -> Array {
    let valid: Bitmap = rows.iter().map(Option::is_some).collect();
    let views = rows.iter().map(|row| match row {
        Some(text) => view(text, 0, 0),
        None => view("a text of no buffer", 7, 0),
    });
    let buffers = vec![
        Some(Buffer::new(valid.bits().bytes(), 0)),
        Some(Buffer::new(&views.collect::<Vec<_>>().concat(), 0)),
        Some(Buffer::new(LONG.as_bytes(), 0)),
        Some(offsets(&[13], true, 0)),
    ];
    let len = i64::try_from(rows.len()).unwrap();
    raw::import_as(raw::Array::new(len, buffers, &Count::default()), "vu").unwrap()
}

fn coded(rows: Export, items: usize) -> Array {
    let items = Export::values(vec![7i64; items], None);
    rows.with_dictionary(items).unwrap().into_array()
}

/// List views with one item per row.
fn list_views(rows: i32) -> Array {
    let none = Count::default();
    let starts: Vec<i64> = (0..rows).map(i64::from).collect();
    let ones = vec![1; starts.len()];
    let items = raw::Array::values(rows.into(), None, &vec![7; starts.len()], &none);
    let starts = [starts, ones].map(|it| Some(offsets(&it, false, 0)));
    let buffers = [None].into_iter().chain(starts).collect();
    let array = raw::Array::of(rows.into(), buffers, vec![items], None, &none);
    let items = vec![Schema::new("", "C", &none)];
    import(array, Schema::of("", "+vl", items, None, &none)).unwrap()
}

#[test]
fn dictionaries_are_joined_in_memory_for_their_rows() {
    let both = [(); 2].map(|()| coded(Export::values(vec![1i8; 20_000], None), 2));
    let join = || Export::concat(both[0].field(), &both);
    assert!(refused(join) > 0);
    let (joined, bytes) = asked(join);
    let rows = joined.unwrap().len();
    assert!(bytes < 2 * rows, "{bytes} bytes for {rows} rows of a byte");
}

/// Parts of one array, and between two of them a part of another one.
fn parts(one: &Array, other: &Array) -> Vec<Array> {
    let mut parts: Vec<Array> = (0..64).map(|row| one.slice(row..=row)).collect();
    parts.insert(9, other.slice(..1));
    parts
}

#[test]
fn parts_of_one_array_are_joined_in_memory_for_one_array() {
    let lists = || list_views(200_000);
    let dictionary = || coded(Export::values(vec![1i32; 100], None), 50_000);
    for (one, other, items) in [
        (lists(), lists(), 200_000),
        (dictionary(), dictionary(), 400_000),
    ] {
        let parts = parts(&one, &other);
        let (joined, bytes) = asked(|| Export::concat(one.field(), &parts).unwrap());
        assert_eq!(joined.len(), 65);
        assert!(bytes < 3 * items, "{bytes} bytes for items of {items}");
        let alone = [&parts[..9], &parts[10..]].concat();
        let (joined, bytes) = asked(|| Export::concat(one.field(), &alone).unwrap());
        assert_eq!(joined.len(), 64);
        assert!(bytes < items, "{bytes} bytes for items that are shared");
    }
}

#[test]
fn parts_of_views_of_many_buffers_are_joined_in_memory_for_their_buffers() {
    let bytes = |parts: usize| {
        let each: Vec<Array> = (0..parts).map(|_| of_views(&[Some(LONG)])).collect();
        let all = Export::concat(each[0].field(), &each).unwrap().into_array();
        let mut slices: Vec<Array> = (0..parts).map(|row| all.slice(row..=row)).collect();
        slices.push(each[0].clone());
        asked(|| Export::concat(all.field(), &slices).unwrap()).1
    };
    let (few, many) = (bytes(100), bytes(400));
    assert!(
        many < 5 * few,
        "{many} bytes, and {few} for a fourth of the parts"
    );
}

#[test]
fn parts_of_one_array_of_views_share_its_buffers_once() {
    let buffers = |parts: &[Array]| {
        let joined = Export::concat(parts[0].field(), parts).unwrap();
        let (array, schema) = raw_of(joined);
        let number = array.n_buffers;
        let joined = import(array, schema).unwrap();
        let all_long = |row: Option<&[u8]>| row == Some(LONG.as_bytes());
        assert!(joined.texts().unwrap().iter().all(all_long));
        (number, joined)
    };
    let [mut one, other] = [(); 2].map(|()| of_views(&[Some(LONG); 64]));
    // The validity, the views, and the sizes of the buffers.
    assert_eq!(buffers(&parts(&one, &other)).0, 3 + 2);
    for _ in 0..5 {
        let (number, joined) = buffers(&[one.slice(1..), one]);
        assert_eq!(number, 3 + 1);
        one = joined;
    }
    assert_eq!(Export::from(one).read_back().len(), 2017);
}

/// Filters an array and passes it on as a stream, 2,000 times.
fn streamed(mut rows: Array) -> Array {
    for _ in 0..2_000 {
        let kept = rows.filter(Bits::new(&[0b11], 0, 2)).unwrap();
        let stream = ExportStream::new(kept.field().clone(), [Ok(kept)]).into_stream();
        rows = stream.unwrap().next().unwrap().unwrap();
    }
    rows
}

/// Of a chain of steps over shared rows only the first array stays, and a drop of the last one
/// needs no stack for each, also if each step reads the stream of the one before.
#[test]
fn a_chain_of_streams_keeps_the_first_array_only() {
    let coded = coded(Export::values([1i8, 0], None), 2);
    for first in [coded, list_views(2), of_views(&[Some(LONG); 2])] {
        let live = || ASKED.get().wrapping_sub(FREED.get());
        let before = live();
        let rows = streamed(first.clone());
        let bytes = live().wrapping_sub(before);
        assert!(bytes < 4096, "{bytes} bytes for {first:?}");
        drop(rows);
        assert_eq!(live(), before);
    }
}
