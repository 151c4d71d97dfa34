//! Arrays made by hand, with offsets and in structs with offsets, compared with plain loops.
use std::thread;

use vortex_bits::arrow::{Array, ArrowError, Fault, Primitive};
use vortex_bits::{Bitmap, Bits, Validity};

use crate::plain::{Random, bit};
use crate::raw::{self, Buffer, Count, Schema, import, import_as};

/// The validity of the rows from `start` on, by single bits.
fn is_valid(valid: Option<&[u8]>, start: usize, row: usize) -> bool {
    valid.is_none_or(|valid| bit(valid, start + row))
}

fn same_validity(got: Validity<'_>, valid: Option<&[u8]>, start: usize) {
    assert_eq!(got.bits().is_some(), valid.is_some());
    for row in 0..got.len() {
        assert_eq!(got.get(row), Some(is_valid(valid, start, row)));
    }
}

#[test]
fn values_bits_and_validity_lie_at_the_offset() {
    let mut random = Random(1);
    for offset in 0..128 {
        for len in [0, 1, 7, 8, 9, 63, 64, 65, 130] {
            for has_nulls in [false, true] {
                let count = Count::default();
                let end = usize::try_from(offset + len).unwrap();
                let (values, bits) = (random.bytes(4 * end), random.bytes(end.div_ceil(8)));
                let valid = has_nulls.then(|| random.bytes(end.div_ceil(8)));
                let valid = valid.as_deref();
                let start = usize::try_from(offset).unwrap();

                let array = raw::Array::values(len, valid, &values, &count).at(offset);
                let array = import_as(array, "i").unwrap();
                let want = values.chunks_exact(4).skip(start);
                let want = want.map(|it| i32::from_ne_bytes(it.try_into().unwrap()));
                assert!(
                    array
                        .values::<i32>()
                        .unwrap()
                        .iter()
                        .copied()
                        .eq(want.clone())
                );
                assert!(array.unaligned::<i32>().unwrap().iter().eq(want));
                same_validity(array.validity().unwrap(), valid, start);

                drop(array);
                let array = raw::Array::values(len, valid, &bits, &count).at(offset);
                let array = import_as(array, "b").unwrap();
                let want = (0..array.len()).map(|row| bit(&bits, start + row));
                assert!(array.bits().unwrap().iter().eq(want));
                same_validity(array.validity().unwrap(), valid, start);
                drop(array);
                assert_eq!(count.get(), 2);
            }
        }
    }
}

/// Rows of a struct of a number and a truth value. The struct and both columns have offsets.
fn rows(len: i64, [own, a, b]: [i64; 3], columns: &Columns, count: &Count) -> Array {
    let child = own + len;
    let a = raw::Array::values(child, Some(&columns.valid), &columns.numbers, count).at(a);
    let b = raw::Array::values(child + 1, None, &columns.truths, count).at(b);
    let valid = Some(Buffer::new(&columns.valid, 0));
    let rows = raw::Array::of(len, vec![valid], vec![a, b], None, count).at(own);
    let fields = vec![Schema::new("a", "s", count), Schema::new("b", "b", count)];
    import(rows, Schema::of("", "+s", fields, None, count)).unwrap()
}

struct Columns {
    valid: Vec<u8>,
    numbers: Vec<u8>,
    truths: Vec<u8>,
}

#[test]
fn columns_have_the_rows_of_their_struct() {
    let mut random = Random(2);
    let columns = Columns {
        valid: random.bytes(60),
        numbers: random.bytes(800),
        truths: random.bytes(60),
    };
    for own in [0, 1, 7, 8, 9, 63, 64, 65, 127] {
        for (a, b) in [(0, 127), (3, 8), (64, 1), (127, 127), (5, 0)] {
            for len in [0, 1, 9, 64, 100] {
                let count = Count::default();
                let all = rows(len, [own, a, b], &columns, &count);
                assert_eq!(all.columns().unwrap().len(), 2);
                let [own, a, b] = [own, a, b].map(|it| usize::try_from(it).unwrap());
                for from in [0, all.len() / 2] {
                    let part = all.slice(from..);
                    same_validity(part.validity().unwrap(), Some(&columns.valid), own + from);
                    let column = part.column("a").unwrap();
                    let first = own + a + from;
                    let want = columns.numbers.chunks_exact(2).skip(first).take(part.len());
                    let want = want.map(|it| i16::from_ne_bytes(it.try_into().unwrap()));
                    assert!(column.values::<i16>().unwrap().iter().copied().eq(want));
                    same_validity(column.validity().unwrap(), Some(&columns.valid), first);
                    let column = part.column("b").unwrap();
                    let want =
                        (0..part.len()).map(|row| bit(&columns.truths, own + b + from + row));
                    assert!(column.bits().unwrap().iter().eq(want));
                    assert_eq!(column.null_count(), Ok(0));
                }
                drop(all);
                assert_eq!(count.get(), 6);
            }
        }
    }
}

#[test]
fn structs_in_structs_add_their_offsets() {
    let count = Count::default();
    let values: Vec<u8> = (0..200).collect();
    let inner = raw::Array::values(50, None, &values, &count).at(9);
    let middle = raw::Array::of(30, vec![None], vec![inner], None, &count).at(17);
    let outer = raw::Array::of(20, vec![None], vec![middle], None, &count).at(5);
    let schema = Schema::new("x", "C", &count);
    let schema = Schema::of("s", "+s", vec![schema], None, &count);
    let rows = import(outer, Schema::of("", "+s", vec![schema], None, &count)).unwrap();
    let x = rows.slice(3..).column("s").unwrap().column("x").unwrap();
    drop(rows);
    let want: Vec<u8> = (3 + 5 + 17 + 9..).take(17).collect();
    assert_eq!(x.values::<u8>(), Ok(&want[..]));
    assert_eq!(count.get(), 3);
    drop(x);
    assert_eq!(count.get(), 6);
}

/// Whether arrays of the format have values of the type: their bytes are those of the buffer then.
fn has<T: Primitive>(format: &str) -> bool {
    let bytes: Vec<u8> = (1..=200).collect();
    let array = raw::Array::values(3, None, &bytes, &Count::default()).at(2);
    let array = import_as(array, format).unwrap();
    match array.unaligned::<T>() {
        Ok(values) => {
            assert_eq!(values.len(), 3);
            assert!(values.get(3).is_none());
            let first = array.values::<T>().unwrap().as_ptr().cast::<u8>();
            // SAFETY: there is a value.
            assert!(size_of::<T>() == 0 || unsafe { *first } == bytes[2 * size_of::<T>()]);
            true
        }
        Err(error) => {
            assert!(matches!(error, ArrowError::Type { .. }));
            assert_eq!(array.values::<T>().err(), Some(error));
            false
        }
    }
}

#[test]
fn each_type_has_its_values_and_no_others() {
    let types = [
        ("i8", "c"),
        ("u8", "C"),
        ("i16", "s"),
        ("u16", "S e"),
        ("i32", "i tdD tts ttm tiM d:9,2,32"),
        ("u32", "I"),
        (
            "i64",
            "l tdm ttu ttn tDs tDm tDu tDn tss: tsm:UTC tsu:Europe/Zurich tsn: d:18,-2,64",
        ),
        ("u64", "L"),
        ("f32", "f"),
        ("f64", "g"),
        ("i128", "d:38,10 d:38,10,128"),
        ("none", "d:76,0,256 tiD tin w:0 w:3 w:16"),
    ];
    let pairs = |(name, formats): &(&'static str, &'static str)| {
        let name = *name;
        formats
            .split(' ')
            .map(move |format| (name, format))
            .collect::<Vec<_>>()
    };
    for (name, format) in types.iter().flat_map(pairs) {
        let got = [
            ("i8", has::<i8>(format)),
            ("u8", has::<u8>(format)),
            ("i16", has::<i16>(format)),
            ("u16", has::<u16>(format)),
            ("i32", has::<i32>(format)),
            ("u32", has::<u32>(format)),
            ("i64", has::<i64>(format)),
            ("u64", has::<u64>(format)),
            ("f32", has::<f32>(format)),
            ("f64", has::<f64>(format)),
            ("i128", has::<i128>(format)),
        ];
        for (type_, has) in got {
            assert_eq!(has, type_ == name, "{type_} of {format}");
        }
        assert_eq!(has::<[u8; 3]>(format), format == "w:3");
        assert_eq!(has::<[u8; 0]>(format), format == "w:0");
        assert_eq!(has::<[u8; 32]>(format), format == "d:76,0,256");
        let is_wide = name == "i128" || format == "w:16" || format == "tin";
        assert_eq!(has::<[u64; 2]>(format), is_wide, "{format}");
        assert_eq!(
            [has::<[u8; 16]>(format), has::<[i64; 2]>(format)],
            [is_wide; 2]
        );
    }
}

#[test]
fn values_that_are_not_aligned_are_read_one_by_one() {
    let bytes: Vec<u8> = (0..64).collect();
    let buffers = vec![None, Some(Buffer::new(&bytes, 8))];
    let array = raw::Array::new(3, buffers, &Count::default()).at(1);
    let array = import(array, Schema::new("p", "d:19,2", &Count::default())).unwrap();
    let refused = array.values::<i128>().unwrap_err();
    assert_eq!(
        refused.to_string(),
        "column \"p\": values don't begin at a multiple of 16"
    );
    let want = bytes[16..].chunks_exact(16);
    let want = want.map(|it| i128::from_ne_bytes(it.try_into().unwrap()));
    let got = array.unaligned::<i128>().unwrap();
    assert!(got.iter().eq(want.clone()) && got.iter().rev().eq(want.clone().rev()));
    assert_eq!(
        format!("{got:?}"),
        format!("{:?}", want.collect::<Vec<_>>())
    );
    // Decimals are filtered as pairs of 64-bit halves, which are aligned.
    let mut kept = [[0; 2]; 2];
    let mask = Bitmap::from([true, false, true]);
    mask.bits()
        .keep_into(array.values::<[u64; 2]>().unwrap(), &mut kept);
    let halves = |it: &[u8]| u64::from_ne_bytes(it.try_into().unwrap());
    assert_eq!(kept[1], [halves(&bytes[48..56]), halves(&bytes[56..64])]);
}

#[test]
fn arrays_without_items_may_have_null_pointers() {
    for (offset, format) in [(0, "b"), (0, "l"), (5, "b"), (5, "d:38,0"), (0, "w:7")] {
        let array = raw::Array::new(0, vec![None, None], &Count::default());
        let array = import_as(array.at(offset), format).unwrap();
        assert!(array.is_empty() && array.validity().unwrap().is_empty());
        assert_eq!(array.bits().is_ok_and(Bits::is_empty), format == "b");
        assert_eq!(
            array.values::<i64>().is_ok_and(<[i64]>::is_empty),
            format == "l"
        );
        assert_eq!(
            array.unaligned::<[u8; 7]>().is_ok_and(|it| it.is_empty()),
            format == "w:7"
        );
    }
    let rows = raw::Array::of(0, vec![None], vec![], None, &Count::default()).at(3);
    let rows = import_as(rows, "+s").unwrap();
    assert_eq!(rows.columns().unwrap().count(), 0);
    // Values of no byte need no buffer.
    let array = raw::Array::new(4, vec![None, None], &Count::default());
    let array = import_as(array, "w:0").unwrap();
    assert_eq!(array.values::<[u8; 0]>().unwrap().len(), 4);
}

#[test]
fn nulls_are_what_the_array_says_or_counted() {
    let valid = [0b0110_1101u8];
    let nulls = |null_count, valid| {
        let array = raw::Array::values(8, valid, &[7; 8], &Count::default());
        let array = import_as(array.nulls(null_count), "C").unwrap();
        let part = array.slice(1..5);
        let has_bits = array.validity().unwrap().bits().is_some();
        (
            array.null_count().unwrap(),
            part.null_count().unwrap(),
            has_bits,
        )
    };
    assert_eq!(nulls(-1, Some(&valid[..])), (3, 2, true));
    assert_eq!(nulls(3, Some(&valid)), (3, 2, true));
    assert_eq!(nulls(0, Some(&valid)), (0, 0, false));
    assert_eq!(nulls(-1, None), (0, 0, false));
    assert_eq!(nulls(0, None), (0, 0, false));
}

#[test]
fn indices_and_their_dictionary_are_reached() {
    let count = Count::default();
    let items = raw::Array::values(3, Some(&[0b1010]), &[9, 10, 20, 30], &count).at(1);
    let valid = Some(Buffer::new(&[0b1101_1000], 0));
    let indices = vec![valid, Some(Buffer::new(&[0, 0, 0, 2, 0xFF, 0, 1, 2], 0))];
    let rows = raw::Array::of(5, indices, vec![], Some(items), &count).at(3);
    let items = Schema::new("", "C", &count);
    let rows = import(rows, Schema::of("d", "c", vec![], Some(items), &count)).unwrap();
    assert_eq!(rows.field().dictionary().unwrap().format(), "C");
    let (indices, items) = (rows.values::<i8>().unwrap(), rows.dictionary().unwrap());
    assert_eq!(indices, [2, -1, 0, 1, 2]);
    assert_eq!(items.values::<u8>(), Ok(&[10, 20, 30][..]));
    // A row is valid if both its index and the item that it names are valid.
    let valid = items.validity().unwrap();
    assert_eq!(valid.get(1), Some(false));
    let error = valid.try_take(indices).unwrap_err();
    assert_eq!(
        error.to_string(),
        "index -1 at position 1 names none of 3 bits"
    );
    let of = rows.slice(2..);
    let taken = valid.take_valid(of.values::<i8>().unwrap(), of.validity().unwrap());
    assert_eq!(taken.unwrap(), Bitmap::from([false, false, true]));
    drop((rows, of));
    assert_eq!(count.get(), 2);
    drop(items);
    assert_eq!(count.get(), 4);
}

#[test]
fn other_types_have_a_length_and_a_validity() {
    let array = import_as(raw::Array::new(5, vec![], &Count::default()).at(2), "n").unwrap();
    assert_eq!(array.len(), 5);
    assert_eq!(array.null_count(), Ok(5));
    assert!(array.validity().is_err() && array.values::<u8>().is_err() && array.bits().is_err());
    assert!(array.columns().is_err() && array.column("a").is_err() && array.texts().is_err());
    assert!(array.items().is_err() && array.ranges().is_err() && array.bytes().is_err());
    let nulls = raw::Array::new(5, vec![], &Count::default()).nulls(5);
    assert_eq!(import_as(nulls, "n").unwrap().null_count(), Ok(5));
    let lists = ["+vl", "+vL", "+w:2", "+ud:5", "+us:5", "+r"];
    for (format, buffers) in lists.into_iter().zip([3, 3, 1, 2, 1, 0]) {
        let count = Count::default();
        let children = if format == "+r" { 2 } else { 1 };
        let child = |_| raw::Array::values(9, None, &[4; 9 * 4], &count);
        // Only the buffer of the validity may be missing.
        let has_none = matches!(format, "+ud:5" | "+us:5" | "+r");
        let is_missing = |place| place == 0 && !has_none;
        let buffer = |place| (!is_missing(place)).then(|| Buffer::new(&[0; 32], 0));
        let buffers = (0..buffers).map(buffer).collect();
        let array = raw::Array::of(4, buffers, (0..children).map(child).collect(), None, &count);
        let fields = (0..children)
            .map(|_| Schema::new("", "i", &count))
            .collect();
        let schema = Schema::of("", format, fields, None, &count);
        let array = import(array, schema).unwrap();
        assert_eq!(array.field().fields().len(), children);
        assert_eq!(array.validity().is_err(), has_none);
        assert!(array.columns().is_err() && array.dictionary().is_none());
        assert!(array.ranges().is_err() && array.items().is_err());
    }
}

#[test]
fn an_array_is_released_once_with_its_last_part() {
    let count = Count::default();
    let make = || {
        let a = raw::Array::values(4, None, &[1, 2, 3, 4], &count);
        let rows = raw::Array::of(4, vec![None], vec![a], None, &count);
        let none = Count::default();
        let schema = Schema::of("", "+s", vec![Schema::new("a", "C", &none)], None, &none);
        import(rows, schema).unwrap()
    };
    let rows = make();
    let (clone, column) = (rows.clone(), rows.column("a").unwrap());
    let part = column.slice(1..3);
    drop((rows, column, clone));
    assert_eq!(count.get(), 0);
    let sum = thread::spawn(move || part.values::<u8>().unwrap().iter().sum::<u8>());
    assert_eq!(sum.join().unwrap(), 5);
    assert_eq!(count.get(), 2);
    drop(make().columns().unwrap().next());
    assert_eq!(count.get(), 4);
    let shared = make().column("a").unwrap();
    thread::scope(|scope| {
        for _ in 0..4 {
            scope.spawn(|| assert_eq!(shared.slice(..2).values::<u8>(), Ok(&[1, 2][..])));
        }
    });
    drop(shared);
    assert_eq!(count.get(), 6);
}

#[test]
fn ranges_and_names_that_are_not_there_are_refused() {
    let array = raw::Array::values(4, None, &[1, 2, 3, 4], &Count::default());
    let array = import_as(array, "C").unwrap();
    assert_eq!(array.try_slice(2..5).unwrap_err().bits, 4);
    let said = |start, end| array.try_slice(start..end).unwrap_err().to_string();
    assert_eq!(said(2, 5), "the 3 rows from row 2 on are not among 4 rows");
    assert_eq!(said(3, 2), "the range starts at row 3, after its end");
    assert_eq!(said(5, 5), "row 5 is past 4 rows");
    assert_eq!(array.slice(2..4).slice(1..).values::<u8>(), Ok(&[4][..]));
    let rows = raw::Array::of(4, vec![None], vec![], None, &Count::default());
    let rows = import_as(rows, "+s").unwrap();
    assert_eq!(rows.column("a").unwrap_err().to_string(), "no column \"a\"");
    assert!(format!("{rows:?}").contains("len: 4"));
    let released = ArrowError::from(Fault::Released("ArrowArray"));
    // SAFETY: the array is null, and the schema is as the interface requires.
    let again = unsafe {
        let mut schema = Schema::new("", "C", &Count::default());
        Array::from_raw(std::ptr::null_mut(), (&raw mut schema).cast())
    };
    assert_eq!(again.unwrap_err(), released);
}
