//! Texts of each type that are kept, taken and narrowed, compared with loops over rows.
use vortex_bits::arrow::{Array, Export};
use vortex_bits::{BitIndex, Bitmap, Bits, Mask};

use crate::export::{ReadBack, raw_of};
use crate::ranges::{offsets, view};
use crate::raw::{self, Buffer, Count, Schema, import};

const FORMATS: [&str; 6] = ["u", "z", "U", "Z", "vu", "vz"];

type Row = Option<&'static str>;

const ROWS: [Row; 9] = [
    Some("a"),
    None,
    Some(""),
    Some("a text of more than twelve bytes"),
    Some("\u{e9}"),
    None,
    Some("twelve bytes"),
    Some("thirteen text"),
    None,
];

/// The rows at offset 1. Null rows have junk bytes, or a view of a buffer that doesn't exist.
fn texts(rows: &[Row], format: &str, count: &Count) -> Array {
    let all = || [Some("before")].into_iter().chain(rows.iter().copied());
    let bytes: String = all().map(|row| row.unwrap_or("junk")).collect();
    let mut ends = vec![0];
    for row in all() {
        let len = row.unwrap_or("junk").len();
        ends.push(ends[ends.len() - 1] + i64::try_from(len).unwrap());
    }
    let valid: Bitmap = all().map(|row| row.is_some()).collect();
    let mut buffers = vec![Some(Buffer::new(valid.bits().bytes(), 0))];
    if format.starts_with('v') {
        let views = all().zip(&ends).map(|(row, &start)| match row {
            Some(text) => view(text, 0, start.try_into().unwrap()),
            None => view("a text of no buffer", 7, 0),
        });
        let size = i64::try_from(bytes.len()).unwrap();
        buffers.push(Some(Buffer::new(&views.collect::<Vec<_>>().concat(), 0)));
        buffers.push(Some(Buffer::new(bytes.as_bytes(), 0)));
        buffers.push(Some(offsets(&[size], true, 0)));
    } else {
        let is_wide = format.chars().all(char::is_uppercase);
        buffers.push(Some(offsets(&ends, is_wide, 0)));
        buffers.push(Some(Buffer::new(bytes.as_bytes(), 0)));
    }
    let len = i64::try_from(rows.len()).unwrap();
    let array = raw::Array::new(len, buffers, count).at(1);
    import(array, Schema::new("s", format, count)).unwrap()
}

/// The rows of an export, as a consumer reads them. Tests its name and format.
#[track_caller]
fn read(export: Export, format: &str) -> Vec<Option<String>> {
    assert_eq!(
        (export.field().name(), export.field().format()),
        ("s", format)
    );
    assert!(export.field().is_nullable());
    let (array, schema) = raw_of(export);
    assert!(array.null_count >= 0 && array.offset == 0);
    let array = import(array, schema).unwrap();
    let nulls = array.validity().unwrap().count_zeros();
    assert_eq!(array.null_count(), Ok(nulls));
    let text = |row: Option<&[u8]>| row.map(|it| String::from_utf8(it.to_vec()).unwrap());
    array.texts().unwrap().iter().map(text).collect()
}

fn owned(rows: impl IntoIterator<Item = Row>) -> Vec<Option<String>> {
    rows.into_iter()
        .map(|row| row.map(str::to_string))
        .collect()
}

#[test]
fn texts_of_each_type_are_kept() {
    for format in FORMATS {
        let count = Count::default();
        for start in [0, 3, 9] {
            let rows = &ROWS[start..];
            let array = texts(&ROWS, format, &count).slice(start..);
            let keep = |mask: &[bool]| {
                let bits = Bitmap::from(mask);
                let kept = rows.iter().zip(mask).filter(|it| *it.1).map(|it| *it.0);
                let export = Export::texts_kept(&array, &bits).unwrap();
                assert_eq!(export.field(), array.field());
                assert_eq!(read(export, format), owned(kept), "{format} {mask:?}");
            };
            for step in 1..5 {
                keep(&(start..9).map(|row| row % step == 0).collect::<Vec<_>>());
            }
            keep(&vec![false; rows.len()]);
            let all = Export::texts_kept(&array, None::<Bits>).unwrap();
            assert_eq!(read(all, format), owned(rows.iter().copied()));
        }
    }
}

#[track_caller]
fn take<I: BitIndex>(array: &Array, indices: &[I], valid: impl Mask, wanted: &[Row]) {
    let taken = Export::texts_taken_valid(array, indices, valid).unwrap();
    assert_eq!(
        read(taken, array.field().format()),
        owned(wanted.iter().copied())
    );
}

#[test]
fn texts_of_each_type_are_taken() {
    for format in FORMATS {
        let array = texts(&ROWS, format, &Count::default()).slice(1..);
        let (long, last) = (ROWS[3], ROWS[7]);
        let taken = Export::texts_taken(&array, &[2u32, 0, 2, 6, 7]).unwrap();
        assert_eq!(read(taken, format), owned([long, None, long, last, None]));
        let valid = Bits::new(&[0b0_1011], 0, 5);
        take(
            &array,
            &[2u8, 6, 200, 0, 8],
            valid,
            &[long, last, None, None, None],
        );
        take(
            &array,
            &[2i64, 6, -1, 1, 99],
            Some(valid),
            &[long, last, None, Some(""), None],
        );
        take(&array, &[0u64; 0], None::<Bits>, &[]);
        take(
            &array.slice(..0),
            &[9, 9],
            Bits::new(&[0], 0, 2),
            &[None, None],
        );
        let said = |indices: &[i32], valid: Option<Bits>| {
            let taken = Export::texts_taken_valid(&array, indices, valid);
            taken.map(drop).unwrap_err().to_string()
        };
        assert_eq!(
            said(&[0, 8], None),
            "column \"s\": index 8 at position 1 names none of 8 values"
        );
        assert_eq!(
            said(&[9, -7, 3], Some(Bits::new(&[0b110], 0, 3))),
            "column \"s\": index -7 at position 1 names none of 8 values"
        );
        assert_eq!(
            said(&[0, 1], Some(valid)),
            "column \"s\": 2 indices and 5 bits of validity"
        );
    }
}

/// The type of a taken column allows nulls, even if that of its input doesn't.
#[test]
fn types_of_what_is_taken_have_nulls() {
    let count = Count::default();
    let mut schema = Schema::new("s", "u", &count);
    schema.flags = 0;
    let buffers = vec![
        None,
        Some(offsets(&[0, 1], false, 0)),
        Some(Buffer::new(b"a", 0)),
    ];
    let array = import(raw::Array::new(1, buffers, &count), schema).unwrap();
    let kept = Export::texts_kept(&array, Bits::new(&[1], 0, 1)).unwrap();
    assert!(!kept.field().is_nullable());
    take(&array, &[0, 9], Bits::new(&[1], 0, 2), &[Some("a"), None]);
}

#[test]
fn views_share_their_buffers() {
    for (format, released) in [("vu", 0), ("U", 1)] {
        let count = Count::default();
        let array = texts(&ROWS, format, &count);
        // The schema is read, and released.
        assert_eq!(count.get(), 1);
        let kept = Export::texts_kept(&array, None::<Bits>).unwrap();
        let taken = Export::texts_taken(&array, &[3, 3]).unwrap();
        drop(array);
        assert_eq!(count.get(), 1 + released);
        drop(kept);
        let (mut array, mut schema) = raw_of(taken);
        assert_eq!(count.get(), 1 + released);
        // SAFETY: there are at least three buffers, and neither struct is released.
        unsafe {
            // Views are numbers of 128 bits to some consumers.
            let values = *array.buffers.add(1);
            assert!(values.cast::<i64>().is_aligned());
            assert!(format == "U" || values.cast::<u128>().is_aligned());
            array.release.unwrap()(&raw mut array);
            schema.release.unwrap()(&raw mut schema);
        }
        assert_eq!(count.get(), 2);
    }
}

/// Views of null rows are replaced by empty ones, which pass the tests of any reader.
#[test]
fn views_of_null_rows_become_empty() {
    let array = texts(&ROWS, "vu", &Count::default());
    let again = texts(&ROWS, "vu", &Count::default());
    let all = Bitmap::new_set(9);
    for made in [
        Export::texts_kept(&array, &all),
        Export::texts_kept(&array, None::<Bits>),
        Export::texts_taken(&array, &[0u8, 1, 2, 3, 4, 5, 6, 7, 8]),
        array.filter(&all),
        Export::concat(array.field(), &[array.slice(..4), array.slice(4..)]),
        Export::concat(array.field(), &[array.slice(..4), again.slice(4..)]),
    ] {
        let (mut array, mut schema) = raw_of(made.unwrap());
        // SAFETY: there are nine views, and neither struct is released.
        unsafe {
            let views = *array.buffers.add(1).cast::<*const [[u8; 16]; 9]>();
            for (row, view) in ROWS.iter().zip(&*views) {
                assert!(row.is_some() || view == &[0; 16]);
            }
            array.release.unwrap()(&raw mut array);
            schema.release.unwrap()(&raw mut schema);
        }
    }
}

#[test]
fn what_has_no_texts_is_refused() {
    let numbers = Export::values(vec![1i32], None).named("n").read_back();
    let wanted = "column \"n\": format \"i\" isn't that of texts";
    let kept = Export::texts_kept(&numbers, None::<Bits>).map(drop);
    assert_eq!(kept.unwrap_err().to_string(), wanted);
    let taken = Export::texts_taken(&numbers, &[0]).map(drop);
    assert_eq!(taken.unwrap_err().to_string(), wanted);
    let narrow = Export::from(numbers).narrow().map(drop).unwrap_err();
    assert_eq!(narrow.to_string(), format!("{wanted} between offsets"));
    let views = Export::from(texts(&ROWS, "vu", &Count::default())).narrow();
    assert!(views.is_err());
    // A view that is in no buffer isn't exported, whether the mask keeps it or not.
    let lost = vec![
        None,
        Some(Buffer::new(&view("a long text of no buffer", 0, 0), 0)),
        None,
    ];
    let lost = raw::import_as(raw::Array::new(1, lost, &Count::default()), "vu").unwrap();
    let kept = Export::texts_kept(&lost, Bits::new(&[0], 0, 1)).map(drop);
    assert_eq!(
        kept.unwrap_err().to_string(),
        "row 0 lies in none of the buffers"
    );
}

#[test]
#[should_panic(expected = "a mask of 8 bits for 9")]
fn a_mask_of_another_length_is_refused() {
    let array = texts(&ROWS, "u", &Count::default());
    let _ = Export::texts_kept(&array, Bits::new(&[0], 0, 8));
}

#[test]
fn texts_may_be_null() {
    let names = Export::texts_or_nulls(ROWS).named("s");
    assert_eq!(read(names, "U"), owned(ROWS));
    let owned_texts = Export::texts_or_nulls([Some("a".to_string())]).named("s");
    let (array, schema) = raw_of(owned_texts);
    // SAFETY: there are three buffers.
    assert!(unsafe { *array.buffers }.is_null() && array.null_count == 0);
    drop(import(array, schema).unwrap());
    assert!(Export::texts_or_nulls([None::<&str>; 0]).is_empty());
}

#[test]
fn texts_are_narrowed() {
    for (format, narrow) in [("u", "u"), ("z", "z"), ("U", "u"), ("Z", "z")] {
        let count = Count::default();
        for start in [0, 4, 9] {
            let part = texts(&ROWS, format, &count).slice(start..);
            let export = Export::from(part).narrow().unwrap();
            let rows = ROWS[start..].iter().copied();
            // An array that is exported as it was imported keeps its offset.
            if format == narrow {
                assert_eq!(export.len(), rows.len());
            } else {
                assert_eq!(read(export, narrow), owned(rows));
            }
        }
        assert_eq!(count.get(), 6);
    }
    let narrow = Export::texts_or_nulls(ROWS).named("s").narrow().unwrap();
    let field = vortex_bits::arrow::Field::new("s", "u").unwrap();
    assert_eq!(narrow.field(), &field);
    assert_eq!(read(narrow.narrow().unwrap(), "u"), owned(ROWS));
    let none = Export::texts([""; 0], None).narrow().unwrap();
    assert!(none.read_back().texts().unwrap().is_empty());
}

/// Offsets of 32 bits reach 2^31 - 1, wherever the first row begins.
#[cfg(all(target_pointer_width = "64", not(miri)))]
#[test]
fn long_texts_are_not_narrowed() {
    // No byte of it is read or written, so it uses no physical memory.
    let bytes = vec![0u8; (1 << 31) + 5];
    let most = i64::from(i32::MAX);
    for (ends, len) in [
        ([0, 3, most], Ok(most)),
        ([5, 9, most + 5], Ok(most)),
        ([0, 3, most + 1], Err(most + 1)),
        ([5, most + 6, most + 6], Err(most + 1)),
    ] {
        let buffers = vec![None, Some(offsets(&ends, true, 0)), None];
        let array = raw::Array::new(2, buffers, &Count::default());
        // SAFETY: there are three buffers; the bytes stay longer than the array.
        unsafe { *array.buffers.add(2) = bytes.as_ptr().cast() };
        let array = import(array, Schema::new("s", "U", &Count::default())).unwrap();
        let narrow = Export::from(array).narrow();
        match len {
            Ok(len) => {
                let narrow = narrow.unwrap().into_array();
                let end = narrow.ranges().unwrap().get(1).unwrap().end;
                assert_eq!(i64::try_from(end), Ok(len));
            }
            Err(len) => assert_eq!(
                narrow.unwrap_err().to_string(),
                format!("column \"s\": texts of {len} bytes, and offsets up to 2147483647")
            ),
        }
    }
}

/// The error comes before the bytes are allocated.
#[test]
fn texts_that_are_taken_often_may_be_too_long() {
    let long = "x".repeat(1 << 20);
    let array = Export::texts([long], None).named("s").narrow().unwrap();
    let refused = Export::texts_taken(&array.read_back(), &[0; 2048]);
    assert_eq!(
        refused.unwrap_err().to_string(),
        "column \"s\": texts of 2147483648 bytes, and offsets up to 2147483647"
    );
}
