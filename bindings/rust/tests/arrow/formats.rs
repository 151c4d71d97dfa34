//! The formats that exported values can have, and the dictionaries that indices can have. The crate
//! returns an error for what it can't verify, since a consumer would read memory by it.
use vortex_bits::arrow::{Array, Export, Primitive};
use vortex_bits::{BitIndex, Bitmap};

use crate::export::ReadBack;
use crate::ranges::{offsets, view};
use crate::raw::{self, Buffer, Count, Schema, import};

/// An array of two rows of a format, with these numbers of buffers and children.
fn nested(format: &str, buffers: usize, children: usize) -> Array {
    let count = Count::default();
    let buffers = (0..buffers).map(|_| Some(Buffer::new(&[0; 64], 0)));
    let child = |_| raw::Array::values(6, None, &[0; 64], &count);
    let arrays = (0..children).map(child).collect();
    let array = raw::Array::of(2, buffers.collect(), arrays, None, &count);
    let fields = (0..children).map(|_| Schema::new("", "C", &count));
    import(
        array,
        Schema::of("n", format, fields.collect(), None, &count),
    )
    .unwrap()
}

/// The format of an export after `with_format`, or the error.
fn said(export: Export, format: &str) -> String {
    let answer = export.with_format(format);
    answer.map_or_else(
        |error| error.to_string(),
        |it| it.field().format().to_string(),
    )
}

#[test]
fn nested_arrays_keep_their_format() {
    let nested_ones = [
        ("+w:2", 1, 1, vec!["+w:1000", "+w:1", "+w:3", "+w:02", "+s"]),
        ("+vl", 3, 1, vec!["+vL", "+l", "u"]),
        ("+vL", 3, 1, vec!["+vl", "+L"]),
        (
            "+us:0,1",
            1,
            2,
            vec!["+us:5,6", "+us:1,0", "+us:0", "+ud:0,1"],
        ),
        ("+ud:0,1", 2, 2, vec!["+ud:1,0", "+us:0,1", "+ud:0,1,2"]),
        ("+l", 2, 1, vec!["+m", "+L", "+w:2", "l"]),
        ("+L", 2, 1, vec!["+l", "+m"]),
        ("+s", 1, 2, vec!["+w:2", "+us:0,1", "+ud:0,1"]),
    ];
    for (format, buffers, children, others) in nested_ones {
        let export = || Export::from(nested(format, buffers, children));
        for other in others {
            assert_eq!(
                said(export(), other),
                format!("column \"n\": values of format {format:?} aren't those of {other:?}")
            );
        }
        assert_eq!(said(export(), format), format);
    }
    assert_eq!(said(Export::from(nested("+m", 2, 1)), "+l"), "+l");
    let wrong = said(Export::from(nested("+l", 2, 1)), "+x");
    assert_eq!(wrong, "no type has the format \"+x\"");
}

/// A map that becomes a list loses the flag for sorted keys.
#[test]
fn maps_become_lists_without_the_flag_of_maps() {
    for (format, flags) in [("+l", 2), ("+m", 6)] {
        let count = Count::default();
        let buffers = vec![None, Some(Buffer::new(&[0; 64], 0))];
        let items = raw::Array::values(6, None, &[0; 64], &count);
        let array = raw::Array::of(2, buffers, vec![items], None, &count);
        let fields = vec![Schema::new("", "C", &count)];
        let mut schema = Schema::of("", "+m", fields, None, &count);
        schema.flags = 6;
        let map = Export::from(import(array, schema).unwrap());
        let out = crate::export::raw_of(map.with_format(format).unwrap());
        assert_eq!(out.1.flags, flags);
        drop(import(out.0, out.1).unwrap());
    }
}

/// The view of a row whose bytes begin at `start`. A null row gets a view of a missing buffer.
fn shown((row, start): (Option<&[u8]>, &i64)) -> [u8; 16] {
    let len = row.map_or(99, <[u8]>::len);
    let mut view = view(&"x".repeat(len), 0, (*start).try_into().unwrap());
    match row {
        Some(row) if row.len() <= 12 => view[4..4 + row.len()].copy_from_slice(row),
        Some(row) => view[4..8].copy_from_slice(&row[..4]),
        None => view[8] = 77,
    }
    view
}

/// Binary rows of this format. The bytes of null rows aren't UTF-8.
fn binary(rows: &[Option<&[u8]>], format: &str) -> Export {
    let valid: Bitmap = rows.iter().map(Option::is_some).collect();
    let bytes: Vec<u8> = rows
        .iter()
        .flat_map(|row| row.unwrap_or(b"\xFF\xFE"))
        .copied()
        .collect();
    let mut ends = vec![0];
    for row in rows {
        ends.push(ends[ends.len() - 1] + i64::try_from(row.map_or(2, <[u8]>::len)).unwrap());
    }
    let valid = Some(Buffer::new(valid.bits().bytes(), 0));
    let values = Some(Buffer::new(&bytes, 0));
    let buffers = if format == "vz" {
        let views: Vec<_> = rows.iter().copied().zip(&ends).map(shown).collect();
        let views = Some(Buffer::new(&views.concat(), 0));
        let sizes = offsets(&[bytes.len().try_into().unwrap()], true, 0);
        vec![valid, views, values, Some(sizes)]
    } else {
        vec![valid, Some(offsets(&ends, format == "Z", 0)), values]
    };
    let array = raw::Array::new(rows.len().try_into().unwrap(), buffers, &Count::default());
    Export::from(import(array, Schema::new("s", format, &Count::default())).unwrap())
}

fn not_those(format: &str, wanted: &str) -> String {
    format!("column \"s\": values of format {format:?} aren't those of {wanted:?}")
}

#[test]
fn binary_values_are_texts_where_each_valid_row_is_utf_8() {
    let long = "a text of more than twelve bytes \u{e9}";
    let cut = &long.as_bytes()[..long.len() - 1];
    let no_utf8: [&[u8]; 7] = [
        b"\xFF",
        b"a\xC3",
        b"\xA9",
        b"\xED\xA0\x80",
        b"\xC0\x80",
        b"\xF5\x80\x80\x80",
        cut,
    ];
    for (format, text) in [("z", "u"), ("Z", "U"), ("vz", "vu")] {
        let fine = [
            Some(&b"a"[..]),
            None,
            Some(b""),
            Some(long.as_bytes()),
            Some("\u{e9}".as_bytes()),
        ];
        let texts = binary(&fine, format).with_format(text).unwrap();
        assert_eq!(texts.field().format(), text);
        assert!(texts.read_back().texts().unwrap().iter().eq(fine));
        for wrong in no_utf8 {
            for row in 0..5 {
                let mut rows = fine;
                rows[row] = Some(wrong);
                assert_eq!(
                    said(binary(&rows, format), text),
                    format!("{}: row {row} isn't", not_those(format, text))
                );
            }
        }
    }
}

#[test]
fn binary_values_keep_their_offsets_and_texts_are_such() {
    for (format, text) in [("z", "u"), ("Z", "U"), ("vz", "vu")] {
        let fine = [Some(&b"a"[..]), None, Some(b"a text of eighteen")];
        // The bytes of both rows together are UTF-8, but those of each row aren't.
        let halves = [Some(&b"\xC3"[..]), Some(b"\xA9")];
        assert!(said(binary(&halves, format), text).ends_with("row 0 isn't"));
        // Texts are bytes.
        let texts = binary(&fine, format).with_format(text).unwrap();
        assert_eq!(said(texts, format), format);
        assert_eq!(said(binary(&[], format), text), text);
        // SAFETY: it is read as bytes alone.
        let unseen = unsafe { binary(&[Some(b"\xFF")], format).with_format_unchecked(text) };
        assert_eq!(unseen.unwrap().field().format(), text);
    }
    for (from, to) in [
        ("z", "U"),
        ("Z", "u"),
        ("z", "vu"),
        ("vz", "z"),
        ("vz", "u"),
        ("Z", "z"),
    ] {
        assert_eq!(said(binary(&[Some(b"a")], from), to), not_those(from, to));
    }
}

#[test]
fn binary_values_whose_offsets_go_back_become_no_texts() {
    let count = Count::default();
    let buffers = vec![
        None,
        Some(offsets(&[0, 3, 1], false, 0)),
        Some(Buffer::new(b"abc", 0)),
    ];
    let array = raw::Array::new(2, buffers, &count);
    let export = Export::from(import(array, Schema::new("s", "z", &count)).unwrap());
    assert_eq!(said(export, "u"), "column \"s\": row 1 lies from 3 to 1");
}

#[test]
fn formats_without_a_test_are_those_of_such_arrays() {
    let list = || Export::from(nested("+w:2", 1, 1));
    // SAFETY: there are six items.
    let other = unsafe { list().with_format_unchecked("+w:3") };
    assert_eq!(other.unwrap().read_back().field().format(), "+w:3");
    let views = || Export::from(nested("+vl", 3, 1));
    let union = || Export::from(nested("+us:0,1", 1, 2));
    // SAFETY: all types are 0.
    assert!(unsafe { union().with_format_unchecked("+us:0,6") }.is_ok());
    for (export, format) in [
        (list(), "+s"),
        (list(), "l"),
        (views(), "+l"),
        (views(), "+vL"),
        (union(), "+us:0"),
        (union(), "+ud:0,1"),
        (Export::values([1i32], None), "l"),
        (Export::texts(["a"], None), "u"),
    ] {
        // SAFETY: it isn't one of these.
        let refused = unsafe { export.with_format_unchecked(format) }.unwrap_err();
        assert!(
            refused
                .to_string()
                .ends_with(&format!("aren't those of {format:?}"))
        );
    }
    // SAFETY: no type is written so.
    let refused = unsafe { list().with_format_unchecked("+w:x") }.unwrap_err();
    assert_eq!(refused.to_string(), "no type has the format \"+w:x\"");
}

/// Puts an index out of range for `items` items at some of 70 rows in turn: an error unless null.
fn each_place<I>(lost: I, number: &str, items: usize)
where
    I: Primitive + BitIndex + Default,
{
    let dictionary = || Export::values(vec![0u8; items], None);
    for place in [0, 1, 7, 8, 63, 64, 69] {
        let mut indices = vec![I::default(); 70];
        indices[place] = lost;
        let valid: Bitmap = (0..70).map(|row| row != place && row != 5).collect();
        let rows = Export::values(indices.clone(), Some(valid)).named("d");
        assert!(rows.with_dictionary(dictionary()).is_ok());
        for valid in [None, Some((0..70).map(|row| row != 5).collect())] {
            let rows = Export::values(indices.clone(), valid).named("d");
            let refused = rows.with_dictionary(dictionary()).unwrap_err().to_string();
            let wanted = format!("index {number} at position {place} names none of {items} values");
            assert_eq!(refused, format!("column \"d\": {wanted}"));
            // A part without this index gets a dictionary.
            let rows = Export::values(indices.clone(), None).read_back();
            let part = Export::from(rows.slice(place + 1..));
            assert!(part.with_dictionary(dictionary()).is_ok());
        }
    }
}

#[test]
fn indices_that_name_no_item_get_no_dictionary() {
    each_place(3u8, "3", 3);
    each_place(u8::MAX, "255", 255);
    each_place(-1i8, "-1", 200);
    each_place(i8::MIN, "-128", 1);
    each_place(300u16, "300", 300);
    each_place(i16::MAX, "32767", 5);
    each_place(u32::MAX, "4294967295", 2);
    each_place(i32::MIN, "-2147483648", 2);
    each_place(u64::MAX, "18446744073709551615", 9);
    each_place(i64::MIN, "-9223372036854775808", 9);
    let none = || Export::values([0u8; 0], None);
    let refused = Export::values([0u8], None).with_dictionary(none());
    let wanted = "index 0 at position 0 names none of 0 values";
    assert_eq!(refused.unwrap_err().to_string(), wanted);
    assert!(none().with_dictionary(none()).is_ok());
    let null = Export::values([9u8], Some([false].into()));
    assert!(null.with_dictionary(none()).is_ok());
}

/// An index of 200 is -56 as a signed number of 8 bits.
#[test]
fn indices_keep_their_number_with_another_sign() {
    let coded = |last: u8, valid: Option<Bitmap>| {
        let items = Export::values(vec![1i64; 256], None);
        let rows = Export::values([0, 127, last], valid).named("d");
        rows.with_dictionary(items).unwrap()
    };
    assert_eq!(said(coded(127, None), "c"), "c");
    for last in [128, 200, 255] {
        let wanted = "column \"d\": values of format \"C\" aren't those of \"c\": row 2 isn't";
        assert_eq!(said(coded(last, None), "c"), wanted);
        assert_eq!(
            said(coded(last, Some([true, true, false].into())), "c"),
            "c"
        );
        assert_eq!(said(coded(last, None), "C"), "C");
    }
    for format in ["tdD", "w:1", "b", "s"] {
        assert!(coded(0, None).with_format(format).is_err());
        // SAFETY: it isn't one of these.
        assert!(unsafe { coded(0, None).with_format_unchecked(format) }.is_err());
    }
    let wide = || {
        let rows = Export::values([1u64, 0], None);
        rows.with_dictionary(Export::texts(["a", "b"], None))
            .unwrap()
    };
    assert_eq!(said(wide(), "l"), "l");
    assert!(wide().with_format("tDn").is_err());
}
