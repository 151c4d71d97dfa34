//! Texts and lists, whose rows are ranges between offsets.
use std::ops::Range;

use vortex_bits::Bits;
use vortex_bits::arrow::{Array, ArrowError, Fault};

use crate::raw::{self, Buffer, Count, Schema, import, import_as};

/// The buffer of offsets, of numbers of 32 or 64 bits.
pub fn offsets(numbers: &[i64], is_wide: bool, shift: usize) -> Buffer {
    let narrow = |it: i64| i32::try_from(it).unwrap().to_ne_bytes().to_vec();
    let wide = |it: i64| it.to_ne_bytes().to_vec();
    let bytes = numbers
        .iter()
        .flat_map(|&it| if is_wide { wide(it) } else { narrow(it) });
    Buffer::new(&bytes.collect::<Vec<_>>(), shift)
}

#[test]
fn texts_lie_between_their_offsets() {
    let bytes = b"..abcdefghij";
    for (format, is_wide) in [("u", false), ("z", false), ("U", true), ("Z", true)] {
        for shift in [0, 1] {
            let numbers = Some(offsets(&[0, 2, 5, 5, 9, 12], is_wide, shift));
            let buffers = vec![None, numbers, Some(Buffer::new(bytes, 0))];
            let texts = raw::Array::new(4, buffers, &Count::default()).at(1);
            let texts = import_as(texts, format).unwrap();
            let rows = |array: &Array| {
                let (ranges, bytes) = (array.ranges().unwrap(), array.bytes().unwrap());
                assert_eq!(ranges.len(), array.len());
                assert!(ranges.get(array.len()).is_none() && ranges.get(usize::MAX).is_none());
                let text = |range: Range<usize>| String::from_utf8(bytes[range].to_vec()).unwrap();
                ranges.iter().map(text).collect::<Vec<_>>()
            };
            assert_eq!(rows(&texts), ["abc", "", "defg", "hij"]);
            assert_eq!(rows(&texts.slice(1..3)), ["", "defg"]);
            assert_eq!(texts.slice(..3).bytes().unwrap().len(), 9);
            assert!(rows(&texts.slice(4..)).is_empty());
            assert!(texts.items().is_err() && texts.values::<u8>().is_err());
            let part = texts.slice(1..);
            let rows = part.texts().unwrap();
            assert!(rows.iter().eq([&b""[..], b"defg", b"hij"].map(Some)));
            assert!(rows.get(3).is_none());
            assert_eq!(
                format!("{:?}", texts.slice(2..).ranges().unwrap()),
                "[5..9, 9..12]"
            );
        }
    }
    let none = raw::Array::new(0, vec![None, None, None], &Count::default());
    let none = import_as(none, "u").unwrap();
    assert!(none.ranges().unwrap().is_empty() && none.bytes().unwrap().is_empty());
    // Texts without a byte need no buffer of bytes.
    let empty = vec![None, Some(offsets(&[0, 0, 0], false, 0)), None];
    let empty = import_as(raw::Array::new(2, empty, &Count::default()), "u").unwrap();
    assert_eq!(
        (empty.ranges().unwrap().len(), empty.bytes().unwrap()),
        (2, &[][..])
    );
}

/// Lists of five bytes, at offset 1.
fn lists(numbers: &[i64], format: &str) -> Array {
    let none = Count::default();
    let buffers = vec![None, Some(offsets(numbers, format == "+L", 0))];
    let items = raw::Array::values(5, None, &[9, 1, 2, 3, 4, 5], &none).at(1);
    let len = i64::try_from(numbers.len()).unwrap() - 2;
    let array = raw::Array::of(len, buffers, vec![items], None, &none).at(1);
    let fields = vec![Schema::new("item", "C", &none)];
    import(array, Schema::of("lists", format, fields, None, &none)).unwrap()
}

#[test]
fn lists_lie_between_their_offsets() {
    for format in ["+l", "+L", "+m"] {
        let array = lists(&[0, 1, 4, 4, 5], format);
        let (ranges, items) = (array.ranges().unwrap(), array.items().unwrap());
        let rows = ranges.iter().map(|row| items.slice(row));
        let rows: Vec<_> = rows.map(|it| it.values::<u8>().unwrap().to_vec()).collect();
        assert_eq!(rows, [vec![2, 3, 4], vec![], vec![5]]);
        assert!(array.bytes().is_err() && array.columns().is_err());
    }
    let past = lists(&[0, 1, 4, 6], "+l").ranges().unwrap_err();
    let wanted = "column \"lists\": it has 5 items, of which its parent wants 6";
    assert_eq!(past.to_string(), wanted);
    assert_eq!(
        lists(&[0, 1, 4, 6], "+l")
            .slice(..1)
            .ranges()
            .unwrap()
            .len(),
        1
    );
    for (numbers, said) in [
        ([0, 4, 1, 5], "row 0 lies from 4 to 1"),
        ([0, 0, 5, 4], "row 1 lies from 5 to 4"),
        ([0, -1, 1, 1], "row 0 lies from 0 to -1"),
        ([0, 1, -7, 1], "row 0 lies from 1 to -7"),
    ] {
        for format in ["+l", "+L"] {
            let refused = lists(&numbers, format).ranges().unwrap_err();
            assert_eq!(refused.to_string(), format!("column \"lists\": {said}"));
        }
    }
}

#[test]
fn texts_want_their_buffers() {
    let texts = |numbers: &[i64]| {
        let buffers = vec![None, Some(offsets(numbers, true, 0)), None];
        let array = raw::Array::new(1, buffers, &Count::default());
        import_as(array, "U")
            .unwrap()
            .bytes()
            .map(<[u8]>::len)
            .unwrap_err()
            .to_string()
    };
    assert_eq!(texts(&[0, 3]), "the buffer of the bytes is null");
    assert_eq!(texts(&[3, 0]), "row 0 lies from 3 to 0");
    let none = raw::Array::new(1, vec![None, None, None], &Count::default());
    let refused = import_as(none, "u").map(drop).unwrap_err();
    assert_eq!(refused.to_string(), "the buffer of the offsets is null");
}

/// The view of a text. The bytes of a long one begin at byte `start` of this buffer.
pub fn view(text: &str, buffer: i32, start: i32) -> [u8; 16] {
    let mut view = [0; 16];
    view[..4].copy_from_slice(&i32::try_from(text.len()).unwrap().to_ne_bytes());
    if text.len() <= 12 {
        view[4..4 + text.len()].copy_from_slice(text.as_bytes());
    } else {
        view[4..8].copy_from_slice(&text.as_bytes()[..4]);
        view[8..12].copy_from_slice(&buffer.to_ne_bytes());
        view[12..].copy_from_slice(&start.to_ne_bytes());
    }
    view
}

const LONG: &str = "thirteen text";

/// Rows of views from the second one on, over two buffers: the first one is without bytes.
fn views(valid: Option<u8>, views: &[[u8; 16]], sizes: &[i64]) -> raw::Array {
    let buffers = vec![
        valid.map(|it| Buffer::new(&[it], 0)),
        Some(Buffer::new(&views.concat(), 1)),
        None,
        Some(Buffer::new(format!("..{LONG}").as_bytes(), 0)),
        Some(offsets(sizes, true, 3)),
    ];
    let len = i64::try_from(views.len()).unwrap() - 1;
    raw::Array::new(len, buffers, &Count::default()).at(1)
}

#[test]
fn views_show_short_texts_and_long_ones() {
    let twelve = "twelve bytes";
    let rows = [
        view(LONG, 9, 9),
        view("", 0, 0),
        view(twelve, 0, 0),
        view(LONG, 1, 2),
    ];
    for format in ["vu", "vz"] {
        let array = import_as(views(None, &rows, &[0, 15]), format).unwrap();
        let texts = array.texts().unwrap();
        assert_eq!((texts.len(), texts.is_empty()), (3, false));
        let want = ["", twelve, LONG].map(|it| Some(it.as_bytes()));
        assert!(texts.iter().eq(want) && texts.get(3).is_none());
        assert!(array.slice(2..).texts().unwrap().iter().eq([want[2]]));
        assert!(array.ranges().is_err() && array.bytes().is_err() && array.bits().is_err());
    }
    // Views of null rows show anything.
    let array = import_as(views(Some(0b1100), &rows, &[0, 15]), "vu").unwrap();
    assert!(array.texts().unwrap().get(0).is_none());
    assert_eq!(format!("{:?}", array.slice(..1).texts().unwrap()), "[None]");
    // Buffers aren't needed where no text is long.
    let buffers = vec![None, Some(Buffer::new(&rows[1..3].concat(), 0)), None];
    let array = import_as(raw::Array::new(2, buffers, &Count::default()), "vu").unwrap();
    assert_eq!(array.texts().unwrap().get(1), Some(twelve.as_bytes()));
    let none = raw::Array::new(0, vec![None, None, None], &Count::default());
    assert!(import_as(none, "vz").unwrap().texts().unwrap().is_empty());
}

#[test]
fn views_that_lie_in_no_buffer_are_named() {
    let said = |row: [u8; 16], sizes: &[i64]| {
        let array = import_as(views(None, &[row, row, row], sizes), "vu").unwrap();
        array.texts().map(drop).unwrap_err().to_string()
    };
    let wanted = "row 0 lies in none of the buffers";
    let (long, fits) = (LONG, &[0, 15][..]);
    for (buffer, start) in [(2, 0), (-1, 0), (1, 3), (1, -1), (0, 0), (1, i32::MAX)] {
        assert_eq!(said(view(long, buffer, start), fits), wanted);
    }
    let mut negative = view("", 0, 0);
    negative[..4].copy_from_slice(&(-1i32).to_ne_bytes());
    assert_eq!(said(negative, fits), wanted);
    let mut endless = view(long, 1, 2);
    endless[..4].copy_from_slice(&i32::MAX.to_ne_bytes());
    assert_eq!(said(endless, fits), wanted);
    assert_eq!(said(view(long, 1, 2), &[0, 14]), wanted);
    assert_eq!(said(view(long, 1, 2), &[0, -1]), "a size is -1");
    assert_eq!(
        said(view(long, 1, 2), &[1, 15]),
        "the buffer of the bytes is null"
    );
    // Views of null rows aren't tested.
    let rows = [view(long, 7, 0), view(long, 1, 2), view(long, 7, 0)];
    let array = import_as(views(Some(0b011), &rows, fits), "vu").unwrap();
    assert_eq!(array.texts().unwrap().get(0), Some(long.as_bytes()));
    let array = import_as(views(Some(0b110), &rows, fits), "vu").unwrap();
    let refused = array.texts().map(drop).unwrap_err().to_string();
    assert_eq!(refused, "row 1 lies in none of the buffers");
    let no_sizes = vec![None, Some(Buffer::new(&[0; 16], 0)), None, None];
    let array = import_as(raw::Array::new(1, no_sizes, &Count::default()), "vu").unwrap();
    let refused = array.texts().map(drop).unwrap_err().to_string();
    assert_eq!(refused, "the buffer of the sizes is null");
    let few = raw::Array::new(1, vec![None, None], &Count::default());
    let refused = import_as(few, "vu").map(drop).unwrap_err().to_string();
    assert_eq!(refused, "n_buffers is 2 in place of 3");
    let no_views = raw::Array::new(1, vec![None, None, None], &Count::default());
    let refused = import_as(no_views, "vz").map(drop).unwrap_err().to_string();
    assert_eq!(refused, "the buffer of the views is null");
}

#[test]
fn a_test_of_a_part_is_none_of_the_whole() {
    for (format, is_wide) in [("u", false), ("U", true)] {
        let numbers = Some(offsets(&[0, 2, 5, 3, 9], is_wide, 0));
        let buffers = vec![None, numbers, Some(Buffer::new(b"abcdefghi", 0))];
        let texts = import_as(raw::Array::new(4, buffers, &Count::default()), format).unwrap();
        for _ in 0..2 {
            assert_eq!(texts.slice(..2).texts().unwrap().get(1), Some(&b"cde"[..]));
            assert_eq!(texts.slice(3..).bytes().unwrap().len(), 9);
            let wrong = Fault::Range {
                row: 2,
                start: 5,
                end: 3,
            };
            let error = texts.texts().unwrap_err();
            assert!(matches!(error, ArrowError::Malformed { fault, .. } if fault == wrong));
            assert!(texts.slice(1..3).ranges().is_err());
        }
        assert_eq!(texts.filter(Bits::new(&[0b1010], 0, 4)).unwrap().len(), 2);
    }
}
