//! Numbers too large for any memory: each is an error that names it, and nothing is read.
use vortex_bits::arrow::Export;

use crate::ranges::offsets;
use crate::raw::{self, Array, Buffer, Count, Schema, import};

/// The error for an array of four items of a format after `spoil`, or its length if it can be
/// imported.
fn said(format: &str, spoil: impl FnOnce(&mut Array)) -> String {
    let count = Count::default();
    let (buffers, children) = match format {
        "n" => (0, &[][..]),
        "+r" => (0, &["i", "l"][..]),
        "+s" | "+us:0,1" => (1, &["l", "l"][..]),
        "+ud:0,1" => (2, &["l", "l"][..]),
        format if format.starts_with("+w") => (1, &["l"][..]),
        "+l" | "+L" | "+m" => (2, &["l"][..]),
        "+vl" | "+vL" => (3, &["l"][..]),
        "u" | "U" | "z" | "Z" | "vu" | "vz" => (3, &[][..]),
        _ => (2, &[][..]),
    };
    let buffers = (0..buffers).map(|_| Some(Buffer::new(&[4; 512], 0)));
    let child = |_: &&str| Array::values(9, None, &[4; 128], &count);
    let arrays = children.iter().map(child).collect();
    let mut array = Array::of(4, buffers.collect(), arrays, None, &count);
    spoil(&mut array);
    let fields = children.iter().map(|it| Schema::new("", it, &count));
    let answer = import(
        array,
        Schema::of("", format, fields.collect(), None, &count),
    );
    let text = match &answer {
        Ok(array) => array.len().to_string(),
        Err(error) => error.to_string(),
    };
    drop(answer);
    assert_eq!(count.get(), 2 + 2 * children.len(), "{format}");
    text
}

const FORMATS: [&str; 20] = [
    "n", "b", "c", "l", "d:9,2", "tin", "w:16", "u", "U", "vu", "vz", "+s", "+l", "+L", "+vl",
    "+vL", "+w:2", "+us:0,1", "+ud:0,1", "+r",
];

#[test]
fn buffers_of_views_are_as_many_as_views_can_name() {
    let huge = [
        i64::MAX,
        i64::MAX - 1,
        1 << 62,
        1 << 61,
        1 << 60,
        1 << 50,
        1 << 40,
        (1 << 31) + 4,
    ];
    for format in ["vu", "vz"] {
        for number in huge {
            let wanted = format!("n_buffers is {number}");
            assert_eq!(said(format, |it| it.n_buffers = number), wanted);
        }
        for number in [i64::MIN, -5, -1, 0, 2] {
            let wanted = format!("n_buffers is {number} in place of 3");
            assert_eq!(said(format, |it| it.n_buffers = number), wanted);
        }
        assert_eq!(said(format, |_| ()), "4");
    }
}

#[test]
fn lengths_and_offsets_of_each_layout_are_those_of_some_memory() {
    for format in FORMATS {
        assert_eq!(said(format, |_| ()), "4", "{format}");
        for number in [i64::MIN, i64::MIN + 1, -5, -1] {
            assert_eq!(
                said(format, |it| it.length = number),
                format!("length is {number}")
            );
            assert_eq!(
                said(format, |it| it.offset = number),
                format!("offset is {number}")
            );
        }
        for (offset, length) in [
            (i64::MAX, 4),
            (4, i64::MAX),
            (i64::MAX, i64::MAX),
            (i64::MAX - 3, 4),
            (1 << 62, 1 << 62),
        ] {
            let wanted = format!("memory can't hold offset {offset} and length {length}");
            let text = said(format, |it| (it.offset, it.length) = (offset, length));
            assert_eq!(text, wanted, "{format}");
        }
        for number in [i64::MIN, -5, -2, 5, i64::MAX] {
            let wanted = format!("null_count is {number} and length 4");
            assert_eq!(said(format, |it| it.null_count = number), wanted);
        }
    }
}

/// The child of such an array would have more bytes than any memory, although the array has few.
#[test]
fn items_of_long_lists_are_counted_without_overflow() {
    let text = said("+w:2147483647", |it| it.length = 1 << 40);
    let wanted = "memory can't hold offset 0 and length 1099511627776";
    assert_eq!(text, wanted);
    let text = said("+w:2147483647", |it| it.offset = 1 << 33);
    assert_eq!(text, "memory can't hold offset 8589934592 and length 4");
    let text = said("+w:1000000", |it| it.length = 9);
    assert_eq!(
        text,
        "column \"0\": it has 9 items, of which its parent wants 9000000"
    );
    assert_eq!(said("+w:0", |it| it.length = 1 << 40), "1099511627776");
}

#[test]
fn numbers_of_children_are_those_of_the_type() {
    for format in FORMATS {
        let wanted = match format {
            "+s" | "+us:0,1" | "+ud:0,1" | "+r" => 2,
            format if format.starts_with('+') => 1,
            _ => 0,
        };
        for number in [i64::MIN, -1, 3, 1 << 50, i64::MAX] {
            let text = said(format, |it| it.n_children = number);
            assert_eq!(text, format!("n_children is {number} in place of {wanted}"));
        }
    }
}

#[test]
fn children_of_a_schema_are_as_many_as_some_memory_has() {
    let none = Count::default();
    for number in [i64::MAX, 1 << 61, 1 << 60, 1 << 50, 1 << 40, 1 << 31] {
        let fields = vec![Schema::new("a", "l", &none)];
        let mut schema = Schema::of("", "+s", fields, None, &none);
        schema.n_children = number;
        let refused = import(Array::new(0, vec![None], &none), schema).unwrap_err();
        assert_eq!(refused.to_string(), format!("n_children is {number}"));
    }
}

/// Many rows may name the few items of a dictionary.
#[test]
#[cfg(all(target_pointer_width = "64", not(miri)))]
fn texts_that_no_memory_holds_are_refused() {
    // No byte of it is read or written, so it uses no physical memory.
    let bytes = vec![0u8; 1 << 31];
    let long = || {
        let buffers = vec![None, Some(offsets(&[0, 1 << 31], true, 0)), None];
        let array = Array::new(1, buffers, &Count::default());
        // SAFETY: there are three buffers; the bytes stay longer than the array.
        unsafe { *array.buffers.add(2) = bytes.as_ptr().cast() };
        import(array, Schema::new("s", "U", &Count::default())).unwrap()
    };
    let rows = vec![0u8; 1 << 18];
    let wanted = format!("column \"s\": no memory for rows of {} bytes", 1u64 << 49);
    let taken = Export::texts_taken(&long(), &rows).map(drop);
    assert_eq!(taken.unwrap_err().to_string(), wanted);
    let coded = Export::values(rows, None).with_dictionary(Export::from(long()));
    let texts = coded.unwrap().named("d").into_array().dictionary_texts();
    assert_eq!(
        texts.map(drop).unwrap_err().to_string(),
        wanted.replace("\"s\"", "\"d.dictionary.s\"")
    );
}

/// A vector of zero-sized values may have more values than the interface can count.
#[test]
#[should_panic(expected = "18446744073709551615 values")]
#[cfg(target_pointer_width = "64")]
fn more_values_than_the_interface_can_say_are_refused() {
    let _ = Export::values(vec![[0u8; 0]; usize::MAX], None);
}

#[test]
#[cfg(target_pointer_width = "64")]
fn as_many_values_as_the_interface_can_say_go_out() {
    let all = Export::values(vec![[0u8; 0]; usize::MAX / 2], None);
    let len = all.len();
    assert_eq!(all.into_array().len(), len);
}

#[test]
fn formats_have_numbers_that_the_interface_has() {
    let formats = [
        "w:+5",
        "w:5 ",
        "w:0x5",
        "+w:+5",
        "+w:2147483648",
        "+w:4294967295",
        "+us:-1",
        "+us:128",
        "+us:5,5",
        "+ud:0,1,0",
        "+us:0,",
        "+ud:,",
        "+us:+1",
    ];
    for format in formats {
        let schema = Schema::new("", format, &Count::default());
        let refused = import(Array::new(0, vec![], &Count::default()), schema).unwrap_err();
        assert_eq!(
            refused.to_string(),
            format!("no type has the format {format:?}")
        );
    }
    // As a C string it would end at the 0.
    let cut = "tss:a\0b";
    let days = Export::values([1i64], None).with_format(cut).unwrap_err();
    assert_eq!(days.to_string(), format!("no type has the format {cut:?}"));
    let all: Vec<String> = (0..128).map(|it: u8| it.to_string()).collect();
    let format = format!("+us:{}", all.join(","));
    let array = raw::Array::new(0, vec![None], &Count::default());
    let refused = raw::import_as(array, &format).unwrap_err().to_string();
    assert_eq!(refused, "n_children is 0 in place of 128");
}
