//! Rows that can't be exported, and why.
use vortex_bits::arrow::{Array, ArrowError, Export, Field};
use vortex_bits::{Bitmap, Bits, TakeValuesError};

use crate::export::{ReadBack, counts_of};
use crate::ranges::offsets;
use crate::raw::{self, Buffer, Count, Schema, import};
use crate::unseen::ints;

fn of(
    format: &str,
    len: i64,
    buffers: Vec<Option<Buffer>>,
    children: Vec<(raw::Array, Schema)>,
) -> (raw::Array, Schema) {
    let none = Count::default();
    let (arrays, fields) = children.into_iter().unzip();
    let array = raw::Array::of(len, buffers, arrays, None, &none).nulls(0);
    (array, Schema::of("a", format, fields, None, &none))
}

fn imported((array, schema): (raw::Array, Schema)) -> Array {
    import(array, schema).unwrap()
}

fn told(answer: Result<Export, ArrowError>) -> String {
    answer.unwrap_err().to_string()
}

fn batch_without_columns(len: i64) -> Array {
    imported(of("+s", len, vec![None], vec![]))
}

#[test]
fn a_batch_without_columns_keeps_its_number_of_rows() {
    let rows = batch_without_columns(9);
    let mask = Bits::new(&[0b0101_1010, 1], 0, 9);
    assert_eq!(rows.filter(mask).unwrap().read_back().len(), 5);
    assert_eq!(rows.take(&[8u8, 8, 0]).unwrap().read_back().len(), 3);
    let both = [rows.clone(), rows.slice(2..)];
    let joined = Export::concat(rows.field(), &both).unwrap();
    assert_eq!(joined.read_back().len(), 16);
}

#[test]
fn structs_have_their_rows_and_their_nulls() {
    let none = Export::structs(9, [], None);
    assert!(!none.field().is_nullable());
    assert_eq!(none.read_back().len(), 9);
    let valid = Bitmap::from(Bits::new(&[0b1011_0000, 0b01], 4, 5));
    let column = || Export::values(vec![1u8, 2, 3, 4, 5], None).named("a");
    let rows = Export::structs(5, [column()], Some(valid.clone())).read_back();
    assert!(rows.field().is_nullable());
    assert_eq!(rows.validity().unwrap().bits(), Some(valid.bits()));
    let kept = rows
        .filter(Bits::new(&[0b00110], 0, 5))
        .unwrap()
        .read_back();
    assert_eq!(kept.null_count(), Ok(1));
    assert_eq!(kept.column("a").unwrap().values::<u8>(), Ok(&[2, 3][..]));
}

#[test]
#[should_panic(expected = "columns of 2 and 3 rows")]
fn structs_have_columns_of_their_length() {
    let _ = Export::structs(2, [Export::values(vec![1u8; 3], None)], None);
}

#[test]
#[should_panic(expected = "3 bits of validity for 2 values")]
fn structs_have_a_bit_for_each_row() {
    let _ = Export::structs(2, [], Some(Bitmap::new_set(3)));
}

#[test]
fn masks_and_validities_of_another_length_are_refused() {
    let rows = imported(of("n", 3, vec![], vec![]));
    let mask = Bitmap::new_set(4);
    assert_eq!(
        told(rows.filter(&mask)),
        "column \"a\": a mask of 4 bits for 3 rows"
    );
    let error = rows.filter(Some(&mask)).unwrap_err();
    let column = "a".into();
    assert_eq!(
        error,
        ArrowError::Mask {
            column,
            bits: 4,
            rows: 3
        }
    );
    let refused = rows.take_valid(&[0u8, 1], &mask).unwrap_err();
    let error = TakeValuesError::Validity {
        bits: 4,
        indices: 2,
    };
    assert_eq!(
        refused,
        ArrowError::Take {
            column: "a".into(),
            error
        }
    );
}

#[test]
fn the_first_index_that_is_valid_and_of_no_row_is_named() {
    let rows = imported(of("n", 3, vec![], vec![])).slice(1..);
    let refused = "column \"a\": index 2 at position 2 names none of 2 values";
    assert_eq!(told(rows.take(&[0i8, 1, 2, -1])), refused);
    let valid = Bits::new(&[0b1011], 0, 4);
    let refused = "column \"a\": index -1 at position 3 names none of 2 values";
    assert_eq!(told(rows.take_valid(&[0i8, 1, 2, -1], valid)), refused);
}

/// Three rows of a union at offset 1, with two items in each child.
fn union(format: &str, types: [u8; 4], places: [i32; 4]) -> Array {
    let mut buffers = vec![Some(Buffer::exact(&types))];
    if format.starts_with("+ud") {
        let places: Vec<u8> = places.iter().flat_map(|it| it.to_ne_bytes()).collect();
        buffers.push(Some(Buffer::exact(&places)));
    }
    let items = if format.starts_with("+ud") { 2 } else { 4 };
    let children = [(); 2].map(|()| of("n", items, vec![], vec![]));
    imported(of(format, 4, buffers, children.into())).slice(1..)
}

#[test]
fn rows_of_unions_that_are_of_no_child_are_named() {
    let said = |union: &Array, what: &str| {
        assert_eq!(told(union.filter(None::<Bits>)), what);
        assert_eq!(told(union.take(&[0u8, 2])), what);
        assert!(union.take(&[0u8, 1]).is_ok());
    };
    let types = [0, 5, 0, 4];
    for format in ["+us:0,5", "+ud:0,5"] {
        let union = union(format, types, [9, 0, 0, 0]);
        said(&union, "column \"a\": row 2 has the type 4 of no child");
    }
    for (offset, what) in [
        (2, "2 of 2"),
        (-1, "-1 of 2"),
        (i32::MIN, "-2147483648 of 2"),
    ] {
        let union = union("+ud:0,5", [0, 5, 0, 0], [9, 0, 0, offset]);
        said(&union, &format!("column \"a\": row 2 is item {what}"));
    }
    for format in ["+us:", "+ud:"] {
        let buffers = if format == "+us:" { 1 } else { 2 };
        let none = (0..buffers).map(|_| None).collect();
        let rows = imported(of(format, 0, none, vec![]));
        assert_eq!(rows.filter(None::<Bits>).unwrap().read_back().len(), 0);
        let refused = rows.take_valid(&[0u8], Bits::new(&[0], 0, 1));
        let format = format!("column \"a\": format {format:?} isn't that of rows that may be null");
        assert_eq!(told(refused), format);
    }
}

#[test]
fn texts_and_items_behind_what_offsets_tell_are_refused() {
    let ends = || vec![None, Some(offsets(&[0, 3, 1 << 20], false, 0))];
    let lists = of("+l", 2, ends(), vec![of("n", 1 << 20, vec![], vec![])]);
    let mut rows = vec![1u16; 5000];
    let refused = "column \"a\": 2148526077 items of lists, and numbers up to 2147483647";
    assert_eq!(told(imported(lists).take(&rows)), refused);
    let mut buffers = ends();
    buffers.push(Some(Buffer::exact(&vec![b'x'; 1 << 20])));
    let texts = imported(of("u", 2, buffers, vec![]));
    rows[0] = 0;
    let error = texts.take(&rows).unwrap_err();
    let column = "a".into();
    let bytes = 3 + 2049 * ((1 << 20) - 3);
    assert_eq!(error, ArrowError::LongTexts { column, bytes });
}

#[test]
fn rows_of_runs_behind_what_their_ends_tell_are_refused() {
    let ends = Some(Buffer::exact(&20_000i16.to_ne_bytes()));
    let ends = of("s", 1, vec![None, ends], vec![]);
    let runs = imported(of(
        "+r",
        20_000,
        vec![],
        vec![ends, of("n", 1, vec![], vec![])],
    ));
    let one = Export::concat(runs.field(), &[runs.clone(), runs.slice(..12_767)]).unwrap();
    assert_eq!(counts_of(one).0, 32_767);
    let refused = "column \"a\": 32768 rows of runs, and numbers up to 32767";
    let both = [runs.clone(), runs.slice(..12_768)];
    assert_eq!(told(Export::concat(runs.field(), &both)), refused);
}

#[test]
fn items_behind_what_indices_tell_are_refused() {
    let coded = |index: u8, items: usize| {
        let items = Export::values(vec![7u8; items], None);
        let index = Export::values([index], None)
            .with_dictionary(items)
            .unwrap();
        index.named("a").into_array()
    };
    let [one, other] = [coded(0, 200), coded(55, 56)];
    let joined = Export::concat(one.field(), &[one.clone(), other.clone()]).unwrap();
    assert_eq!(joined.read_back().dictionary_indices().unwrap(), [0, 255]);
    let refused = "column \"a\": 256 items of a dictionary, and numbers up to 255";
    let both = [one.clone(), coded(55, 56), coded(0, 1)];
    assert_eq!(
        told(Export::concat(one.field(), &both)),
        refused.replace("256", "257")
    );
}

#[test]
fn arrays_of_another_type_and_nulls_of_a_column_without_are_refused() {
    let number = Field::new("a", "l").unwrap();
    let other = Export::values([1i32], None).into_array();
    let refused = "column \"a\": the array has \"i\", the field \"l\"";
    assert_eq!(told(Export::concat(&number, &[other])), refused);
    let gap = Export::values([1i64, 0], Some([true, false].into())).into_array();
    let refused = "column \"a\": the array has the number of nulls 1, the field none";
    let field = number.nullable(false);
    assert_eq!(
        told(Export::concat(&field, std::slice::from_ref(&gap))),
        refused
    );
    let valid = Export::concat(&field, &[gap.slice(..1)]).unwrap();
    assert_eq!(valid.field(), &field);
    assert_eq!(counts_of(valid).1, 0);
}

/// A null row can't name an item where there is none.
#[test]
fn null_rows_above_a_dictionary_without_items_are_refused() {
    let none = Export::values(Vec::<i8>::new(), None);
    let coded = none
        .with_dictionary(Export::values(Vec::<i64>::new(), None))
        .unwrap();
    let rows = Export::batch([coded.named("a")]).into_array();
    let nulls = rows.take_valid(&[0u8], Bits::new(&[0], 0, 1)).unwrap();
    assert_eq!(counts_of(nulls).0, 1);
    let of = rows.field().column("a").unwrap().clone().nullable(false);
    let rows = Export::from(rows)
        .with_field(&Field::batch([of]))
        .unwrap()
        .into_array();
    assert_eq!(
        told(rows.take_valid(&[0u8], Bits::new(&[0], 0, 1))),
        "column \"a\": index 0 at position 0 names none of 0 values"
    );
}

/// A batch of two rows, the second of which is wrong, in one column of a format with this name.
fn with_wrong_row(format: &str, name: &str) -> Array {
    let none = Count::default();
    let bytes = |bytes: &[u8]| Some(Buffer::new(bytes, 0));
    let (buffers, child, items) = match format {
        "u" => (
            vec![None, Some(ints(&[0, 3, 1])), bytes(b"abcd")],
            None,
            None,
        ),
        "vu" => (vec![None, bytes(&[99; 32]), bytes(&[0; 8])], None, None),
        "c" => (vec![None, bytes(&[0, 5])], None, Some("C")),
        "+l" => (vec![None, Some(ints(&[0, 1, 9]))], Some("C"), None),
        "+vl" => {
            let [offsets, sizes] = [[0, 9], [1, 1]].map(|it| Some(ints(&it)));
            (vec![None, offsets, sizes], Some("C"), None)
        }
        "+us:0" => (vec![bytes(&[0, 4])], Some("C"), None),
        _ => (vec![bytes(&[0, 4]), Some(ints(&[0, 0]))], Some("C"), None),
    };
    let below = |_: &str| raw::Array::values(2, None, &[7; 2], &none);
    let field = |format| Schema::new("", format, &none);
    let column = raw::Array::of(
        2,
        buffers,
        child.map(below).into_iter().collect(),
        items.map(below),
        &none,
    );
    let of = child.map(field).into_iter().collect();
    let of = Schema::of(name, format, of, items.map(field), &none);
    let batch = raw::Array::of(2, vec![None], vec![column], None, &none);
    imported((batch, Schema::of("", "+s", vec![of], None, &none)))
}

#[test]
fn errors_of_joined_rows_name_the_columns_of_the_field() {
    for format in ["u", "vu", "c", "+l", "+vl", "+us:0", "+ud:0"] {
        for (wanted, text) in [("", "column \"0\": "), ("b", "column \"b\": ")] {
            let field = with_wrong_row(format, wanted).field().clone();
            let said = ["", "a", wanted].map(|name| {
                let both = [(); 2].map(|()| with_wrong_row(format, name));
                told(Export::concat(&field, &both))
            });
            assert!(
                said.iter().all(|it| it.starts_with(text)),
                "{format}: {said:?}"
            );
        }
    }
}
