//! Columns with a dictionary, compared with loops over rows.
use vortex_bits::arrow::{Array, Export, ExportStream, Field, Primitive};
use vortex_bits::{BitIndex, Bitmap, Validity};

use crate::export::ReadBack;
use crate::raw::{self, Buffer, Count, Schema, import};

/// Items, of which every fifth one is null.
fn items() -> Vec<Option<i64>> {
    (0..100)
        .map(|row| (row % 5 != 0).then_some(row * row))
        .collect()
}

fn exported(items: &[Option<i64>]) -> Export {
    let values: Vec<i64> = items.iter().map(|it| it.unwrap_or(-1)).collect();
    let valid = items.iter().map(Option::is_some).collect();
    Export::values(values, Some(valid)).named("items")
}

/// Tests rows with an index of type `I`. Every third row is null, and its index is `lost`.
fn of_each_index<I>(lost: I, of: impl Fn(u8) -> I)
where
    I: Primitive + BitIndex,
{
    let items = items();
    let rows: Vec<Option<u8>> = (0..250u8)
        .map(|row| (row % 3 != 0).then_some(row / 3))
        .collect();
    let indices: Vec<I> = rows.iter().map(|row| row.map_or(lost, &of)).collect();
    let valid: Bitmap = rows.iter().map(Option::is_some).collect();
    let array = Export::values(indices, Some(valid)).with_dictionary(exported(&items));
    let array = array.unwrap().read_back();
    for part in [0..250, 0..0, 13..200] {
        let (values, valid) = array
            .slice(part.clone())
            .dictionary_values::<i64>()
            .unwrap();
        let valid = Validity::new(valid.as_ref().map(Bitmap::bits), values.len());
        let got = values.iter().enumerate().map(|(row, &value)| {
            let is_valid = valid.get(row).unwrap();
            is_valid.then_some(value)
        });
        let wanted = rows[part].iter().map(|row| items[usize::from((*row)?)]);
        assert!(got.eq(wanted));
    }
}

#[test]
fn values_of_a_dictionary_are_those_of_its_items() {
    of_each_index(i8::MIN, |row| i8::try_from(row).unwrap());
    of_each_index(u8::MAX, |row| row);
    of_each_index(-1i16, i16::from);
    of_each_index(u16::MAX, u16::from);
    of_each_index(i32::MIN, i32::from);
    of_each_index(u32::MAX, u32::from);
    of_each_index(i64::MAX, i64::from);
    of_each_index(u64::MAX, u64::from);
}

#[test]
fn a_validity_is_there_where_one_was() {
    let column = |valid: Option<Bitmap>, items_valid: Option<Bitmap>| {
        let items = Export::values(vec![[1u8, 2, 3], [4, 5, 6]], items_valid);
        let rows = Export::values(vec![1u16, 0, 1], valid)
            .with_dictionary(items)
            .unwrap();
        rows.read_back().dictionary_values::<[u8; 3]>().unwrap()
    };
    let all = vec![[4, 5, 6], [1, 2, 3], [4, 5, 6]];
    assert_eq!(column(None, None), (all.clone(), None));
    let only = Bitmap::from([false, true, false]);
    assert_eq!(
        column(None, Some([true, false].into())),
        (all, Some(only.clone()))
    );
    let nulls = vec![[0; 3], [1, 2, 3], [0; 3]];
    assert_eq!(column(Some(only.clone()), None), (nulls, Some(only)));
}

/// Rows of the indices 2, 9 and -1, at offset 1. `valid` has their validity.
fn malformed(valid: u8) -> Array {
    let none = Count::default();
    let items = raw::Array::values(3, None, &[1, 2, 3], &none);
    let buffers = vec![
        Some(Buffer::new(&[valid << 1], 0)),
        Some(Buffer::new(&[0, 2, 9, 255], 0)),
    ];
    let array = raw::Array::of(3, buffers, vec![], Some(items), &none).at(1);
    let items = Schema::new("", "C", &none);
    import(array, Schema::of("d", "c", vec![], Some(items), &none)).unwrap()
}

#[test]
fn indices_that_name_no_item_are_refused_where_they_are_valid() {
    let said = |array: &Array| array.dictionary_values::<u8>().unwrap_err().to_string();
    let wanted = |index: i32, position: usize| {
        format!("column \"d\": index {index} at position {position} names none of 3 values")
    };
    assert_eq!(said(&malformed(0b111)), wanted(9, 1));
    assert_eq!(said(&malformed(0b101)), wanted(-1, 2));
    let (values, valid) = malformed(0b001).dictionary_values::<u8>().unwrap();
    assert_eq!(
        (values, valid),
        (vec![3, 0, 0], Some([true, false, false].into()))
    );
    let array = malformed(0b111);
    assert_eq!(
        array.dictionary_values::<i8>().unwrap_err().to_string(),
        "column \"d.dictionary\": format \"C\" isn't that of values of i8"
    );
    let plain = Export::values([1u8], None).named("p").read_back();
    assert_eq!(
        said(&plain),
        "column \"p\": format \"C\" isn't that of a column with a dictionary"
    );
}

fn words<I: Primitive>(indices: Vec<I>, valid: Bitmap, items: Export) -> Array {
    let rows = Export::values(indices, Some(valid)).with_dictionary(items);
    rows.unwrap().named("word").read_back()
}

#[test]
fn texts_of_a_dictionary_are_those_of_its_items() {
    let all = [
        Some("a"),
        None,
        Some("a text of more than twelve bytes"),
        Some(""),
    ];
    let items = || Export::texts_or_nulls(all);
    let rows = [Some(2), Some(1), None, Some(3), Some(0), Some(2)];
    let valid = || rows.iter().map(Option::is_some).collect();
    let narrow = rows.iter().map(|row| row.unwrap_or(u8::MAX)).collect();
    let wide = rows.iter().map(|row| row.map_or(-1, i64::from)).collect();
    for (array, format) in [
        (words(narrow, valid(), items()), "U"),
        (words(wide, valid(), items().narrow().unwrap()), "u"),
    ] {
        let array = array.slice(1..);
        let texts = array.dictionary_texts().unwrap();
        assert_eq!(
            (texts.field().name(), texts.field().format()),
            ("word", format)
        );
        let wanted = rows[1..].iter().map(|row| all[usize::from((*row)?)]);
        let texts = texts.read_back();
        assert!(
            texts
                .texts()
                .unwrap()
                .iter()
                .eq(wanted.map(|it| it.map(str::as_bytes)))
        );
    }
    let said = |array: &Array| array.dictionary_texts().map(drop).unwrap_err().to_string();
    assert_eq!(
        said(&malformed(0b001)),
        "column \"d.dictionary\": format \"C\" isn't that of texts"
    );
    let lost = Export::values(vec![0u8, 4, 9], None).named("word");
    // SAFETY: only this crate reads it, and tests the indices.
    let lost = unsafe { lost.with_dictionary_unchecked(items()).unwrap() };
    assert_eq!(
        said(&lost.into_array()),
        "column \"word\": index 4 at position 1 names none of 4 values"
    );
    let unnamed = Export::values([0u8], None).with_dictionary(Export::values([1u8], None));
    assert_eq!(
        said(&unnamed.unwrap().read_back()),
        "column \"dictionary\": format \"C\" isn't that of texts"
    );
    assert_eq!(
        said(&Export::texts(["a"], None).read_back()),
        "format \"U\" isn't that of a column with a dictionary"
    );
}

#[test]
fn fields_have_dictionaries() {
    for (format, items) in [("c", "U"), ("L", "vu"), ("i", "tdD"), ("s", "b")] {
        let field = Field::new("d", format).unwrap();
        let field = field
            .with_dictionary(Field::new("", items).unwrap())
            .unwrap();
        let stream = ExportStream::new(Field::batch([field.clone()]), []);
        let mut stream = stream.into_stream().unwrap();
        assert!(stream.field().fields().eq([&field]) && stream.next().is_none());
        assert_eq!(field.dictionary().unwrap().format(), items);
        assert!(field.with_dictionary(Field::new("", "c").unwrap()).is_err());
    }
    for format in ["f", "U", "b", "w:4", "d:9,2"] {
        let items = Field::new("", "U").unwrap();
        let refused = Field::new("d", format).unwrap().with_dictionary(items);
        assert_eq!(
            refused.unwrap_err().to_string(),
            "no array of its type has such a dictionary"
        );
    }
    let rows = Export::values([1u32, 0], None).with_dictionary(exported(&items()));
    let indices = Field::new("", "I").unwrap();
    let wanted = indices.with_dictionary(Field::new("items", "l").unwrap());
    assert_eq!(rows.unwrap().field(), &wanted.unwrap());
}

/// Rows whose indices and items are null by chance, in parts that begin anywhere in a byte.
#[test]
fn a_row_is_valid_if_its_index_and_its_item_are() {
    let null = |row: usize, of: usize| row * 7 % 11 % of == 0;
    for (of_rows, of_items) in [(3, 2), (3, 12), (12, 2), (12, 12)] {
        let valid = |len: usize, of: usize| -> Option<Bitmap> {
            (of < 12).then(|| (0..len).map(|row| !null(row, of)).collect())
        };
        let items = Export::values(vec![0u16; 90], valid(90, of_items)).read_back();
        let items = || Export::from(items.slice(5..88));
        let is_item = |item: usize| of_items == 12 || !null(item + 5, of_items);
        let is_index = |row: usize| of_rows == 12 || !null(row, of_rows);
        let item = |row: usize| row * 31 % 83;
        let index = |row| {
            if is_index(row) {
                i16::try_from(item(row)).unwrap()
            } else {
                -9
            }
        };
        let rows = Export::values((0..300).map(index).collect::<Vec<_>>(), valid(300, of_rows));
        let rows = rows.with_dictionary(items()).unwrap().read_back();
        for part in [0..300, 0..0, 13..200, 64..129, 3..4] {
            let column = rows.slice(part.clone());
            let got = column.dictionary_validity().unwrap();
            assert_eq!(got.is_none(), of_rows == 12 && of_items == 12);
            let wanted: Bitmap = part
                .map(|row| is_index(row) && is_item(item(row)))
                .collect();
            assert_eq!(
                Validity::new(got.as_ref().map(Bitmap::bits), column.len()),
                Validity::from(wanted.bits())
            );
            assert_eq!(column.dictionary_values::<u16>().unwrap().1, got);
        }
    }
}

#[test]
fn an_item_with_a_dictionary_is_valid_if_its_own_item_is() {
    let words = Export::texts_or_nulls([Some("a"), None]);
    let items = Export::values(vec![1u8, 0, 1, 0], Some([true, true, true, false].into()));
    let items = items.with_dictionary(words).unwrap();
    let rows = Export::values(vec![0i32, 1, 2, 3, 1], None).with_dictionary(items);
    let valid = rows.unwrap().read_back().dictionary_validity().unwrap();
    assert_eq!(valid, Some([false, true, false, false, true].into()));
}

#[test]
fn validities_of_a_dictionary_are_refused_as_its_values_are() {
    let said = |array: &Array| array.dictionary_validity().unwrap_err().to_string();
    let lost = "column \"d\": index 9 at position 1 names none of 3 values";
    assert_eq!(said(&malformed(0b111)), lost);
    assert_eq!(
        malformed(0b001).dictionary_validity().unwrap(),
        Some([true, false, false].into())
    );
    let plain = Export::values([1u8], None).named("p").read_back();
    assert_eq!(
        said(&plain),
        "column \"p\": format \"C\" isn't that of a column with a dictionary"
    );
    let words = Export::texts(["a"], None);
    let items = Export::values(vec![0u8, 1], None);
    // SAFETY: only this crate reads it, and tests the indices.
    let items = unsafe { items.with_dictionary_unchecked(words).unwrap() };
    let rows = Export::values([0u8], None)
        .named("d")
        .with_dictionary(items);
    assert_eq!(
        said(&rows.unwrap().into_array()),
        "column \"d.dictionary\": index 1 at position 1 names none of 1 values"
    );
}
