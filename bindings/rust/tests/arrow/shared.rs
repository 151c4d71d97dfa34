//! Joined rows of arrays that share memory: dictionaries, items of list views and buffers of views
//! stay as they are.
use std::sync::Arc;

use vortex_bits::arrow::{Array, ArrowError, Export};
use vortex_bits::{Bitmap, Bits};

use crate::export::{ReadBack, as_it_came, raw_of};
use crate::ranges::view;
use crate::raw::{self, Buffer, Count, Schema, import};
use crate::select::rows_as_they_came;
use crate::unseen::ints;

const TEXT: &str = "a text of many bytes";

fn words(number: usize) -> Export {
    Export::texts((0..number).map(|word| format!("word {word}")), None)
}

/// Rows whose indices count from 0 up to the number of words, again and again.
fn coded(rows: usize, number: usize) -> Array {
    let indices = (0..rows).map(|row| i8::try_from(row % number).unwrap());
    let rows = Export::values(indices.collect::<Vec<_>>(), None).with_dictionary(words(number));
    rows.unwrap().named("word").into_array()
}

fn odd(rows: usize) -> Bitmap {
    (0..rows).map(|row| row % 2 == 1).collect()
}

/// Joins the rows at odd places and the others, twelve times.
fn split_often(mut array: Array) -> Array {
    let mut rows = rows_as_they_came(&array);
    let mask = odd(rows.len());
    for _ in 0..12 {
        let parts = [array.filter(&mask), array.filter(!&mask)];
        let parts = parts.map(|part| part.unwrap().into_array());
        array = Export::concat(array.field(), &parts).unwrap().into_array();
        let places = mask.set_indices().chain(mask.unset_indices());
        rows = places.map(|row| rows[row].clone()).collect();
    }
    assert_eq!(rows_as_they_came(&array), rows);
    array
}

/// Two list views of four items each.
fn list_views() -> Array {
    let none = Count::default();
    let items = raw::Array::values(8, None, &[0, 1, 2, 3, 4, 5, 6, 7], &none);
    let buffers = vec![None, Some(ints(&[0, 4])), Some(ints(&[4, 4]))];
    let array = raw::Array::of(2, buffers, vec![items], None, &none);
    let items = vec![Schema::new("item", "C", &none)];
    import(array, Schema::of("list", "+vl", items, None, &none)).unwrap()
}

/// Two views of one buffer.
fn views() -> Array {
    let buffers = [
        &view(TEXT, 0, 0).repeat(2),
        TEXT.as_bytes(),
        &20i64.to_ne_bytes(),
    ];
    let buffers = buffers.map(|bytes| Some(Buffer::new(bytes, 0)));
    let buffers = [None].into_iter().chain(buffers).collect();
    raw::import_as(raw::Array::new(2, buffers, &Count::default()), "vu").unwrap()
}

/// The same memory, as another library would pass it on.
fn passed_on(array: &Array) -> Array {
    Export::from(array.clone()).read_back()
}

/// Reads a number of the array's struct.
fn number(array: &Array, of: fn(&raw::Array) -> i64) -> i64 {
    let (array, schema) = raw_of(Export::from(array.clone()));
    let number = of(&array);
    drop(import(array, schema));
    number
}

fn buffers(array: &Array) -> i64 {
    number(array, |it| it.n_buffers)
}

fn items(array: &Array) -> i64 {
    // SAFETY: it has a child.
    number(array, |it| unsafe { (**it.children).length })
}

type Select = fn(&Array) -> Result<Export, ArrowError>;

/// Indices of 8 bits can name the items of one dictionary of this length, not those of two.
#[test]
fn selected_rows_of_one_dictionary_are_joined() {
    let all = coded(1000, 100);
    let ways: [Select; 3] = [
        |part| part.filter(odd(100)),
        |part| part.take(&odd(100).set_indices().collect::<Vec<_>>()),
        |part| passed_on(part).filter(odd(100)),
    ];
    for way in ways {
        let parts = (0..10).map(|part| way(&all.slice(100 * part..100 * (part + 1))));
        let parts: Vec<Array> = parts.map(|part| part.unwrap().into_array()).collect();
        let joined = Export::concat(all.field(), &parts).unwrap().read_back();
        assert_eq!(joined.dictionary().unwrap().len(), 100);
        let wanted = odd(100).set_indices().collect::<Vec<_>>().repeat(10);
        assert_eq!(joined.dictionary_indices().unwrap(), wanted);
    }
}

#[test]
fn what_rows_share_does_not_grow_when_they_are_split_and_joined() {
    let words = split_often(coded(100, 100));
    assert_eq!(words.dictionary().unwrap().len(), 100);
    assert_eq!(items(&split_often(list_views())), 8);
    // The validity, the views, the buffer of texts and its size.
    assert_eq!(buffers(&split_often(views())), 4);
}

#[test]
fn equal_items_in_other_memory_are_joined() {
    let joined = |both: [Array; 2]| {
        let rows = both.iter().flat_map(rows_as_they_came);
        let rows: Vec<_> = rows.collect();
        let joined = Export::concat(both[0].field(), &both).unwrap().read_back();
        assert_eq!(rows_as_they_came(&joined), rows);
        joined
    };
    let words = joined([coded(2, 2), coded(2, 2)]);
    assert_eq!(words.dictionary().unwrap().len(), 4);
    assert_eq!(words.dictionary_indices().unwrap(), [0, 1, 2, 3]);
    assert_eq!(items(&joined([list_views(), list_views()])), 16);
    assert_eq!(buffers(&joined([views(), views()])), 5);
}

/// One array between two others is joined once.
#[test]
fn shared_items_are_joined_once_with_others() {
    let one = coded(4, 2);
    let [first, last] = [0b0011, 0b1100].map(|mask| one.filter(Bits::new(&[mask], 0, 4)));
    let [first, last] = [first, last].map(|it| it.unwrap().into_array());
    let joined = Export::concat(one.field(), &[first, coded(1, 1), last]);
    let joined = joined.unwrap().read_back();
    assert_eq!(joined.dictionary().unwrap().len(), 3);
    assert_eq!(joined.dictionary_indices().unwrap(), [0, 1, 2, 0, 1]);
}

/// Buffers without a byte may be at one address, whatever the number of their items is.
#[test]
fn dictionaries_without_a_byte_are_told_apart() {
    let coded = |items: usize| {
        let last = u8::try_from(items - 1).unwrap();
        let rows = Export::values([last], None);
        let rows = rows.with_dictionary(Export::values(vec![[0u8; 0]; items], None));
        rows.unwrap().into_array()
    };
    let both = [coded(2), coded(3)];
    let joined = Export::concat(both[0].field(), &both).unwrap().read_back();
    assert_eq!(joined.dictionary().unwrap().len(), 5);
    assert_eq!(joined.dictionary_indices().unwrap(), [1, 4]);
}

/// A validity is ignored where the array says that it has no null.
#[test]
fn items_with_and_without_nulls_are_told_apart() {
    let items = Export::values([7i64, 9], Some([true, false].into()));
    let nulls = Export::values([0u8, 1], None).with_dictionary(items);
    let nulls = nulls.unwrap().into_array();
    let (array, schema) = as_it_came(Export::from(nulls.clone()));
    // SAFETY: it has a dictionary.
    unsafe { (*array.dictionary).null_count = 0 };
    let both = [nulls, import(array, schema).unwrap()];
    let joined = Export::concat(both[0].field(), &both).unwrap().read_back();
    assert_eq!(joined.dictionary().unwrap().len(), 4);
    let valid = joined.dictionary_validity().unwrap();
    assert_eq!(valid, Some([true, false, true, true].into()));
}

/// Structs have no buffer of values, and items with a dictionary may have the same indices.
#[test]
fn items_with_other_children_or_dictionaries_are_told_apart() {
    let indices: Arc<[u8]> = Arc::from([0]);
    let structs = |number: i64| Export::batch([Export::values([number], None).named("a")]);
    let coded = |number: i64| {
        let items = Export::values([number], None);
        let rows = Export::values(Arc::clone(&indices), None).with_dictionary(items);
        rows.unwrap()
    };
    for items in [&structs as &dyn Fn(i64) -> Export, &coded] {
        let both = [7, 9].map(|number| {
            let rows = Export::values([0u8], None).with_dictionary(items(number));
            rows.unwrap().into_array()
        });
        let joined = Export::concat(both[0].field(), &both).unwrap().read_back();
        assert_eq!(joined.dictionary().unwrap().len(), 2);
        assert_eq!(joined.dictionary_indices().unwrap(), [0, 1]);
    }
}

/// A list view that is out of bounds of its items is an error only if the items are joined: not if
/// all arrays share them, whether or not one has only null rows.
#[test]
fn shared_list_views_out_of_bounds_stay_as_they_are() {
    let none = Count::default();
    let lists = || {
        let items = raw::Array::values(2, None, &[7, 8], &none);
        let (offsets, sizes) = (ints(&[5, 0]), ints(&[9, 1]));
        let buffers = vec![Some(Buffer::new(&[0b01], 0)), Some(offsets), Some(sizes)];
        let array = raw::Array::of(2, buffers, vec![items], None, &none);
        let items = vec![Schema::new("item", "C", &none)];
        import(array, Schema::of("list", "+vl", items, None, &none)).unwrap()
    };
    let (rows, others) = (lists(), lists());
    let (valid, null) = (rows.slice(..1), rows.slice(1..));
    let joined = |parts: [&Array; 2]| {
        let parts = parts.map(Array::clone);
        Export::concat(rows.field(), &parts).map(|it| it.into_array().null_count())
    };
    assert_eq!(joined([&valid, &valid]), Ok(Ok(0)));
    assert_eq!(joined([&valid, &null]), Ok(Ok(1)));
    assert_eq!(joined([&null, &valid]), Ok(Ok(1)));
    for other in [others.slice(..1), others.slice(1..)] {
        let error = joined([&valid, &other]).unwrap_err().to_string();
        assert_eq!(error, "column \"list\": row 0 lies from 5 to 14");
    }
}

/// Both columns are in the tree of one batch, and only one of them has these items.
#[test]
fn columns_of_a_batch_share_no_dictionary() {
    let column = |name: &str, items: [&str; 2]| {
        let codes = Export::values(vec![1u8, 0], None);
        let items = Export::texts(items, None);
        codes.with_dictionary(items).unwrap().named(name)
    };
    let batch = Export::batch([column("a", ["x", "y"]), column("b", ["p", "q"])]).into_array();
    let columns = ["a", "b", "a"].map(|name| batch.column(name).unwrap());
    let joined = Export::concat(columns[0].field(), &columns).unwrap();
    let texts = joined.into_array().dictionary_texts().unwrap().into_array();
    let texts = texts.texts().unwrap();
    assert!(
        texts
            .iter()
            .eq(["y", "x", "q", "p", "y", "x"].map(|it| Some(it.as_bytes())))
    );
}
