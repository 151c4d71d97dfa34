//! Items that no selected row has, such as those of null rows and those before and after a slice:
//! neither a result nor an error depends on them.
use vortex_bits::arrow::{Array, Export};

use crate::export::raw_of;
use crate::raw::{self, Buffer, Count, Schema, import};

/// Numbers of 32 bits as bytes.
pub fn ints(numbers: &[i32]) -> Buffer {
    let bytes: Vec<u8> = numbers.iter().flat_map(|it| it.to_ne_bytes()).collect();
    Buffer::new(&bytes, 0)
}

/// Indices of 8 bits, with a dictionary of this number of bytes.
pub fn indices(numbers: &[i8], items: i64) -> raw::Array {
    let none = Count::default();
    let items = raw::Array::values(items, None, &vec![7; 256], &none);
    let bytes: Vec<u8> = numbers.iter().map(|it| it.to_ne_bytes()[0]).collect();
    let buffers = vec![None, Some(Buffer::new(&bytes, 0))];
    let len = i64::try_from(numbers.len()).unwrap();
    raw::Array::of(len, buffers, vec![], Some(items), &none)
}

/// Rows of a format with these buffers and with the children `before` and then `items`.
pub fn rows(
    format: &str,
    len: i64,
    buffers: Vec<Option<Buffer>>,
    mut before: Vec<(raw::Array, &str)>,
    items: raw::Array,
) -> Array {
    let none = Count::default();
    let mut fields: Vec<Schema> = before
        .iter()
        .map(|(_, format)| Schema::new("ends", format, &none))
        .collect();
    let dictionary = Schema::new("", "C", &none);
    fields.push(Schema::of("item", "c", vec![], Some(dictionary), &none));
    let mut children: Vec<raw::Array> = before.drain(..).map(|(array, _)| array).collect();
    children.push(items);
    let array = raw::Array::of(len, buffers, children, None, &none);
    import(array, Schema::of("", format, fields, None, &none)).unwrap()
}

/// Two rows of each type with items, one item each: the first is index 0, the second is `last`.
fn each_type(last: i8, items: i64) -> Vec<Array> {
    let items = || indices(&[0, last], items);
    let one_each = || Some(ints(&[0, 1, 2]));
    let ends = raw::Array::values(2, None, &[1, 0, 0, 0, 2, 0, 0, 0], &Count::default());
    let types = || Some(Buffer::new(&[0, 0], 0));
    vec![
        rows("+l", 2, vec![None, one_each()], vec![], items()),
        rows("+w:1", 2, vec![None], vec![], items()),
        rows("+r", 2, vec![], vec![(ends, "i")], items()),
        rows("+ud:0", 2, vec![types(), one_each()], vec![], items()),
        rows("+us:0", 2, vec![types()], vec![], items()),
        rows("+s", 2, vec![None], vec![], items()),
    ]
}

#[test]
fn items_outside_of_the_slices_do_not_count() {
    // Joined, index 127 would become too large for 8 bits, and -1 is the index of no item.
    for last in [127, -1] {
        for (one, other) in each_type(0, 127).into_iter().zip(each_type(last, 128)) {
            let joined = Export::concat(one.field(), &[one.slice(..1), other.slice(..1)]);
            assert_eq!(joined.map(|it| it.len()), Ok(2), "{:?}", one.field());
            let all = Export::concat(one.field(), &[one.clone(), other]);
            assert!(all.is_err(), "{:?}", one.field());
        }
    }
}

#[test]
fn items_between_the_rows_of_a_union_do_not_count() {
    let union = |last, items| {
        let (types, offsets) = (Buffer::new(&[0, 0], 0), ints(&[0, 2]));
        let items = indices(&[0, last, 0], items);
        rows("+ud:0", 2, vec![Some(types), Some(offsets)], vec![], items)
    };
    let both = [union(0, 127), union(-1, 1)];
    let joined = Export::concat(both[0].field(), &both);
    assert_eq!(joined.map(|it| it.len()), Ok(4));
}

#[test]
fn arrays_without_rows_add_no_items() {
    for (one, other) in each_type(0, 128).into_iter().zip(each_type(0, 128)) {
        let parts = [
            one.slice(..0),
            other.slice(1..1),
            other.clone(),
            one.slice(2..),
        ];
        let joined = Export::concat(one.field(), &parts).unwrap().into_array();
        assert_eq!(joined.len(), 2);
        let none = Export::concat(one.field(), &[one.slice(..0), other.slice(1..1)]);
        assert_eq!(none.map(|it| it.len()), Ok(0));
    }
}

#[test]
fn dictionaries_of_arrays_without_rows_are_left_out() {
    let coded = |items: usize| {
        let items = Export::values(vec![7u8; items], None);
        let rows = Export::values(vec![0i8], None);
        rows.with_dictionary(items).unwrap().into_array()
    };
    let (one, other) = (coded(128), coded(1));
    let joined = Export::concat(one.field(), &[one.slice(..0), other]).unwrap();
    assert_eq!(joined.into_array().dictionary().unwrap().len(), 1);
    let none = Export::concat(one.field(), &[one.slice(..0)]).unwrap();
    assert_eq!(none.into_array().dictionary().unwrap().len(), 128);
}

/// A null row that has this number of items, between two rows of one item.
fn with_null_list(items: i32) -> Array {
    let none = Count::default();
    let child = raw::Array::new(i64::from(items) + 2, vec![], &none).nulls(-1);
    let buffers = vec![
        Some(Buffer::new(&[0b101], 0)),
        Some(ints(&[0, 1, 1 + items, 2 + items])),
    ];
    let array = raw::Array::of(3, buffers, vec![child], None, &none);
    let items = vec![Schema::new("item", "n", &none)];
    import(array, Schema::of("", "+l", items, None, &none)).unwrap()
}

fn lens(lists: &Array) -> Vec<Option<usize>> {
    let (ranges, valid) = (lists.ranges().unwrap(), lists.validity().unwrap());
    let rows = ranges.iter().enumerate();
    rows.map(|(row, it)| (valid.get(row) == Some(true)).then_some(it.len()))
        .collect()
}

#[test]
fn null_lists_have_no_items() {
    let lists = with_null_list(1 << 30);
    let taken = lists.take(&[1u8, 0, 1, 1, 2]).unwrap().into_array();
    assert_eq!(lens(&taken), [None, Some(1), None, None, Some(1)]);
    assert_eq!(taken.items().unwrap().len(), 2);
    let joined = Export::concat(
        lists.field(),
        &[lists.clone(), lists.slice(1..), lists.clone()],
    );
    let joined = joined.unwrap().into_array();
    assert_eq!(joined.items().unwrap().len(), 5);
    let one = Some(1);
    assert_eq!(lens(&joined), [one, None, one, None, one, one, None, one]);
}

#[test]
fn null_lists_of_a_mask_have_no_items() {
    let lists = with_null_list(7);
    for mask in 0..8u8 {
        let mask = vortex_bits::Bits::new(std::slice::from_ref(&mask), 0, 3);
        let kept = lists.filter(mask).unwrap().into_array();
        let wanted: Vec<_> = mask.set_indices().map(|row| lens(&lists)[row]).collect();
        assert_eq!(lens(&kept), wanted);
        assert_eq!(kept.items().unwrap().len(), wanted.iter().flatten().sum());
    }
}

#[test]
fn bytes_of_null_texts_do_not_count() {
    let text = "x".repeat(70 << 20);
    let texts = Export::texts([&text[..3], &text, "yz"], Some([true, false, true].into()));
    let texts = texts.narrow().unwrap().into_array();
    drop(text);
    let parts = vec![texts.clone(); 32];
    let joined = Export::concat(texts.field(), &parts).unwrap().into_array();
    let rows = [Some(&b"xxx"[..]), None, Some(b"yz")];
    let mut wanted = rows.iter().cycle().take(96);
    assert!(
        joined
            .texts()
            .unwrap()
            .iter()
            .all(|row| Some(&row) == wanted.next())
    );
    let all = Export::texts_kept(&texts, None::<vortex_bits::Bits>);
    let all = all.unwrap().into_array();
    assert!(all.texts().unwrap().iter().eq(rows));
    assert_eq!(
        all.ranges()
            .unwrap()
            .iter()
            .map(|it| it.len())
            .sum::<usize>(),
        5
    );
}

/// Views of a, of a text in a buffer that isn't there, and of b.
fn views() -> raw::Array {
    let mut views = [0; 48];
    (views[0], views[4], views[32], views[36]) = (1, b'a', 1, b'b');
    (views[16], views[24]) = (99, 7);
    let buffers = vec![
        None,
        Some(Buffer::new(&views, 0)),
        Some(Buffer::new(&[], 0)),
    ];
    raw::Array::new(3, buffers, &Count::default())
}

#[test]
fn views_that_no_row_has_do_not_count() {
    let none = Count::default();
    let valid = || Some(Buffer::new(&[0b101], 0));
    let types = || Some(Buffer::new(&[0, 0], 0));
    for (format, len, buffers) in [
        (
            "+l",
            3,
            (|| vec![None, Some(ints(&[0, 1, 2, 3]))]) as fn() -> Vec<_>,
        ),
        ("+ud:0", 2, || vec![None, Some(ints(&[0, 2]))]),
    ] {
        let both = [(); 2].map(|()| {
            let mut buffers = buffers();
            buffers[0] = if format == "+l" { valid() } else { types() };
            let array = raw::Array::of(len, buffers, vec![views()], None, &none);
            let items = vec![Schema::new("item", "vu", &none)];
            import(array, Schema::of("", format, items, None, &none)).unwrap()
        });
        let joined = Export::concat(both[0].field(), &both).unwrap();
        assert_eq!(joined.len(), 2 * usize::try_from(len).unwrap());
    }
}

#[test]
fn null_list_views_have_any_numbers() {
    let none = Count::default();
    let both = [(); 2].map(|()| {
        let items = raw::Array::values(2, None, &[7; 8], &none);
        let buffers = vec![
            Some(Buffer::new(&[0b101], 0)),
            Some(ints(&[0, 1 << 20, 1])),
            Some(ints(&[1, -9, 1])),
        ];
        let array = raw::Array::of(3, buffers, vec![items], None, &none);
        let items = vec![Schema::new("item", "C", &none)];
        import(array, Schema::of("", "+vl", items, None, &none)).unwrap()
    });
    let joined = Export::concat(both[0].field(), &both).unwrap();
    let joined = joined.into_array();
    assert_eq!((joined.len(), joined.null_count()), (6, Ok(2)));
}

#[test]
fn items_of_null_list_views_are_left_out() {
    let none = Count::default();
    let lists = |valid: u8, offset: i32, items: i64| {
        let items = raw::Array::new(items, vec![], &none).nulls(-1);
        let buffers = vec![
            Some(Buffer::new(&[valid], 0)),
            Some(ints(&[offset])),
            Some(ints(&[1])),
        ];
        let array = raw::Array::of(1, buffers, vec![items], None, &none);
        let items = vec![Schema::new("item", "n", &none)];
        import(array, Schema::of("", "+vl", items, None, &none)).unwrap()
    };
    // More items than numbers of 32 bits can represent, if they were joined.
    let (null, one) = (lists(0, 5, i32::MAX.into()), lists(1, 0, 1));
    for parts in [[&null, &one, &null, &one], [&null, &null, &one, &one]] {
        let parts = parts.map(Array::clone);
        let (rows, schema) = raw_of(Export::concat(one.field(), &parts).unwrap());
        assert_eq!((rows.length, rows.null_count), (4, 2));
        // SAFETY: a list view has one child.
        assert_eq!(unsafe { (**rows.children).length }, 1);
        assert_eq!(import(rows, schema).unwrap().len(), 4);
    }
    let joined = Export::concat(one.field(), &[null.clone(), null]).unwrap();
    assert_eq!(joined.into_array().null_count(), Ok(2));
}

#[test]
fn a_wrong_number_of_nulls_refuses_no_rows() {
    let none = Count::default();
    let bits = |nulls| {
        let valid = Some(Buffer::new(&[0b11], 0));
        let values = Some(Buffer::new(&[7, 7], 0));
        raw::import_as(
            raw::Array::new(2, vec![valid, values], &none).nulls(nulls),
            "C",
        )
        .unwrap()
    };
    let runs = |nulls| {
        let ends = raw::Array::values(1, None, &[2, 0, 0, 0], &none);
        let values = raw::Array::values(1, None, &[7], &none);
        let array = raw::Array::of(2, vec![], vec![ends, values], None, &none).nulls(nulls);
        let fields = vec![
            Schema::new("ends", "i", &none),
            Schema::new("values", "C", &none),
        ];
        import(array, Schema::of("", "+r", fields, None, &none)).unwrap()
    };
    for nulls in [-1, 0, 2] {
        for rows in [bits(nulls), runs(nulls)] {
            let field = rows.field().clone().nullable(false);
            let parts = [rows.slice(..1), rows.slice(1..)];
            for parts in [&[rows.clone()][..], &parts] {
                let joined = Export::concat(&field, parts);
                assert_eq!(joined.map(|it| it.len()), Ok(2), "{nulls} {field:?}");
            }
            assert!(
                Export::from(rows).with_field(&field).is_ok(),
                "{nulls} {field:?}"
            );
        }
    }
}

#[test]
fn dictionaries_of_null_rows_are_left_out() {
    let coded = |items: usize, valid: bool| {
        let rows = Export::values(vec![0i8], Some([valid].into()));
        let items = Export::values(vec![7u8; items], None);
        rows.with_dictionary(items).unwrap().into_array()
    };
    let (null, one) = (coded(128, false), coded(1, true));
    let joined = Export::concat(one.field(), &[null.clone(), one.clone(), null.clone()]);
    let joined = joined.unwrap().into_array();
    assert_eq!(joined.dictionary_indices(), Ok(vec![0, 0, 0]));
    assert_eq!(
        (joined.dictionary().unwrap().len(), joined.null_count()),
        (1, Ok(2))
    );
    let nulls = Export::concat(one.field(), &[null.clone(), coded(1, false)]);
    assert_eq!(nulls.unwrap().into_array().null_count(), Ok(2));
}

#[test]
fn an_item_between_the_rows_adds_no_dictionary() {
    let none = Count::default();
    // [0], a null row with an item, and [0]; the items of the rows are null if `valid` says so.
    let lists = |valid: u8, items: i64| {
        let dictionary = raw::Array::values(items, None, &vec![7; 256], &none);
        let buffers = vec![
            Some(Buffer::new(&[valid], 0)),
            Some(Buffer::new(&[0; 3], 0)),
        ];
        let child = raw::Array::of(3, buffers, vec![], Some(dictionary), &none);
        let buffers = vec![Some(Buffer::new(&[0b101], 0)), Some(ints(&[0, 1, 2, 3]))];
        rows("+l", 3, buffers, vec![], child)
    };
    for between in [0b000, 0b010] {
        let both = [lists(between, 128), lists(0b111, 3)];
        let joined = Export::concat(both[0].field(), &both).unwrap().into_array();
        let items = joined.items().unwrap();
        assert_eq!(items.dictionary().unwrap().len(), 3);
        assert_eq!(items.dictionary_indices(), Ok(vec![0; 4]));
        assert_eq!(items.null_count(), Ok(2));
    }
}

#[test]
fn a_wrong_number_of_nulls_loses_no_dictionary() {
    let none = Count::default();
    let coded = |nulls, index, items| {
        let items = raw::Array::values(items, None, &[7; 16], &none);
        let buffers = vec![Some(Buffer::new(&[1], 0)), Some(Buffer::new(&[index], 0))];
        let array = raw::Array::of(1, buffers, vec![], Some(items), &none).nulls(nulls);
        let items = Schema::new("", "C", &none);
        import(array, Schema::of("", "c", vec![], Some(items), &none)).unwrap()
    };
    let both = [coded(1, 5, 10), coded(0, 0, 1)];
    let joined = Export::concat(both[0].field(), &both).unwrap().into_array();
    assert_eq!(joined.dictionary_indices(), Ok(vec![5, 10]));
}

#[test]
fn an_error_has_the_column_and_the_position_of_the_index() {
    let lists = |valid: u8, last| {
        let buffers = vec![Some(Buffer::new(&[valid], 0)), Some(ints(&[0, 1, 2, 3]))];
        rows("+l", 3, buffers, vec![], indices(&[0, 0, last], 1))
    };
    for valid in [0b101, 0b111] {
        let both = [lists(0b111, 0), lists(valid, 5)];
        let error = Export::concat(both[0].field(), &both).unwrap_err();
        let text = "column \"item\": index 5 at position 2 names none of 1 values";
        assert_eq!(error.to_string(), text);
    }
    let none = Count::default();
    let both = [(); 2].map(|()| {
        let column = raw::Array::of(
            1,
            vec![None, Some(Buffer::new(&[0], 0))],
            vec![],
            Some(indices(&[5], 1)),
            &none,
        );
        let items = Schema::of("", "c", vec![], Some(Schema::new("", "C", &none)), &none);
        let field = Schema::of("a", "c", vec![], Some(items), &none);
        let batch = raw::Array::of(1, vec![None], vec![column], None, &none);
        import(batch, Schema::of("", "+s", vec![field], None, &none)).unwrap()
    });
    let column = both[0].column("a").unwrap();
    let error = column.dictionary_validity().unwrap_err().to_string();
    let joined = Export::concat(both[0].field(), &both).unwrap_err();
    assert_eq!(joined.to_string(), error);
}

#[test]
fn one_array_is_cut_as_several_are() {
    let none = Count::default();
    let bytes = Some(Buffer::new(b"abcdefgh", 0));
    let texts = raw::Array::new(3, vec![None, Some(ints(&[0, 1, 5, 2])), bytes], &none);
    let buffers = vec![None, Some(ints(&[0, 1, 3]))];
    let lists = raw::Array::of(2, buffers, vec![texts], None, &none);
    let items = vec![Schema::new("item", "u", &none)];
    let lists = import(lists, Schema::of("", "+l", items, None, &none)).unwrap();
    let (first, second) = (lists.slice(..1), lists.slice(1..));
    for rows in [&first, &first.slice(..)] {
        let kept = rows.filter(vortex_bits::Bitmap::new_set(1)).unwrap();
        assert_eq!(kept.len(), 1);
        assert_eq!(
            Export::concat(lists.field(), std::slice::from_ref(rows))
                .unwrap()
                .len(),
            1
        );
    }
    assert!(second.filter(vortex_bits::Bitmap::new_set(1)).is_err());
}
