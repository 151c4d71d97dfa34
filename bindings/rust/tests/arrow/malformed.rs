//! Structs whose numbers, pointers or texts are wrong: each is an error that names what is wrong,
//! and is released.
use std::ptr;

use vortex_bits::arrow::{ArrowError, Fault};

use crate::raw::{self, Array, Buffer, Count, Schema, import};

fn numbers(length: i64) -> Array {
    Array::values(length, Some(&[0xFF; 4]), &[0; 256], &Count::default())
}

/// The error for an array of a format after `spoil`.
fn said(format: &str, spoil: impl FnOnce(&mut Array)) -> String {
    let count = Count::default();
    let mut array = Array::values(4, Some(&[0xFF; 4]), &[0; 256], &count);
    spoil(&mut array);
    let refused = import(array, Schema::new("", format, &count)).unwrap_err();
    assert_eq!(count.get(), 2);
    refused.to_string()
}

#[test]
fn numbers_that_are_out_of_range_are_named() {
    let said = |spoil: fn(&mut Array)| said("l", spoil);
    assert_eq!(said(|it| it.length = -1), "length is -1");
    assert_eq!(
        said(|it| it.length = i64::MIN),
        format!("length is {}", i64::MIN)
    );
    assert_eq!(said(|it| it.offset = -7), "offset is -7");
    assert_eq!(said(|it| it.null_count = 5), "null_count is 5 and length 4");
    assert_eq!(
        said(|it| it.null_count = -2),
        "null_count is -2 and length 4"
    );
    assert_eq!(said(|it| it.n_buffers = 3), "n_buffers is 3 in place of 2");
    assert_eq!(
        said(|it| it.n_buffers = -1),
        "n_buffers is -1 in place of 2"
    );
    assert_eq!(
        said(|it| it.n_children = 1),
        "n_children is 1 in place of 0"
    );
    assert_eq!(
        said(|it| it.n_children = -1),
        "n_children is -1 in place of 0"
    );
}

#[test]
fn ends_of_windows_do_not_overflow() {
    let refuses = |format: &str, offset, length| {
        let text = said(format, |it| (it.offset, it.length) = (offset, length));
        let wanted = format!("memory can't hold offset {offset} and length {length}");
        assert_eq!(text, wanted);
    };
    refuses("l", i64::MAX, 1);
    refuses("l", 1, i64::MAX);
    refuses("l", i64::MAX, i64::MAX);
    refuses("b", i64::MAX, 1);
    refuses("+s", i64::MAX, 1);
    refuses("n", 1, i64::MAX);
    refuses("U", 0, i64::MAX / 8);
    refuses("u", i64::MAX / 4, 0);
    refuses("vz", 1, i64::MAX / 16);
    refuses("l", i64::MAX / 8, 1);
    refuses("l", 0, i64::MAX / 8 + 1);
    refuses("d:1,0,256", i64::MAX / 32, 1);
    refuses("w:9223372036854775807", 1, 1);
    refuses("w:18446744073709551615", 1, 1);
}

#[test]
fn pointers_that_are_null_are_named() {
    assert_eq!(
        said("l", |it| it.buffers = ptr::null_mut()),
        "buffers is null"
    );
    assert_eq!(
        said("l", |it| it.null_count = {
            // SAFETY: there are two buffers.
            unsafe { *it.buffers = ptr::null() };
            1
        }),
        "the buffer of the validity is null"
    );
    for format in ["l", "b", "w:1"] {
        let text = said(format, |it| {
            // SAFETY: there are two buffers.
            unsafe { *it.buffers.add(1) = ptr::null() };
        });
        assert_eq!(text, "the buffer of the values is null");
    }
    assert_eq!(
        said("l", |it| {
            // SAFETY: it isn't released.
            unsafe { it.release.unwrap()(it) }
        }),
        "ArrowArray is released"
    );
    let schema = |spoil: fn(&mut Schema)| {
        let mut schema = Schema::new("", "l", &Count::default());
        spoil(&mut schema);
        import(numbers(4), schema).unwrap_err().to_string()
    };
    assert_eq!(schema(|it| it.format = ptr::null()), "format is null");
    assert_eq!(
        schema(|it| it.format = c"\xFF".as_ptr()),
        "format isn't UTF-8"
    );
    assert_eq!(schema(|it| it.name = c"\xFF".as_ptr()), "name isn't UTF-8");
    assert_eq!(
        schema(|it| it.n_children = -1),
        "n_children is -1 in place of 0"
    );
    assert_eq!(
        schema(|it| {
            // SAFETY: it isn't released.
            unsafe { it.release.unwrap()(it) }
        }),
        "ArrowSchema is released"
    );
}

#[test]
fn formats_that_no_type_has_are_named() {
    let formats = [
        "",
        "x",
        "ll",
        "L ",
        "w",
        "w:",
        "w:-1",
        "w:x",
        "d",
        "d:",
        "d:38",
        "d:38,0,7",
        "d:38,0,64,1",
        "d:x,0",
        "d:38,y",
        "d:+9,2",
        "d:9,+2",
        "d:9,2,+128",
        "td",
        "tdx",
        "tsq:",
        "tss",
        "+",
        "+x",
        "+w:",
        "+w:-1",
        "+ud",
        "+ud:x",
        "+us:1,999",
        "tDx",
        "ti",
        "vx",
        "w:99999999999999999999",
        "\u{e9}",
    ];
    for format in formats {
        let schema = Schema::new("", format, &Count::default());
        let refused = import(numbers(4), schema).unwrap_err();
        assert_eq!(refused, ArrowError::from(Fault::Format(format.to_string())));
        assert_eq!(
            refused.to_string(),
            format!("no type has the format {format:?}")
        );
    }
}

/// The error for a struct with a column after both are spoiled.
fn of_rows(spoil: fn(&mut Array), spoil_column: fn(&mut Array)) -> String {
    let count = Count::default();
    let mut a = Array::values(4, None, &[0; 32], &count);
    spoil_column(&mut a);
    let mut rows = Array::of(4, vec![None], vec![a], None, &count);
    spoil(&mut rows);
    let schema = Schema::of("", "+s", vec![Schema::new("a", "l", &count)], None, &count);
    let refused = import(rows, schema).unwrap_err();
    assert_eq!(count.get(), 4);
    refused.to_string()
}

#[test]
fn columns_are_as_the_struct_asks_for() {
    assert_eq!(
        of_rows(|it| it.offset = 1, |_| ()),
        "column \"a\": it has 4 items, of which its parent wants 5"
    );
    assert_eq!(
        of_rows(|_| (), |it| it.length = 3),
        "column \"a\": it has 3 items, of which its parent wants 4"
    );
    assert_eq!(
        of_rows(|_| (), |it| it.offset = -1),
        "column \"a\": offset is -1"
    );
    assert_eq!(
        of_rows(|it| it.offset = i64::MAX, |_| ()),
        format!("memory can't hold offset {} and length 4", i64::MAX)
    );
    assert_eq!(
        of_rows(|_| (), |it| it.offset = i64::MAX - 3),
        format!(
            "column \"a\": memory can't hold offset {} and length 4",
            i64::MAX - 3
        )
    );
    assert_eq!(
        of_rows(|it| it.n_children = 0, |_| ()),
        "n_children is 0 in place of 1"
    );
    assert_eq!(
        of_rows(|it| it.n_children = 2, |_| ()),
        "n_children is 2 in place of 1"
    );
    assert_eq!(
        of_rows(|it| it.children = ptr::null_mut(), |_| ()),
        "column \"a\": children is null"
    );
    assert_eq!(
        of_rows(|it| it.n_buffers = 0, |_| ()),
        "n_buffers is 0 in place of 1"
    );
    assert_eq!(
        of_rows(|it| it.null_count = 1, |_| ()),
        "the buffer of the validity is null"
    );
}

#[test]
fn children_of_schemas_are_named() {
    let schema = |spoil: fn(&mut Schema)| {
        let none = Count::default();
        let fields = vec![Schema::new("a", "l", &none), Schema::new("b", "q", &none)];
        let mut schema = Schema::of("", "+s", fields, None, &none);
        spoil(&mut schema);
        let rows = Array::of(4, vec![None], vec![], None, &none);
        import(rows, schema).unwrap_err().to_string()
    };
    assert_eq!(schema(|_| ()), "column \"b\": no type has the format \"q\"");
    assert_eq!(schema(|it| it.n_children = -1), "n_children is -1");
    assert_eq!(
        schema(|it| it.children = ptr::null_mut()),
        "column \"0\": children is null"
    );
    let wanted = "n_children is 2 in place of 1";
    assert_eq!(schema(|it| it.format = c"+l".as_ptr()), wanted);
    assert_eq!(schema(|it| it.format = c"+us:7".as_ptr()), wanted);
}

#[test]
fn children_of_schemas_without_a_name_are_named_by_their_places() {
    let said = |name: &str, spoil: fn(&mut Schema)| {
        let none = Count::default();
        let mut inner = Schema::new(name, "q", &none);
        spoil(&mut inner);
        let lists = Schema::of("list", "+l", vec![inner], None, &none);
        let fields = vec![Schema::new("a", "l", &none), lists];
        let rows = Array::of(4, vec![None], vec![], None, &none);
        let schema = Schema::of("rows", "+s", fields, None, &none);
        import(rows, schema).unwrap_err().to_string()
    };
    let wanted = |child, fault| format!("column \"list.{child}\": {fault}");
    let fault = "no type has the format \"q\"";
    assert_eq!(said("item", |_| ()), wanted("item", fault));
    assert_eq!(said("", |_| ()), wanted("0", fault));
    let empty = said("item", |it| it.name = c"".as_ptr());
    assert_eq!(empty, wanted("0", fault));
    let not_a_text = said("item", |it| it.name = c"\xFF".as_ptr());
    assert_eq!(not_a_text, wanted("0", "name isn't UTF-8"));
    let no_format = said("item", |it| it.format = ptr::null());
    assert_eq!(no_format, wanted("item", "format is null"));
    let released = said("item", |it| {
        // SAFETY: it isn't released.
        unsafe { it.release.unwrap()(it) };
    });
    assert_eq!(released, wanted("0", "ArrowSchema is released"));
}

#[test]
fn children_that_are_null_or_released_are_named() {
    let none = Count::default();
    let boxed = |it: Array| Box::into_raw(Box::new(it));
    let mut released = numbers(4);
    // SAFETY: it isn't released.
    unsafe { released.release.unwrap()(&raw mut released) };
    for (child, wanted) in [
        (ptr::null_mut(), "column \"a\": a child is null"),
        (boxed(released), "column \"a\": ArrowArray is released"),
    ] {
        let mut children = [child];
        let mut rows = Array::of(4, vec![None], vec![], None, &none);
        (rows.n_children, rows.children) = (1, children.as_mut_ptr());
        let schema = Schema::of("", "+s", vec![Schema::new("a", "l", &none)], None, &none);
        assert_eq!(import(rows, schema).unwrap_err().to_string(), wanted);
        if !child.is_null() {
            // SAFETY: it is of `boxed`.
            drop(unsafe { Box::from_raw(child) });
        }
    }
}

/// A batch of structs `a` and `b`, each with a column `x` that has a dictionary.
fn tree(spoil: impl Fn(&str, &mut Array)) -> String {
    let none = Count::default();
    let spoiled = |place: &str, mut it: Array| {
        spoil(place, &mut it);
        it
    };
    let rows =
        |place: &str, columns| spoiled(place, Array::of(4, vec![None], columns, None, &none));
    let part = |name: &str| {
        let items = Array::values(2, None, &[0; 16], &none);
        let items = spoiled(&format!("{name}.x.dictionary"), items);
        let buffers = vec![None, Some(Buffer::new(&[0; 32], 0))];
        let x = Array::of(4, buffers, vec![], Some(items), &none);
        rows(name, vec![spoiled(&format!("{name}.x"), x)])
    };
    let of_x = || Schema::of("x", "c", vec![], Some(Schema::new("", "l", &none)), &none);
    let of = |name| Schema::of(name, "+s", vec![of_x()], None, &none);
    let batch = rows("", vec![part("a"), part("b")]);
    let schema = Schema::of("", "+s", vec![of("a"), of("b")], None, &none);
    import(batch, schema).map_or_else(|error| error.to_string(), |_| String::new())
}

#[test]
fn arrays_at_each_level_are_named() {
    assert_eq!(tree(|_, _| ()), "");
    for place in ["a", "b", "a.x", "b.x", "a.x.dictionary", "b.x.dictionary"] {
        let said = tree(|at, it| it.offset = if at == place { -1 } else { 0 });
        assert_eq!(said, format!("column \"{place}\": offset is -1"));
    }
}

#[test]
fn dictionaries_are_those_of_the_type() {
    let none = Count::default();
    let items = || Array::values(2, None, &[0; 16], &none);
    let indices = |dictionary| {
        let buffers = vec![None, Some(Buffer::new(&[0; 32], 0))];
        Array::of(4, buffers, vec![], dictionary, &none)
    };
    let schema = |format, of: Option<&str>| {
        let of = of.map(|it| Schema::new("", it, &none));
        Schema::of("", format, vec![], of, &none)
    };
    let said = |array, schema| import(array, schema).map(drop).unwrap_err().to_string();
    let wanted = "no array of its type has such a dictionary";
    assert_eq!(said(indices(None), schema("c", Some("l"))), wanted);
    assert_eq!(said(indices(Some(items())), schema("c", None)), wanted);
    assert_eq!(said(indices(Some(items())), schema("g", Some("l"))), wanted);
    assert_eq!(said(indices(Some(items())), schema("b", Some("l"))), wanted);
    assert_eq!(
        said(indices(Some(items().at(-1))), schema("c", Some("l"))),
        "column \"dictionary\": offset is -1"
    );
    assert_eq!(
        said(indices(Some(items())), schema("c", Some("?"))),
        "column \"dictionary\": no type has the format \"?\""
    );
}

#[test]
fn children_end_at_some_level() {
    let none = Count::default();
    let nest = |levels| {
        (0..levels).fold(
            (numbers(4), Schema::new("", "l", &none)),
            |(array, schema), _| {
                (
                    Array::of(4, vec![None], vec![array], None, &none),
                    Schema::of("", "+s", vec![schema], None, &none),
                )
            },
        )
    };
    let (array, schema) = nest(63);
    assert_eq!(import(array, schema).map(|it| it.len()), Ok(4));
    let (array, schema) = nest(64);
    let refused = import(array, schema).unwrap_err().to_string();
    assert!(
        refused.ends_with("it has 64 levels of children or more"),
        "{refused}"
    );
}

/// The arrays of a tree, the outermost one first.
fn all(array: *mut Array, found: &mut Vec<*mut Array>) {
    found.push(array);
    // SAFETY: the array is as the interface asks for.
    unsafe {
        for place in 0..usize::try_from((*array).n_children).unwrap() {
            all(*(*array).children.add(place), found);
        }
        if !(*array).dictionary.is_null() {
            all((*array).dictionary, found);
        }
    }
}

#[test]
fn whatever_the_numbers_are_nothing_is_read_by_them_and_all_is_released() {
    const EXTREMES: [i64; 12] = [
        i64::MIN,
        -1 << 32,
        -2,
        -1,
        0,
        1,
        7,
        1 << 32,
        i64::MAX / 16,
        i64::MAX / 8,
        i64::MAX - 1,
        i64::MAX,
    ];
    let fields: [fn(&mut Array) -> &mut i64; 5] = [
        |it| &mut it.length,
        |it| &mut it.null_count,
        |it| &mut it.offset,
        |it| &mut it.n_buffers,
        |it| &mut it.n_children,
    ];
    let mut refused = 0;
    for place in 0..6 {
        for (field, extreme) in fields.iter().flat_map(|it| EXTREMES.map(|n| (it, n))) {
            let count = Count::default();
            let (mut array, schema) = raw::rows(&count);
            let mut arrays = Vec::new();
            all(&raw mut array, &mut arrays);
            assert_eq!(arrays.len(), 6);
            // SAFETY: it is one of the tree. Its release reads none of these numbers.
            unsafe { *field(&mut *arrays[place]) = extreme };
            let answer = import(array, schema);
            refused += usize::from(answer.is_err());
            drop(answer);
            assert_eq!(count.get(), 12);
        }
    }
    assert!(refused > 200, "{refused}");
}
