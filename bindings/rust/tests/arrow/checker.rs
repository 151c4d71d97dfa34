//! Tests of the checker of these tests: it finds each kind of error, and it knows the same formats
//! as the crate.
use std::ptr;

use vortex_bits::arrow::{ArrowError, Fault};

use crate::made::{Maker, Tree, spoil};
use crate::ranges::{offsets, view};
use crate::raw::{Array, Buffer, Count, Schema, import};
use crate::strict::{Look, looked_at, parse};

/// The message of the checker for a tree.
fn said((mut array, mut schema): Tree, look: Look) -> String {
    // SAFETY: it is as the interface asks for, except for what is wrong.
    let answer = unsafe { looked_at(&array, &schema, look) };
    // SAFETY: a struct that the test released has no `release`.
    unsafe {
        array.release.inspect(|release| release(&raw mut array));
        schema.release.inspect(|release| release(&raw mut schema));
    }
    answer.map_or_else(|wrong| wrong, |looked| format!("{looked} are right"))
}

fn of(format: &str, len: i64, buffers: Vec<Option<Buffer>>, children: Vec<Tree>) -> Tree {
    let none = Count::default();
    let (arrays, fields) = children.into_iter().unzip();
    (
        Array::of(len, buffers, arrays, None, &none),
        Schema::of("", format, fields, None, &none),
    )
}

/// A buffer of bytes, as an `Option`.
#[allow(clippy::unnecessary_wraps, reason = "as arrays have them")]
fn buffer(bytes: &[u8]) -> Option<Buffer> {
    Some(Buffer::exact(bytes))
}

/// `len` values of one byte.
fn bytes(len: i64) -> Tree {
    of("c", len, vec![None, buffer(&[0; 99])], vec![])
}

fn texts(format: &str, ends: &[i64], text: &[u8]) -> Tree {
    let buffers = vec![None, Some(offsets(ends, format == "U", 0)), buffer(text)];
    of(
        format,
        i64::try_from(ends.len()).unwrap() - 1,
        buffers,
        vec![],
    )
}

fn coded(indices: &[u8], valid: Option<&[u8]>, items: i64) -> Tree {
    let none = Count::default();
    let (items, of_items) = bytes(items);
    let buffers = vec![valid.and_then(buffer), buffer(indices)];
    (
        Array::of(
            indices.len().try_into().unwrap(),
            buffers,
            vec![],
            Some(items),
            &none,
        ),
        Schema::of("", "C", vec![], Some(of_items), &none),
    )
}

#[test]
fn items_that_lie_are_seen() {
    let views = |text: &str, buffer_of: i32, start: i32| {
        let buffers = vec![
            None,
            buffer(&view(text, buffer_of, start)),
            buffer(b"a text of seventeen"),
            Some(offsets(&[19], true, 0)),
        ];
        of("vu", 1, buffers, vec![])
    };
    let union = |types: &[u8], places: &[i64]| {
        let places = Some(offsets(places, false, 0));
        of(
            "+ud:0,5",
            types.len().try_into().unwrap(),
            vec![buffer(types), places],
            vec![bytes(2), bytes(2)],
        )
    };
    let runs = |ends: &[i64], values| {
        let ends_of = vec![None, Some(offsets(ends, true, 0))];
        let ends = of("l", ends.len().try_into().unwrap(), ends_of, vec![]);
        of("+r", 4, vec![], vec![ends, bytes(values)])
    };
    let nulls = |said, flags| {
        let mut tree = of("c", 4, vec![buffer(&[0b1011]), buffer(&[0; 4])], vec![]);
        (tree.0.null_count, tree.1.flags) = (said, flags);
        tree
    };
    let lists = |ends: &[i64], items| {
        of(
            "+l",
            2,
            vec![None, Some(offsets(ends, false, 0))],
            vec![bytes(items)],
        )
    };
    for (tree, wanted) in [
        (texts("u", &[0, 2, 3], b"abc"), "1 are right"),
        (texts("u", &[0, 3, 2], b"abc"), "offset 2 is 2 behind 3"),
        (texts("U", &[-1, 3, 3], b"abc"), "offset 0 is -1 behind 0"),
        (
            texts("u", &[0, 1, 2], "\u{e9}".as_bytes()),
            "item 0 isn't UTF-8",
        ),
        (texts("z", &[0, 1, 2], "\u{e9}".as_bytes()), "1 are right"),
        (views("a text of seventeen", 0, 0), "1 are right"),
        (views("a text", 9, 9), "1 are right"),
        (views("another text of 19.", 0, 0), "a view"),
        (views("a text of seventeen", 1, 0), "a view"),
        (views("a text of seventeen", 0, 1), "a view"),
        (views("a text of seventeen", 0, -1), "a view"),
        (coded(&[0, 1, 2], None, 3), "2 are right"),
        (coded(&[0, 3, 2], None, 3), "index 3 of 3 items"),
        (coded(&[0, 3, 2], Some(&[0b101]), 3), "2 are right"),
        (lists(&[0, 1, 4], 4), "2 are right"),
        (lists(&[0, 1, 4], 3), "lists end at 4 of 3 items"),
        (lists(&[2, 1, 4], 4), "offset 1 is 1 behind 2"),
        (union(&[0, 5, 0], &[0, 0, 1]), "3 are right"),
        (union(&[0, 4, 0], &[0, 0, 1]), "no type has the id 4"),
        (
            union(&[0, 5, 0], &[0, 0, 2]),
            "place 2 of 2 items of child 0",
        ),
        (
            union(&[0, 5, 0], &[1, 0, 0]),
            "place 0 of 2 items of child 0",
        ),
        (runs(&[1, 4], 2), "3 are right"),
        (runs(&[1, 3], 2), "runs up to 3 of 4"),
        (runs(&[4, 4], 2), "runs end at [4, 4]"),
        (runs(&[0, 4], 2), "runs end at [0, 4]"),
        (nulls(1, 2), "1 are right"),
        (nulls(-1, 2), "1 are right"),
        (nulls(0, 2), "null_count is 0, and 1 are null"),
        (nulls(2, 2), "null_count is 2, and 1 are null"),
        (nulls(1, 0), "1 nulls of a type without"),
    ] {
        let text = said(tree, Look::Items);
        assert!(text.starts_with(wanted), "{text} for {wanted}");
    }
}

#[test]
fn numbers_that_lie_are_seen() {
    let spoiled = |spoil: fn(&mut Array, &mut Schema)| {
        let (mut array, mut schema) = of("+s", 3, vec![None], vec![bytes(3)]);
        spoil(&mut array, &mut schema);
        said((array, schema), Look::Items)
    };
    assert_eq!(spoiled(|_, _| ()), "2 are right");
    assert_eq!(spoiled(|it, _| it.length = -1), "length is -1");
    assert_eq!(spoiled(|it, _| it.offset = -1), "offset is -1");
    assert_eq!(spoiled(|it, _| it.offset = 1), "child 0 has 3 items of 4");
    assert_eq!(spoiled(|it, _| it.null_count = 4), "null_count is 4 of 3");
    assert_eq!(spoiled(|it, _| it.null_count = -2), "null_count is -2 of 3");
    assert_eq!(
        spoiled(|it, _| it.null_count = 1),
        "1 nulls without a validity"
    );
    assert_eq!(spoiled(|it, _| it.n_buffers = 2), "2 buffers of Struct");
    assert_eq!(
        spoiled(|it, _| it.n_children = 0),
        "0 children in place of 1"
    );
    assert_eq!(
        spoiled(|it, _| it.buffers = ptr::null_mut()),
        "buffers is null"
    );
    assert_eq!(
        spoiled(|it, _| it.children = ptr::null_mut()),
        "children is null"
    );
    assert_eq!(spoiled(|_, it| it.flags = 8), "flags 8");
    assert_eq!(
        spoiled(|_, it| it.flags = 1),
        "flags 1 without a dictionary"
    );
    assert_eq!(spoiled(|_, it| it.flags = 4), "flags 4 of Struct");
    assert_eq!(spoiled(|_, it| it.format = ptr::null()), "format is null");
    assert_eq!(
        spoiled(|_, it| it.format = c"+q".as_ptr()),
        "\"+q\" is no format"
    );
    let wanted = "1 children of \"l\", which has 0";
    assert_eq!(spoiled(|_, it| it.format = c"l".as_ptr()), wanted);
    let released = |it: &mut Array, _: &mut Schema| {
        // SAFETY: it isn't released.
        unsafe { it.release.unwrap()(it) }
    };
    assert_eq!(spoiled(released), "it is released");
    let negative = (-1i32).to_ne_bytes();
    let (array, mut schema) = bytes(1);
    schema.metadata = negative.as_ptr().cast();
    assert_eq!(
        said((array, schema), Look::Numbers),
        "a number of -1 in metadata"
    );
    for (format, children, wanted) in [
        ("+w:2", vec![bytes(5)], "child 0 has 5 items of 6"),
        ("+w:2", vec![bytes(6)], "2 are right"),
        (
            "+us:0,1",
            vec![bytes(3), bytes(2)],
            "child 1 has 2 items of 3",
        ),
        ("+vl", vec![bytes(3)], "3 buffers"),
        ("c", vec![bytes(3)], "1 children of \"c\""),
    ] {
        let tree = of(format, 3, vec![buffer(&[0; 99])], children);
        let text = said(tree, Look::Numbers);
        assert!(
            text.starts_with(wanted) || text.starts_with("1 buffers"),
            "{text} for {wanted}"
        );
    }
}

/// The checker finds an error in a randomly spoiled tree exactly if the crate returns one.
#[test]
fn what_the_crate_refuses_is_wrong() {
    let mut maker = Maker::new(6, false);
    let mut refused = 0;
    for _ in 0..1000 {
        let mut tree = maker.tree(9, 2);
        spoil(&mut maker, &mut tree);
        // SAFETY: it is as the interface asks for, except for what is wrong.
        let is_right = unsafe { looked_at(&tree.0, &tree.1, Look::Numbers) }.is_ok();
        let answer = import(tree.0, tree.1);
        refused += usize::from(answer.is_err());
        assert_eq!(answer.is_ok(), is_right, "{:?}", answer.err());
    }
    assert!(refused > 500);
}

/// Whether the crate knows a format.
fn is_known(format: &str) -> bool {
    let none = Count::default();
    let array = Array::new(0, vec![], &none);
    match import(array, Schema::new("", format, &none)) {
        Err(ArrowError::Malformed { fault, .. }) => !matches!(fault, Fault::Format(_)),
        _ => true,
    }
}

#[test]
fn formats_are_those_of_the_crate() {
    let same = |format: &str| assert_eq!(is_known(format), parse(format).is_ok(), "{format:?}");
    let letters = "ncCsSiIlLefgbzuZUvtdDTmMw+r:0,1- ";
    let mut known = 0;
    for first in letters.chars() {
        same(&first.to_string());
        for second in letters.chars() {
            same(&format!("{first}{second}"));
            for third in letters.chars() {
                let format = format!("{first}{second}{third}");
                same(&format);
                known += usize::from(is_known(&format));
            }
        }
    }
    assert!(known > 15, "{known}");
    let numbers = [
        "", "0", "1", "-1", "+1", "5,5", "0,127", "128", "0,", ",0", "9,2", "10,2", "9,2,32",
    ];
    let more = [
        "10,2,32", "18,0,64", "19,0,64", "38,0", "39,0", "76,9,256", "77,0,256", "0,0", "1,-1",
    ];
    let most = [
        "2147483647",
        "2147483648",
        "38,0,8",
        "1,2,3,4",
        "x",
        "1 ",
        "1x",
        "9,2,128",
    ];
    for name in ["w", "+w", "d", "+us", "+ud", "tss", "tsx", "x", ""] {
        for parameters in numbers.iter().chain(&more).chain(&most) {
            // Widths of values have no limit here but memory.
            if name != "w" || *parameters != "2147483648" {
                same(&format!("{name}:{parameters}"));
            }
        }
    }
}
