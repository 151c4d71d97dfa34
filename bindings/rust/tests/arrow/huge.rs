//! Arrays of more rows or items than the interface can count: each is an error with the column's
//! name. No export has a smaller number instead.
use vortex_bits::Bits;
use vortex_bits::arrow::{Array, Export};

use crate::made::Tree;
use crate::raw::{self, Buffer, Count, Schema, import};

const MOST: i64 = i64::MAX;
const TWICE: &str = "18446744073709551614 rows, and numbers up to 9223372036854775807";
const NO_MEMORY: &str = "no memory for rows of 18446744073709551615 bytes";

/// An array of nulls, which needs no buffer.
fn nulls(len: i64) -> raw::Array {
    raw::Array::new(len, vec![], &Count::default())
}

fn field(format: &str, children: Vec<Schema>, items: Option<Schema>) -> Schema {
    Schema::of("", format, children, items, &Count::default())
}

fn imported(format: &str, len: i64, buffers: Vec<Option<Buffer>>, children: Vec<Tree>) -> Array {
    let (arrays, fields) = children.into_iter().unzip();
    let array = raw::Array::of(len, buffers, arrays, None, &Count::default());
    import(array, field(format, fields, None)).unwrap()
}

fn number(number: i64) -> Buffer {
    Buffer::exact(&number.to_ne_bytes())
}

#[track_caller]
fn refused(arrays: &[Array], wanted: &str) {
    let error = Export::concat(arrays[0].field(), arrays).unwrap_err();
    assert_eq!(error.to_string(), wanted);
}

/// The same array, `number` times.
fn times(number: usize, array: &Array) -> Vec<Array> {
    vec![array.clone(); number]
}

#[test]
fn rows_beyond_63_bits_are_refused() {
    let last = usize::try_from(MOST).unwrap();
    for array in [
        imported("n", MOST, vec![], vec![]),
        imported("+s", MOST, vec![None], vec![]),
        imported("w:0", MOST, vec![None, None], vec![]),
    ] {
        assert_eq!(
            Export::concat(array.field(), &times(1, &array))
                .unwrap()
                .len(),
            last
        );
        refused(&times(2, &array), TWICE);
        let one = [array.slice(..1), array.clone()];
        refused(
            &one,
            "9223372036854775808 rows, and numbers up to 9223372036854775807",
        );
        refused(&times(3, &array), NO_MEMORY);
    }
}

#[test]
fn runs_beyond_63_bits_are_refused() {
    let ends = raw::Array::new(1, vec![None, Some(number(MOST))], &Count::default());
    let ends = (ends, field("l", vec![], None));
    let array = imported(
        "+r",
        MOST,
        vec![],
        vec![ends, (nulls(1), field("n", vec![], None))],
    );
    let all = Export::concat(array.field(), &times(1, &array)).unwrap();
    assert_eq!(all.into_array().len(), array.len());
    refused(&times(2, &array), TWICE);
}

#[test]
fn items_beyond_63_bits_are_refused() {
    let (len, each) = (1 << 31, i32::MAX);
    let items = (nulls(len * i64::from(each)), field("n", vec![], None));
    let array = imported(&format!("+w:{each}"), len, vec![None], vec![items]);
    assert!(Export::concat(array.field(), &times(2, &array)).is_ok());
    let items = "column \"0\": 13835058048839712768 rows, and numbers up to 9223372036854775807";
    refused(&times(3, &array), items);
}

#[test]
fn items_of_several_arrays_are_counted_without_overflow() {
    let items = || (nulls(MOST), field("n", vec![], None));
    let all = [(); 4].map(|()| {
        let [starts, sizes] = [MOST - 1, 1].map(|it| Some(number(it)));
        imported("+vL", 1, vec![None, starts, sizes], vec![items()])
    });
    refused(&all[..2], &format!("column \"0\": {TWICE}"));
    for number in [3, 4] {
        refused(&all[..number], NO_MEMORY);
    }
    shared(&all[0]);
    let below = format!("column \"dictionary\": {TWICE}");
    let few = TWICE.replace("rows", "items of a dictionary");
    for (format, wanted) in [("l", [&few[..]; 3]), ("L", [&below, NO_MEMORY, NO_MEMORY])] {
        let coded = || {
            let (indices, none) = (vec![None, Some(number(MOST - 1))], Count::default());
            let (items, of) = items();
            let array = raw::Array::of(1, indices, vec![], Some(items), &none);
            import(array, field(format, vec![], Some(of))).unwrap()
        };
        let all: Vec<Array> = (0..4).map(|_| coded()).collect();
        for (number, wanted) in (2..).zip(wanted) {
            refused(&all[..number], wanted);
        }
    }
}

#[test]
fn items_beyond_offsets_of_32_bits_are_refused() {
    let number = |it: i32| Some(Buffer::exact(&it.to_ne_bytes()));
    let views = |items: i32| {
        let rows = vec![None, number(items - 1), number(1)];
        let items = (nulls(items.into()), field("n", vec![], None));
        imported("+vl", 1, rows, vec![items])
    };
    let [one, other] = [i32::MAX, i32::MAX].map(views);
    assert!(Export::concat(one.field(), &times(1, &one)).is_ok());
    let items = "4294967294 items of lists, and numbers up to 2147483647";
    refused(&[one.clone(), other], items);
    shared(&one);
    // The items of each array count once.
    let [half, one] = [i32::MAX - 1, 1].map(views);
    let joined = Export::concat(half.field(), &[half.clone(), one.clone(), half.clone()]);
    assert_eq!(joined.unwrap().into_array().len(), 3);
    let few = [half, views(2)];
    refused(&few, &items.replace("4294967294", "2147483648"));
}

/// Parts of one array and its selected rows share its items.
#[track_caller]
fn shared(array: &Array) {
    let rows = [(); 2].map(|()| array.filter(None::<Bits>).unwrap().into_array());
    let parts = [&times(3, array)[..], &rows].concat();
    let joined = Export::concat(array.field(), &parts).unwrap();
    assert_eq!(joined.into_array().len(), 5 * array.len());
}

#[test]
fn items_beyond_offsets_of_64_bits_are_refused() {
    let ends = Buffer::exact(&[0, 1i64 << 62].map(i64::to_ne_bytes).concat());
    let items = (nulls(1 << 62), field("n", vec![], None));
    let lists = imported("+L", 1, vec![None, Some(ends)], vec![items]);
    assert_eq!(lists.take(&[0u8]).unwrap().into_array().len(), 1);
    let wanted = "9223372036854775808 items of lists, and numbers up to 9223372036854775807";
    for number in 2..6 {
        let taken = lists.take(&vec![0u8; number]).map(drop);
        assert_eq!(taken.unwrap_err().to_string(), wanted);
        refused(&times(number, &lists), wanted);
    }
}

#[test]
#[should_panic(expected = "9223372036854775808 rows")]
fn structs_beyond_63_bits_are_no_structs() {
    let last = usize::try_from(MOST).unwrap();
    assert_eq!(Export::structs(last, [], None).into_array().len(), last);
    let _ = Export::structs(last + 1, [], None);
}
