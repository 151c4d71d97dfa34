//! Arrays of types whose values the crate doesn't read, but exports: it tests their structs.
use vortex_bits::arrow::{Array, Export};

use crate::raw::{self, Buffer, Count, Schema, import};

/// Where runs end, as numbers of a format; the first is before the array.
fn ends(format: &str) -> Vec<u8> {
    let ends = [-1i16, 2, 5, 6, 9];
    match format {
        "s" => ends.iter().flat_map(|it| it.to_ne_bytes()).collect(),
        "i" => ends
            .iter()
            .flat_map(|it| i32::from(*it).to_ne_bytes())
            .collect(),
        _ => ends
            .iter()
            .flat_map(|it| i64::from(*it).to_ne_bytes())
            .collect(),
    }
}

/// An array of a format with four rows at offset 2. The buffers in `missing` are null. Each child
/// has a format and a number of items, at offset 1.
fn of(format: &str, missing: &[usize], children: &[(&str, i64)]) -> Result<Array, String> {
    let count = Count::default();
    let buffers = match format.split(':').next().unwrap() {
        "+vl" | "+vL" => 3,
        "+ud" => 2,
        "+r" => 0,
        _ => 1,
    };
    let buffer = |place| (!missing.contains(&place)).then(|| Buffer::exact(&[0; 6 * 8]));
    let buffers = (0..buffers).map(buffer).collect();
    let child = |&(of, len): &(&str, i64)| {
        let values = if format == "+r" {
            ends(of)
        } else {
            vec![0; 64]
        };
        let values = Some(Buffer::exact(&values));
        raw::Array::new(len, vec![None, values], &count).at(1)
    };
    let arrays = children.iter().map(child).collect();
    let array = raw::Array::of(4, buffers, arrays, None, &count).at(2);
    let fields = children.iter().zip(["a", "b"]);
    let fields = fields.map(|((format, _), name)| Schema::new(name, format, &count));
    let schema = Schema::of("", format, fields.collect(), None, &count);
    let answer = import(array, schema).map_err(|error| error.to_string());
    let (released, all) = (count.get(), 2 * (1 + children.len()));
    assert_eq!(released, if answer.is_ok() { all / 2 } else { all });
    answer
}

fn short(column: &str, got: i64, wanted: i64) -> String {
    format!("column {column:?}: it has {got} items, of which its parent wants {wanted}")
}

#[test]
fn lists_of_one_length_have_their_items() {
    for (format, wanted) in [("+w:0", 0), ("+w:1", 6), ("+w:2", 12), ("+w:7", 42)] {
        for got in [0, 5, 6, 11, 12, 13, 41, 42, 50] {
            let answer = of(format, &[0], &[("C", got)]);
            if got >= wanted {
                assert_eq!(answer.unwrap().len(), 4);
            } else {
                assert_eq!(answer.unwrap_err(), short("a", got, wanted));
            }
        }
    }
}

#[test]
fn sparse_unions_have_as_many_items_in_each_child() {
    for (a, b, wanted) in [
        (6, 6, None),
        (9, 7, None),
        (5, 6, Some(short("a", 5, 6))),
        (6, 5, Some(short("b", 5, 6))),
        (6, 0, Some(short("b", 0, 6))),
    ] {
        let answer = of("+us:0,5", &[], &[("C", a), ("c", b)]);
        assert_eq!(answer.err(), wanted);
        // A dense union names items by its offsets, so its children may have any length.
        assert!(of("+ud:0,5", &[], &[("C", a), ("c", b)]).is_ok());
    }
}

#[test]
fn buffers_that_are_no_validity_are_wanted() {
    let said = |format, missing: usize| of(format, &[missing], &[("C", 9), ("C", 9)][..1]).err();
    let null = |what: &str| Some(format!("the buffer of the {what} is null"));
    for format in ["+vl", "+vL"] {
        assert_eq!(said(format, 0), None);
        assert_eq!(said(format, 1), null("offsets"));
        assert_eq!(said(format, 2), null("sizes"));
    }
    assert_eq!(said("+us:1", 0), null("types"));
    assert_eq!(said("+ud:1", 0), null("types"));
    assert_eq!(said("+ud:1", 1), null("offsets"));
    assert_eq!(said("+w:1", 0), None);
    // Without rows, no buffer is required.
    for (format, buffers) in [("+vl", 3), ("+us:1", 1), ("+ud:1", 2)] {
        let none = Count::default();
        let items = raw::Array::values(0, None, &[], &none);
        let buffers = (0..buffers).map(|_| None).collect();
        let array = raw::Array::of(0, buffers, vec![items], None, &none);
        let schema = Schema::of("", format, vec![Schema::new("", "C", &none)], None, &none);
        assert!(import(array, schema).unwrap().is_empty());
    }
}

#[test]
fn runs_reach_up_to_the_last_row() {
    for format in ["s", "i", "l"] {
        let runs = |ends, values| of("+r", &[], &[(format, ends), ("l", values)]).err();
        assert_eq!(runs(3, 3), None);
        assert_eq!(runs(4, 4), None);
        assert_eq!(runs(3, 4), None);
        let wanted = |end| format!("column \"a\": the last run ends at {end}, before 6 rows do");
        assert_eq!(runs(2, 4), Some(wanted(5)));
        assert_eq!(runs(1, 4), Some(wanted(2)));
        assert_eq!(runs(0, 4), Some(short("a", 0, 1)));
        assert_eq!(runs(4, 0), Some(short("b", 0, 1)));
        assert_eq!(runs(4, 3), Some(short("b", 3, 4)));
    }
    for format in ["C", "c", "I", "L", "f", "tdD", "tDn", "w:4", "b"] {
        let refused = of("+r", &[], &[(format, 4), ("l", 4)]).unwrap_err();
        let wanted = format!("column \"a\": format {format:?} isn't that of ends of runs");
        assert_eq!(refused, wanted);
    }
}

/// A column of days with a dictionary would have indices that are no whole numbers.
#[test]
fn indices_are_whole_numbers() {
    let count = Count::default();
    let index = |format: &str| {
        let items = raw::Array::values(2, None, &[1, 2], &count);
        let buffers = vec![None, Some(Buffer::new(&[0; 64], 0))];
        let rows = raw::Array::of(3, buffers, vec![], Some(items), &count);
        let items = Schema::new("", "C", &count);
        import(rows, Schema::of("", format, vec![], Some(items), &count))
    };
    for format in ["c", "C", "s", "S", "i", "I", "l", "L"] {
        assert_eq!(
            index(format).unwrap().dictionary_values::<u8>().unwrap().0,
            [1; 3]
        );
    }
    for format in [
        "tdD",
        "tts",
        "tiM",
        "tDn",
        "tsn:",
        "d:9,2,32",
        "d:18,2,64",
        "e",
        "w:4",
    ] {
        let refused = index(format).unwrap_err().to_string();
        assert_eq!(
            refused, "no array of its type has such a dictionary",
            "{format}"
        );
        let indices = Export::values([0i32], None).with_format("tdD").unwrap();
        assert!(
            indices
                .with_dictionary(Export::values([1u8], None))
                .is_err()
        );
    }
}
