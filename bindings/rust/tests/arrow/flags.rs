//! Operators over columns without nulls, with metadata and of each type of texts. The flags of
//! batches and streams for nulls differ.
use vortex_bits::arrow::{Array, ArrowError, Export, ExportStream, Field, Stream};
use vortex_bits::{Bitmap, Bits, Comparison, values};

use crate::export::{ReadBack, raw_of};
use crate::ranges::{offsets, view};
use crate::raw::{self, Buffer, Count, Schema, import};

const FORMATS: [&str; 6] = ["u", "z", "U", "Z", "vu", "vz"];

/// Metadata of one pair, as the interface lays it out.
fn metadata() -> Vec<u8> {
    let number = |it: i32| it.to_ne_bytes().to_vec();
    [
        number(1),
        number(1),
        b"k".to_vec(),
        number(2),
        b"vv".to_vec(),
    ]
    .concat()
}

/// Rows of the texts a, bb, ccc and of the numbers 1, 2, 3, which have these flags.
fn rows(format: &str, flags: i64, blob: Option<&[u8]>) -> Array {
    let count = Count::default();
    let bytes = Some(Buffer::new(b"abbccc", 0));
    let buffers = if format.starts_with('v') {
        let views = ["a", "bb", "ccc"].map(|text| view(text, 0, 0)).concat();
        vec![
            None,
            Some(Buffer::new(&views, 0)),
            bytes,
            Some(offsets(&[6], true, 0)),
        ]
    } else {
        let is_wide = format.chars().all(char::is_uppercase);
        vec![None, Some(offsets(&[0, 1, 3, 6], is_wide, 0)), bytes]
    };
    let names = raw::Array::new(3, buffers, &count).nulls(0);
    let numbers: Vec<u8> = [1i64, 2, 3]
        .iter()
        .flat_map(|it| it.to_ne_bytes())
        .collect();
    let numbers = raw::Array::values(3, None, &numbers, &count);
    let rows = raw::Array::of(3, vec![None], vec![names, numbers], None, &count);
    let fields = [("name", format), ("number", "l")];
    let mut fields = fields.map(|(name, format)| Schema::new(name, format, &count));
    for field in &mut fields {
        field.flags = flags;
        field.metadata = blob.map_or(std::ptr::null(), |blob| blob.as_ptr().cast());
    }
    let mut schema = Schema::of("", "+s", fields.into(), None, &count);
    schema.flags = flags;
    import(rows, schema).unwrap()
}

/// The operator of README.md; `name` is the type of a column of its result.
fn above(batches: Stream, limit: i64, name: Field) -> ExportStream {
    let rows = Field::batch([name, Field::new("number", "l").unwrap()]);
    let kept = batches.map(move |batch| {
        let batch = batch?;
        let (name, number) = (batch.column("name")?, batch.column("number")?);
        let (numbers, valid) = (number.values::<i64>()?, number.validity()?);
        let mask = values::compare(numbers, Comparison::Greater, limit) & valid;
        let numbers = Export::values(values::filter(numbers, &mask), valid.filter(&mask));
        Ok(Export::batch([
            Export::texts_kept(&name, &mask)?,
            numbers.named("number"),
        ]))
    });
    ExportStream::new(rows, kept)
}

#[test]
fn an_operator_reads_columns_without_nulls_with_metadata_of_each_type() {
    let blob = metadata();
    for format in FORMATS {
        for flags in [0, 2] {
            for blob in [None, Some(&blob[..])] {
                let batch = rows(format, flags, blob);
                let given = || {
                    let batches = [batch.clone(), batch.slice(1..)].map(|it| Ok(Export::from(it)));
                    let stream = ExportStream::new(batch.field().clone(), batches);
                    stream.into_stream().unwrap()
                };
                let own = given().field().column("name").unwrap().clone();
                assert_eq!(own.is_nullable(), flags == 2);
                let other = Field::new("name", format).unwrap();
                for name in [own.clone(), other.clone(), own.nullable(false)] {
                    let kept = above(given(), 1, name.clone()).into_stream().unwrap();
                    assert_eq!(kept.field().column("name").unwrap(), &name);
                    let texts = |rows: Result<Array, ArrowError>| {
                        let name = rows.unwrap().column("name").unwrap();
                        let texts = name.texts().unwrap();
                        texts
                            .iter()
                            .map(|it| it.unwrap().to_vec())
                            .collect::<Vec<_>>()
                    };
                    let texts: Vec<_> = kept.map(texts).collect();
                    assert_eq!(
                        texts,
                        [
                            [b"bb".to_vec(), b"ccc".to_vec()],
                            [b"bb".to_vec(), b"ccc".to_vec()]
                        ]
                    );
                }
            }
        }
    }
}

/// Batches whose flags differ go into one stream, which has the type of any of them.
#[test]
fn streams_that_differ_in_a_flag_are_joined() {
    let blob = metadata();
    let batches = [
        rows("u", 0, None),
        rows("u", 2, Some(&blob)),
        rows("u", 0, Some(&blob)),
    ];
    for field in batches.clone().map(|batch| batch.field().clone()) {
        let exports = batches.clone().map(|batch| Ok(Export::from(batch)));
        let joined = ExportStream::new(field, exports).into_stream().unwrap();
        let lens: Vec<_> = joined.map(|batch| batch.unwrap().len()).collect();
        assert_eq!(lens, [3; 3]);
    }
}

/// The number of rows that a stream of type `stream` gives for a batch, or its error.
fn said(rows: Export, stream: Field) -> String {
    let stream = ExportStream::new(stream, [Ok(rows)]).into_stream().unwrap();
    let answer = stream
        .map(|rows| rows.map(|rows| rows.len()))
        .next()
        .unwrap();
    match answer {
        Ok(len) => len.to_string(),
        Err(error) => error.to_string().replace("get_next: errno 22: ", ""),
    }
}

#[test]
fn nulls_are_refused_where_a_stream_has_none() {
    let column = |valid: [bool; 3]| Export::values([1i8, 0, 1], Some(valid.into())).named("a");
    let field = || Field::new("a", "c").unwrap();
    let strict = || field().nullable(false);
    let nulls = |number| format!("the batch has the number of nulls {number}, the stream none");
    let (full, gap, gaps) = ([true; 3], [true, false, true], [false, false, true]);
    assert_eq!(said(column(full), strict()), "3");
    assert_eq!(said(column(gap), field()), "3");
    assert_eq!(said(column(gap), strict()), nulls(1));
    assert_eq!(said(column(gaps), strict()), nulls(2));
    let part = |valid, range: std::ops::Range<usize>| {
        let rows = Export::batch([column(valid)]).read_back();
        Export::from(rows.slice(range))
    };
    let rows = |column| Field::batch([column]);
    let of_a = |number| format!("column \"a\": {}", nulls(number));
    assert_eq!(said(part(gap, 0..3), rows(strict())), of_a(1));
    // Only the rows of the slice count.
    assert_eq!(said(part(gap, 2..3), rows(strict())), "1");
    assert_eq!(said(part(gaps, 1..3), rows(strict())), of_a(1));
    assert_eq!(said(part(gaps, 2..2), rows(strict())), "0");
    let nested = |valid| Export::batch([Export::batch([column(valid)])]);
    let deep = |field| rows(rows(field));
    assert_eq!(said(nested(full), deep(strict())), "3");
    assert_eq!(said(nested(gap), deep(field())), "3");
    let wanted = format!("column \"0.a\": {}", nulls(2));
    assert_eq!(said(nested(gaps), deep(strict())), wanted);
    let coded = |valid| {
        Export::values([0u8; 3], None)
            .named("a")
            .with_dictionary(column(valid))
            .unwrap()
    };
    let of = |items| {
        Field::new("a", "C")
            .unwrap()
            .with_dictionary(items)
            .unwrap()
    };
    assert_eq!(
        said(coded(gap), of(strict())),
        format!("column \"dictionary\": {}", nulls(1))
    );
    assert_eq!(said(coded(gap), of(field())), "3");
    assert_eq!(said(coded(full), of(strict())), "3");
}

/// A type that allows no null hides those that its own rows have. They are passed on.
#[test]
fn nulls_of_rows_whose_own_type_allows_none_are_passed_on() {
    let count = Count::default();
    let array = raw::Array::values(3, Some(&[0b101]), &[7, 8, 9], &count);
    let mut schema = Schema::new("a", "C", &count);
    schema.flags = 0;
    let rows = import(array, schema).unwrap();
    let field = rows.field().clone();
    let passed = [
        Export::concat(&field, &[rows.clone(), rows.slice(1..)]),
        rows.filter(None::<Bits>),
        rows.filter(Bits::new(&[0b111], 0, 3)),
        Export::from(rows.clone()).with_field(&field),
    ];
    for passed in passed {
        let passed = passed.unwrap().into_array();
        assert_eq!(
            (passed.field(), passed.validity().unwrap().get(1)),
            (&field, Some(false))
        );
    }
    assert_eq!(said(Export::from(rows), field), "3");
}

/// Arrays without a validity: only those of type null have nulls. Unions and runs have them in
/// their children.
#[test]
fn nulls_without_bits_are_counted() {
    let array = |null_count| {
        let nulls = raw::Array::new(4, vec![], &Count::default()).nulls(null_count);
        raw::import_as(nulls, "n").unwrap()
    };
    for null_count in [-1, 4] {
        let strict = array(null_count).field().clone().nullable(false);
        let wanted = "the batch has the number of nulls 4, the stream none";
        assert_eq!(
            said(Export::from(array(null_count)), strict.clone()),
            wanted
        );
        assert_eq!(
            said(Export::from(array(null_count).slice(..0)), strict),
            "0"
        );
    }
    let count = Count::default();
    let child = |name, valid: Option<&[u8]>| {
        (
            raw::Array::values(4, valid, &[0; 4], &count),
            Schema::new(name, "c", &count),
        )
    };
    let ((a, of_a), (b, of_b)) = (child("a", None), child("b", Some(&[0b1011])));
    let union = raw::Array::of(
        4,
        vec![Some(Buffer::new(&[0; 4], 0))],
        vec![a, b],
        None,
        &count,
    );
    let schema = Schema::of("", "+us:0,1", vec![of_a, of_b], None, &count);
    let union = import(union, schema).unwrap();
    let field = union.field().clone();
    let strict = field.clone().nullable(false);
    assert_eq!(said(Export::from(union.clone()), field), "4");
    assert_eq!(said(Export::from(union), strict), "4");
}

/// Each batch must have the flags of its stream, except the one for nulls.
#[test]
fn sorted_keys_and_ordered_dictionaries_are_promises() {
    let coded = |flags| {
        let count = Count::default();
        let items = raw::Array::values(2, None, &[1, 2], &count);
        let buffers = vec![None, Some(Buffer::new(&[0; 2], 0))];
        let array = raw::Array::of(2, buffers, vec![], Some(items), &count);
        let items = Schema::new("", "C", &count);
        let mut schema = Schema::of("", "c", vec![], Some(items), &count);
        schema.flags = flags;
        import(array, schema).unwrap()
    };
    for (batch, stream, wanted) in [
        (0, 0, "2"),
        (0, 2, "2"),
        (1, 0, "2"),
        (3, 2, "2"),
        (1, 1, "2"),
        (1, 3, "2"),
        (2, 0, "2"),
        (0, 1, "the batch has the flags 0, the stream 1"),
        (2, 3, "the batch has the flags 2, the stream 3"),
    ] {
        let field = coded(stream).field().clone();
        assert_eq!(
            said(Export::from(coded(batch)), field),
            wanted,
            "{batch} {stream}"
        );
    }
}

#[test]
fn metadata_goes_out_as_the_interface_lays_it_out() {
    let pairs = [(&b"k"[..], &b"vv"[..])];
    let field = Field::new("a", "c").unwrap().with_metadata(pairs);
    assert!(field.metadata().eq(pairs));
    let out = raw_of(Export::values([1i8], None).with_field(&field).unwrap());
    let wanted = metadata();
    // SAFETY: it is as long as it says.
    let blob = unsafe { std::slice::from_raw_parts(out.1.metadata.cast::<u8>(), wanted.len()) };
    assert_eq!(blob, wanted);
    let again = import(out.0, out.1).unwrap();
    assert_eq!(again.field(), &field);
    for number in [0, 1, 2, 70] {
        let pairs: Vec<_> = (0..number)
            .map(|it: usize| (vec![7; it], vec![9; 3 * it]))
            .collect();
        let field = Field::new("a", "c").unwrap().with_metadata(pairs.clone());
        let out = raw_of(Export::values([1i8], None).with_field(&field).unwrap());
        assert_eq!(out.1.metadata.is_null(), number == 0);
        let again = import(out.0, out.1).unwrap();
        let got = again
            .field()
            .metadata()
            .map(|(key, value)| (key.to_vec(), value.to_vec()));
        assert_eq!(got.collect::<Vec<_>>(), pairs);
    }
}

#[test]
fn rows_get_the_field_of_others() {
    let days = Field::new("day", "tdD").unwrap().nullable(false);
    let rows = || Export::values(vec![1i32, 2], None).named("x");
    let out = raw_of(rows().with_field(&days).unwrap());
    assert_eq!(out.1.flags, 0);
    assert_eq!(import(out.0, out.1).unwrap().field(), &days);
    let said = |rows: Export, field: &Field| rows.with_field(field).unwrap_err().to_string();
    assert_eq!(
        said(rows(), &Field::new("day", "l").unwrap()),
        "column \"x\": values of format \"i\" aren't those of \"l\""
    );
    let all = [Export::batch([rows()]), Export::batch([rows(), rows()])];
    let [one, two] = all;
    let other = Field::batch([Field::new("y", "i").unwrap().with_metadata([("k", "v")])]);
    assert_eq!(one.with_field(&other).unwrap().field(), &other);
    assert_eq!(
        said(two, &other),
        "the array has the number of columns 2, the field 1"
    );
    let of_days = Field::batch([days.clone()]);
    assert_eq!(
        said(Export::batch([rows()]), &of_days),
        "column \"day\": the array has \"i\", the field \"tdD\""
    );
    let gap: Bitmap = [true, false].into();
    let gap = Export::values(vec![1i32, 2], Some(gap));
    assert_eq!(
        said(gap, &days),
        "column \"day\": the array has the number of nulls 1, the field none"
    );
    let coded = days.with_dictionary(Field::new("", "u").unwrap());
    assert!(coded.is_err());
}

/// Types of more levels than the crate reads can be exported, but not imported.
#[test]
fn levels_have_one_limit() {
    let nested = |levels: usize| {
        (1..levels).fold(Export::values([1u8], None), |below, _| {
            Export::batch([below])
        })
    };
    let coded = |levels: usize| {
        (1..levels).fold(Export::values([0u8], None), |items, _| {
            Export::values([0u8], None).with_dictionary(items).unwrap()
        })
    };
    let refused = "it has 64 levels of children or more";
    for make in [&nested as &dyn Fn(usize) -> Export, &coded] {
        for levels in [1, 2, 63, 64] {
            assert_eq!(make(levels).try_into_array().unwrap().len(), 1);
            let stream = ExportStream::new(make(levels).field().clone(), [Ok(make(levels))]);
            assert_eq!(
                stream.into_stream().unwrap().next().unwrap().unwrap().len(),
                1
            );
        }
        for levels in [65, 66, 100] {
            let error = make(levels).try_into_array().unwrap_err().to_string();
            assert_eq!(error, refused);
            let stream = ExportStream::new(make(levels).field().clone(), []);
            let error = stream.into_stream().unwrap_err().to_string();
            assert!(error.ends_with(refused), "{error}");
            let (array, schema) = raw_of(make(levels));
            let error = import(array, schema).unwrap_err().to_string();
            assert!(error.ends_with(refused), "{error}");
        }
    }
}

/// Fields share their children: these types have up to 2^999 paths, too many to walk them all.
#[test]
fn levels_of_shared_children_are_counted_once() {
    let number = || Field::new("a", "i").unwrap();
    let twice =
        |levels: usize| (1..levels).fold(number(), |below, _| Field::batch([below.clone(), below]));
    let once = (1..65).fold(number(), |below, _| Field::batch([below]));
    for field in [twice(65), twice(1000), Field::batch([twice(63), once])] {
        let error = ExportStream::new(field, []).into_stream().unwrap_err();
        let text = "it has 64 levels of children or more";
        assert_eq!(error.to_string(), text);
    }
    let rows = ExportStream::new(twice(9), []).into_stream().unwrap();
    assert_eq!(rows.field(), &twice(9));
}

#[test]
#[should_panic(expected = "64 levels")]
fn more_levels_are_no_array() {
    let nested = (0..64).fold(Export::values([1u8], None), |below, _| {
        Export::batch([below])
    });
    let _ = nested.into_array();
}

/// The nulls of unions and runs are those of items, but rows may be null.
#[test]
fn a_null_index_makes_each_column_nullable() {
    let count = Count::default();
    let item = |name, format| Schema::new(name, format, &count);
    let numbers = |bytes: &[u8]| raw::Array::values(2, None, bytes, &count);
    let ids = vec![Some(Buffer::new(&[0, 0], 0))];
    let union = raw::Array::of(2, ids, vec![numbers(&[1, 2])], None, &count);
    let runs = raw::Array::values(1, None, &2i32.to_ne_bytes(), &count);
    let values = raw::Array::values(1, None, &[7], &count);
    let runs = raw::Array::of(2, vec![], vec![runs, values], None, &count);
    for (array, format, items) in [
        (union, "+us:0", vec![item("number", "C")]),
        (runs, "+r", vec![item("run_ends", "i"), item("values", "C")]),
    ] {
        let mut schema = Schema::of("", format, items, None, &count);
        schema.flags = 0;
        for child in 0..usize::try_from(schema.n_children).unwrap() {
            // SAFETY: there is a pointer for each child, and nothing else uses the child.
            unsafe { (**schema.children.add(child)).flags = 0 };
        }
        let rows = import(array, schema).unwrap();
        assert!(!rows.field().is_nullable());
        let taken = rows
            .take_valid(&[0u8, 9], Bits::new(&[0b01], 0, 2))
            .unwrap();
        assert!(taken.field().is_nullable(), "{format}");
        assert!(!rows.take(&[0u8]).unwrap().field().is_nullable());
    }
}

#[test]
fn a_format_that_stays_keeps_each_flag() {
    let count = Count::default();
    let array = raw::Array::values(1, None, &[7; 4], &count);
    let mut schema = Schema::new("", "i", &count);
    schema.flags = 6;
    let rows = import(array, schema).unwrap();
    let field = rows.field().clone();
    let same = Export::from(rows.clone()).with_field(&field).unwrap();
    assert_eq!(same.field(), &field);
    assert_eq!(Export::from(rows).with_format("i").unwrap().field(), &field);
}
