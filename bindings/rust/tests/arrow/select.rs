//! Rows of each type selected by masks, at indices and from several arrays, compared with the rows
//! that a plain reader finds one by one in the input and in the export.
use vortex_bits::arrow::{Array, ArrowError, Export, Field};
use vortex_bits::{Bitmap, Bits};

use crate::cells::{Cell, cells};
use crate::export::{as_it_came, raw_of};
use crate::made::{Maker, rounds};
use crate::ranges::view;
use crate::raw::{self, Buffer, Count, import};

fn read((mut array, mut schema): (raw::Array, raw::Schema)) -> Vec<Cell> {
    // SAFETY: they are as the interface asks for, and aren't released.
    unsafe {
        let read = cells(&array, &schema);
        array.release.unwrap()(&raw mut array);
        schema.release.unwrap()(&raw mut schema);
        read
    }
}

/// The rows of an export, read from its structs. Tests that they are valid, and that the rows are
/// the same after an import and another export.
#[track_caller]
pub fn rows_of(export: Export) -> Vec<Cell> {
    let (field, len) = (export.field().clone(), export.len());
    let (array, schema) = raw_of(export);
    // SAFETY: they are as the interface asks for.
    let rows = unsafe { cells(&array, &schema) };
    let again = import(array, schema).unwrap();
    assert_eq!((again.field(), again.len(), rows.len()), (&field, len, len));
    let start = len / 3;
    assert_eq!(rows_as_they_came(&again.slice(start..)), rows[start..]);
    rows
}

pub fn rows_as_they_came(array: &Array) -> Vec<Cell> {
    read(as_it_came(Export::from(array.clone())))
}

/// Rows by chance, and what they are.
fn some(maker: &mut Maker, levels: usize) -> (Array, Vec<Cell>) {
    let len = maker.one_of(&[0, 1, 5, 9, 40, 200]);
    let (array, schema) = maker.tree(len, levels);
    let part = part(maker, &import(array, schema).unwrap());
    let rows = rows_as_they_came(&part);
    (part, rows)
}

fn part(maker: &mut Maker, array: &Array) -> Array {
    let start = maker.below(array.len().min(20) + 1);
    let len = maker.below(array.len() - start + 1);
    array.slice(start..start + len)
}

/// A random mask at a random offset: of single rows and of runs, or of at most one row in 64, which
/// a filter selects by their indices.
fn mask(maker: &mut Maker, len: usize) -> Bitmap {
    let offset = maker.below(20);
    if maker.below(4) == 0 {
        let few: Vec<usize> = (0..len / 64).map(|_| offset + maker.below(len)).collect();
        return Bitmap::from_indices(offset + len, &few).slice(offset..);
    }
    let each = maker.one_of(&[1, 3, 30]);
    let all = (offset + len).div_ceil(each);
    let runs: Vec<bool> = (0..all).map(|_| maker.below(2) == 0).collect();
    let bits: Bitmap = (0..offset + len).map(|at| runs[at / each]).collect();
    bits.slice(offset..)
}

#[test]
fn rows_that_a_mask_keeps_are_those_of_a_plain_reader() {
    let mut maker = Maker::new(11, false);
    for _ in 0..rounds(1500) {
        maker.count = Count::default();
        let (array, rows) = some(&mut maker, 2);
        let mask = mask(&mut maker, array.len());
        let kept = array.filter(&mask).unwrap();
        assert_eq!(kept.field(), array.field());
        let wanted: Vec<Cell> = mask.set_indices().map(|row| rows[row].clone()).collect();
        assert_eq!(rows_of(kept), wanted, "{array:?}");
        assert_eq!(
            rows_of(array.filter(None::<Bits>).unwrap()),
            rows,
            "{array:?}"
        );
    }
}

#[test]
fn rows_at_indices_are_those_of_a_plain_reader() {
    let mut maker = Maker::new(12, false);
    for _ in 0..rounds(1500) {
        maker.count = Count::default();
        let (array, rows) = some(&mut maker, 2);
        let len = if rows.is_empty() { 0 } else { maker.below(50) };
        let indices: Vec<u16> = (0..len)
            .map(|_| maker.below(rows.len()).try_into().unwrap())
            .collect();
        let taken = array.take(&indices).unwrap();
        assert_eq!(taken.field(), array.field());
        let wanted = indices.iter().map(|row| rows[usize::from(*row)].clone());
        assert_eq!(rows_of(taken), wanted.collect::<Vec<_>>(), "{array:?}");
    }
}

#[test]
fn rows_at_indices_that_may_be_null_are_those_of_a_plain_reader() {
    let mut maker = Maker::new(13, false);
    let mut without_items = 0;
    for _ in 0..rounds(1500) {
        maker.count = Count::default();
        let (array, rows) = some(&mut maker, 2);
        let len = maker.below(50);
        let valid = mask(&mut maker, len);
        let valid = if rows.is_empty() {
            Bitmap::new_unset(len)
        } else {
            valid
        };
        let of = |maker: &mut Maker| i64::try_from(maker.below(rows.len())).unwrap();
        let indices: Vec<i64> = (0..len)
            .map(|row| {
                if valid[row] {
                    of(&mut maker)
                } else {
                    maker.one_of(&[-1, 0, i64::MAX])
                }
            })
            .collect();
        let taken = match array.take_valid(&indices, &valid) {
            Err(ArrowError::Take { .. }) => {
                without_items += 1;
                continue;
            }
            taken => taken.unwrap(),
        };
        let field = array.field();
        assert!(!valid.all() || taken.field() == field);
        assert_eq!(taken.field().name(), field.name());
        assert!(taken.field().metadata().eq(field.metadata()));
        let wanted = indices.iter().enumerate().map(|(at, row)| {
            let row = usize::try_from(*row).ok().filter(|_| valid[at]);
            row.map_or(Cell::Null, |row| rows[row].clone())
        });
        assert_eq!(rows_of(taken), wanted.collect::<Vec<_>>(), "{array:?}");
    }
    assert!(without_items < rounds(1500) / 100);
}

#[test]
fn rows_of_several_arrays_are_those_of_a_plain_reader() {
    let mut maker = Maker::new(14, false);
    for _ in 0..rounds(1000) {
        maker.count = Count::default();
        let (equal, _) = some(&mut maker.clone(), 2);
        let (array, _) = some(&mut maker, 2);
        // Parts of one array, or also of another one: the same imported again, or an equal one in
        // other memory.
        let (imported, schema) = raw_of(Export::from(array.clone()));
        let again = import(imported, schema).unwrap();
        let both = [&array, maker.one_of(&[&array, &again, &equal])];
        let arrays: Vec<Array> = (0..maker.below(5))
            .map(|_| {
                let of = maker.one_of(&both);
                part(&mut maker, of)
            })
            .collect();
        let rows: Vec<Cell> = arrays.iter().flat_map(rows_as_they_came).collect();
        let joined = Export::concat(array.field(), &arrays).unwrap();
        assert_eq!(joined.field(), array.field());
        assert_eq!(rows_of(joined), rows, "{array:?}");
    }
}

/// Arrays of one type that share nothing: their dictionaries and buffers are put together.
#[test]
fn rows_of_other_arrays_are_those_of_a_plain_reader() {
    let (mut maker, mut joined) = (Maker::new(15, false), 0);
    let mut refused = 0;
    let mut found: Vec<Array> = Vec::new();
    for _ in 0..rounds(1500) {
        let (array, rows) = some(&mut maker, 1);
        let field = array.field().clone().nullable(true);
        let alike = |other: &&Array| other.field().format() == field.format();
        let others = found.iter().filter(alike).find_map(|other| {
            let both = [other.clone(), array.clone()];
            Some((Export::concat(&field, &both), rows_as_they_came(other)))
                .filter(|(joined, _)| !matches!(joined, Err(ArrowError::Field { .. })))
        });
        match others {
            Some((Ok(both), mut before)) => {
                before.extend(rows);
                assert_eq!(rows_of(both), before, "{array:?}");
                joined += 1;
            }
            Some((Err(error), _)) => {
                assert!(matches!(error, ArrowError::TooLong { .. }), "{error}");
                refused += 1;
            }
            None => (),
        }
        found.insert(0, array);
        found.truncate(40);
    }
    println!("{joined} joined, {refused} refused");
    assert!(joined > rounds(1500) / 4 && refused < joined / 10);
}

/// The children of a null row are null if they may be null, otherwise 0 or empty.
#[test]
fn children_of_null_rows_are_null_or_empty() {
    let columns = || {
        let words = Export::texts(["no", "yes"], None);
        let coded = Export::values(vec![1i8], None).with_dictionary(words);
        [
            Export::values(vec![7i64], None),
            Export::bits(Bitmap::from([true]), None),
            Export::texts(["a"], None),
            coded.unwrap(),
        ]
    };
    for may_be_null in [false, true] {
        let columns = columns().map(|column| {
            let field = column.field().clone().nullable(may_be_null);
            column.with_field(&field).unwrap()
        });
        let rows = Export::structs(1, columns, None).into_array();
        let taken = rows.take_valid(&[0u8, 9], Bits::new(&[0b01], 0, 2));
        let taken = taken.unwrap().into_array();
        assert_eq!(
            taken.validity().unwrap().bits(),
            Some(Bits::new(&[0b01], 0, 2))
        );

        let columns: Vec<Array> = taken.columns().unwrap().collect();
        for column in &columns {
            assert_eq!(column.field().is_nullable(), may_be_null);
            assert_eq!(column.null_count().unwrap(), usize::from(may_be_null));
        }
        let [number, flag, text, coded] = &columns[..] else {
            unreachable!()
        };
        assert_eq!(number.values::<i64>().unwrap(), [7, 0]);
        assert_eq!(flag.bits().unwrap(), Bits::new(&[0b01], 0, 2));
        assert!(
            text.texts()
                .unwrap()
                .iter()
                .eq([Some(&b"a"[..]), (!may_be_null).then_some(b"")])
        );
        assert_eq!(coded.dictionary_indices().unwrap(), [1, 0]);
    }
}

/// Some consumers refuse a buffer that isn't aligned, even if no row needs it.
#[test]
fn buffers_of_no_rows_are_aligned() {
    let numbers = Export::values([1i64, 2], None);
    let codes = Export::values([1i32, 0], None);
    let codes = codes.with_dictionary(Export::texts(["a", "b"], None));
    let of = [numbers, codes.unwrap()].map(Export::into_array);
    let none = of
        .iter()
        .map(|it| it.filter(Bits::new(&[0], 0, 2)).unwrap());
    let nowhere = of.iter().map(|it| it.take(&[0u8; 0]).unwrap());
    let joined = ["s", "l", "d:5,2", "vu", "u", "U"];
    let joined = joined.map(|format| Field::new("", format).unwrap());
    let joined = joined.map(|field| Export::concat(&field, &[]).unwrap());
    for export in none.chain(nowhere).chain(joined) {
        let (mut array, mut schema) = raw_of(export);
        // SAFETY: there is a pointer for each buffer, and neither struct is released.
        unsafe {
            for place in 1..usize::try_from(array.n_buffers).unwrap() {
                let buffer = *array.buffers.add(place);
                assert!(buffer.cast::<u128>().is_aligned(), "{buffer:?}");
            }
            array.release.unwrap()(&raw mut array);
            schema.release.unwrap()(&raw mut schema);
        }
    }
}

/// Of a chain of steps over shared rows only the first array stays: the memory of the steps between
/// is released, and a drop of the last one needs no stack for each.
#[test]
fn steps_over_shared_rows_keep_the_first_array_only() {
    let count = Count::default();
    let items = raw::Array::values(2, None, &[7, 9], &count);
    let codes = vec![None, Some(Buffer::new(&[1, 0], 0))];
    let codes = raw::Array::of(2, codes, vec![], Some(items), &count);
    let items = raw::Schema::new("", "C", &count);
    let schema = raw::Schema::of("city", "c", vec![], Some(items), &count);
    let first = import(codes, schema).unwrap();
    let text = "a text of many bytes";
    let views = view(text, 0, 0).repeat(2);
    let views = [&views[..], text.as_bytes(), &20i64.to_ne_bytes()];
    let views = views.map(|bytes| Some(Buffer::new(bytes, 0)));
    let views = raw::Array::new(2, [None].into_iter().chain(views).collect(), &count);
    let views = import(views, raw::Schema::new("name", "vu", &count)).unwrap();
    let released = count.get();

    let numbers = Export::values([1i64, 2], None).named("number");
    let batch = Export::batch(
        [first.clone(), views]
            .map(Export::from)
            .into_iter()
            .chain([numbers]),
    );
    let mut rows = batch.into_array();
    let mut same = first;
    for step in 0..30_000 {
        same = Export::from(same.slice(0..2)).into_array();
        if step % 2 == 0 {
            rows = Export::from(rows).into_array();
        }
        rows = rows.filter(Bits::new(&[0b11], 0, 2)).unwrap().into_array();
    }
    assert_eq!(same.values::<i8>().unwrap(), [1, 0]);
    let city = rows.column("city").unwrap();
    assert_eq!(city.values::<i8>().unwrap(), [1, 0]);
    assert_eq!(city.dictionary().unwrap().values::<u8>().unwrap(), [7, 9]);
    assert_eq!(
        rows.column("number").unwrap().values::<i64>().unwrap(),
        [1, 2]
    );
    let name = rows.column("name").unwrap();
    let field = name.field().clone();
    let mut joined = name.clone();
    for _ in 0..100 {
        let both = [joined.slice(1..2), name.slice(0..1)];
        joined = Export::concat(&field, &both).unwrap().into_array();
    }
    drop((rows, city));
    assert_eq!(count.get(), released);
    drop(name);
    let texts = joined.texts().unwrap();
    assert!(texts.iter().eq([Some(text.as_bytes()); 2]));
    drop(joined);
    assert_eq!(count.get(), released + 1);
    assert_eq!(same.dictionary().unwrap().values::<u8>().unwrap(), [7, 9]);
    drop(same);
    assert_eq!(count.get(), released + 3);
}
