//! Arrays of each type, made by hand at every offset up to 127, that are exported, filtered, taken
//! and joined: compared with the rows that a plain reader finds one by one.
use vortex_bits::arrow::{Array, Export};
use vortex_bits::{Bitmap, Bits};

use crate::cells::Cell;
use crate::export::ReadBack;
use crate::made::{KINDS, Maker};
use crate::raw::{Count, import};
use crate::select::{rows_as_they_came, rows_of};

/// A random array, and what a plain reader finds in it.
fn some(maker: &mut Maker, kind: usize, offset: usize) -> (Array, Vec<Cell>) {
    maker.count = Count::default();
    maker.offset = Some(offset);
    let len = maker.one_of(&[1, 9, 70]);
    let (array, schema) = maker.tree_of(kind, len, 1);
    let array = import(array, schema).unwrap();
    let rows = rows_as_they_came(&array);
    (array, rows)
}

#[test]
fn rows_at_every_offset_are_those_of_a_plain_reader() {
    let mut maker = Maker::new(31, false);
    for offset in (0..128).step_by(if cfg!(miri) { 50 } else { 1 }) {
        for kind in 0..KINDS {
            let (array, rows) = some(&mut maker, kind, offset);
            let what = format!("{array:?} at {offset}");
            let again = Export::from(array.clone()).read_back();
            assert_eq!((again.field(), again.len()), (array.field(), rows.len()));
            assert_eq!(rows_as_they_came(&again), rows, "{what}");

            let mask: Bitmap = (0..rows.len()).map(|_| maker.below(3) > 0).collect();
            let kept = array.filter(&mask).unwrap();
            assert_eq!(kept.field(), array.field());
            let wanted: Vec<Cell> = mask.set_indices().map(|row| rows[row].clone()).collect();
            assert_eq!(rows_of(kept), wanted, "{what}");

            let places: Vec<u32> = mask
                .set_indices()
                .rev()
                .map(|row| row.try_into().unwrap())
                .collect();
            let taken = array.take(&places).unwrap();
            assert!(rows_of(taken).iter().rev().eq(&wanted), "{what}");

            let start = rows.len() / 2;
            let both = [array.slice(start..), again];
            let joined = rows_of(Export::concat(array.field(), &both).unwrap());
            assert_eq!(joined[..rows.len() - start], rows[start..], "{what}");
            assert_eq!(joined[rows.len() - start..], rows, "{what}");
        }
    }
}

/// Names, flags and metadata of a batch and of its columns go through each call.
#[test]
fn fields_go_through_each_call() {
    use vortex_bits::arrow::Field;
    let column = |name: &str, format: &str| Field::new(name, format).unwrap();
    let id = column("id", "l")
        .nullable(false)
        .with_metadata([("key", "1")]);
    let name = column("name", "U").with_metadata([("k", "v"), ("", "")]);
    let batch = Field::batch([id, name]).with_metadata([("of", "rows")]);
    let rows = Export::batch([
        Export::values(vec![1i64, 2, 3], None).named("id"),
        Export::texts_or_nulls([Some("a"), None, Some("c")]).named("name"),
    ]);
    let rows = rows.with_field(&batch).unwrap().read_back();
    let mask = Bits::new(&[0b110], 0, 3);
    let all = [
        rows.filter(mask),
        rows.filter(None::<Bits>),
        rows.take(&[2u8, 2]),
        rows.take_valid(&[2u8, 0], Bits::new(&[0b11], 0, 2)),
        Export::concat(&batch, &[rows.clone(), rows.slice(1..)]),
        Export::concat(&batch, &[]),
        rows.slice(1..).try_into_export(),
    ];
    for export in all {
        let array = export.unwrap().read_back();
        assert_eq!(array.field(), &batch);
        for (column, field) in array.columns().unwrap().zip(batch.fields()) {
            assert_eq!(column.field(), field);
            assert_eq!(batch.column(field.name()).unwrap(), field);
            let metadata = column.field().metadata().map(|(key, _)| key.len());
            assert!(metadata.eq(if field.name() == "id" {
                vec![3]
            } else {
                vec![1, 0]
            }));
        }
    }
    // A null row sets only the batch's flag for nulls.
    let taken = rows
        .take_valid(&[2u8, 0], Bits::new(&[0b01], 0, 2))
        .unwrap();
    assert_eq!(taken.field(), &batch.nullable(true));
}
