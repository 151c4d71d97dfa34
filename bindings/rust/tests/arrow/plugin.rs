//! The library of examples/plugin.rs, called as a program in C calls it.
#[path = "../../examples/plugin.rs"]
mod library;

use vortex_bits::arrow::{Array, ArrowArray, ArrowSchema, Export};

use crate::made::{Maker, rounds};
use crate::ranges::offsets;
use crate::raw::{self, Buffer, Count, Schema, import};
use crate::select::rows_as_they_came;
use library::{Pair, plugin_rebuild};

/// The rows that `plugin_rebuild` writes, or its errno.
fn rebuilt(rows: Array) -> Result<Array, i32> {
    let (mut array, mut schema) = Export::from(rows).into_raw();
    let (mut made, mut of) = (ArrowArray::empty(), ArrowSchema::empty());
    let pair = |array, schema| Pair { array, schema };
    let given = pair(&raw mut array, &raw mut schema);
    let out = pair(&raw mut made, &raw mut of);
    // SAFETY: those given are as the interface asks for, and those of `out` may be written.
    let errno = unsafe { plugin_rebuild(given, out) };
    assert!(array.release.is_none() && schema.release.is_none());
    if errno != 0 {
        return Err(errno);
    }
    // SAFETY: the library has written them.
    Ok(unsafe { Array::from_raw(&raw mut made, &raw mut of).unwrap() })
}

/// Batches with null rows, without columns, and with columns of each type.
#[test]
#[cfg_attr(miri, ignore = "values in a box of bytes are aligned by chance there")]
fn a_rebuilt_batch_has_all_rows() {
    let mut maker = Maker::new(21, false);
    for _ in 0..rounds(1000) {
        let len = maker.one_of(&[0, 1, 9, 40]);
        let (array, schema) = maker.tree_of(6, len, 2);
        let rows = import(array, schema).unwrap();
        let rows = rows.slice(maker.below(len + 1)..);
        let again = rebuilt(rows.clone()).unwrap();
        assert_eq!((again.len(), again.field()), (rows.len(), rows.field()));
        assert_eq!(rows_as_they_came(&again), rows_as_they_came(&rows));
    }
}

/// The column has a row more than the batch, and the offset after that row goes back.
#[test]
fn a_column_whose_offsets_go_back_is_refused() {
    let none = Count::default();
    let buffers = vec![
        None,
        Some(offsets(&[0, 5, 3], true, 0)),
        Some(Buffer::exact(b"abc")),
    ];
    let texts = raw::Array::new(2, buffers, &none);
    let rows = raw::Array::of(1, vec![None], vec![texts], None, &none);
    let fields = vec![Schema::new("name", "U", &none)];
    let rows = import(rows, Schema::of("", "+s", fields, None, &none)).unwrap();
    assert_eq!(rebuilt(rows).map(|rows| rows.len()), Err(22));
}
