//! Exports rows of several columns.

use alloc::vec::Vec;
use core::ptr;

use super::held::{Held, Kept};
use super::{Export, from_bit, start_of};
use crate::Bitmap;
use crate::arrow::ffi::Below;
use crate::arrow::field::Field;

/// Structs.
impl Export {
    /// Returns a batch: rows of columns, which the consumer finds by their names. Without columns
    /// the batch has no rows: [`structs`](Export::structs) has a parameter for the number of rows.
    ///
    /// # Panics
    ///
    /// Panics if the columns have different lengths.
    #[must_use]
    #[track_caller]
    pub fn batch(columns: impl IntoIterator<Item = Export>) -> Export {
        let mut columns = columns.into_iter().peekable();
        let len = columns.peek().map_or(0, Export::len);
        Export::structs(len, columns, None)
    }

    /// Returns `len` rows of columns. `valid` has a bit per row, true if the row isn't null; None
    /// means that all are valid, as in a batch. A batch of no columns can have rows this way, for a
    /// query that reads none.
    ///
    /// ```
    /// use vortex_bits::Bitmap;
    /// use vortex_bits::arrow::Export;
    ///
    /// assert_eq!(Export::structs(1000, [], None).len(), 1000);
    ///
    /// let places = [[4.5, 0.0], [51.9, 0.0]].map(|it| Export::values(it, None));
    /// let places = places.into_iter().zip(["x", "y"]).map(|(it, name)| it.named(name));
    /// let valid = Bitmap::from([true, false]);
    /// let place = Export::structs(2, places, Some(valid.clone())).named("place").into_array();
    /// assert_eq!(place.validity()?.bits(), Some(valid.bits()));
    /// assert_eq!(place.column("y")?.values::<f64>()?, [51.9, 0.0]);
    /// # Ok::<(), vortex_bits::arrow::ArrowError>(())
    /// ```
    ///
    /// # Panics
    ///
    /// Panics if a column has another number of rows, the validity another number of bits, or if
    /// there are 2^63 rows or more.
    #[must_use]
    #[track_caller]
    pub fn structs(
        len: usize,
        columns: impl IntoIterator<Item = Export>,
        valid: Option<Bitmap>,
    ) -> Export {
        assert!(i64::try_from(len).is_ok(), "{len} rows");
        let (mut fields, mut children) = (Vec::new(), Vec::new());
        for column in columns {
            let own = column.len;
            assert!(own == len, "columns of {len} and {own} rows");
            fields.push(column.field);
            children.push(column.array);
        }
        let field = Field::batch(fields).nullable(valid.is_some());
        let below = Below::new(children);
        let bits = valid.as_ref().map_or(len, Bitmap::len);
        assert!(bits == len, "{bits} bits of validity for {len} values");
        let nulls = valid.as_ref().map_or(0, Bitmap::count_zeros);
        let valid = valid.filter(|_| nulls > 0).map(|it| from_bit(it, 0));
        let validity = valid.as_ref().map_or(ptr::null(), |it| start_of(it.bits()));
        let held = Held {
            buffers: [validity].into_iter().collect(),
            below,
            kept: Kept::Struct(valid),
        };
        Export {
            array: held.array(len, Some(nulls), 0),
            field,
            len,
        }
    }
}
