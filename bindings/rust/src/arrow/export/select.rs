//! Exports selected rows of any type: those of a mask, those at indices, and those of several
//! arrays.

mod fixed;
mod joined;
mod made;
mod memory;
mod nested;
mod nodes;
mod rows;
mod runs;
mod tested;
mod unions;
mod variable;

use alloc::vec::Vec;
use core::slice;

use super::texts::values_error;
use super::{Export, OF_ARRAY};
use crate::arrow::array::Array;
use crate::arrow::difference::difference_of;
use crate::arrow::error::ArrowError;
use crate::arrow::ffi::{ArrowArray, Owned};
use crate::arrow::field::Field;
use crate::arrow::layout::{Layout, Of};
use crate::{BitIndex, Bits, Mask};
pub(super) use made::Owners;
use made::{Made, Nulls};
pub(super) use memory::all_true;
use memory::reserved;
use rows::{Rows, Runs};

/// If a mask selects at most one row in this many, the rows are selected by their indices. They are
/// computed once for all columns of a batch. For a single column of numbers or truth values it is
/// faster to read the mask word by word.
const SPARSE: usize = 64;

/// Rows of any type.
impl Array {
    /// Returns the rows that a mask selects, in their order, with their name, type, flags and
    /// metadata. For a batch it selects the rows of each column, so that `select * where` is one
    /// call.
    ///
    /// It copies the selected rows into new memory: numbers, truth values and texts, the columns of
    /// structs, the items of lists and unions, and one value for each run that still has a row. It
    /// shares the buffers of views, the items of list views and the dictionary; the whole array,
    /// for a column its whole batch, then stays allocated as long as they are in use. Of a chain of
    /// such calls only the first array stays, also through
    /// [`into_stream`](crate::arrow::ExportStream::into_stream). Through `from_raw` all arrays
    /// stay, and a chain of thousands overflows the stack when it is dropped. A batch without
    /// columns keeps its number of rows. Rows of the children of structs, fixed-size lists and
    /// sparse unions are copied, and may cause errors, even if the row above them is null or
    /// belongs to another child.
    ///
    /// ```
    /// use vortex_bits::arrow::Export;
    /// use vortex_bits::{Bitmap, Comparison, values};
    ///
    /// let names = Export::texts_or_nulls([Some("a"), None, Some("bc")]).named("name");
    /// let rows = Export::values(vec![7i64, 1, 9], None).named("number");
    /// let rows = Export::batch([names, rows]).into_array();
    ///
    /// // select * where number > 5
    /// let numbers = rows.column("number")?;
    /// let mask = values::compare(numbers.values::<i64>()?, Comparison::Greater, 5);
    /// let kept = rows.filter(&mask)?.into_array();
    ///
    /// assert_eq!(kept.column("number")?.values::<i64>()?, [7, 9]);
    /// assert!(kept.column("name")?.texts()?.iter().eq([&b"a"[..], b"bc"].map(Some)));
    /// assert_eq!(
    ///     rows.filter(Bitmap::new_set(2)).unwrap_err().to_string(),
    ///     "a mask of 2 bits for 3 rows"
    /// );
    /// # Ok::<(), vortex_bits::arrow::ArrowError>(())
    /// ```
    ///
    /// # Errors
    ///
    /// - Returns [`ArrowError::Mask`] if the mask has another number of bits than there are rows.
    /// - Returns [`ArrowError::Malformed`] if a selected text or list, except views, ends before it
    ///   begins or after the last byte or item of the array, if a row of a union names no child or
    ///   item, or if a buffer that the rows need is null. Below lists, runs and dense unions, the
    ///   row in the error counts from the first item that the selected rows have.
    /// - Returns [`ArrowError::TooLong`] if one child has more than 2^31 rows of a dense union, and
    ///   the errors of [`take`](Array::take) if its rows share items, or malformed texts share
    ///   bytes.
    /// - Returns [`ArrowError::Memory`] if memory runs out for the copies.
    #[doc(alias("where", "compress", "select"))]
    pub fn filter(&self, mask: impl Mask) -> Result<Export, ArrowError> {
        self.is_for(&mask)?;
        let of = slice::from_ref(self);
        match mask.mask() {
            Some(mask) => {
                let kept = mask.count_ones();
                let field = self.field().clone();
                let by_words = matches!(field.layout, Layout::Fixed(..) | Layout::Bits);
                if by_words || kept > mask.len() / SPARSE {
                    return export(field, of, Rows::Mask(mask, kept));
                }
                let mut places = reserved(&field, kept)?;
                places.extend(mask.set_indices());
                export(field, of, Rows::Places(&places, None))
            }
            None => Export::concat(self.field(), of),
        }
    }

    /// Returns the rows at indices, in the order of the indices, as [`filter`](Array::filter)
    /// returns those of a mask. An index may occur more than once. This is also called gather.
    ///
    /// ```
    /// use vortex_bits::arrow::Export;
    ///
    /// let names = Export::texts(["a", "bc"], None).named("name");
    /// let rows = Export::batch([names]).into_array();
    /// let taken = rows.take(&[1u32, 1, 0])?.into_array();
    /// assert!(taken.column("name")?.texts()?.iter().eq([&b"bc"[..], b"bc", b"a"].map(Some)));
    /// assert_eq!(
    ///     rows.take(&[0, -1]).unwrap_err().to_string(),
    ///     "index -1 at position 1 names none of 2 values"
    /// );
    /// # Ok::<(), vortex_bits::arrow::ArrowError>(())
    /// ```
    ///
    /// # Errors
    ///
    /// - Returns [`ArrowError::Take`] with the first index that names no row.
    /// - Returns [`ArrowError::LongTexts`] or [`ArrowError::TooLong`] if offsets of 32 bits or the
    ///   ends of runs can't represent the ends of the rows.
    /// - Returns [`ArrowError::TooLong`] if there are 2^63 items of lists or more, and
    ///   [`ArrowError::Memory`] with `usize::MAX` bytes if their number isn't a `usize`. Both are
    ///   possible if these take no memory.
    /// - Returns the errors of `filter`.
    #[doc(alias = "gather")]
    pub fn take<I: BitIndex>(&self, indices: &[I]) -> Result<Export, ArrowError> {
        self.take_valid(indices, None::<Bits<'_>>)
    }

    /// Returns the rows at the valid indices as [`take`](Array::take) does, and a null row for each
    /// other index, whatever its number is. If there is such an index, the column may have nulls.
    ///
    /// Within a null row of a struct or of a fixed-size list, the children are null too if they may
    /// have nulls; otherwise they are 0, false, an empty text, an empty list or the first item of a
    /// dictionary. A null row of a union belongs to its first child.
    ///
    /// ```
    /// use vortex_bits::Bits;
    /// use vortex_bits::arrow::Export;
    ///
    /// let rows = Export::values([7i64, 9], None).into_array();
    /// let valid = Bits::new(&[0b101], 0, 3);
    /// let taken = rows.take_valid(&[1i8, -7, 0], valid)?.into_array();
    /// assert_eq!(taken.values::<i64>()?, [9, 0, 7]);
    /// assert_eq!(taken.validity()?.bits(), Some(valid));
    /// # Ok::<(), vortex_bits::arrow::ArrowError>(())
    /// ```
    ///
    /// # Errors
    ///
    /// - Returns [`ArrowError::Take`] if the validity doesn't have one bit per index, with the
    ///   first valid index that names no row, and if a null row would have to name an item of an
    ///   empty dictionary.
    /// - Returns [`ArrowError::Type`] for null rows of a union without children.
    /// - Returns the errors of `take`.
    pub fn take_valid<I: BitIndex>(
        &self,
        indices: &[I],
        validity: impl Mask,
    ) -> Result<Export, ArrowError> {
        crate::take::one_each(indices, &validity)
            .map_err(|error| self.not_taken(values_error(error)))?;
        // The bits are read once: their owner may return other bytes in another call.
        let valid = validity.mask();
        let places = self.places(indices, valid)?;
        let rows = Rows::Places(&places, valid);
        let field = self.field().clone();
        let field = if rows.has_nulls() {
            field.or_null()
        } else {
            field
        };
        export(field, slice::from_ref(self), rows)
    }

    /// Tests that a mask has one bit per row.
    pub(in crate::arrow) fn is_for(&self, mask: &impl Mask) -> Result<(), ArrowError> {
        let (rows, bits) = (self.len, mask.mask_len().unwrap_or(self.len));
        if bits == rows {
            return Ok(());
        }
        let column = self.node.field.name.clone();
        Err(ArrowError::Mask { column, bits, rows })
    }

    /// Returns the indices as row numbers. The number at an index that isn't valid is 0 or
    /// arbitrary.
    fn places<I: BitIndex>(
        &self,
        indices: &[I],
        valid: Option<Bits<'_>>,
    ) -> Result<Vec<usize>, ArrowError> {
        let mut is_wrong = false;
        let row = |index: &I| {
            let row = index.place().unwrap_or(usize::MAX);
            is_wrong |= row >= self.len;
            row
        };
        let mut rows = reserved(self.field(), indices.len())?;
        rows.extend(indices.iter().map(row));
        if is_wrong {
            self.are_names(indices, valid, &mut rows)?;
        }
        Ok(rows)
    }

    /// Sets the row of each null index that is out of bounds to 0. Returns an error for the first
    /// valid index that is out of bounds.
    #[cold]
    fn are_names<I: BitIndex>(
        &self,
        indices: &[I],
        valid: Option<Bits<'_>>,
        rows: &mut [usize],
    ) -> Result<(), ArrowError> {
        for (position, (row, index)) in rows.iter_mut().zip(indices).enumerate() {
            if *row < self.len {
                continue;
            }
            if valid.is_none_or(|valid| valid[position]) {
                return Err(self.lost(position, index.number(), self.len));
            }
            *row = 0;
        }
        Ok(())
    }
}

/// Rows of several arrays.
impl Export {
    /// Returns the rows of arrays, one array after the other, with the name, type, flags and
    /// metadata of a field, such as that of the stream whose batches they are. Without arrays there
    /// are no rows. If the arrays have several dictionaries, the joined one may have an item twice:
    /// rows with different indices may then be equal.
    ///
    /// It copies the rows as [`Array::filter`] does. Arrays that share memory, such as slices,
    /// selected rows and exports of one array, continue to share the dictionary, the items of list
    /// views and the buffers of views. Otherwise it copies the dictionaries and the items of list
    /// views of the arrays with a valid row, array by array and each once, and adjusts the indices
    /// and offsets. The items of a joined dictionary are then in no order, whatever the field's
    /// flags say. If only one array has a valid row, its dictionary and its items are shared too.
    /// The buffers of views are never copied: each array with a row then stays allocated.
    ///
    /// ```
    /// use vortex_bits::arrow::{Export, Field};
    ///
    /// let batch = |names| {
    ///     Export::batch([Export::texts(names, None).named("name")]).into_array()
    /// };
    /// let batches = [batch(vec!["a", "bc"]), batch(vec![]), batch(vec!["d"])];
    /// let field = batches[0].field();
    /// let rows = Export::concat(field, &batches)?.into_array();
    /// assert!(rows.column("name")?.texts()?.iter().eq([&b"a"[..], b"bc", b"d"].map(Some)));
    /// assert_eq!(Export::concat(field, &[])?.len(), 0);
    ///
    /// let other = Export::concat(&Field::batch([]), &batches).unwrap_err();
    /// assert_eq!(other.to_string(), "the array has the number of columns 1, the field 0");
    /// # Ok::<(), vortex_bits::arrow::ArrowError>(())
    /// ```
    ///
    /// # Errors
    ///
    /// Errors name the columns as the field does.
    ///
    /// - Returns [`ArrowError::Field`] if an array has another type or other flags than the field,
    ///   or a null that its own type allows and the field doesn't. Nulls in dictionaries, in the
    ///   items of lists, runs and unions, and below null rows of a struct count even if no row has
    ///   them.
    /// - Returns [`ArrowError::LongTexts`] or [`ArrowError::TooLong`] if offsets of 32 bits, the
    ///   ends of runs or the indices of a dictionary can't represent all rows.
    /// - Returns [`ArrowError::TooLong`] if there are 2^63 rows or items or more, and
    ///   [`ArrowError::Memory`] with `usize::MAX` bytes if their number isn't a `usize`. Both are
    ///   possible if these take no memory.
    /// - If valid rows have several dictionaries, returns [`ArrowError::Take`] with the first valid
    ///   index of an array that names no item of its own dictionary. Below lists, runs and unions,
    ///   positions count from the first item that the rows of the array have.
    /// - If the arrays don't share the items of their list views, returns [`ArrowError::Malformed`]
    ///   for a list view that is out of bounds of its items. If they don't share the buffers of
    ///   their views, returns the errors of [`Array::texts`].
    /// - Returns the errors of `filter`.
    pub fn concat(field: &Field, arrays: &[Array]) -> Result<Export, ArrowError> {
        for array in arrays {
            if let Some(difference) = difference_of(array, field, &OF_ARRAY) {
                let column = field.name.clone();
                return Err(ArrowError::Field { column, difference });
            }
        }
        let all = Runs::whole(field, arrays.iter().map(Array::len))?;
        export(field.clone(), arrays, all.rows())
    }
}

fn export(field: Field, of: &[Array], rows: Rows<'_>) -> Result<Export, ArrowError> {
    Ok(Export {
        array: selected(&field, of, rows)?,
        field,
        len: rows.len(),
    })
}

/// Copies rows of arrays of one type. If rows take no memory, there may be more of them than an
/// array can have.
fn selected(field: &Field, of: &[Array], rows: Rows<'_>) -> Result<Owned<ArrowArray>, ArrowError> {
    if i64::try_from(rows.len()).is_err() {
        return Err(too_long(field, "rows", rows.len(), i64::MAX));
    }
    if of.len() > 1 && of.iter().any(Array::is_empty) {
        let (of, runs) = Runs::of_full(field, of, rows)?;
        return selected(field, &of, runs.rows());
    }
    let nulls = match field.layout {
        Layout::Nulls => Nulls::Unmarked(rows.len()),
        layout if layout.has_validity() => Nulls::Marked(fixed::validity(field, of, rows)?),
        _ => Nulls::Unmarked(0),
    };
    let made = match (field.layout, &field.dictionary) {
        (Layout::Bits, _) => Made::of([fixed::bits(field, of, rows)?]),
        (Layout::Fixed(..), Some(items)) => {
            nested::coded(field, items, of, rows, nulls.valid(rows.len()))?
        }
        (Layout::Fixed(_, width), None) => Made::of([fixed::own_values(field, width, of, rows)?]),
        (Layout::Ranges(width, Of::Bytes), _) => {
            variable::texts(field, width, of, rows, nulls.valid(rows.len()))?
        }
        (Layout::Ranges(width, Of::Items), _) => {
            variable::lists(field, width, of, rows, nulls.valid(rows.len()))?
        }
        (Layout::Views, _) => variable::views(field, of, rows, nulls.valid(rows.len()))?,
        (Layout::Struct, _) => nested::structs(field, of, rows)?,
        (Layout::Lists(each), _) => nested::fixed_lists(field, each, of, rows)?,
        (Layout::ListViews(width), _) => {
            nested::list_views(field, width, of, rows, nulls.valid(rows.len()))?
        }
        (Layout::Runs, _) => runs::runs(field, of, rows)?,
        (Layout::Nulls, _) => Made::default(),
        (Layout::Union { is_sparse, .. }, _) if is_sparse => unions::sparse(field, of, rows)?,
        (Layout::Union { .. }, _) => unions::dense(field, of, rows)?,
    };
    Ok(made.array(rows.len(), nulls))
}

/// Returns a function that names the column in an error of an array, which may have another name.
fn of_column(field: &Field) -> impl Fn(ArrowError) -> ArrowError + '_ {
    |error| error.of(&field.name)
}

/// Returns an error of a child with the names of the child and of the column.
#[cold]
fn below(field: &Field, place: usize, error: ArrowError) -> ArrowError {
    let error = match &field.children[place].name {
        name if name.is_empty() => error.under(&field.name_of(place)),
        _ => error,
    };
    match &field.name {
        name if name.is_empty() => error,
        name => error.under(name),
    }
}

/// Returns the result of `call` for a part of each array. The part of a single array gets no `Vec`:
/// a batch of few rows takes as long for its allocations as for the rows.
fn with_each<'a, T, R>(
    of: &'a [Array],
    part: impl Fn(&'a Array) -> Result<T, ArrowError>,
    call: impl FnOnce(&[T]) -> Result<R, ArrowError>,
) -> Result<R, ArrowError> {
    match of {
        [one] => call(&[part(one)?]),
        _ => call(&of.iter().map(part).collect::<Result<Vec<T>, _>>()?),
    }
}

/// Returns the child at `place` of each array, whole.
fn whole(of: &[Array], place: usize) -> Vec<Array> {
    of.iter()
        .map(|it| Array::whole(it.node.as_ref().child(place)))
        .collect()
}

/// Writes an integer of `width` bytes. The caller has tested that it fits.
fn put(bytes: &mut [u8], place: usize, width: usize, number: usize) {
    let number = u64::try_from(number).unwrap_or(u64::MAX);
    let out = &mut bytes[place * width..][..width];
    match width {
        4 => out.copy_from_slice(&u32::try_from(number).unwrap_or(u32::MAX).to_ne_bytes()),
        8 => out.copy_from_slice(&number.to_ne_bytes()),
        2 => out.copy_from_slice(&u16::try_from(number).unwrap_or(u16::MAX).to_ne_bytes()),
        _ => out.fill(u8::try_from(number).unwrap_or(u8::MAX)),
    }
}

#[cold]
fn too_long(field: &Field, what: &'static str, number: usize, most: i64) -> ArrowError {
    ArrowError::TooLong {
        column: field.name.clone(),
        what,
        number,
        most,
    }
}
