//! Columns with a dictionary.

use alloc::vec::Vec;
use core::ops::Range;

use super::Array;
use crate::arrow::error::{ArrowError, Fault};
use crate::arrow::export::Export;
use crate::arrow::layout::{Kind, Layout};
use crate::arrow::primitive::Primitive;
use crate::{BitIndex, Bitmap, TakeError, TakeValuesError, Validity, Value, values};

/// Values and their validity.
type Column<T> = (Vec<T>, Option<Bitmap>);

/// Calls a method of a column. Its last type parameter is the type of the dictionary indices.
macro_rules! by_index {
    ($column:ident.$call:ident::<$($type:ident,)? _>($items:expr)) => {
        match $column.node.field.layout {
            Layout::Fixed(Kind::Signed, 1) => $column.$call::<$($type,)? i8>($items),
            Layout::Fixed(Kind::Signed, 2) => $column.$call::<$($type,)? i16>($items),
            Layout::Fixed(Kind::Signed, 4) => $column.$call::<$($type,)? i32>($items),
            Layout::Fixed(Kind::Signed, 8) => $column.$call::<$($type,)? i64>($items),
            Layout::Fixed(Kind::Unsigned, 1) => $column.$call::<$($type,)? u8>($items),
            Layout::Fixed(Kind::Unsigned, 2) => $column.$call::<$($type,)? u16>($items),
            Layout::Fixed(Kind::Unsigned, 4) => $column.$call::<$($type,)? u32>($items),
            Layout::Fixed(Kind::Unsigned, 8) => $column.$call::<$($type,)? u64>($items),
            _ => Err($column.is_not("that of indices")),
        }
    };
}

/// Dictionaries.
impl Array {
    /// Decodes a column with a dictionary: returns the item of each row in new memory, and which
    /// rows are valid. A row is valid if its index and its item are. The validity is `None` if
    /// neither has validity bits: all rows are valid then. The values of null rows are arbitrary.
    /// Their indices may be any numbers, since the interface doesn't define them. If the items have
    /// a dictionary too, it returns their indices, and ignores the nulls of that dictionary.
    ///
    /// It is the same as [`values::take_valid`] of the items and [`Validity::take_valid`] of their
    /// validity, with [`values`](Array::values) of the column's index type.
    ///
    /// ```
    /// use vortex_bits::Bitmap;
    /// use vortex_bits::arrow::Export;
    ///
    /// let items = Export::values(vec![9.5, 0.0, 12.0], Some([true, false, true].into()));
    /// let valid = Bitmap::from([true, true, false, true]);
    /// let rows = Export::values(vec![2i8, 1, -7, 0], Some(valid)).with_dictionary(items)?;
    ///
    /// let (prices, valid) = rows.into_array().dictionary_values::<f64>()?;
    /// assert_eq!((prices[0], prices[3]), (12.0, 9.5));
    /// assert_eq!(valid, Some([true, false, false, true].into()));
    /// # Ok::<(), vortex_bits::arrow::ArrowError>(())
    /// ```
    ///
    /// # Errors
    ///
    /// - Returns [`ArrowError::Type`] if the column has no dictionary, or the items have another
    ///   type.
    /// - Returns [`ArrowError::Unaligned`] if the buffer of the indices or of the items isn't
    ///   aligned for its type.
    /// - Returns [`ArrowError::Take`] with the first valid index that names no item.
    ///
    /// [`Validity::take_valid`]: crate::Validity::take_valid
    pub fn dictionary_values<T: Primitive + Value>(&self) -> Result<Column<T>, ArrowError> {
        let items = self.items_of_indices()?;
        by_index!(self.values_taken::<T, _>(&items))
    }

    /// Returns which rows of a column with a dictionary are valid: those whose index and item are.
    /// It reads no values. [`validity`](Array::validity) covers the indices alone. If the items
    /// have a dictionary too, an item is valid if it is a valid row of that. Returns `None` if
    /// there are no validity bits: all rows are valid then.
    ///
    /// ```
    /// use vortex_bits::Bitmap;
    /// use vortex_bits::arrow::Export;
    ///
    /// let words = Export::texts_or_nulls([Some("no"), None, Some("yes")]);
    /// let rows = Export::values(vec![2i8, 1, -7, 0], Some([true, true, false, true].into()));
    /// let rows = rows.with_dictionary(words)?.into_array();
    /// assert_eq!(Bitmap::from(rows.validity()?), Bitmap::from([true, true, false, true]));
    /// assert_eq!(rows.dictionary_validity()?, Some([true, false, false, true].into()));
    /// # Ok::<(), vortex_bits::arrow::ArrowError>(())
    /// ```
    ///
    /// # Errors
    ///
    /// - Returns [`ArrowError::Type`] if the column has no dictionary, or if the type of the items
    ///   has no validity bits. If the items have a dictionary too, this is the type of the
    ///   innermost ones.
    /// - Returns [`ArrowError::Unaligned`] if the buffer of the indices isn't aligned for them.
    /// - Returns [`ArrowError::Take`] with the first valid index that names no item. It tests the
    ///   indices of the items first, if they have a dictionary.
    pub fn dictionary_validity(&self) -> Result<Option<Bitmap>, ArrowError> {
        let items = self.items_of_indices()?;
        by_index!(self.validity_taken::<_>(&items))
    }

    /// Decodes a column with a dictionary of texts: returns the text of each row in new memory, or
    /// null if its index or its item is null. The export has the column's name and the items' type.
    /// It is the same as [`Export::texts_taken_valid`] with the column's index type.
    ///
    /// ```
    /// use vortex_bits::arrow::Export;
    ///
    /// let words = Export::texts(["no", "yes"], None);
    /// let rows = Export::values(vec![1i8, -7, 0], Some([true, false, true].into()));
    /// let rows = rows.with_dictionary(words)?.named("answer").into_array();
    ///
    /// let answers = rows.dictionary_texts()?.into_array();
    /// assert_eq!((answers.field().name(), answers.field().format()), ("answer", "U"));
    /// assert!(answers.texts()?.iter().eq([Some(&b"yes"[..]), None, Some(b"no")]));
    /// # Ok::<(), vortex_bits::arrow::ArrowError>(())
    /// ```
    ///
    /// # Errors
    ///
    /// - Returns [`ArrowError::Type`] if the column has no dictionary.
    /// - Returns [`ArrowError::Unaligned`] if the buffer of the indices isn't aligned for them.
    /// - Returns the errors of [`Array::texts`] of the items, but not for offsets of items that no
    ///   row names.
    /// - Returns [`ArrowError::Take`] with the first valid index that names no item.
    /// - Returns [`ArrowError::LongTexts`] if the texts are longer together than 2^31 - 1 bytes and
    ///   their offsets have 32 bits, and [`ArrowError::Memory`] if memory can't hold them. A few
    ///   long items can belong to many rows.
    pub fn dictionary_texts(&self) -> Result<Export, ArrowError> {
        let items = self.items_of_indices()?;
        let texts = by_index!(self.texts_taken::<_>(&items))?;
        Ok(texts.named(&self.node.field.name))
    }

    /// Returns the index of each row of a column with a dictionary, for any index type; 0 for a
    /// null row. Each valid index names an item.
    ///
    /// ```
    /// use vortex_bits::arrow::Export;
    ///
    /// let words = Export::texts(["no", "yes"], None);
    /// let rows = Export::values(vec![1i8, -7, 0], Some([true, false, true].into()));
    /// let rows = rows.with_dictionary(words)?.into_array();
    /// assert_eq!(rows.dictionary_indices()?, [1, 0, 0]);
    /// # Ok::<(), vortex_bits::arrow::ArrowError>(())
    /// ```
    ///
    /// # Errors
    ///
    /// Returns [`ArrowError::Type`] if the column has no dictionary, and [`ArrowError::Take`] with
    /// the first valid index that names no item.
    pub fn dictionary_indices(&self) -> Result<Vec<usize>, ArrowError> {
        let mut places = Vec::with_capacity(self.len);
        self.each_index(|_, place| {
            places.push(place);
            Ok(())
        })?;
        Ok(places)
    }

    /// Calls `take` with each row and its index, as [`Array::dictionary_indices`] returns it. Does
    /// not allocate.
    pub(in crate::arrow) fn each_index(
        &self,
        take: impl FnMut(usize, usize) -> Result<(), ArrowError>,
    ) -> Result<(), ArrowError> {
        self.each_index_of(0..self.len, take)
    }

    /// Does the same for these rows only.
    pub(in crate::arrow) fn each_index_of(
        &self,
        rows: Range<usize>,
        take: impl FnMut(usize, usize) -> Result<(), ArrowError>,
    ) -> Result<(), ArrowError> {
        let items = self.items_of_indices()?.len;
        by_index!(self.each_place::<_>((items, rows, take)))
    }

    fn each_place<I: Primitive + BitIndex>(
        &self,
        (items, mut rows, mut take): (
            usize,
            Range<usize>,
            impl FnMut(usize, usize) -> Result<(), ArrowError>,
        ),
    ) -> Result<(), ArrowError> {
        let (indices, valid) = (self.unaligned::<I>()?, self.validity()?);
        rows.try_for_each(|row| {
            if valid.get(row) == Some(false) {
                return take(row, 0);
            }
            let index = indices.get(row).ok_or(Fault::Dictionary)?;
            let place = index.place().filter(|place| *place < items);
            let place = place.ok_or_else(|| self.lost(row, index.number(), items));
            take(row, place?)
        })
    }

    /// Returns the error of an index that names none of `values` items.
    #[cold]
    pub(in crate::arrow) fn lost(&self, position: usize, index: i128, values: usize) -> ArrowError {
        self.not_taken(TakeValuesError::Index {
            position,
            index,
            values,
        })
    }

    /// Tests that each valid index names one of `items` items.
    pub(in crate::arrow) fn name_items(&self, items: usize) -> Result<(), ArrowError> {
        match self.first_lost(items)? {
            None => Ok(()),
            Some((position, index)) => Err(self.lost(position, index, items)),
        }
    }

    /// Returns the row and the number of the first valid index that names none of `items` items.
    pub(in crate::arrow) fn first_lost(
        &self,
        items: usize,
    ) -> Result<Option<(usize, i128)>, ArrowError> {
        by_index!(self.first_not_below::<_>(items))
    }

    fn first_not_below<I: Primitive + BitIndex>(
        &self,
        items: usize,
    ) -> Result<Option<(usize, i128)>, ArrowError> {
        let indices = self.unaligned::<I>()?;
        let lost = |row| {
            let index = indices.get(row)?;
            let is_lost = index.place().is_none_or(|place| place >= items);
            is_lost.then(|| (row, index.number()))
        };
        Ok(match self.validity()?.bits() {
            Some(valid) => valid.set_indices().find_map(lost),
            None => (0..self.len).find_map(lost),
        })
    }

    fn items_of_indices(&self) -> Result<Array, ArrowError> {
        let items = self.dictionary();
        items.ok_or_else(|| self.is_not("that of a column with a dictionary"))
    }

    fn values_taken<T, I>(&self, items: &Array) -> Result<Column<T>, ArrowError>
    where
        T: Primitive + Value,
        I: Primitive + BitIndex,
    {
        let (indices, valid) = (self.values::<I>()?, self.validity()?);
        let (values, valid_items) = (items.values::<T>(), items.validity());
        let values = values.map_err(|error| self.of_items(error))?;
        let taken = values::try_take_valid(values, indices, valid);
        let taken = taken.map_err(|error| self.not_taken(error))?;
        // `try_take_valid` has tested the indices.
        let valid = valid_items?.take_valid(indices, valid);
        Ok((taken, valid))
    }

    fn validity_taken<I>(&self, items: &Array) -> Result<Option<Bitmap>, ArrowError>
    where
        I: Primitive + BitIndex,
    {
        let (indices, valid) = (self.values::<I>()?, self.validity()?);
        let in_items = |error| self.in_items(error);
        let own_items = match items.dictionary() {
            Some(_) => items.dictionary_validity().map_err(in_items)?,
            None => None,
        };
        let valid_items = match &own_items {
            Some(valid) => Validity::from(valid.bits()),
            None => items.validity().map_err(in_items)?,
        };
        let taken = valid_items.try_take_valid(indices, valid);
        taken.map_err(|error| match error {
            TakeError::Index {
                position, index, ..
            } => self.lost(position, index, items.len),
            error => error.into(),
        })
    }

    fn texts_taken<I: Primitive + BitIndex>(&self, items: &Array) -> Result<Export, ArrowError> {
        let taken = Export::texts_taken_valid(items, self.values::<I>()?, self.validity()?);
        taken.map_err(|error| self.of_items(error))
    }

    /// Returns an error of the items as one of the column. `Take` is an error of the column's
    /// indices.
    #[cold]
    fn of_items(&self, error: ArrowError) -> ArrowError {
        match error {
            ArrowError::Take { error, .. } => self.not_taken(error),
            error => self.in_items(error),
        }
    }

    /// Returns an error of the items, with the column's name before theirs.
    #[cold]
    fn in_items(&self, error: ArrowError) -> ArrowError {
        let error = error.under("dictionary");
        match self.node.field.name.as_str() {
            "" => error,
            name => error.under(name),
        }
    }
}
