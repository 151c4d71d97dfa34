//! Exports values as indices of a dictionary.

use super::Export;
use super::held::Held;
use crate::arrow::error::{ArrowError, Fault};
use crate::arrow::layout;

/// Dictionaries.
impl Export {
    /// Adds a dictionary: the values become indices of these items, such as distinct texts, and the
    /// consumer reads the items. It compares each valid index with the number of items. The indices
    /// of null rows may be any number.
    ///
    /// ```
    /// use vortex_bits::arrow::Export;
    /// use vortex_bits::values;
    ///
    /// let prices = || Export::values(vec![9.5, 12.0], None);
    /// let valid = [true, true, false, true].into();
    /// let rows = Export::values(vec![1i8, 1, -7, 0], Some(valid)).with_dictionary(prices())?;
    ///
    /// // A null's index may be any number.
    /// let rows = rows.into_array();
    /// let (items, valid) = (rows.dictionary().unwrap(), rows.validity()?);
    /// let indices = rows.values()?;
    /// let taken = values::take_valid::<f64, i8>(items.values()?, indices, valid);
    /// assert_eq!(taken, [12.0, 12.0, 0.0, 9.5]);
    /// // `dictionary_values` returns the same, and the rows' validity with the items' nulls.
    /// let valid_rows = items.validity()?.take_valid(indices, valid);
    /// assert_eq!(rows.dictionary_values::<f64>()?, (taken, valid_rows));
    ///
    /// let lost = Export::values(vec![1i8, 2], None).with_dictionary(prices()).unwrap_err();
    /// assert_eq!(lost.to_string(), "index 2 at position 1 names none of 2 values");
    /// # Ok::<(), vortex_bits::arrow::ArrowError>(())
    /// ```
    ///
    /// # Errors
    ///
    /// Returns [`ArrowError::Malformed`] with [`Fault::Dictionary`] if the values aren't integers
    /// of 8 to 64 bits or have a dictionary already. Returns [`ArrowError::Take`] with the first
    /// valid index that names no item.
    pub fn with_dictionary(self, items: Export) -> Result<Export, ArrowError> {
        self.may_have_dictionary()?;
        self.look(|indices| indices.name_items(items.len))?;
        Ok(self.of_items(items))
    }

    /// Adds a dictionary as [`Export::with_dictionary`] does, without the pass over the indices.
    ///
    /// # Errors
    ///
    /// Returns [`ArrowError::Malformed`] with [`Fault::Dictionary`] if the values aren't integers
    /// of 8 to 64 bits or have a dictionary already.
    ///
    /// # Safety
    ///
    /// Each valid index names an item, or every consumer of the array tests the indices, as
    /// [`Array::dictionary_values`](crate::arrow::Array::dictionary_values) does.
    pub unsafe fn with_dictionary_unchecked(self, items: Export) -> Result<Export, ArrowError> {
        self.may_have_dictionary()?;
        Ok(self.of_items(items))
    }

    fn may_have_dictionary(&self) -> Result<(), ArrowError> {
        if layout::is_index(&self.field.format) && self.field.dictionary.is_none() {
            return Ok(());
        }
        Err(Fault::Dictionary.into())
    }

    fn of_items(mut self, items: Export) -> Export {
        let array = self.array.as_mut_ptr();
        // SAFETY: `Held::array` made the array, and its `private_data`.
        unsafe {
            let below = &raw mut (*(*array).private_data.cast::<Held>()).below;
            (*below).set_dictionary(items.array);
            (*array).dictionary = (*below).dictionary;
        }
        self.field.set_dictionary(items.field);
        self
    }
}
