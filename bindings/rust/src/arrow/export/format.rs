//! Converts exported values to other types, without a copy.

use super::Export;
use crate::arrow::array::Array;
use crate::arrow::error::{ArrowError, Fault};
use crate::arrow::field::{Field, SORTED};
use crate::arrow::layout::{self, Layout, Of};

/// Types.
impl Export {
    /// Returns the same values as another type. `format` is the interface's name of the type: `i32`
    /// values become days with `tdD`, `i128` values become decimals with `d:19,2`.
    ///
    /// Values convert to another type of the same width. Texts convert to binary values, `u` to
    /// `z`. Binary values convert to texts if each valid row is UTF-8, which takes a pass over the
    /// bytes. Maps convert to lists. Indices of a dictionary convert to the other signedness if
    /// each valid index names an item, and keeps its number. It doesn't test that decimals have
    /// only the digits of their type.
    ///
    /// ```
    /// use vortex_bits::arrow::Export;
    ///
    /// let days = Export::values(vec![19_000i32, 19_002], None).with_format("tdD")?;
    /// assert_eq!(
    ///     days.with_format("l").unwrap_err().to_string(),
    ///     "values of format \"tdD\" aren't those of \"l\""
    /// );
    ///
    /// let binary = Export::texts(["a", "b\u{e9}"], None).with_format("Z")?;
    /// assert_eq!(binary.with_format("U")?.into_array().texts()?.get(0), Some(&b"a"[..]));
    /// # Ok::<(), vortex_bits::arrow::ArrowError>(())
    /// ```
    ///
    /// # Errors
    ///
    /// Returns [`ArrowError::Malformed`] if no type has the format. Returns [`ArrowError::Format`]
    /// with both formats if the conversion isn't allowed, and with the first row whose value
    /// doesn't fit. Children keep their types, so a list, union or struct can't get other children,
    /// another length or other type ids. For binary values of another part of the program that
    /// become texts, returns the errors of [`Array::texts`].
    pub fn with_format(self, format: &str) -> Result<Export, ArrowError> {
        let layout = Layout::of(format).ok_or_else(|| Fault::Format(format.into()))?;
        let Some(proof) = Proof::of(&self.field, format, layout) else {
            return Err(self.not_of(format, None));
        };
        let wrong = match proof {
            Proof::None => None,
            Proof::Texts => self.look(Array::first_not_utf8)?,
            Proof::Below(end) => self.look(|indices| first_index_above(indices, end))?,
        };
        match wrong {
            Some(row) => Err(self.not_of(format, Some(row))),
            None => Ok(self.of_format(format, layout)),
        }
    }

    /// Returns the values as another type as [`Export::with_format`] does, without a test of the
    /// values. It also converts fixed-size lists, maps and unions.
    ///
    /// # Errors
    ///
    /// Returns [`ArrowError::Malformed`] if no type has the format. Returns [`ArrowError::Format`]
    /// if arrays of the format have other buffers, values of another width or another number of
    /// children, and if the values are indices of a dictionary and those of the format can't be.
    ///
    /// # Safety
    ///
    /// The array is as the interface requires for this format: texts are UTF-8, lists have their
    /// items, type ids of a union are among its ids, and indices name items of the dictionary.
    pub unsafe fn with_format_unchecked(self, format: &str) -> Result<Export, ArrowError> {
        let layout = Layout::of(format).ok_or_else(|| Fault::Format(format.into()))?;
        let is_index = self.field.dictionary.is_none() || layout::is_index(format);
        if !layout.is_like(self.field.layout) || !is_index {
            return Err(self.not_of(format, None));
        }
        Ok(self.of_format(format, layout))
    }

    fn of_format(mut self, format: &str, layout: Layout) -> Export {
        if format == self.field.format {
            return self;
        }
        self.field.format = format.into();
        self.field.layout = layout;
        if format != "+m" {
            self.field.flags &= !SORTED;
        }
        self
    }

    #[cold]
    fn not_of(self, wanted: &str, row: Option<usize>) -> ArrowError {
        ArrowError::Format {
            column: self.field.name,
            format: self.field.format,
            wanted: wanted.into(),
            row,
        }
    }
}

/// The test that values need before a conversion.
enum Proof {
    None,
    /// Each valid row is UTF-8.
    Texts,
    /// Each valid index names an item, and is below this number. Indices that aren't below it have
    /// the highest bit set, which is the sign in one of the two formats.
    Below(usize),
}

impl Proof {
    /// Returns the test that a conversion needs; None if the conversion isn't allowed.
    fn of(field: &Field, format: &str, layout: Layout) -> Option<Proof> {
        if format == field.format {
            return Some(Proof::None);
        }
        match (layout, field.layout) {
            (Layout::Fixed(new, width), Layout::Fixed(old, same)) if width == same => {
                match field.dictionary {
                    None => Some(Proof::None),
                    Some(_) if !layout::is_index(format) => None,
                    Some(_) if new == old => Some(Proof::None),
                    Some(_) => {
                        let digits = 8 * u32::try_from(width).ok()? - 1;
                        Some(Proof::Below(
                            1usize.checked_shl(digits).unwrap_or(usize::MAX),
                        ))
                    }
                }
            }
            (Layout::Ranges(_, Of::Bytes) | Layout::Views, old) if layout == old => {
                let is_new = layout::is_text(format) && !layout::is_text(&field.format);
                Some(if is_new { Proof::Texts } else { Proof::None })
            }
            (Layout::Ranges(4, Of::Items), _) if format == "+l" && field.format == "+m" => {
                Some(Proof::None)
            }
            _ => None,
        }
    }
}

/// Returns the row of the first valid index that names no item, or isn't below `end`.
fn first_index_above(indices: &Array, end: usize) -> Result<Option<usize>, ArrowError> {
    let items = indices.dictionary().map_or(0, |items| items.len());
    Ok(indices.first_lost(items.min(end))?.map(|(row, _)| row))
}
