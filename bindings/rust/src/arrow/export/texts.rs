//! Exports texts.

use alloc::sync::Arc;
use alloc::vec::Vec;
use core::ffi::c_void;

use super::growing::TextsMut;
use super::select::all_true;
use super::{Export, number};
use crate::arrow::array::Array;
use crate::arrow::error::ArrowError;
use crate::arrow::field::Field;
use crate::arrow::layout::{Layout, Of};
use crate::{BitIndex, Bitmap, Bits, Mask, TakeError, TakeValuesError};

/// Texts.
impl Export {
    /// Returns an array of texts, copied one after the other into one buffer. `valid` has a bit per
    /// text, true if the text isn't null; None means that all are valid. The type is `U`, with
    /// offsets of 64 bits; [`narrow`](Export::narrow) converts it to `u`.
    ///
    /// # Panics
    ///
    /// Panics if there isn't one bit per text.
    #[must_use]
    #[track_caller]
    pub fn texts(
        texts: impl IntoIterator<Item = impl AsRef<str>>,
        valid: Option<Bitmap>,
    ) -> Export {
        let mut rows = TextsMut::new();
        for text in texts {
            rows.append(Some(text.as_ref()));
        }
        rows.export(valid)
    }

    /// Returns an array of texts as [`Export::texts`] does. An item that is None becomes a null
    /// row.
    ///
    /// ```
    /// use vortex_bits::arrow::Export;
    ///
    /// let rows = ["a", "", "bc"].map(|row| Some(row).filter(|row| !row.is_empty()));
    /// let names = Export::texts_or_nulls(rows).into_array();
    /// assert!(names.texts()?.iter().eq([Some(&b"a"[..]), None, Some(b"bc")]));
    /// # Ok::<(), vortex_bits::arrow::ArrowError>(())
    /// ```
    #[must_use]
    pub fn texts_or_nulls(texts: impl IntoIterator<Item = Option<impl AsRef<str>>>) -> Export {
        let mut rows = TextsMut::new();
        for text in texts {
            rows.append(text.as_ref().map(AsRef::as_ref));
        }
        Export::from(rows)
    }

    /// Returns the rows of texts or binary values that a mask selects, in their order, with their
    /// name, type and validity. It copies the bytes of valid rows only. For views it copies the
    /// views, empty ones for null rows, and shares the buffers.
    ///
    /// ```
    /// use vortex_bits::Bits;
    /// use vortex_bits::arrow::Export;
    ///
    /// let names = Export::texts_or_nulls([Some("a"), None, Some("bc")]);
    /// let names = names.named("name").into_array();
    /// let kept = Export::texts_kept(&names, Bits::new(&[0b110], 0, 3))?;
    /// assert_eq!(kept.field(), names.field());
    /// assert!(kept.into_array().texts()?.iter().eq([None, Some(&b"bc"[..])]));
    /// # Ok::<(), vortex_bits::arrow::ArrowError>(())
    /// ```
    ///
    /// # Errors
    ///
    /// Returns the errors of [`Array::texts`], but not for offsets of rows that the mask doesn't
    /// select, and [`ArrowError::LongTexts`] if malformed rows share bytes and are too long
    /// together. Returns [`ArrowError::Memory`] if memory runs out for the copies.
    ///
    /// # Panics
    ///
    /// Panics if the mask doesn't have one bit per row.
    #[track_caller]
    pub fn texts_kept(texts: &Array, mask: impl Mask) -> Result<Export, ArrowError> {
        let mask = mask.of_len(texts.len());
        texts.shows_texts()?;
        if mask.is_some() || texts.validity()?.bits().is_none() {
            return texts.filter(mask);
        }
        // Without a mask, `filter` would copy by runs, with the bytes of null rows.
        let all = all_true(texts.field(), texts.len())?;
        texts.filter(Bits::new(&all, 0, texts.len()))
    }

    /// Returns the rows of texts or binary values at indices, with their name, type and validity.
    /// The column may then have nulls. It copies the bytes of valid rows only. For views it copies
    /// the views and shares the buffers.
    ///
    /// ```
    /// use vortex_bits::arrow::Export;
    ///
    /// let names = Export::texts(["a", "bc"], None).into_array();
    /// let taken = Export::texts_taken(&names, &[1u8, 1, 0])?.into_array();
    /// assert!(taken.texts()?.iter().eq([&b"bc"[..], b"bc", b"a"].map(Some)));
    /// # Ok::<(), vortex_bits::arrow::ArrowError>(())
    /// ```
    ///
    /// # Errors
    ///
    /// Returns the errors of [`Array::texts`], but not for offsets of rows that no index names.
    /// Returns [`ArrowError::Take`] with the first index that names no row. Returns
    /// [`ArrowError::LongTexts`] if the texts are longer together than 2^31 - 1 bytes and their
    /// offsets have 32 bits, and [`ArrowError::Memory`] if memory can't hold them.
    pub fn texts_taken<I: BitIndex>(texts: &Array, indices: &[I]) -> Result<Export, ArrowError> {
        Export::texts_taken_valid(texts, indices, None::<Bits<'_>>)
    }

    /// Returns the rows at the valid indices as [`Export::texts_taken`] does. The other indices
    /// give null rows, whatever their numbers are. [`Array::dictionary_texts`] calls it for a
    /// column with a dictionary of texts.
    ///
    /// ```
    /// use vortex_bits::Bits;
    /// use vortex_bits::arrow::Export;
    ///
    /// let words = Export::texts(["no", "yes"], None).into_array();
    /// let valid = Bits::new(&[0b101], 0, 3);
    /// let taken = Export::texts_taken_valid(&words, &[1i8, -7, 0], valid)?.into_array();
    /// assert!(taken.texts()?.iter().eq([Some(&b"yes"[..]), None, Some(b"no")]));
    /// # Ok::<(), vortex_bits::arrow::ArrowError>(())
    /// ```
    ///
    /// # Errors
    ///
    /// Returns the errors of [`Array::texts`], but not for offsets of rows that no index names.
    /// Returns [`ArrowError::Take`] if `validity` doesn't have one bit per index, or with the first
    /// valid index that names no row. Returns [`ArrowError::LongTexts`] if the texts are longer
    /// together than 2^31 - 1 bytes and their offsets have 32 bits, and [`ArrowError::Memory`] if
    /// memory can't hold them.
    pub fn texts_taken_valid<I: BitIndex>(
        texts: &Array,
        indices: &[I],
        validity: impl Mask,
    ) -> Result<Export, ArrowError> {
        texts.shows_texts()?;
        texts.take_valid(indices, validity).map(Export::or_null)
    }

    /// Converts offsets of 64 bits to new ones of 32 bits: `U` to `u`, and `Z` to `z`. It does not
    /// copy the bytes of the texts. Texts with offsets of 32 bits are returned unchanged.
    ///
    /// ```
    /// use vortex_bits::arrow::Export;
    ///
    /// let names = Export::texts(["a", "bc"], None).named("name").narrow()?;
    /// assert_eq!(names.field().format(), "u");
    /// assert!(names.into_array().texts()?.iter().eq([&b"a"[..], b"bc"].map(Some)));
    /// # Ok::<(), vortex_bits::arrow::ArrowError>(())
    /// ```
    ///
    /// # Errors
    ///
    /// - Returns [`ArrowError::Type`] if the array has another type, such as views.
    /// - Returns [`ArrowError::LongTexts`] if the texts are longer together than 2^31 - 1 bytes,
    ///   with the bytes of null rows.
    /// - For texts of another part of the program, returns the errors of [`Array::texts`].
    pub fn narrow(self) -> Result<Export, ArrowError> {
        let format = match (self.field.layout, self.field.format()) {
            (Layout::Ranges(4, Of::Bytes), _) => return Ok(self),
            (Layout::Ranges(_, Of::Bytes), "Z") => "z",
            (Layout::Ranges(_, Of::Bytes), _) => "u",
            _ => {
                return Err(ArrowError::Type {
                    column: self.field.name,
                    format: self.field.format,
                    wanted: "that of texts between offsets",
                });
            }
        };
        let field = Field {
            format: format.into(),
            layout: Layout::Ranges(4, Of::Bytes),
            ..self.field.clone()
        };
        let texts = self.into_array();
        let (ranges, bytes) = texts.joined()?;
        let start = ranges.get(0).map_or(0, |first| first.start);
        let ends = ranges.iter().map(|row| row.end - start);
        let ends = Ends::new(true, ends).map_err(|bytes| long(&texts, bytes))?;
        let valid = texts.validity()?.bits().map(Bitmap::from);
        let buffers = [ends.pointer(), bytes[start..].as_ptr().cast()];
        let (len, node) = (texts.len(), texts.node.clone());
        Ok(Export::column(
            field,
            len,
            0,
            &buffers,
            Arc::new((ends, node)),
            valid,
        ))
    }

    /// Returns the same column, which may have nulls.
    fn or_null(mut self) -> Export {
        self.field = self.field.nullable(true);
        self
    }
}

impl Array {
    /// Tests that the rows are texts or binary values. It also tests the views of valid rows, since
    /// a consumer follows them; offsets are tested when the rows are copied.
    fn shows_texts(&self) -> Result<(), ArrowError> {
        match self.node.field.layout {
            Layout::Views => self.texts().map(drop),
            _ => self.has_bytes(),
        }
    }
}

/// The end of each row, after a first 0.
enum Ends {
    Narrow(Vec<i32>),
    Wide(Vec<i64>),
}

impl Ends {
    /// Returns the offsets of rows with these ends, which ascend.
    ///
    /// # Errors
    ///
    /// Returns the first end that 32 bits can't represent, if `is_narrow`.
    fn new(is_narrow: bool, ends: impl Iterator<Item = usize>) -> Result<Ends, usize> {
        let ends = [0].into_iter().chain(ends);
        if !is_narrow {
            return Ok(Ends::Wide(ends.map(number).collect()));
        }
        let narrow = |end| i32::try_from(end).map_err(|_| end);
        ends.map(narrow).collect::<Result<_, _>>().map(Ends::Narrow)
    }

    fn pointer(&self) -> *const c_void {
        match self {
            Ends::Narrow(ends) => ends.as_ptr().cast(),
            Ends::Wide(ends) => ends.as_ptr().cast(),
        }
    }
}

/// Converts an error of bits to the one of values.
pub(super) fn values_error(error: TakeError) -> TakeValuesError {
    match error {
        TakeError::Room { bits, indices } => TakeValuesError::Room {
            room: bits,
            indices,
        },
        TakeError::Validity { bits, indices } => TakeValuesError::Validity { bits, indices },
        TakeError::Index {
            position,
            index,
            len,
        } => TakeValuesError::Index {
            position,
            index,
            values: len,
        },
    }
}

#[cold]
fn long(texts: &Array, bytes: usize) -> ArrowError {
    ArrowError::LongTexts {
        column: texts.field().name().into(),
        bytes,
    }
}
