//! Texts that grow by rows of batches.

use alloc::sync::Arc;
use alloc::vec;
use alloc::vec::Vec;
use core::fmt;

use super::{Export, number};
use crate::arrow::array::Array;
use crate::arrow::error::ArrowError;
use crate::arrow::field::Field;
use crate::arrow::layout::{self, Layout, Of};
use crate::{Bitmap, BitmapMut, Mask};

/// Texts in their own memory, which can grow. It appends rows one by one, or those of a batch that
/// a mask selects, as [`values::filter_onto`](crate::values::filter_onto) appends values.
/// [`Export::from`](Export) exports them as texts of the type `U`, without a copy.
///
/// ```
/// use vortex_bits::Bits;
/// use vortex_bits::arrow::{Export, TextsMut};
///
/// let batches = [["a", "bc"], ["d", ""]].map(|names| Export::texts(names, None).into_array());
/// let mut kept = TextsMut::new();
/// for names in &batches {
///     kept.append_kept(names, Bits::new(&[0b10], 0, 2))?;
/// }
/// kept.append(None);
///
/// let names = Export::from(kept).named("name").into_array();
/// assert!(names.texts()?.iter().eq([Some(&b"bc"[..]), Some(b""), None]));
/// # Ok::<(), vortex_bits::arrow::ArrowError>(())
/// ```
pub struct TextsMut {
    /// The end of each row, after a first 0.
    ends: Vec<i64>,
    bytes: Vec<u8>,
    valid: BitmapMut,
}

impl TextsMut {
    /// Returns texts without rows.
    #[must_use]
    pub fn new() -> TextsMut {
        TextsMut {
            ends: vec![0],
            bytes: Vec::new(),
            valid: Bitmap::growing(0),
        }
    }

    /// Returns the number of rows.
    #[must_use]
    pub fn len(&self) -> usize {
        self.valid.len()
    }

    /// Returns whether there are no rows.
    #[must_use]
    pub fn is_empty(&self) -> bool {
        self.len() == 0
    }

    /// Appends a row, which is null if the text is None. Aborts the program if memory runs out.
    #[inline]
    pub fn append(&mut self, text: Option<&str>) {
        self.valid.append(text.is_some());
        self.push(text.unwrap_or_default().as_bytes());
    }

    /// Appends the rows of texts that a mask selects, in their order, with their validity; all rows
    /// if the mask is None. Aborts the program if memory runs out.
    ///
    /// # Errors
    ///
    /// Returns [`ArrowError::Mask`] if the mask has another number of bits than there are rows,
    /// [`ArrowError::Type`] if the rows aren't texts (binary values are not), and the errors of
    /// [`Array::texts`]. No row is appended on an error.
    pub fn append_kept(&mut self, texts: &Array, mask: impl Mask) -> Result<(), ArrowError> {
        texts.is_for(&mask)?;
        if !layout::is_text(texts.field().format()) {
            return Err(texts.is_not("that of texts"));
        }
        // The bits are read once: their owner may return other bytes in another call.
        let (rows, mask) = (texts.texts()?, mask.mask());
        rows.validity().filter_onto(mask, &mut self.valid);
        let mut push = |text: Option<&[u8]>| self.push(text.unwrap_or_default());
        match mask {
            Some(mask) => mask.set_indices().for_each(|row| push(rows.get(row))),
            None => rows.iter().for_each(push),
        }
        Ok(())
    }

    /// Exports the rows with another validity.
    #[track_caller]
    pub(super) fn export(self, valid: Option<Bitmap>) -> Export {
        exported(self.ends, self.bytes, valid)
    }

    #[inline]
    fn push(&mut self, text: &[u8]) {
        self.bytes.extend_from_slice(text);
        self.ends.push(number(self.bytes.len()));
    }
}

impl Default for TextsMut {
    fn default() -> TextsMut {
        TextsMut::new()
    }
}

impl fmt::Debug for TextsMut {
    fn fmt(&self, f: &mut fmt::Formatter<'_>) -> fmt::Result {
        f.debug_struct("TextsMut")
            .field("len", &self.len())
            .finish_non_exhaustive()
    }
}

/// Exports the rows, without a copy of their bytes.
impl From<TextsMut> for Export {
    fn from(texts: TextsMut) -> Export {
        exported(texts.ends, texts.bytes, Some(texts.valid.share()))
    }
}

#[track_caller]
fn exported(ends: Vec<i64>, bytes: Vec<u8>, valid: Option<Bitmap>) -> Export {
    let pointers = [ends.as_ptr().cast(), bytes.as_ptr().cast()];
    let field = Field::of("", "U", Layout::Ranges(8, Of::Bytes));
    let len = ends.len() - 1;
    Export::column(field, len, 0, &pointers, Arc::new((ends, bytes)), valid)
}
