//! The metadata of a type: keys and values.

use alloc::vec::Vec;

use super::{Field, count};
use crate::arrow::error::Fault;

/// The size of a number in metadata, in bytes.
const INT: usize = size_of::<i32>();

/// Metadata.
impl Field {
    /// Returns the same column with these keys and values as its metadata, instead of those it has.
    /// Extension types use them.
    ///
    /// ```
    /// use vortex_bits::arrow::Field;
    ///
    /// let shape = Field::new("shape", "z")?.with_metadata([("ARROW:extension:name", "ogc.wkb")]);
    /// let pairs: Vec<_> = shape.metadata().collect();
    /// assert_eq!(pairs, [(&b"ARROW:extension:name"[..], &b"ogc.wkb"[..])]);
    /// assert_eq!(shape.with_metadata([("", ""); 0]), Field::new("shape", "z")?);
    /// # Ok::<(), vortex_bits::arrow::ArrowError>(())
    /// ```
    ///
    /// # Panics
    ///
    /// Panics if there are 2^31 pairs or more, or if a key or a value has 2^31 bytes or more.
    #[must_use]
    #[track_caller]
    pub fn with_metadata<K: AsRef<[u8]>, V: AsRef<[u8]>>(
        mut self,
        pairs: impl IntoIterator<Item = (K, V)>,
    ) -> Field {
        let (mut number, mut laid) = (0, Vec::new());
        for (key, value) in pairs {
            number += 1;
            for text in [key.as_ref(), value.as_ref()] {
                laid.extend_from_slice(&int(text.len()));
                laid.extend_from_slice(text);
            }
        }
        self.metadata = match number {
            0 => Vec::new(),
            number => [&int(number)[..], &laid].concat(),
        };
        self
    }

    /// Returns the keys of the metadata with their values. Extension types use them.
    pub fn metadata(&self) -> impl Iterator<Item = (&[u8], &[u8])> {
        let (_, mut rest) = self.metadata.split_at(self.metadata.len().min(INT));
        core::iter::from_fn(move || Some((text_of(&mut rest)?, text_of(&mut rest)?)))
    }
}

/// Returns a number in the layout of metadata.
#[track_caller]
fn int(number: usize) -> [u8; INT] {
    let Ok(number) = i32::try_from(number) else {
        panic!("metadata with a number of {number}");
    };
    number.to_ne_bytes()
}

/// Removes a text from the front of `rest`, with its length before it; None if there is none left.
fn text_of<'a>(rest: &mut &'a [u8]) -> Option<&'a [u8]> {
    let (len, behind) = rest.split_first_chunk::<INT>()?;
    let len = usize::try_from(i32::from_ne_bytes(*len)).ok()?;
    let (text, behind) = behind.split_at_checked(len)?;
    *rest = behind;
    Some(text)
}

/// Returns a copy of the bytes of metadata; none if it has no pair.
///
/// # Safety
///
/// The pointer is null, or leads to the number of pairs and then to these keys and values, each
/// after its length.
pub(super) unsafe fn read(pointer: *const u8) -> Result<Vec<u8>, Fault> {
    if pointer.is_null() {
        return Ok(Vec::new());
    }
    // SAFETY: the caller promises it.
    let length = |at: usize| unsafe {
        let number = pointer.add(at).cast::<i32>().read_unaligned();
        count("a length in metadata", number.into(), None)
    };
    let pairs = length(0)?;
    if pairs == 0 {
        return Ok(Vec::new());
    }
    let mut size = INT;
    for _ in 0..pairs {
        for _ in 0..2 {
            size += INT + length(size)?;
        }
    }
    // SAFETY: the loop read the lengths of all these bytes.
    Ok(unsafe { core::slice::from_raw_parts(pointer, size) }.to_vec())
}
