//! The window that a call writes.

use core::ops::Deref;

use crate::{BitsMut, portable};

/// A window over only the bytes that have a bit of it.
///
/// All calls that write have a parameter of this type. They may store each of its bytes, even one
/// that doesn't change. They can't reach the bytes next to them, which other threads may write at
/// the same time.
pub struct Written<'a>(BitsMut<'a>);

impl<'a> Written<'a> {
    /// Returns the window without the bytes that have no bit of it.
    #[inline]
    pub fn of(bits: BitsMut<'a>) -> Written<'a> {
        Written(bits.narrowed())
    }

    /// Returns the bytes. Each has a bit of the window.
    #[inline]
    pub const fn bytes_mut(&mut self) -> &mut [u8] {
        self.0.bytes_mut()
    }

    /// Writes the lowest `len` bits of a word, at most 64, from index `start` on.
    #[inline]
    pub fn write(&mut self, start: usize, len: usize, word: u64) {
        debug_assert!(start <= self.len() && len <= self.len() - start);
        let bit = self.offset() + start;
        portable::write(self.bytes_mut(), bit, len, word);
    }
}

impl<'a> Deref for Written<'a> {
    type Target = BitsMut<'a>;

    #[inline]
    fn deref(&self) -> &BitsMut<'a> {
        &self.0
    }
}
