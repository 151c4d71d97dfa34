//! Parts of a writable window.

use core::iter::FusedIterator;
use core::mem;

use crate::BitsMut;

/// The parts of a writable window, each over its own bytes. [`BitsMut::chunks_mut`] returns it.
#[derive(Debug)]
pub struct ChunksMut<'a> {
    /// The bits that are left, over their own bytes.
    rest: BitsMut<'a>,
    /// The number of bits in a part that starts at the first bit of a byte: a multiple of 8.
    bits: usize,
}

impl<'a> ChunksMut<'a> {
    #[inline]
    pub(crate) fn new(bits: BitsMut<'a>, of: usize) -> ChunksMut<'a> {
        ChunksMut {
            rest: bits.narrowed(),
            bits: of,
        }
    }

    /// Splits the bits that are left at `border`.
    #[inline]
    fn split(&mut self, border: usize) -> (BitsMut<'a>, BitsMut<'a>) {
        mem::take(&mut self.rest).split(border)
    }
}

impl<'a> Iterator for ChunksMut<'a> {
    type Item = BitsMut<'a>;

    #[inline]
    fn next(&mut self) -> Option<BitsMut<'a>> {
        if self.rest.is_empty() {
            return None;
        }
        let border = self.bits - self.rest.offset();
        let (part, rest) = self.split(border.min(self.rest.len()));
        self.rest = rest;
        Some(part)
    }

    #[inline]
    fn size_hint(&self) -> (usize, Option<usize>) {
        let left = (self.rest.offset() + self.rest.len()).div_ceil(self.bits);
        (left, Some(left))
    }
}

impl<'a> DoubleEndedIterator for ChunksMut<'a> {
    #[inline]
    fn next_back(&mut self) -> Option<BitsMut<'a>> {
        let before = self.len().checked_sub(1)?;
        let border = (self.bits * before).saturating_sub(self.rest.offset());
        let (rest, part) = self.split(border);
        self.rest = rest;
        Some(part)
    }
}

impl ExactSizeIterator for ChunksMut<'_> {}
impl FusedIterator for ChunksMut<'_> {}
