//! Iterators over 64-bit words and over single bits.

use core::iter::FusedIterator;
use core::mem;

use crate::{Bits, BitsMut, kernels, portable};

/// The number of words that it copies at once.
const ROOM: usize = 32;

/// An iterator over the bits as 64-bit words, with the first bit lowest. [`Bits::words`] returns
/// it.
#[derive(Clone, Debug)]
pub struct Words<'a> {
    /// The bits that it hasn't copied.
    rest: Bits<'a>,
    bytes: [u8; 8 * ROOM],
    next: usize,
    filled: usize,
}

impl<'a> Words<'a> {
    #[inline]
    pub(crate) fn new(bits: Bits<'a>) -> Self {
        Words {
            rest: bits,
            bytes: [0; 8 * ROOM],
            next: 0,
            filled: 0,
        }
    }

    /// Copies the next words, and returns whether there are any.
    fn refill(&mut self) -> bool {
        let len = self.rest.len().min(64 * ROOM);
        let block = self.rest.part(0, len);
        self.rest = self.rest.part(len, self.rest.len() - len);
        self.next = 0;
        self.filled = len.div_ceil(64);
        let filled = 64 * self.filled;
        kernels::copy(&mut BitsMut::new(&mut self.bytes, 0, len).written(), block);
        BitsMut::new(&mut self.bytes, len, filled - len).fill(false);
        len > 0
    }
}

impl Iterator for Words<'_> {
    type Item = u64;

    #[inline]
    fn next(&mut self) -> Option<u64> {
        if self.next == self.filled && (self.rest.is_empty() || !self.refill()) {
            return None;
        }
        let word = self.bytes[8 * self.next..].first_chunk()?;
        self.next += 1;
        Some(u64::from_le_bytes(*word))
    }

    #[inline]
    fn size_hint(&self) -> (usize, Option<usize>) {
        let left = self.filled - self.next + self.rest.len().div_ceil(64);
        (left, Some(left))
    }
}

impl DoubleEndedIterator for Words<'_> {
    #[inline]
    fn next_back(&mut self) -> Option<u64> {
        let Some(before) = self.rest.len().div_ceil(64).checked_sub(1) else {
            if self.next == self.filled {
                return None;
            }
            self.filled -= 1;
            let word = self.bytes[8 * self.filled..].first_chunk()?;
            return Some(u64::from_le_bytes(*word));
        };
        let (bits, start) = (self.rest, 64 * before);
        self.rest = bits.part(0, start);
        Some(portable::only_word(bits.part(start, bits.len() - start)))
    }
}

impl ExactSizeIterator for Words<'_> {}
impl FusedIterator for Words<'_> {}

/// An iterator over the bits, from front to end. [`Bits::iter`] returns it.
#[derive(Clone, Debug)]
pub struct Iter<'a> {
    words: Words<'a>,
    front: Part,
    back: Part,
    left: usize,
}

/// The rest of a word, in its lowest bits.
#[derive(Clone, Copy, Debug, Default)]
struct Part {
    word: u64,
    len: usize,
}

impl Part {
    /// Removes the first bit and returns it.
    #[inline]
    fn first(&mut self) -> bool {
        let bit = self.word & 1 == 1;
        self.word >>= 1;
        self.len -= 1;
        bit
    }

    /// Removes the last bit and returns it.
    #[inline]
    fn last(&mut self) -> bool {
        self.len -= 1;
        self.word >> self.len & 1 == 1
    }
}

impl<'a> Iter<'a> {
    #[inline]
    pub(crate) fn new(bits: Bits<'a>) -> Self {
        Iter {
            words: bits.words(),
            front: Part::default(),
            back: Part::default(),
            left: bits.len(),
        }
    }

    /// Returns the number of bits in words that neither end has reached.
    #[inline]
    fn between(&self) -> usize {
        self.left - self.front.len - self.back.len
    }
}

impl Iterator for Iter<'_> {
    type Item = bool;

    #[inline]
    fn next(&mut self) -> Option<bool> {
        if self.left == 0 {
            return None;
        }
        if self.front.len == 0 {
            let len = self.between().min(64);
            self.front = match self.words.next() {
                Some(word) => Part { word, len },
                None => mem::take(&mut self.back),
            };
        }
        self.left -= 1;
        Some(self.front.first())
    }

    #[inline]
    fn size_hint(&self) -> (usize, Option<usize>) {
        (self.left, Some(self.left))
    }

    #[inline]
    fn last(mut self) -> Option<bool> {
        self.next_back()
    }

    /// Works word by word.
    #[inline]
    fn fold<A, F: FnMut(A, bool) -> A>(self, first: A, mut f: F) -> A {
        let mut left = self.between();
        let all = fold_word(self.front.word, self.front.len, first, &mut f);
        let all = self.words.fold(all, |all, word| {
            let len = left.min(64);
            left -= len;
            fold_word(word, len, all, &mut f)
        });
        fold_word(self.back.word, self.back.len, all, &mut f)
    }
}

impl DoubleEndedIterator for Iter<'_> {
    #[inline]
    fn next_back(&mut self) -> Option<bool> {
        if self.left == 0 {
            return None;
        }
        if self.back.len == 0 {
            let len = match self.between() % 64 {
                0 => 64,
                len => len,
            };
            self.back = match self.words.next_back() {
                Some(word) => Part { word, len },
                None => mem::take(&mut self.front),
            };
        }
        self.left -= 1;
        Some(self.back.last())
    }
}

/// Folds the `len` lowest bits of a word.
#[inline]
fn fold_word<A>(word: u64, len: usize, first: A, f: &mut impl FnMut(A, bool) -> A) -> A {
    (0..len).fold(first, |all, at| f(all, word >> at & 1 == 1))
}

impl ExactSizeIterator for Iter<'_> {}
impl FusedIterator for Iter<'_> {}
