//! A set of texts, to test many rows.

use alloc::vec::Vec;
use core::cmp::Ordering;

use super::block::Block;
use super::row::Row;
use super::test::Test;
use crate::arrow::ranges::each_set;
use crate::portable::first_eight;

/// Texts, each behind its key. They are in the order of these keys, and of their bytes if two keys
/// are equal.
pub(super) struct Wanted<T> {
    texts: Vec<(u64, T)>,
    /// The bits of the texts' lengths.
    lengths: u64,
    /// The bits of the high ends of their keys; `crowded` has those that more than one text has.
    highs: u64,
    crowded: u64,
    /// For each high end that a key has, the index of the first text with it. If there are more
    /// texts than a `u8` can index, all bits of `crowded` are set.
    places: [u8; 64],
    /// The length of the shortest; `longer` is the length of the longest minus that.
    shortest: u32,
    longer: u32,
}

/// A loop over at most this number of texts is faster than a binary search.
const FEW: usize = 16;

impl<T: AsRef<[u8]>> Wanted<T> {
    pub(super) fn new(texts: impl IntoIterator<Item = T>) -> Self {
        let keyed = |text: T| (key(first_eight(text.as_ref())), text);
        let mut texts: Vec<_> = texts.into_iter().map(keyed).collect();
        texts.sort_unstable_by(|one, (key, other)| order(one, *key, other.as_ref()));
        let mut wanted = Wanted {
            lengths: 0,
            highs: 0,
            crowded: 0,
            places: [0; 64],
            shortest: u32::MAX,
            longer: 0,
            texts,
        };
        wanted.note();
        wanted
    }

    /// Sets the fields that summarize the texts.
    fn note(&mut self) {
        let mut longest = 0;
        for (place, (key, text)) in self.texts.iter().enumerate().rev() {
            let len = text.as_ref().len();
            self.lengths |= length_bit(len);
            let end = 1 << high(*key);
            self.crowded |= self.highs & end;
            self.highs |= end;
            self.places[high(*key)] = place.to_le_bytes()[0];
            let len = u32::try_from(len).unwrap_or(u32::MAX);
            (self.shortest, longest) = (self.shortest.min(len), longest.max(len));
        }
        self.longer = longest.saturating_sub(self.shortest);
        if self.texts.len() > 1 << u8::BITS {
            self.crowded = u64::MAX;
        }
    }

    /// Returns whether a text may have the key.
    #[inline]
    fn may_have(&self, key: u64) -> bool {
        self.highs >> high(key) & 1 == 1
    }

    /// Returns the same as [`finds`](Wanted::finds), in fewer instructions if only one text has the
    /// high end of the key.
    #[inline]
    fn finds_most(&self, key: u64, row: &[u8]) -> bool {
        if self.crowded >> high(key) & 1 == 1 {
            return self.finds(key, row);
        }
        let one = self.texts.get(usize::from(self.places[high(key)]));
        one.is_some_and(|(own, text)| *own == key && is(text.as_ref(), row))
    }

    /// Returns whether a row with this key is one of the texts. At least one text must have the
    /// high end of the key. It is a separate function, so that loops over other rows stay small.
    #[inline(never)]
    fn finds(&self, key: u64, row: &[u8]) -> bool {
        if self.texts.len() <= FEW {
            let texts = &self.texts[usize::from(self.places[high(key)])..];
            let mut texts = texts.iter().take_while(|(own, _)| *own <= key);
            return texts.any(|(own, text)| *own == key && is(text.as_ref(), row));
        }
        let found = self.texts.binary_search_by(|it| order(it, key, row));
        found.is_ok()
    }
}

impl<T: AsRef<[u8]>> Test for Wanted<T> {
    const MANY: u32 = 16;

    /// Most rows have the length of none of the texts, or differ from each in the first eight
    /// bytes.
    #[inline]
    fn of_row(&self, row: Row<'_>) -> bool {
        if self.lengths & length_bit(row.len()) == 0 {
            return false;
        }
        let key = key(row.first_eight());
        self.may_have(key) && row.bytes().is_some_and(|row| self.finds(key, row))
    }

    fn of_candidates(&self, block: Block<'_>, rows: u64) -> u64 {
        let (shortest, longer) = (self.shortest, self.longer);
        let fit = rows & block.lens_that(|len| len.wrapping_sub(shortest) <= longer);
        let key = |row| key(block.row(row).first_eight());
        let found = each_set(fit, |row| self.may_have(key(row)));
        each_set(found, |row| {
            let bytes = block.row(row).bytes();
            bytes.is_some_and(|bytes| self.finds_most(key(row), bytes))
        })
    }
}

/// Returns whether two texts with the same first eight bytes are equal. Missing bytes were 0.
#[inline]
fn is(text: &[u8], row: &[u8]) -> bool {
    text.len() == row.len() && (row.len() <= 8 || text == row)
}

#[inline]
fn order<T: AsRef<[u8]>>((own, text): &(u64, T), key: u64, row: &[u8]) -> Ordering {
    own.cmp(&key).then_with(|| text.as_ref().cmp(row))
}

/// Returns the key of the first eight bytes as a number. Different bytes have different keys, and
/// the high end of a key depends on all bytes.
#[inline]
fn key(first: u64) -> u64 {
    first.wrapping_mul(0x9E37_79B9_7F4A_7C15)
}

/// Returns the highest six bits of a key.
#[inline]
fn high(key: u64) -> usize {
    (key >> 58) as usize
}

/// Returns the bit of a length. All lengths from 63 on have the last one.
#[inline]
fn length_bit(len: usize) -> u64 {
    1 << len.min(63)
}
