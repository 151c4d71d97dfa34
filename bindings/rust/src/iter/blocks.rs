//! Finds the items of a window in blocks.

use super::counted::Counted;
use crate::Bits;

/// The number of items in a block.
const ROOM: usize = 64;

/// An item to find in a window: an index or a run.
pub trait Find: Clone {
    type Item: Copy + Default;

    /// Writes the first items of the window to `out`, up to its length, and returns their number.
    fn find(bits: Bits<'_>, out: &mut [Self::Item]) -> usize;

    /// Returns the index after an item.
    fn end(item: Self::Item) -> usize;
}

/// An iterator over the items of a window, which finds a block of them at a time.
#[derive(Clone)]
pub struct Blocks<'a, F: Find> {
    bits: Bits<'a>,
    /// The index that the block's items count from.
    base: usize,
    /// The index up to which the window is searched.
    end: usize,
    found: [F::Item; ROOM],
    next: usize,
    filled: usize,
    /// The number of items in the bits that it hasn't searched.
    unfound: Counted,
}

impl<'a, F: Find> Blocks<'a, F> {
    #[inline]
    pub fn new(bits: Bits<'a>) -> Self {
        Blocks {
            bits,
            base: 0,
            end: 0,
            found: [F::Item::default(); ROOM],
            next: 0,
            filled: 0,
            unfound: Counted::new(),
        }
    }

    /// Returns the bits that it hasn't searched.
    #[inline]
    pub fn rest(&self) -> Bits<'a> {
        self.bits.part(self.end, self.bits.len() - self.end)
    }

    /// Returns the index up to which the window is searched.
    #[inline]
    pub fn walked(&self) -> usize {
        self.end
    }

    /// Removes the bits from index `end` on. None of them is searched yet.
    #[inline]
    pub fn cut(&mut self, end: usize) {
        self.bits = self.bits.part(0, end);
    }

    /// Removes the last item of the block, and returns it with the index that it counts from.
    #[inline]
    pub fn pop_last(&mut self) -> Option<(usize, F::Item)> {
        if self.next == self.filled {
            return None;
        }
        self.filled -= 1;
        Some((self.base, self.found[self.filled]))
    }

    /// Returns the number of found items that are left.
    #[inline]
    pub fn found(&self) -> usize {
        self.filled - self.next
    }

    /// Returns the number of items in the bits that it hasn't searched, which `count` counts.
    #[cfg(vortex_bits_native)]
    #[inline]
    pub fn unfound(&self, count: impl FnOnce(Bits<'a>) -> usize) -> usize {
        self.unfound.get(|| count(self.rest()))
    }

    /// Subtracts the items in bits that were removed.
    #[cfg(vortex_bits_native)]
    #[inline]
    pub fn subtract(&mut self, items: impl FnOnce() -> usize) {
        self.unfound.subtract(items);
    }

    /// Fills the next block, and returns whether it found an item.
    fn refill(&mut self) -> bool {
        let rest = self.rest();
        self.base = self.end;
        self.next = 0;
        self.filled = F::find(rest, &mut self.found);
        self.unfound.subtract(|| self.filled);
        self.end = match self.found.last() {
            Some(&last) if self.filled == ROOM => self.base + F::end(last),
            _ => self.bits.len(),
        };
        self.filled > 0
    }

    /// Returns the next item with the index that it counts from.
    #[inline]
    pub fn next(&mut self) -> Option<(usize, F::Item)> {
        if self.next == self.filled && (self.end == self.bits.len() || !self.refill()) {
            return None;
        }
        let found = self.found[self.next];
        self.next += 1;
        Some((self.base, found))
    }

    #[inline]
    pub fn fold<A>(mut self, first: A, mut f: impl FnMut(A, (usize, F::Item)) -> A) -> A {
        let mut all = first;
        loop {
            for &found in &self.found[self.next..self.filled] {
                all = f(all, (self.base, found));
            }
            if self.end == self.bits.len() || !self.refill() {
                return all;
            }
        }
    }
}
