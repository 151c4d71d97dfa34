//! Iterators over the indices of set and of unset bits. C functions, if there are any, find the
//! indices of set bits block by block. The indices of unset bits, and those from the end, are found
//! here, word by word.

use core::fmt;
use core::iter::FusedIterator;
use core::mem;

use super::counted::Counted;
use crate::{Bits, portable};

/// The indices of the set bits.
#[cfg(vortex_bits_native)]
type Set<'a> = by_blocks::Places<'a>;
#[cfg(not(vortex_bits_native))]
type Set<'a> = ByWords<'a, true>;

#[cfg(vortex_bits_native)]
mod by_blocks {
    use super::Left;
    use crate::iter::blocks::{Blocks, Find};
    use crate::kernels::set_indices;
    use crate::{Bits, portable};

    #[derive(Clone)]
    struct Found;

    impl Find for Found {
        type Item = usize;

        #[inline]
        fn find(bits: Bits<'_>, out: &mut [usize]) -> usize {
            set_indices(bits, out)
        }

        #[inline]
        fn end(place: usize) -> usize {
            place + 1
        }
    }

    #[derive(Clone)]
    pub struct Places<'a> {
        front: Blocks<'a, Found>,
        back: Left,
    }

    impl<'a> Places<'a> {
        #[inline]
        pub fn new(bits: Bits<'a>) -> Self {
            Places {
                front: Blocks::new(bits),
                back: Left::default(),
            }
        }

        #[inline]
        pub fn left(&self) -> usize {
            self.front.found() + self.front.unfound(Bits::count_ones) + self.back.len()
        }

        #[inline]
        pub fn next(&mut self) -> Option<usize> {
            let found = self.front.next();
            found.map_or_else(|| self.back.first(), |(base, place)| Some(base + place))
        }

        #[inline]
        pub fn next_back(&mut self) -> Option<usize> {
            while self.back.is_empty() {
                let (base, rest) = (self.front.walked(), self.front.rest());
                let len = rest.len().min(64);
                if len == 0 {
                    return self.front.pop_last().map(|(base, place)| base + place);
                }
                let start = rest.len() - len;
                self.front.cut(base + start);
                self.back = Left::new(base + start, portable::only_word(rest.part(start, len)));
                self.front.subtract(|| self.back.len());
            }
            self.back.last()
        }

        #[inline]
        pub fn fold<A>(self, first: A, mut f: impl FnMut(A, usize) -> A) -> A {
            let found = |all, (base, place)| f(all, base + place);
            let all = self.front.fold(first, found);
            self.back.fold(all, f)
        }
    }
}

/// The indices in a word that are left: its set bits, counted from `base`.
#[derive(Clone, Copy, Default)]
struct Left {
    base: usize,
    word: u64,
}

impl Left {
    #[inline]
    fn new(base: usize, word: u64) -> Self {
        Left { base, word }
    }

    #[inline]
    fn len(self) -> usize {
        self.word.count_ones() as usize
    }

    #[inline]
    fn is_empty(self) -> bool {
        self.word == 0
    }

    #[inline]
    fn first(&mut self) -> Option<usize> {
        if self.word == 0 {
            return None;
        }
        let place = self.base + self.word.trailing_zeros() as usize;
        self.word &= self.word - 1;
        Some(place)
    }

    #[inline]
    fn last(&mut self) -> Option<usize> {
        let digit = self.word.checked_ilog2()?;
        self.word ^= 1 << digit;
        Some(self.base + digit as usize)
    }

    #[inline]
    fn fold<A>(mut self, first: A, mut f: impl FnMut(A, usize) -> A) -> A {
        let mut all = first;
        while let Some(place) = self.first() {
            all = f(all, place);
        }
        all
    }
}

/// The indices of the bits of a window that are `VALUE`.
#[derive(Clone)]
struct ByWords<'a, const VALUE: bool> {
    /// The window up to the word in `back`.
    bits: Bits<'a>,
    front: Left,
    /// The index after the word in `front`.
    end: usize,
    back: Left,
    /// The number of indices between the two words.
    between: Counted,
}

impl<'a, const VALUE: bool> ByWords<'a, VALUE> {
    #[inline]
    fn new(bits: Bits<'a>) -> Self {
        ByWords {
            bits,
            front: Left::default(),
            end: 0,
            back: Left::default(),
            between: Counted::new(),
        }
    }

    /// Returns the bits that neither end has reached.
    #[inline]
    fn rest(&self) -> Bits<'a> {
        self.bits.part(self.end, self.bits.len() - self.end)
    }

    /// Returns the indices in a part of at most 64 bits.
    #[inline]
    fn word(&self, start: usize, len: usize) -> Left {
        let word = portable::only_word(self.bits.part(start, len));
        let word = if VALUE {
            word
        } else {
            !word & portable::low(len)
        };
        Left::new(start, word)
    }

    /// Advances to the next word; if there is none, to the word in `back`. Returns whether there
    /// was one.
    #[inline]
    fn advance(&mut self) -> bool {
        let len = (self.bits.len() - self.end).min(64);
        if len == 0 {
            self.front = mem::take(&mut self.back);
            return !self.front.is_empty();
        }
        self.front = self.word(self.end, len);
        self.end += len;
        self.between.subtract(|| self.front.len());
        true
    }

    /// Returns the number of indices left. The first call counts the bits.
    #[inline]
    fn left(&self) -> usize {
        let count = || {
            let rest = self.rest();
            if VALUE {
                rest.count_ones()
            } else {
                rest.count_zeros()
            }
        };
        self.front.len() + self.between.get(count) + self.back.len()
    }

    #[inline]
    fn next(&mut self) -> Option<usize> {
        loop {
            match self.front.first() {
                None if self.advance() => (),
                place => return place,
            }
        }
    }

    #[inline]
    fn next_back(&mut self) -> Option<usize> {
        while self.back.is_empty() {
            let len = (self.bits.len() - self.end).min(64);
            if len == 0 {
                return self.front.last();
            }
            let start = self.bits.len() - len;
            self.back = self.word(start, len);
            self.bits = self.bits.part(0, start);
            self.between.subtract(|| self.back.len());
        }
        self.back.last()
    }

    /// Processes whole words first, in a separate loop.
    #[inline]
    fn fold<A>(mut self, first: A, mut f: impl FnMut(A, usize) -> A) -> A {
        let mut all = self.front.fold(first, &mut f);
        for word in portable::quick_words(self.rest()) {
            let word = if VALUE { word } else { !word };
            all = Left::new(self.end, word).fold(all, &mut f);
            self.end += 64;
        }
        while self.advance() {
            all = self.front.fold(all, &mut f);
        }
        all
    }
}

/// The iterators over indices.
macro_rules! indices {
    ($($(#[$doc:meta])* $name:ident: $places:ident $(<$value:literal>)?;)*) => {$(
        $(#[$doc])*
        #[derive(Clone)]
        pub struct $name<'a>($places<'a $(, $value)?>);

        impl<'a> $name<'a> {
            #[inline]
            pub(crate) fn new(bits: Bits<'a>) -> Self {
                $name($places::new(bits))
            }
        }

        impl Iterator for $name<'_> {
            type Item = usize;

            #[inline]
            fn next(&mut self) -> Option<usize> {
                self.0.next()
            }

            /// Returns the number of indices left. The first call counts the bits.
            #[inline]
            fn size_hint(&self) -> (usize, Option<usize>) {
                let left = self.0.left();
                (left, Some(left))
            }

            #[inline]
            fn count(self) -> usize {
                self.len()
            }

            #[inline]
            fn last(mut self) -> Option<usize> {
                self.next_back()
            }

            #[inline]
            fn fold<A, F: FnMut(A, usize) -> A>(self, first: A, f: F) -> A {
                self.0.fold(first, f)
            }
        }

        impl DoubleEndedIterator for $name<'_> {
            #[inline]
            fn next_back(&mut self) -> Option<usize> {
                self.0.next_back()
            }
        }

        impl ExactSizeIterator for $name<'_> {}
        impl FusedIterator for $name<'_> {}

        impl fmt::Debug for $name<'_> {
            fn fmt(&self, f: &mut fmt::Formatter<'_>) -> fmt::Result {
                f.debug_list().entries(self.clone()).finish()
            }
        }
    )*};
}

indices! {
    /// An iterator over the indices of the set bits, in ascending order. [`Bits::set_indices`]
    /// returns it.
    SetIndices: Set;
    /// An iterator over the indices of the unset bits, in ascending order. [`Bits::unset_indices`]
    /// returns it.
    UnsetIndices: ByWords<false>;
}
