//! Iterators over runs of set and of unset bits. Runs from the end are found here, word by word.

use core::fmt;
use core::iter::FusedIterator;
use core::ops::Range;

use super::blocks::{Blocks, Find};
use crate::kernels::{Run, set_slices};
use crate::{Bits, portable};

/// The kind of bits in the runs.
trait Seek: Find<Item = Run> {
    /// Returns a word of at most 64 bits in which the bits of runs are 1.
    fn word(bits: Bits<'_>) -> u64;

    /// Returns the index of the last bit before `place` that is in no run.
    fn before(bits: Bits<'_>, place: usize) -> Option<usize>;
}

macro_rules! seek {
    ($($name:ident: $find:path, $word:expr, $before:path;)*) => {$(
        #[derive(Clone)]
        struct $name;

        impl Find for $name {
            type Item = Run;

            #[inline]
            fn find(bits: Bits<'_>, out: &mut [Run]) -> usize {
                $find(bits, out)
            }

            #[inline]
            fn end(run: Run) -> usize {
                run.end
            }
        }

        impl Seek for $name {
            #[inline]
            fn word(bits: Bits<'_>) -> u64 {
                $word(portable::only_word(bits), bits.len())
            }

            #[inline]
            fn before(bits: Bits<'_>, place: usize) -> Option<usize> {
                $before(bits, place)
            }
        }
    )*};
}

seek! {
    Set: set_slices, |word, _| word, Bits::previous_unset;
    Unset: portable::unset_slices, |word: u64, len| !word & portable::low(len), Bits::previous_set;
}

/// The runs in a word that are left: its set bits, counted from `base`.
#[derive(Clone, Copy, Default)]
struct Left {
    base: usize,
    word: u64,
}

impl Left {
    fn len(self) -> usize {
        (self.word & !(self.word << 1)).count_ones() as usize
    }

    /// Returns the run of `len` bits at `start`, and removes it.
    #[inline]
    fn cut(&mut self, start: u32, len: u32) -> Range<usize> {
        let [start, len] = [start as usize, len as usize];
        self.word &= !(portable::low(len) << start);
        self.base + start..self.base + start + len
    }

    #[inline]
    fn first(&mut self) -> Option<Range<usize>> {
        let start = self.word.trailing_zeros();
        (self.word != 0).then(|| self.cut(start, (self.word >> start).trailing_ones()))
    }

    #[inline]
    fn last(&mut self) -> Option<Range<usize>> {
        let behind = self.word.leading_zeros();
        (self.word != 0).then(|| {
            let len = (self.word << behind).leading_ones();
            self.cut(64 - behind - len, len)
        })
    }
}

/// An iterator over the runs of a window.
#[derive(Clone)]
struct Runs<'a, F: Seek> {
    front: Blocks<'a, F>,
    /// The runs of a word that begins with a bit of no run.
    back: Left,
}

impl<'a, F: Seek> Runs<'a, F> {
    #[inline]
    fn new(bits: Bits<'a>) -> Self {
        Runs {
            front: Blocks::new(bits),
            back: Left::default(),
        }
    }

    #[inline]
    fn next(&mut self) -> Option<Range<usize>> {
        let found = self.front.next();
        found.map_or_else(|| self.back.first(), |found| Some(range(found)))
    }

    #[inline]
    fn next_back(&mut self) -> Option<Range<usize>> {
        loop {
            if let Some(run) = self.back.last() {
                return Some(run);
            }
            let (base, rest) = (self.front.walked(), self.front.rest());
            if rest.is_empty() {
                return self.front.pop_last().map(range);
            }
            let len = rest.len().min(64);
            let start = rest.len() - len;
            let word = F::word(rest.part(start, len));
            let begun = word.trailing_ones() as usize;
            if begun >= len {
                let start = F::before(rest, start).map_or(0, |before| before + 1);
                self.front.cut(base + start);
                return Some(base + start..base + rest.len());
            }
            self.front.cut(base + start + begun);
            self.back = Left {
                base: base + start + begun,
                word: word >> begun,
            };
        }
    }

    #[inline]
    fn fold<A>(self, first: A, mut f: impl FnMut(A, Range<usize>) -> A) -> A {
        let found = self.front.fold(first, |all, found| f(all, range(found)));
        let (mut all, mut back) = (found, self.back);
        while let Some(run) = back.first() {
            all = f(all, run);
        }
        all
    }

    #[inline]
    fn left(&self) -> (usize, Option<usize>) {
        let found = self.front.found() + self.back.len();
        (found, Some(found + self.front.rest().len().div_ceil(2)))
    }
}

#[inline]
fn range((base, run): (usize, Run)) -> Range<usize> {
    base + run.start..base + run.end
}

/// The iterators over runs.
macro_rules! slices {
    ($($(#[$doc:meta])* $name:ident: $find:ty;)*) => {$(
        $(#[$doc])*
        #[derive(Clone)]
        pub struct $name<'a>(Runs<'a, $find>);

        impl<'a> $name<'a> {
            #[inline]
            pub(crate) fn new(bits: Bits<'a>) -> Self {
                $name(Runs::new(bits))
            }
        }

        impl Iterator for $name<'_> {
            type Item = Range<usize>;

            #[inline]
            fn next(&mut self) -> Option<Range<usize>> {
                self.0.next()
            }

            #[inline]
            fn size_hint(&self) -> (usize, Option<usize>) {
                self.0.left()
            }

            #[inline]
            fn last(mut self) -> Option<Range<usize>> {
                self.next_back()
            }

            #[inline]
            fn fold<A, F: FnMut(A, Range<usize>) -> A>(self, first: A, f: F) -> A {
                self.0.fold(first, f)
            }
        }

        impl DoubleEndedIterator for $name<'_> {
            #[inline]
            fn next_back(&mut self) -> Option<Range<usize>> {
                self.0.next_back()
            }
        }

        impl FusedIterator for $name<'_> {}

        impl fmt::Debug for $name<'_> {
            fn fmt(&self, f: &mut fmt::Formatter<'_>) -> fmt::Result {
                f.debug_list().entries(self.clone()).finish()
            }
        }
    )*};
}

slices! {
    /// An iterator over the runs of set bits, from front to end. [`Bits::set_slices`] returns it.
    SetSlices: Set;
    /// An iterator over the runs of unset bits, from front to end. [`Bits::unset_slices`] returns
    /// it.
    UnsetSlices: Unset;
}
