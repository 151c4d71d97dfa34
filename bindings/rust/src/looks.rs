//! Comparison, hashes, output and indexing of windows.

use core::fmt;
use core::hash::{Hash, Hasher};
use core::ops::Index;

use crate::iter::Iter;
use crate::{Bits, BitsMut, kernels};

/// Compares the bits, at any offsets.
impl PartialEq for Bits<'_> {
    #[inline]
    fn eq(&self, other: &Bits<'_>) -> bool {
        self.len() == other.len() && kernels::equal(*self, *other)
    }
}

impl Eq for Bits<'_> {}

impl PartialEq for BitsMut<'_> {
    #[inline]
    fn eq(&self, other: &BitsMut<'_>) -> bool {
        self.as_bits() == other.as_bits()
    }
}

impl Eq for BitsMut<'_> {}

impl PartialEq<Bits<'_>> for BitsMut<'_> {
    #[inline]
    fn eq(&self, other: &Bits<'_>) -> bool {
        self.as_bits() == *other
    }
}

impl PartialEq<BitsMut<'_>> for Bits<'_> {
    #[inline]
    fn eq(&self, other: &BitsMut<'_>) -> bool {
        *self == other.as_bits()
    }
}

/// Returns the same window, for calls with an [`Into`] parameter.
impl<'a> From<&Bits<'a>> for Bits<'a> {
    #[inline]
    fn from(bits: &Bits<'a>) -> Bits<'a> {
        *bits
    }
}

impl Hash for Bits<'_> {
    fn hash<H: Hasher>(&self, state: &mut H) {
        self.len().hash(state);
        self.words().for_each(|word| word.hash(state));
    }
}

/// Writes the bits as digits, with index 0 first: `Bits(1101)`.
impl fmt::Debug for Bits<'_> {
    fn fmt(&self, f: &mut fmt::Formatter<'_>) -> fmt::Result {
        f.write_str("Bits(")?;
        digits(*self, f)
    }
}

/// Writes the bits as digits, with index 0 first: `BitsMut(1101)`.
impl fmt::Debug for BitsMut<'_> {
    fn fmt(&self, f: &mut fmt::Formatter<'_>) -> fmt::Result {
        f.write_str("BitsMut(")?;
        digits(self.as_bits(), f)
    }
}

fn digits(bits: Bits<'_>, f: &mut fmt::Formatter<'_>) -> fmt::Result {
    for bit in bits {
        f.write_str(if bit { "1" } else { "0" })?;
    }
    f.write_str(")")
}

/// # Panics
///
/// Panics if the index is out of bounds; [`get`](Bits::get) returns None instead.
impl Index<usize> for Bits<'_> {
    type Output = bool;

    #[inline]
    #[track_caller]
    fn index(&self, place: usize) -> &bool {
        self.at(place)
    }
}

/// # Panics
///
/// Panics if the index is out of bounds; [`get`](BitsMut::get) returns None instead.
impl Index<usize> for BitsMut<'_> {
    type Output = bool;

    #[inline]
    #[track_caller]
    fn index(&self, place: usize) -> &bool {
        self.as_bits().at(place)
    }
}

impl Bits<'_> {
    /// Returns the bit at an index as a reference, which `[]` needs.
    #[inline]
    #[track_caller]
    pub(crate) fn at(self, place: usize) -> &'static bool {
        match self.get(place) {
            Some(true) => &true,
            Some(false) => &false,
            None => panic!("index {place} is not among {} bits", self.len()),
        }
    }
}

impl<'a> IntoIterator for Bits<'a> {
    type Item = bool;
    type IntoIter = Iter<'a>;

    #[inline]
    fn into_iter(self) -> Iter<'a> {
        self.iter()
    }
}

impl<'a> IntoIterator for &Bits<'a> {
    type Item = bool;
    type IntoIter = Iter<'a>;

    #[inline]
    fn into_iter(self) -> Iter<'a> {
        self.iter()
    }
}
