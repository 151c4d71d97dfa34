//! Traits of bitmaps: conversions, comparison, hashes, output and iteration.

use alloc::vec::Vec;
use core::fmt;
use core::hash::{Hash, Hasher};
use core::ops::Index;

use super::Bitmap;
use crate::iter::Iter;
use crate::{Bits, Validity};

/// Returns an empty bitmap.
impl Default for Bitmap {
    fn default() -> Bitmap {
        Bitmap::growing(0).share()
    }
}

impl From<&[bool]> for Bitmap {
    fn from(bools: &[bool]) -> Bitmap {
        Bitmap::make(bools.len(), |mut out| out.copy_from_bools(bools))
    }
}

impl From<Vec<bool>> for Bitmap {
    fn from(bools: Vec<bool>) -> Bitmap {
        Bitmap::from(&bools[..])
    }
}

impl<const N: usize> From<[bool; N]> for Bitmap {
    fn from(bools: [bool; N]) -> Bitmap {
        Bitmap::from(&bools[..])
    }
}

impl<const N: usize> From<&[bool; N]> for Bitmap {
    fn from(bools: &[bool; N]) -> Bitmap {
        Bitmap::from(&bools[..])
    }
}

impl From<Bits<'_>> for Bitmap {
    fn from(bits: Bits<'_>) -> Bitmap {
        Bitmap::make(bits.len(), |mut out| out.copy_from(bits))
    }
}

/// Returns the bits as a window, for calls with an [`Into`] parameter.
///
/// ```
/// use vortex_bits::{Bitmap, Bits};
///
/// assert!(Bits::from(&Bitmap::new_set(3)).all());
/// ```
impl<'a, B: AsRef<[u8]>> From<&'a Bitmap<B>> for Bits<'a> {
    #[inline]
    fn from(bitmap: &'a Bitmap<B>) -> Bits<'a> {
        bitmap.bits()
    }
}

/// Returns the truth values, one byte each.
///
/// ```
/// use vortex_bits::Bitmap;
///
/// assert_eq!(Vec::from(Bitmap::new_set(2)), [true, true]);
/// ```
impl<B: AsRef<[u8]>> From<Bitmap<B>> for Vec<bool> {
    fn from(bitmap: Bitmap<B>) -> Vec<bool> {
        bitmap.iter().collect()
    }
}

/// Collects the truth values. Allocates a temporary [`Vec`] of one byte per bit.
impl FromIterator<bool> for Bitmap {
    fn from_iter<I: IntoIterator<Item = bool>>(bools: I) -> Bitmap {
        let bools: Vec<bool> = bools.into_iter().collect();
        Bitmap::from(bools)
    }
}

/// Joins the bits of the windows in turn.
///
/// ```
/// use vortex_bits::{Bitmap, Bits};
///
/// let parts = [Bits::new(&[0b01], 0, 2), Bits::new(&[0b110], 1, 2)];
/// assert_eq!(format!("{:?}", parts.into_iter().collect::<Bitmap>()), "Bits(1011)");
/// ```
impl<'a> FromIterator<Bits<'a>> for Bitmap {
    fn from_iter<I: IntoIterator<Item = Bits<'a>>>(windows: I) -> Bitmap {
        let mut joined = Bitmap::growing(0);
        joined.extend(windows);
        joined.share()
    }
}

/// Joins a bit per row for each validity in turn: whether the row is valid.
///
/// # Panics
///
/// Panics if the number of rows isn't a `usize`.
impl<'a> FromIterator<Validity<'a>> for Bitmap {
    fn from_iter<I: IntoIterator<Item = Validity<'a>>>(validities: I) -> Bitmap {
        let mut joined = Bitmap::growing(0);
        joined.extend(validities);
        joined.share()
    }
}

/// Joins the bits of the bitmaps in turn.
impl<'a, B: AsRef<[u8]>> FromIterator<&'a Bitmap<B>> for Bitmap {
    fn from_iter<I: IntoIterator<Item = &'a Bitmap<B>>>(bitmaps: I) -> Bitmap {
        bitmaps.into_iter().map(Bitmap::bits).collect()
    }
}

impl<B: AsRef<[u8]>> fmt::Debug for Bitmap<B> {
    fn fmt(&self, f: &mut fmt::Formatter<'_>) -> fmt::Result {
        self.bits().fmt(f)
    }
}

/// Compares the bits, at any offsets.
impl<B: AsRef<[u8]>, C: AsRef<[u8]>> PartialEq<Bitmap<C>> for Bitmap<B> {
    fn eq(&self, other: &Bitmap<C>) -> bool {
        self.bits() == other.bits()
    }
}

impl<B: AsRef<[u8]>> Eq for Bitmap<B> {}

impl<B: AsRef<[u8]>> PartialEq<Bits<'_>> for Bitmap<B> {
    fn eq(&self, other: &Bits<'_>) -> bool {
        self.bits() == *other
    }
}

impl<B: AsRef<[u8]>> PartialEq<Bitmap<B>> for Bits<'_> {
    fn eq(&self, other: &Bitmap<B>) -> bool {
        *self == other.bits()
    }
}

/// Hashes the bits as their window does.
impl<B: AsRef<[u8]>> Hash for Bitmap<B> {
    fn hash<H: Hasher>(&self, state: &mut H) {
        self.bits().hash(state);
    }
}

/// # Panics
///
/// Panics if the index is out of bounds; [`get`](Bitmap::get) returns None instead.
impl<B: AsRef<[u8]>> Index<usize> for Bitmap<B> {
    type Output = bool;

    #[inline]
    #[track_caller]
    fn index(&self, place: usize) -> &bool {
        self.bits().at(place)
    }
}

impl<'a, B: AsRef<[u8]>> IntoIterator for &'a Bitmap<B> {
    type Item = bool;
    type IntoIter = Iter<'a>;

    #[inline]
    fn into_iter(self) -> Iter<'a> {
        self.iter()
    }
}
