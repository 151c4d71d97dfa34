//! A bitmap with ranks, which owns its bytes.

use alloc::vec;
use alloc::vec::Vec;
use core::fmt;

use super::{Ranks, blocks};
use crate::{Bitmap, Bits, SharedBytes};

/// A [`Bitmap`] with the table of its [`Ranks`], to keep and to return. [`Bitmap::ranked`] returns
/// one. It has the calls of `Ranks`, except the constructors and `table`: `ranks().table()` returns
/// that.
///
/// ```
/// use vortex_bits::Bitmap;
///
/// let ranked = Bitmap::new(vec![0b0111_0110; 1000], 3, 7997).ranked();
/// assert_eq!((ranked.len(), ranked.count()), (7997, 4998));
/// assert_eq!((ranked.rank(100), ranked.try_rank(7998)), (63, None));
/// assert_eq!((ranked.select(2), ranked.select_unset(2)), (Some(3), Some(5)));
/// ```
#[doc(alias("succinct"))]
#[derive(Clone)]
pub struct Ranked<B = SharedBytes> {
    bitmap: Bitmap<B>,
    /// One entry per block.
    table: Vec<usize>,
}

impl<B: AsRef<[u8]>> Ranked<B> {
    pub(crate) fn new(bitmap: Bitmap<B>) -> Ranked<B> {
        let mut table = vec![0; blocks(bitmap.len())];
        let _ = Ranks::new(bitmap.bits(), &mut table);
        Ranked { bitmap, table }
    }

    /// Returns the bits.
    ///
    /// # Panics
    ///
    /// Panics as [`Bitmap::bits`] does. So do all calls below that read bits.
    #[inline]
    #[must_use]
    #[track_caller]
    pub fn bits(&self) -> Bits<'_> {
        self.bitmap.bits()
    }

    /// Returns the bits with their table, for ranks.
    #[inline]
    #[must_use]
    #[track_caller]
    pub fn ranks(&self) -> Ranks<'_> {
        Ranks::with_table(self.bits(), &self.table)
    }

    /// Returns the number of bits.
    #[inline]
    #[must_use]
    pub const fn len(&self) -> usize {
        self.bitmap.len()
    }

    /// Returns whether there are no bits.
    #[inline]
    #[must_use]
    pub const fn is_empty(&self) -> bool {
        self.bitmap.is_empty()
    }

    /// Returns the number of set bits. Reads the last entry of the table and the bits of the last
    /// block.
    #[inline]
    #[must_use]
    pub fn count(&self) -> usize {
        self.ranks().count()
    }

    /// Returns the number of set bits before index `place`. Reads an entry of the table and the
    /// bits of at most one block.
    ///
    /// # Panics
    ///
    /// Panics if `place` is above the length; [`try_rank`](Ranked::try_rank) returns None instead.
    #[inline]
    #[must_use]
    #[track_caller]
    pub fn rank(&self, place: usize) -> usize {
        self.ranks().rank(place)
    }

    /// Returns the number of set bits before index `place`; None if `place` is above the length.
    #[inline]
    #[must_use]
    pub fn try_rank(&self, place: usize) -> Option<usize> {
        self.ranks().try_rank(place)
    }

    /// Returns the index of the `n`-th set bit, counted from 0; None if at most `n` are set.
    #[inline]
    #[must_use]
    pub fn select(&self, n: usize) -> Option<usize> {
        self.ranks().select(n)
    }

    /// Returns the index of the `n`-th unset bit, counted from 0; None if at most `n` are unset.
    #[inline]
    #[must_use]
    pub fn select_unset(&self, n: usize) -> Option<usize> {
        self.ranks().select_unset(n)
    }

    /// Returns the bitmap without its table.
    ///
    /// ```
    /// use vortex_bits::Bitmap;
    ///
    /// let rows = Bitmap::from([true, false, true]);
    /// assert_eq!(rows.clone().ranked().into_bitmap(), rows);
    /// ```
    #[inline]
    pub fn into_bitmap(self) -> Bitmap<B> {
        self.bitmap
    }
}

/// Writes the bits as their window does.
impl<B: AsRef<[u8]>> fmt::Debug for Ranked<B> {
    fn fmt(&self, f: &mut fmt::Formatter<'_>) -> fmt::Result {
        self.bits().fmt(f)
    }
}
