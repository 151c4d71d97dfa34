//! Rank and select over a table of counts.

#[cfg(feature = "alloc")]
mod ranked;

#[cfg(feature = "alloc")]
pub use ranked::Ranked;

use crate::error::{ShortTable, expect};
use crate::{Bits, kernels};

/// The number of bits in a block.
pub(crate) const BLOCK: usize = 512;

/// Returns the number of blocks of 512 bits, and so of table entries, for `len` bits.
///
/// ```
/// assert_eq!(vortex_bits::blocks(1100), 3);
/// ```
#[inline]
#[must_use]
pub const fn blocks(len: usize) -> usize {
    len.div_ceil(BLOCK)
}

/// A window with a table: the number of set bits before each block of 512, one `usize` per 64 bytes
/// of bits. A rank reads an entry of the table and the bits of at most one block. A select finds
/// the block by a binary search of the table.
///
/// It borrows the bytes, so the bits can't change while their table is in use. `Ranked` owns both.
///
/// ```
/// use vortex_bits::{Bits, Ranks, blocks};
///
/// let bytes: Vec<u8> = (0..200).map(|i| if i % 5 == 0 { 0xFF } else { 0 }).collect();
/// let bits = Bits::from_bytes(&bytes);
/// let mut table = vec![0; blocks(bits.len())];
/// let ranks = Ranks::new(bits, &mut table);
/// assert_eq!(ranks.count(), 320);
/// assert_eq!(ranks.rank(20), 8);
/// assert_eq!(ranks.select(8), Some(40));
/// assert_eq!(ranks.select_unset(0), Some(8));
/// assert_eq!(ranks.select(320), None);
///
/// // Uses a stored table again, without counting.
/// assert_eq!(Ranks::with_table(bits, &table).select(8), Some(40));
/// ```
#[doc(alias("succinct"))]
#[derive(Clone, Copy, Debug)]
pub struct Ranks<'a> {
    bits: Bits<'a>,
    /// One entry per block.
    table: &'a [usize],
}

impl<'a> Ranks<'a> {
    /// Fills the first [`blocks`]`(bits.len())` entries of the table. Later entries are unchanged.
    /// Counts the bits once.
    ///
    /// # Panics
    ///
    /// Panics if the table has fewer entries.
    #[must_use]
    #[track_caller]
    pub fn new(bits: Bits<'a>, table: &'a mut [usize]) -> Ranks<'a> {
        expect(Ranks::try_new(bits, table))
    }

    /// Fills the table as [`Ranks::new`] does.
    ///
    /// # Errors
    ///
    /// Returns [`ShortTable`] if the table has fewer entries. It is then unchanged.
    ///
    /// ```
    /// use vortex_bits::{Bits, Ranks};
    ///
    /// let (bits, mut table) = (Bits::new(&[0xFF; 100], 0, 800), [0; 1]);
    /// assert!(Ranks::try_new(bits, &mut table).is_err());
    /// ```
    pub fn try_new(bits: Bits<'a>, table: &'a mut [usize]) -> Result<Ranks<'a>, ShortTable> {
        let entries = table.len();
        let table = table.get_mut(..blocks(bits.len()));
        let table = table.ok_or(ShortTable {
            blocks: blocks(bits.len()),
            entries,
        })?;
        kernels::block_counts(bits, table);
        Ok(Ranks { bits, table })
    }

    /// Uses a stored table: its first [`blocks`]`(bits.len())` entries. With the table of another
    /// window the results are meaningless, but no call reads out of bounds.
    ///
    /// # Panics
    ///
    /// Panics if the table has fewer entries.
    #[inline]
    #[must_use]
    #[track_caller]
    pub fn with_table(bits: Bits<'a>, table: &'a [usize]) -> Ranks<'a> {
        expect(Ranks::try_with_table(bits, table))
    }

    /// Uses a stored table as [`Ranks::with_table`] does.
    ///
    /// # Errors
    ///
    /// Returns [`ShortTable`] if the table has fewer entries than the window has blocks.
    ///
    /// ```
    /// use vortex_bits::{Bits, Ranks};
    ///
    /// let bits = Bits::new(&[0xFF; 100], 0, 800);
    /// assert!(Ranks::try_with_table(bits, &[0]).is_err());
    /// assert_eq!(Ranks::try_with_table(bits, &[0, 512]).map(|it| it.rank(600)), Ok(600));
    /// ```
    #[inline]
    pub fn try_with_table(bits: Bits<'a>, table: &'a [usize]) -> Result<Ranks<'a>, ShortTable> {
        let (blocks, entries) = (blocks(bits.len()), table.len());
        match table.get(..blocks) {
            Some(table) => Ok(Ranks { bits, table }),
            None => Err(ShortTable { blocks, entries }),
        }
    }

    /// Returns the window.
    #[inline]
    #[must_use]
    pub const fn bits(&self) -> Bits<'a> {
        self.bits
    }

    /// Returns the number of set bits before each block.
    #[inline]
    #[must_use]
    pub const fn table(&self) -> &'a [usize] {
        self.table
    }

    /// Returns the number of bits in the window.
    #[inline]
    #[must_use]
    pub const fn len(&self) -> usize {
        self.bits.len()
    }

    /// Returns whether the window has no bits.
    #[inline]
    #[must_use]
    pub const fn is_empty(&self) -> bool {
        self.bits.is_empty()
    }

    /// Returns the number of set bits. Reads the last entry of the table and the bits of the last
    /// block.
    #[inline]
    #[must_use]
    pub fn count(&self) -> usize {
        kernels::rank(self.bits, self.table, self.len())
    }

    /// Returns the number of set bits before index `place`.
    ///
    /// # Panics
    ///
    /// Panics if `place` is above the length.
    #[doc(alias("rank1"))]
    #[inline]
    #[must_use]
    #[track_caller]
    pub fn rank(&self, place: usize) -> usize {
        self.try_rank(place)
            .unwrap_or_else(|| past(place, self.len()))
    }

    /// Returns the number of set bits before index `place`; None if `place` is above the length.
    #[inline]
    #[must_use]
    pub fn try_rank(&self, place: usize) -> Option<usize> {
        (place <= self.len()).then(|| kernels::rank(self.bits, self.table, place))
    }

    /// Returns the index of the `n`-th set bit, counted from 0; None if at most `n` are set.
    #[doc(alias("select1"))]
    #[inline]
    #[must_use]
    pub fn select(&self, n: usize) -> Option<usize> {
        kernels::ranked_select(self.bits, self.table, n)
    }

    /// Returns the index of the `n`-th unset bit, counted from 0; None if at most `n` are unset.
    #[inline]
    #[must_use]
    pub fn select_unset(&self, n: usize) -> Option<usize> {
        kernels::ranked_select_unset(self.bits, self.table, n)
    }
}

#[cold]
#[inline(never)]
#[track_caller]
fn past(place: usize, len: usize) -> ! {
    panic!("index {place} is past {len} bits")
}
