//! Splits a writable window into parts with separate bytes, such as one per thread.

use crate::BitsMut;
use crate::error::{SplitError, expect};
use crate::iter::ChunksMut;

impl BitsMut<'_> {
    /// Returns the bits before index `mid` and those from `mid` on, each over its own bytes. Two
    /// threads may write the two parts.
    ///
    /// `mid` must be a border between two bytes, where `(offset + mid) % 8` is 0, or one of the
    /// ends, 0 and [`len`](BitsMut::len). The first border at or after index `p` is
    /// `p + (offset + p).wrapping_neg() % 8`, or `len` if that is less. A part has only the bytes
    /// with a bit of it: [`bytes_mut`](BitsMut::bytes_mut) returns these, and its
    /// [`offset`](BitsMut::offset) is below 8.
    ///
    /// ```
    /// use std::thread;
    /// use vortex_bits::{Bits, BitsMut};
    ///
    /// let (mut bytes, left, right) = ([0; 100], [0b1010_1010; 100], [0b1100_1100; 100]);
    /// let (left, right) = (Bits::new(&left, 0, 797), Bits::new(&right, 0, 797));
    /// let mut both = BitsMut::new(&mut bytes, 3, 797);
    /// let (mut low, mut high) = both.split_at_mut(8 * 50 - 3);
    /// thread::scope(|scope| {
    ///     scope.spawn(|| low.and_of(left.slice(..397), right.slice(..397)));
    ///     scope.spawn(|| high.and_of(left.slice(397..), right.slice(397..)));
    /// });
    /// assert_eq!(both, Bits::new(&[0b1000_1000; 100], 0, 797));
    /// ```
    ///
    /// # Panics
    ///
    /// Panics if [`try_split_at_mut`](BitsMut::try_split_at_mut) returns an error.
    #[inline]
    #[must_use]
    #[track_caller]
    pub fn split_at_mut(&mut self, mid: usize) -> (BitsMut<'_>, BitsMut<'_>) {
        expect(self.try_split_at_mut(mid))
    }

    /// Returns the bits before index `mid` and those from `mid` on, as
    /// [`split_at_mut`](BitsMut::split_at_mut) does.
    ///
    /// # Errors
    ///
    /// Returns [`SplitError`] if `mid` is past the end, or is neither a border between two bytes
    /// nor one of the ends.
    ///
    /// ```
    /// use vortex_bits::BitsMut;
    ///
    /// let mut bytes = [0; 2];
    /// let mut bits = BitsMut::new(&mut bytes, 3, 10);
    /// assert!(bits.try_split_at_mut(5).is_ok());
    /// let refused = bits.try_split_at_mut(6).unwrap_err();
    /// assert_eq!(refused.to_string(), "index 6 is bit 9 of the bytes, within byte 1");
    /// ```
    #[inline]
    pub fn try_split_at_mut(
        &mut self,
        mid: usize,
    ) -> Result<(BitsMut<'_>, BitsMut<'_>), SplitError> {
        let (bit, len) = (self.offset().saturating_add(mid), self.len());
        if mid > len {
            return Err(SplitError::Past { place: mid, len });
        }
        if bit % 8 != 0 && mid != 0 && mid != len {
            return Err(SplitError::WithinByte { place: mid, bit });
        }
        Ok(self.part(0, len).split(mid))
    }

    /// Returns an iterator over the window in parts of `bits` bits, each over its own bytes. Each
    /// part may be written by its own thread.
    ///
    /// Each border is between two bytes. So the first part has `bits - offset % 8` bits, each
    /// further one `bits`, and the last one the rest. Each part has at most `bits / 8` bytes. An
    /// empty window has no part.
    ///
    /// ```
    /// use std::thread;
    /// use vortex_bits::BitsMut;
    ///
    /// let mut bytes = [0; 100];
    /// let mut thirds = BitsMut::new(&mut bytes, 3, 790);
    /// thread::scope(|scope| {
    ///     let mut end = 0;
    ///     for mut part in thirds.chunks_mut(256) {
    ///         let start = end;
    ///         end += part.len();
    ///         scope.spawn(move || part.fill_with(|place| (start + place) % 3 == 0));
    ///     }
    /// });
    /// assert!(thirds.as_bits().set_indices().eq((0..790).step_by(3)));
    /// assert!(thirds.chunks_mut(256).map(|part| part.len()).eq([253, 256, 256, 25]));
    /// ```
    ///
    /// # Panics
    ///
    /// Panics if `bits` is 0 or isn't a multiple of 8.
    #[doc(alias("parallel", "threads"))]
    #[inline]
    #[must_use]
    #[track_caller]
    pub fn chunks_mut(&mut self, bits: usize) -> ChunksMut<'_> {
        assert!(
            bits != 0 && bits % 8 == 0,
            "parts of {bits} bits aren't whole bytes"
        );
        ChunksMut::new(self.part(0, self.len()), bits)
    }
}
