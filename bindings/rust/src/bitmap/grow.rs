//! Appending to bitmaps and editing them.

use super::Bitmap;
use crate::bytes::AlignedBytes;
use crate::kernels;
use crate::{Bits, BitsMut, Grow, Validity};

/// Calls that write. If the bytes have another owner, all but `truncate` and `clear` allocate a
/// copy of the bits first. A bitmap that grows past its capacity moves to new bytes.
impl<B: Grow> Bitmap<B> {
    /// Returns the bytes, the index of the first bit, and the length. Copies the bits if the bytes
    /// have other owners.
    #[inline]
    fn owned(&mut self) -> (&mut AlignedBytes, usize, &mut usize) {
        if !self.bytes.is_owned() {
            self.copy();
        }
        match self.bytes.owned() {
            Some(bytes) => (bytes, self.offset, &mut self.len),
            None => unreachable!("a copy has one owner"),
        }
    }

    #[cold]
    #[inline(never)]
    pub(super) fn copy(&mut self) {
        let bits = self.bits();
        let mut bytes = AlignedBytes::zeroed(bits.len().div_ceil(8));
        BitsMut::new(&mut bytes, 0, bits.len()).copy_from(bits);
        self.bytes = B::from(bytes);
        self.offset = 0;
    }

    /// Appends `n` bits with arbitrary values, and returns them as a writable window.
    ///
    /// # Panics
    ///
    /// Panics if the end of the bits isn't a `usize`.
    pub(crate) fn grow(&mut self, n: usize) -> BitsMut<'_> {
        let (bytes, offset, len) = self.owned();
        let start = offset + *len;
        let end = start.checked_add(n).expect("an end is a usize");
        if bytes.len() < end.div_ceil(8) {
            bytes.resize(end.div_ceil(8));
        }
        *len += n;
        BitsMut::new(bytes, start, n)
    }

    /// Returns the bits as a writable window.
    ///
    /// ```
    /// use vortex_bits::Bitmap;
    ///
    /// let mut rows = Bitmap::new_unset(10);
    /// rows.bits_mut().slice(3..7).fill(true);
    /// assert_eq!(rows.count_ones(), 4);
    /// ```
    #[must_use]
    pub fn bits_mut(&mut self) -> BitsMut<'_> {
        let (bytes, offset, len) = self.owned();
        BitsMut::new(bytes, offset, *len)
    }

    /// Sets one bit to `value`. To set many bits, call [`bits_mut`](Bitmap::bits_mut) once: it is
    /// faster.
    ///
    /// ```
    /// use vortex_bits::Bitmap;
    ///
    /// let mut rows = Bitmap::new_unset(10);
    /// rows.set(3, true);
    /// assert_eq!(rows.first_set(), Some(3));
    /// ```
    ///
    /// # Panics
    ///
    /// Panics if the index is out of bounds.
    #[inline]
    #[track_caller]
    pub fn set(&mut self, place: usize, value: bool) {
        self.bits_mut().set(place, value);
    }

    /// Reserves capacity for at least `bits` more bits.
    ///
    /// ```
    /// use vortex_bits::Bitmap;
    ///
    /// let mut rows = Bitmap::default();
    /// rows.reserve(1000);
    /// assert!(rows.is_empty());
    /// ```
    pub fn reserve(&mut self, bits: usize) {
        let (bytes, offset, len) = self.owned();
        let size = (offset + *len).saturating_add(bits).div_ceil(8);
        bytes.reserve(size.saturating_sub(bytes.len()));
    }

    /// Appends a bit. If the bytes can be shared, each call tests that they aren't.
    /// [`BitmapMut`](crate::BitmapMut) needs no test, and [`Extend`] tests once for 512 bits.
    ///
    /// ```
    /// use vortex_bits::Bitmap;
    ///
    /// let mut rows = Bitmap::default();
    /// rows.append(true);
    /// assert_eq!(format!("{rows:?}"), "Bits(1)");
    /// ```
    ///
    /// # Panics
    ///
    /// Panics if the end of the bits isn't a `usize`.
    #[doc(alias("push"))]
    #[inline]
    pub fn append(&mut self, value: bool) {
        let (bytes, offset, len) = self.owned();
        let end = offset + *len;
        // With 64-bit addresses no memory has `usize::MAX` bits.
        assert!(usize::BITS == 64 || end < usize::MAX, "an end is a usize");
        match bytes.byte_mut(end / 8) {
            Some(byte) => *byte = *byte & !(1 << (end % 8)) | u8::from(value) << (end % 8),
            None => bytes.push(u8::from(value)),
        }
        *len += 1;
    }

    /// Appends `n` bits, all `value`.
    ///
    /// ```
    /// use vortex_bits::Bitmap;
    ///
    /// let mut rows = Bitmap::new_set(3);
    /// rows.append_n(10, false);
    /// assert_eq!((rows.len(), rows.count_ones()), (13, 3));
    /// ```
    ///
    /// # Panics
    ///
    /// Panics if the end of the bits isn't a `usize`.
    #[doc(alias("resize"))]
    pub fn append_n(&mut self, n: usize, value: bool) {
        self.grow(n).fill(value);
    }

    /// Appends the bits of a window at any offset.
    ///
    /// ```
    /// use vortex_bits::{Bitmap, Bits};
    ///
    /// let mut rows = Bitmap::new_unset(3);
    /// rows.append_bits(Bits::new(&[0b1110_1000], 3, 5));
    /// assert_eq!(format!("{rows:?}"), "Bits(00010111)");
    /// ```
    ///
    /// # Panics
    ///
    /// Panics if the end of the bits isn't a `usize`.
    #[doc(alias("concat", "append_buffer"))]
    pub fn append_bits(&mut self, bits: Bits<'_>) {
        self.grow(bits.len()).copy_from(bits);
    }

    /// Appends truth values.
    ///
    /// ```
    /// use vortex_bits::Bitmap;
    ///
    /// let mut rows = Bitmap::new_unset(3);
    /// rows.append_bools(&[true, false]);
    /// assert_eq!(format!("{rows:?}"), "Bits(00010)");
    /// ```
    ///
    /// # Panics
    ///
    /// Panics if the end of the bits isn't a `usize`.
    pub fn append_bools(&mut self, bools: &[bool]) {
        kernels::pack_bools(&mut self.grow(bools.len()).written(), bools);
    }

    /// Shortens the bitmap to its first `len` bits. Does nothing if it has no more than `len`.
    ///
    /// ```
    /// use vortex_bits::Bitmap;
    ///
    /// let mut rows = Bitmap::new_set(13);
    /// rows.truncate(5);
    /// assert_eq!(rows.len(), 5);
    /// ```
    pub fn truncate(&mut self, len: usize) {
        self.len = self.len.min(len);
    }

    /// Removes all bits. Does not free memory.
    ///
    /// ```
    /// use vortex_bits::Bitmap;
    ///
    /// let mut rows = Bitmap::new_set(13);
    /// rows.clear();
    /// assert!(rows.is_empty());
    /// ```
    pub fn clear(&mut self) {
        self.truncate(0);
    }
}

/// Fills the block with the next truth values, and returns their number.
#[inline]
fn fill(block: &mut [bool], bools: &mut impl Iterator<Item = bool>) -> usize {
    let mut filled = 0;
    for (place, bool) in block.iter_mut().zip(bools) {
        *place = bool;
        filled += 1;
    }
    filled
}

/// Appends the truth values, packed block by block.
///
/// ```
/// use vortex_bits::Bitmap;
///
/// let mut rows = Bitmap::new_set(2);
/// rows.extend((0..3).map(|row| row % 2 == 0));
/// assert_eq!(format!("{rows:?}"), "Bits(11101)");
/// ```
impl<B: Grow> Extend<bool> for Bitmap<B> {
    fn extend<I: IntoIterator<Item = bool>>(&mut self, bools: I) {
        let mut bools = bools.into_iter();
        self.reserve(bools.size_hint().0);
        let mut block = [false; 512];
        loop {
            let filled = fill(&mut block, &mut bools);
            self.append_bools(&block[..filled]);
            if filled < block.len() {
                return;
            }
        }
    }
}

/// Appends the bits of each window in turn.
///
/// ```
/// use vortex_bits::{Bitmap, Bits};
///
/// let mut rows = Bitmap::default();
/// rows.extend([Bits::new(&[0b01], 0, 2), Bits::new(&[0b110], 1, 2)]);
/// assert_eq!(format!("{rows:?}"), "Bits(1011)");
/// ```
impl<'a, B: Grow> Extend<Bits<'a>> for Bitmap<B> {
    fn extend<I: IntoIterator<Item = Bits<'a>>>(&mut self, windows: I) {
        for bits in windows {
            self.append_bits(bits);
        }
    }
}

/// Appends a bit per row for each validity in turn: whether the row is valid.
///
/// ```
/// use vortex_bits::{Bitmap, Bits, Validity};
///
/// let mut rows = Bitmap::default();
/// rows.extend([Validity::new(None, 2), Validity::from(Bits::new(&[0b10], 0, 2))]);
/// assert_eq!(format!("{rows:?}"), "Bits(1101)");
/// ```
///
/// # Panics
///
/// Panics if the end of the bits isn't a `usize`.
impl<'a, B: Grow> Extend<Validity<'a>> for Bitmap<B> {
    fn extend<I: IntoIterator<Item = Validity<'a>>>(&mut self, validities: I) {
        for validity in validities {
            match validity.bits() {
                Some(bits) => self.append_bits(bits),
                None => self.append_n(validity.len(), true),
            }
        }
    }
}

/// Appends the bits of each bitmap in turn.
impl<'a, B: Grow, C: AsRef<[u8]>> Extend<&'a Bitmap<C>> for Bitmap<B> {
    fn extend<I: IntoIterator<Item = &'a Bitmap<C>>>(&mut self, bitmaps: I) {
        self.extend(bitmaps.into_iter().map(Bitmap::bits));
    }
}
