//! A writable window.

use core::ops::RangeBounds;

use crate::Bits;
use crate::bits::{all_bits, fits, within};
use crate::error::{OutOfBounds, expect};
use crate::kernels::{self, Operator};
use crate::written::Written;

/// A writable window: the `len` bits starting at bit `offset` of some bytes, as in [`Bits`]. Every
/// other bit of the bytes is unchanged. No call stores a byte that has no bit of its window, not
/// even with the value that it had.
///
/// ```
/// use vortex_bits::{Bits, BitsMut};
///
/// let mut bytes = [0xFF, 0xFF];
/// let mut bits = BitsMut::new(&mut bytes, 3, 7);
/// bits.copy_from(Bits::new(&[0b0110_0000], 1, 7));
/// bits.set(0, true);
/// assert_eq!(bytes, [0b1000_1111, 0b1111_1101]);
/// ```
#[doc(alias("bitslice"))]
#[derive(Default)]
pub struct BitsMut<'a> {
    /// The window is in bounds, and its end is a `usize`.
    bytes: &'a mut [u8],
    offset: usize,
    len: usize,
}

impl<'a> BitsMut<'a> {
    /// Returns a window of `len` bits from bit `offset` of the bytes on. Does not allocate.
    ///
    /// # Panics
    ///
    /// Panics if the window isn't in bounds of the bytes; [`try_new`](BitsMut::try_new) returns an
    /// error instead.
    #[inline]
    #[must_use]
    #[track_caller]
    pub fn new(bytes: &'a mut [u8], offset: usize, len: usize) -> BitsMut<'a> {
        expect(BitsMut::try_new(bytes, offset, len))
    }

    /// Returns a window of `len` bits from bit `offset` of the bytes on. Does not allocate.
    ///
    /// # Errors
    ///
    /// Returns [`OutOfBounds`] if the window isn't in bounds of the bytes, or its end isn't a
    /// `usize`.
    ///
    /// ```
    /// use vortex_bits::BitsMut;
    ///
    /// assert!(BitsMut::try_new(&mut [0xFF], 3, 6).is_err());
    /// ```
    #[inline]
    pub const fn try_new(
        bytes: &'a mut [u8],
        offset: usize,
        len: usize,
    ) -> Result<BitsMut<'a>, OutOfBounds> {
        match fits(bytes.len(), offset, len) {
            Ok(()) => Ok(BitsMut { bytes, offset, len }),
            Err(outside) => Err(outside),
        }
    }

    /// Returns a window of all bits of the bytes.
    ///
    /// # Panics
    ///
    /// Panics if their number overflows a `usize`: the bytes are then at least an eighth of the
    /// address space.
    #[inline]
    #[must_use]
    #[track_caller]
    pub fn from_bytes(bytes: &'a mut [u8]) -> BitsMut<'a> {
        let len = all_bits(bytes);
        BitsMut::new(bytes, 0, len)
    }

    /// Returns a read-only window of the same bits.
    ///
    /// ```
    /// use vortex_bits::BitsMut;
    ///
    /// assert_eq!(BitsMut::new(&mut [0b110], 0, 3).as_bits().count_ones(), 2);
    /// ```
    #[inline]
    #[must_use]
    pub const fn as_bits(&self) -> Bits<'_> {
        match Bits::try_new(self.bytes, self.offset, self.len) {
            Ok(bits) => bits,
            Err(_) => unreachable!(),
        }
    }

    /// Returns a read-only window of the same bits, with the lifetime of its bytes.
    ///
    /// ```
    /// use vortex_bits::{Bits, BitsMut};
    ///
    /// fn negated(bytes: &mut [u8]) -> Bits<'_> {
    ///     let mut bits = BitsMut::from_bytes(bytes);
    ///     bits.negate();
    ///     bits.into_bits()
    /// }
    /// assert_eq!(negated(&mut [0xF0]).first_set(), Some(0));
    /// ```
    #[inline]
    #[must_use]
    pub fn into_bits(self) -> Bits<'a> {
        Bits::new(self.bytes, self.offset, self.len)
    }

    /// Returns the bytes of the constructor, including those outside of the window. A part that
    /// `split_at_mut` returns has only the bytes with a bit of it.
    ///
    /// ```
    /// use vortex_bits::BitsMut;
    ///
    /// let mut bytes = [0, 0];
    /// BitsMut::new(&mut bytes, 3, 5).bytes_mut()[1] = 7;
    /// assert_eq!(bytes, [0, 7]);
    /// ```
    #[inline]
    pub const fn bytes_mut(&mut self) -> &mut [u8] {
        self.bytes
    }

    /// Returns the index of the window's first bit in the bytes.
    #[inline]
    #[must_use]
    pub const fn offset(&self) -> usize {
        self.offset
    }

    /// Returns the number of bits in the window.
    #[inline]
    #[must_use]
    pub const fn len(&self) -> usize {
        self.len
    }

    /// Returns whether the window has no bits.
    #[inline]
    #[must_use]
    pub const fn is_empty(&self) -> bool {
        self.len == 0
    }

    /// Returns the bits of a range of indices as a writable window.
    ///
    /// # Panics
    ///
    /// Panics if the range starts after its end, or ends after the window.
    #[inline]
    #[must_use]
    #[track_caller]
    pub fn slice(&mut self, range: impl RangeBounds<usize>) -> BitsMut<'_> {
        expect(self.try_slice(range))
    }

    /// Returns the bits of a range of indices as a writable window.
    ///
    /// # Errors
    ///
    /// Returns [`OutOfBounds`] if the range starts after its end, or ends after the window.
    #[inline]
    pub fn try_slice(
        &mut self,
        range: impl RangeBounds<usize>,
    ) -> Result<BitsMut<'_>, OutOfBounds> {
        let (start, len) = within(&range, self.len)?;
        Ok(self.part(start, len))
    }

    /// Returns the `len` bits from index `start` on. They must be in the window.
    #[inline]
    pub(crate) fn part(&mut self, start: usize, len: usize) -> BitsMut<'_> {
        debug_assert!(start <= self.len && len <= self.len - start);
        BitsMut {
            bytes: self.bytes,
            offset: self.offset + start,
            len,
        }
    }

    /// Returns the same window over only the bytes that have a bit of it.
    #[inline]
    pub(crate) fn narrowed(self) -> BitsMut<'a> {
        let BitsMut { bytes, offset, len } = self;
        if len == 0 {
            return BitsMut::default();
        }
        BitsMut {
            bytes: &mut bytes[offset / 8..(offset + len).div_ceil(8)],
            offset: offset % 8,
            len,
        }
    }

    /// Returns the bits before index `mid` and those from it on, each over its own bytes. `mid` is
    /// 0, the length, or a border between two bytes.
    #[inline]
    pub(crate) fn split(self, mid: usize) -> (BitsMut<'a>, BitsMut<'a>) {
        let BitsMut { bytes, offset, len } = self.narrowed();
        if mid == 0 {
            return (BitsMut::default(), BitsMut { bytes, offset, len });
        }
        let (low, high) = bytes.split_at_mut((offset + mid).div_ceil(8));
        let part = |bytes, offset, len| BitsMut { bytes, offset, len };
        (part(low, offset, mid), part(high, 0, len - mid))
    }

    /// Returns the bytes that a call may store when it writes the window.
    #[inline]
    pub(crate) fn written(&mut self) -> Written<'_> {
        Written::of(self.part(0, self.len))
    }

    /// Returns the bit at an index; None if it is out of bounds.
    ///
    /// ```
    /// use vortex_bits::BitsMut;
    ///
    /// assert_eq!(BitsMut::new(&mut [0b10], 0, 2).get(1), Some(true));
    /// ```
    #[inline]
    #[must_use]
    pub fn get(&self, place: usize) -> Option<bool> {
        self.as_bits().get(place)
    }

    /// Sets one bit to `value`.
    ///
    /// # Panics
    ///
    /// Panics if the index is out of bounds.
    #[inline]
    #[track_caller]
    pub fn set(&mut self, place: usize, value: bool) {
        assert!(
            place < self.len,
            "index {place} is not among {} bits",
            self.len
        );
        let bit = self.offset + place;
        let digit = 1 << (bit % 8);
        if value {
            self.bytes[bit / 8] |= digit;
        } else {
            self.bytes[bit / 8] &= !digit;
        }
    }

    /// Sets each bit to `value`. `bits.slice(6..11).fill(true)` fills a part.
    #[doc(alias("set_range"))]
    #[inline]
    pub fn fill(&mut self, value: bool) {
        kernels::fill(&mut self.written(), value);
    }

    /// Negates each bit.
    ///
    /// ```
    /// use vortex_bits::BitsMut;
    ///
    /// let mut bytes = [0b0000_1111];
    /// BitsMut::new(&mut bytes, 2, 4).negate();
    /// assert_eq!(bytes, [0b0011_0011]);
    /// ```
    #[doc(alias("not", "invert", "complement", "flip"))]
    #[inline]
    pub fn negate(&mut self) {
        kernels::negate(&mut self.written());
    }

    /// Sets each bit to `bit(index)`. Calls `bit` once per index, in ascending order.
    ///
    /// ```
    /// use vortex_bits::BitsMut;
    ///
    /// let (values, mut above) = ([3, 8, 5, 9], [0]);
    /// BitsMut::new(&mut above, 0, 4).fill_with(|place| values[place] > 4);
    /// assert_eq!(above, [0b1110]);
    /// ```
    #[doc(alias("pack", "from_fn"))]
    #[inline]
    pub fn fill_with(&mut self, mut bit: impl FnMut(usize) -> bool) {
        let mut made = [false; 512];
        for start in (0..self.len).step_by(made.len()) {
            let len = (self.len - start).min(made.len());
            for (row, made) in made[..len].iter_mut().enumerate() {
                *made = bit(start + row);
            }
            kernels::pack_bools(&mut self.part(start, len).written(), &made[..len]);
        }
    }

    /// Copies the truth values, one per bit.
    ///
    /// ```
    /// use vortex_bits::BitsMut;
    ///
    /// let mut bytes = [0xFF];
    /// BitsMut::new(&mut bytes, 3, 3).copy_from_bools(&[true, false, true]);
    /// BitsMut::new(&mut bytes, 0, 3).copy_from_truthy(&[0, 7, 255]);
    /// assert_eq!(bytes, [0b1110_1110]);
    /// ```
    ///
    /// # Panics
    ///
    /// Panics if there isn't one truth value per bit.
    #[doc(alias("pack"))]
    #[inline]
    #[track_caller]
    pub fn copy_from_bools(&mut self, bools: &[bool]) {
        alike(self.len, bools.len());
        kernels::pack_bools(&mut self.written(), bools);
    }

    /// Sets each bit to true if its byte isn't 0, and to false otherwise.
    ///
    /// # Panics
    ///
    /// Panics if there isn't one byte per bit.
    #[inline]
    #[track_caller]
    pub fn copy_from_truthy(&mut self, truthy: &[u8]) {
        alike(self.len, truthy.len());
        kernels::pack_truthy(&mut self.written(), truthy);
    }

    /// Copies the bits, word by word at any two offsets.
    ///
    /// # Panics
    ///
    /// Panics if the windows differ in length, as do all calls below with other windows.
    #[inline]
    #[track_caller]
    pub fn copy_from(&mut self, source: Bits<'_>) {
        alike(self.len, source.len());
        kernels::copy(&mut self.written(), source);
    }

    /// Copies the bits of a range of indices to those from index `dest` on, as
    /// [`copy_within`](slice::copy_within) of a slice does: the two may overlap.
    ///
    /// ```
    /// use vortex_bits::BitsMut;
    ///
    /// let mut bytes = [0b0110_1000];
    /// BitsMut::new(&mut bytes, 0, 8).copy_within(3.., 1);
    /// assert_eq!(bytes, [0b0101_1010]);
    /// ```
    ///
    /// # Panics
    ///
    /// Panics if the range starts after its end, or if it or the bits from `dest` on end after the
    /// window.
    #[doc(alias("memmove", "move", "shift"))]
    #[inline]
    #[track_caller]
    pub fn copy_within(&mut self, source: impl RangeBounds<usize>, dest: usize) {
        let (all, (from, len)) = (self.len, expect(within(&source, self.len)));
        let fits = dest <= all && len <= all - dest;
        assert!(fits, "{len} bits from index {dest} on end past {all} bits");
        kernels::copy_within(&mut self.written(), from, dest, len);
    }

    #[inline]
    #[track_caller]
    pub(crate) fn combine(&mut self, right: Bits<'_>, operator: Operator) {
        alike(self.len, right.len());
        kernels::combine(&mut self.written(), right, operator);
    }

    #[inline]
    #[track_caller]
    pub(crate) fn combine_into(&mut self, left: Bits<'_>, right: Bits<'_>, operator: Operator) {
        alike(self.len, left.len());
        alike(self.len, right.len());
        kernels::combine_into(&mut self.written(), left, right, operator);
    }
}

/// Two calls per operator: on these bits and another window, and on two other windows.
macro_rules! operators {
    ($($(#[$doc:meta])* $name:ident, $of:ident: $operator:ident;)*) => {
        impl BitsMut<'_> {
            $(
                $(#[$doc])*
                ///
                /// # Panics
                ///
                /// Panics if the windows differ in length.
                #[inline]
                #[track_caller]
                pub fn $name(&mut self, right: Bits<'_>) {
                    self.combine(right, Operator::$operator);
                }

                /// Writes the bits of `left`, combined by
                #[doc = concat!("[`", stringify!($name), "`](BitsMut::", stringify!($name), ")")]
                /// with those of `right`. Both operands stay unchanged.
                ///
                /// ```
                /// use vortex_bits::{Bits, BitsMut};
                ///
                /// let (left, right) = (Bits::new(&[0b1100], 0, 4), Bits::new(&[0b1010], 0, 4));
                /// let (mut got, mut copied) = ([0xFF], [0xFF]);
                #[doc = concat!("BitsMut::new(&mut got, 2, 4).", stringify!($of), "(left, right);")]
                /// let mut copy = BitsMut::new(&mut copied, 2, 4);
                /// copy.copy_from(left);
                #[doc = concat!("copy.", stringify!($name), "(right);")]
                /// assert_eq!(got, copied);
                /// ```
                ///
                /// # Panics
                ///
                /// Panics if the windows differ in length.
                #[inline]
                #[track_caller]
                pub fn $of(&mut self, left: Bits<'_>, right: Bits<'_>) {
                    self.combine_into(left, right, Operator::$operator);
                }
            )*
        }
    };
}

operators! {
    /// Clears the bits that aren't set in `right`.
    ///
    /// ```
    /// use vortex_bits::{Bits, BitsMut};
    ///
    /// let mut bits = [0b1111_1100];
    /// BitsMut::new(&mut bits, 0, 4).and(Bits::new(&[0b1010], 0, 4));
    /// assert_eq!(bits, [0b1111_1000]);
    /// ```
    #[doc(alias = "intersection")]
    and, and_of: And;
    /// Sets the bits that are set in `right`.
    ///
    /// ```
    /// use vortex_bits::{Bits, BitsMut};
    ///
    /// let mut bits = [0b0000_1100];
    /// BitsMut::new(&mut bits, 0, 4).or(Bits::new(&[0b1010], 0, 4));
    /// assert_eq!(bits, [0b0000_1110]);
    /// ```
    #[doc(alias = "union")]
    or, or_of: Or;
    /// Negates the bits that are set in `right`.
    ///
    /// ```
    /// use vortex_bits::{Bits, BitsMut};
    ///
    /// let mut bits = [0b0000_1100];
    /// BitsMut::new(&mut bits, 0, 4).xor(Bits::new(&[0b1010], 0, 4));
    /// assert_eq!(bits, [0b0000_0110]);
    /// ```
    #[doc(alias = "symmetric_difference")]
    xor, xor_of: Xor;
    /// Clears the bits that are set in `right`.
    ///
    /// ```
    /// use vortex_bits::{Bits, BitsMut};
    ///
    /// let mut bits = [0b1111_1100];
    /// BitsMut::new(&mut bits, 0, 4).and_not(Bits::new(&[0b1010], 0, 4));
    /// assert_eq!(bits, [0b1111_0100]);
    /// ```
    #[doc(alias = "difference")]
    and_not, and_not_of: AndNot;
}

/// # Panics
///
/// Panics if the two lengths differ.
#[inline]
#[track_caller]
pub(crate) fn alike(written: usize, read: usize) {
    if written != read {
        unlike(written, read);
    }
}

#[cold]
#[inline(never)]
#[track_caller]
fn unlike(written: usize, read: usize) -> ! {
    panic!("{written} bits to write and {read} to read")
}
