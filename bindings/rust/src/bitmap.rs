//! Bits that own their bytes.

mod ask;
mod grow;
mod made;
mod questions;
mod traits;
mod write;

use core::ops::RangeBounds;

use crate::bytes::sealed::Grow as _;
use crate::bytes::{AlignedBytes, SharedBytes};
use crate::error::{BadIndex, OutOfBounds, expect};
use crate::rank::Ranked;
use crate::{BitIndex, Bits, BitsMut, portable};

/// Bits that own their bytes, to store and to return. By default the bytes are shared: a slice is
/// another window of them. They can also be an engine's own buffer `B`. A bitmap has the calls of
/// [`Bits`], except `from_bytes`, and except `bytes` and `offset`, which the bits that it lends
/// have. In [`SharedBytes`] and in [`AlignedBytes`] it also grows and can be edited.
///
/// ```
/// use vortex_bits::{Bits, Bitmap};
///
/// let valid: Bitmap = (0..100).map(|row| row % 7 != 0).collect();
/// let mut part = valid.slice(13..50);
/// assert_eq!((part.count_zeros(), part[1]), (6, false));
/// part &= valid.slice(0..37);
/// part.append(true);
/// assert_eq!((part.count_ones(), valid.count_ones()), (26, 85));
///
/// // Operators take windows and bitmaps, by value and by reference.
/// let (a, b, c) = (part.bits(), valid.slice(0..38), valid.slice(1..39));
/// assert_eq!((a & &b & c).count_ones(), a.and_count(&(&b & valid.slice(1..39))));
///
/// // Over the bytes of another owner.
/// let lent = Bitmap::new(vec![0b1110_1000u8, 0b0000_0110], 3, 10);
/// assert_eq!(lent.select(1), Some(2));
/// ```
#[doc(alias("bitset", "BitVec", "BitBuffer", "BooleanBuffer"))]
#[derive(Clone)]
pub struct Bitmap<B = SharedBytes> {
    bytes: B,
    offset: usize,
    len: usize,
}

/// A [`Bitmap`] with its own bytes. It appends without a test for other owners, so it is the one to
/// append single bits to. [`Bitmap::growing`] returns one.
#[doc(alias("BitBufferMut", "BooleanBufferBuilder"))]
pub type BitmapMut = Bitmap<AlignedBytes>;

impl<B: AsRef<[u8]>> Bitmap<B> {
    /// Returns a window of `len` bits from bit `offset` of the bytes on. Does not allocate.
    ///
    /// # Panics
    ///
    /// Panics if the window isn't in bounds of the bytes; [`try_new`](Bitmap::try_new) returns an
    /// error instead.
    #[inline]
    #[must_use]
    #[track_caller]
    pub fn new(bytes: B, offset: usize, len: usize) -> Bitmap<B> {
        expect(Bitmap::try_new(bytes, offset, len))
    }

    /// Returns a window of `len` bits from bit `offset` of the bytes on. Does not allocate.
    ///
    /// # Errors
    ///
    /// Returns [`OutOfBounds`] if the window isn't in bounds of the bytes, or its end isn't a
    /// `usize`. The bytes are dropped on an error.
    ///
    /// ```
    /// use vortex_bits::Bitmap;
    ///
    /// assert!(Bitmap::try_new(vec![0xFFu8], 3, 6).is_err());
    /// ```
    #[inline]
    pub fn try_new(bytes: B, offset: usize, len: usize) -> Result<Bitmap<B>, OutOfBounds> {
        Bits::try_new(bytes.as_ref(), offset, len)?;
        Ok(Bitmap { bytes, offset, len })
    }

    /// Returns the bits as a window.
    ///
    /// # Panics
    ///
    /// Panics if `B` now returns too few bytes for the window. So do all calls that read the bits.
    #[inline]
    #[must_use]
    #[track_caller]
    pub fn bits(&self) -> Bits<'_> {
        Bits::new(self.bytes.as_ref(), self.offset, self.len)
    }

    /// Returns the number of bits.
    #[inline]
    #[must_use]
    pub const fn len(&self) -> usize {
        self.len
    }

    /// Returns whether there are no bits.
    #[inline]
    #[must_use]
    pub const fn is_empty(&self) -> bool {
        self.len == 0
    }

    /// Returns the bits of a range of indices, in a clone of `B`. A clone of [`SharedBytes`] or of
    /// an [`Arc`](alloc::sync::Arc) shares the bytes.
    ///
    /// # Panics
    ///
    /// Panics if the range starts after its end, or ends after the bits.
    #[must_use]
    #[track_caller]
    pub fn slice(&self, range: impl RangeBounds<usize>) -> Bitmap<B>
    where
        B: Clone,
    {
        expect(self.try_slice(range))
    }

    /// Returns the bits of a range of indices, as [`Bitmap::slice`] does.
    ///
    /// ```
    /// use vortex_bits::Bitmap;
    ///
    /// assert!(Bitmap::new_set(13).try_slice(5..14).is_err());
    /// ```
    ///
    /// # Errors
    ///
    /// Returns [`OutOfBounds`] if the range starts after its end, or ends after the bits.
    pub fn try_slice(&self, range: impl RangeBounds<usize>) -> Result<Bitmap<B>, OutOfBounds>
    where
        B: Clone,
    {
        let part = self.bits().try_slice(range)?;
        Ok(Bitmap {
            bytes: self.bytes.clone(),
            offset: part.offset(),
            len: part.len(),
        })
    }

    /// Returns the bits with a table for ranks. Allocates the table, and counts the bits once.
    #[doc(alias("rank", "select"))]
    #[must_use]
    pub fn ranked(self) -> Ranked<B> {
        Ranked::new(self)
    }

    /// Returns the owner of the bytes; [`into_parts`](Bitmap::into_parts) also returns the window.
    ///
    /// ```
    /// use vortex_bits::Bitmap;
    ///
    /// assert_eq!(Bitmap::new(vec![0b101u8], 0, 3).into_inner(), [0b101]);
    /// ```
    #[inline]
    pub fn into_inner(self) -> B {
        self.bytes
    }

    /// Returns the arguments of [`new`](Bitmap::new): the owner of the bytes, the index of the
    /// first bit in them, and the length in bits.
    ///
    /// ```
    /// use vortex_bits::Bitmap;
    ///
    /// let (bytes, offset, len) = Bitmap::new_set(13).slice(2..).into_parts();
    /// assert_eq!((offset, len), (2, 11));
    /// assert!(Bitmap::new(bytes, offset, len).all());
    /// ```
    #[inline]
    pub fn into_parts(self) -> (B, usize, usize) {
        (self.bytes, self.offset, self.len)
    }
}

impl Bitmap {
    /// Returns `len` new bits. `write` gets them as a writable window, all false.
    ///
    /// ```
    /// use vortex_bits::{Bitmap, Bits};
    ///
    /// let ends = Bitmap::make(5, |mut out| {
    ///     out.set(0, true);
    ///     out.set(4, true);
    /// });
    /// assert_eq!(ends.bits(), Bits::new(&[0b1_0001], 0, 5));
    /// ```
    #[must_use]
    pub fn make(len: usize, write: impl FnOnce(BitsMut<'_>)) -> Bitmap {
        let made = Bitmap::try_make(len, |out| {
            write(out);
            Ok::<(), OutOfBounds>(())
        });
        expect(made)
    }

    /// Returns `len` bits, all true, such as the validity of a column without nulls.
    ///
    /// ```
    /// use vortex_bits::Bitmap;
    ///
    /// assert!(Bitmap::new_set(13).all());
    /// assert!(!Bitmap::new_unset(13).any());
    /// ```
    #[must_use]
    pub fn new_set(len: usize) -> Bitmap {
        Bitmap::make(len, |mut out| out.fill(true))
    }

    /// Returns `len` bits, all false.
    #[must_use]
    pub fn new_unset(len: usize) -> Bitmap {
        Bitmap::make(len, |_| ())
    }

    /// Returns `len` bits that are set only at the indices. An index may occur more than once.
    ///
    /// ```
    /// use vortex_bits::Bitmap;
    ///
    /// let nulls = Bitmap::from_indices(5, &[4u32, 0, 4]);
    /// assert_eq!(format!("{nulls:?}"), "Bits(10001)");
    /// ```
    ///
    /// # Panics
    ///
    /// Panics if an index is negative, or isn't below `len`.
    #[doc(alias("scatter"))]
    #[must_use]
    #[track_caller]
    pub fn from_indices<I: BitIndex>(len: usize, indices: &[I]) -> Bitmap {
        expect(Bitmap::try_from_indices(len, indices))
    }

    /// Returns `len` bits that are set only at the indices, as [`Bitmap::from_indices`] does.
    ///
    /// ```
    /// use vortex_bits::Bitmap;
    ///
    /// let refused = Bitmap::try_from_indices(5, &[4, -1]).unwrap_err();
    /// assert_eq!(refused.to_string(), "index -1 at position 1 names none of 5 bits");
    /// ```
    ///
    /// # Errors
    ///
    /// Returns [`BadIndex`] with the first index that is negative, or isn't below `len`.
    pub fn try_from_indices<I: BitIndex>(len: usize, indices: &[I]) -> Result<Bitmap, BadIndex> {
        Bitmap::try_make(len, |mut out| {
            let refused = portable::set_all(&mut out.written(), indices);
            refused.map_or(Ok(()), |position| {
                Err(BadIndex {
                    position,
                    index: indices[position].number(),
                    len,
                })
            })
        })
    }

    /// Returns an empty bitmap with its own bytes, and capacity for `bits` bits.
    /// [`share`](BitmapMut::share) turns it into a bitmap that clones share.
    ///
    /// ```
    /// use vortex_bits::{Bitmap, BitmapMut};
    ///
    /// let mut valid: BitmapMut = Bitmap::growing(1000);
    /// for row in 0..1000 {
    ///     valid.append(row % 7 != 0);
    /// }
    /// let valid: Bitmap = valid.share();
    /// assert_eq!(valid.count_zeros(), 143);
    /// ```
    #[must_use]
    pub fn growing(bits: usize) -> BitmapMut {
        Bitmap {
            bytes: AlignedBytes::with_capacity(bits.div_ceil(8)),
            offset: 0,
            len: 0,
        }
    }

    /// Returns the bits in their own bytes. Copies them only if the bytes have other owners.
    ///
    /// ```
    /// use vortex_bits::Bitmap;
    ///
    /// let mut rows = Bitmap::new_set(3).into_owned();
    /// rows.append(false);
    /// assert_eq!(rows.first_unset(), Some(3));
    /// ```
    #[must_use]
    pub fn into_owned(mut self) -> BitmapMut {
        if !self.bytes.is_owned() {
            self.copy();
        }
        Bitmap {
            bytes: self.bytes.into_owned(),
            offset: self.offset,
            len: self.len,
        }
    }

    fn try_make<E>(
        len: usize,
        write: impl FnOnce(BitsMut<'_>) -> Result<(), E>,
    ) -> Result<Bitmap, E> {
        let mut bytes = AlignedBytes::zeroed(len.div_ceil(8));
        write(BitsMut::new(&mut bytes, 0, len))?;
        Ok(Bitmap {
            bytes: SharedBytes::from(bytes),
            offset: 0,
            len,
        })
    }
}

impl BitmapMut {
    /// Returns the bits in bytes that clones and slices share. Does not copy them.
    ///
    /// ```
    /// use vortex_bits::Bitmap;
    ///
    /// let mut rows = Bitmap::growing(0);
    /// rows.append_n(3, true);
    /// let rows = rows.share();
    /// assert_eq!(rows.slice(1..).len(), 2);
    /// ```
    #[must_use]
    pub fn share(self) -> Bitmap {
        Bitmap {
            bytes: SharedBytes::from(self.bytes),
            offset: self.offset,
            len: self.len,
        }
    }
}
