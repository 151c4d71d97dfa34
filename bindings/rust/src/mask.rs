//! The right-hand operand of a call: bits, or something with bits.

#[cfg(feature = "alloc")]
use crate::Bitmap;
use crate::{Bits, Validity};

/// Types with bits: [`Bits`], a `Bitmap` and a [`Validity`](crate::Validity), also by reference,
/// and an [`Option`] of these. None means that all bits are true, for any length, like the missing
/// validity of a column without nulls.
///
/// ```
/// use vortex_bits::Bits;
///
/// let (bits, valid) = (Bits::new(&[0b0110], 0, 4), Bits::new(&[0b1100], 0, 4));
/// assert_eq!(bits.and_count(valid), 1);
/// assert_eq!(bits.and_count(Some(valid)), 1);
/// assert_eq!(bits.and_count(None::<Bits>), 2);
/// ```
#[diagnostic::on_unimplemented(
    message = "`{Self}` has no bits",
    label = "`Bits`, a `Bitmap`, a `Validity`, or an `Option` of them stands here",
    note = "`Bits::new(bytes, offset, len)` is a window, `Bitmap::from(bools)` packs truth values"
)]
pub trait Mask: sealed::Mask {}

impl Mask for Bits<'_> {}
#[cfg(feature = "alloc")]
impl<B: AsRef<[u8]>> Mask for Bitmap<B> {}
impl Mask for Validity<'_> {}
impl<M: Mask + ?Sized> Mask for &M {}
impl<M: Mask> Mask for Option<M> {}

pub(crate) mod sealed {
    #[cfg(feature = "alloc")]
    use crate::Bitmap;
    use crate::{Bits, Validity};

    pub trait Mask {
        /// Returns the bits; None if all are true.
        fn mask(&self) -> Option<Bits<'_>>;

        /// Returns the number of bits; None if any length fits.
        #[inline]
        fn mask_len(&self) -> Option<usize> {
            self.mask().map(Bits::len)
        }

        /// Returns the bits, for a call over `len` bits or values.
        ///
        /// # Panics
        ///
        /// Panics if the mask has another length.
        #[inline]
        #[track_caller]
        fn of_len(&self, len: usize) -> Option<Bits<'_>> {
            let own = self.mask_len().unwrap_or(len);
            assert!(own == len, "a mask of {own} bits for {len}");
            self.mask()
        }
    }

    impl Mask for Bits<'_> {
        #[inline]
        fn mask(&self) -> Option<Bits<'_>> {
            Some(*self)
        }
    }

    #[cfg(feature = "alloc")]
    impl<B: AsRef<[u8]>> Mask for Bitmap<B> {
        #[inline]
        fn mask(&self) -> Option<Bits<'_>> {
            Some(self.bits())
        }
    }

    impl Mask for Validity<'_> {
        #[inline]
        fn mask(&self) -> Option<Bits<'_>> {
            self.bits()
        }

        #[inline]
        fn mask_len(&self) -> Option<usize> {
            Some(self.len())
        }
    }

    impl<M: Mask + ?Sized> Mask for &M {
        #[inline]
        fn mask(&self) -> Option<Bits<'_>> {
            M::mask(self)
        }

        #[inline]
        fn mask_len(&self) -> Option<usize> {
            M::mask_len(self)
        }
    }

    impl<M: Mask> Mask for Option<M> {
        #[inline]
        fn mask(&self) -> Option<Bits<'_>> {
            self.as_ref().and_then(M::mask)
        }

        #[inline]
        fn mask_len(&self) -> Option<usize> {
            self.as_ref().and_then(M::mask_len)
        }
    }
}
