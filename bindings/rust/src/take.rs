//! Takes (gathers) bits at indices.

use crate::error::{TakeError, expect};
use crate::{Bits, BitsMut, Mask, kernels};

#[cfg(feature = "alloc")]
use crate::portable;

/// A type of indices: the twelve integer types. A negative index, or one above `usize::MAX`, is out
/// of bounds. Plain Rust processes indices of 128 bits.
#[diagnostic::on_unimplemented(
    message = "nothing is taken at indices of `{Self}`",
    label = "indices are whole numbers, in a slice of their own"
)]
pub trait BitIndex: sealed::Sealed {}

pub(crate) mod sealed {
    /// The parts that a type of indices provides.
    pub trait Sealed: Copy {
        /// The end of the indices that the type can represent. A C function reads a negative index
        /// as an unsigned number of the same width. That is at least this end, and so out of bounds
        /// of a window that ends here or before.
        #[cfg(vortex_bits_native)]
        const END: usize;

        /// Returns the index as a `usize`; None if it doesn't fit.
        fn place(self) -> Option<usize>;

        /// Returns the index as a `usize`; if it is negative or doesn't fit, one that isn't below
        /// the number of bits that any memory holds. On 64-bit targets most types need only a cast.
        fn place_or_far(self) -> usize;

        /// Returns the index itself; `i128::MAX` if it is above that.
        fn number(self) -> i128;

        /// Returns whether any of the indices isn't below `len`.
        fn any_past(indices: &[Self], len: usize) -> bool;
    }

    macro_rules! indices {
        ($($index:ty, $end:expr;)*) => {$(
            impl super::BitIndex for $index {}

            impl Sealed for $index {
                #[cfg(vortex_bits_native)]
                const END: usize = $end;

                #[inline]
                fn place(self) -> Option<usize> {
                    usize::try_from(self).ok()
                }

                #[allow(
                    clippy::allow_attributes,
                    clippy::cast_possible_truncation,
                    clippy::cast_sign_loss,
                    clippy::cast_lossless,
                    reason = "a negative index becomes 2^63 or more, and no memory has 2^60 bytes"
                )]
                #[inline]
                fn place_or_far(self) -> usize {
                    if cfg!(target_pointer_width = "64") && size_of::<$index>() <= 8 {
                        self as usize
                    } else {
                        self.place().unwrap_or(usize::MAX)
                    }
                }

                #[inline]
                fn number(self) -> i128 {
                    i128::try_from(self).unwrap_or(i128::MAX)
                }

                // The comparisons have the width of the indices and no branch, so that the compiler
                // vectorizes them.
                #[inline]
                fn any_past(indices: &[$index], len: usize) -> bool {
                    let last = match len.checked_sub(1).map(<$index>::try_from) {
                        Some(Ok(last)) => last,
                        Some(Err(_)) => <$index>::MAX,
                        None => return !indices.is_empty(),
                    };
                    indices.iter().fold(false, |any, it| any | !(0..=last).contains(it))
                }
            }
        )*};
    }

    indices! {
        // Written by tools/write-lists from tools/families/take_bits.txt.
        u8, 1 << 8;
        i8, 1 << 7;
        u16, 1 << 16;
        i16, 1 << 15;
        u32, 1 << 32;
        i32, 1 << 31;
        u64, usize::MAX;
        i64, 1 << 63;
        u128, usize::MAX;
        i128, usize::MAX;
        usize, usize::MAX;
        isize, 1 << 63;
        // To here.
    }
}

impl Bits<'_> {
    /// Writes the bits at the indices to `out`, in the order of the indices.
    ///
    /// # Panics
    ///
    /// Panics if [`try_take_into`](Bits::try_take_into) returns an error.
    ///
    /// ```
    /// use vortex_bits::{Bits, BitsMut};
    ///
    /// let mut taken = [0];
    /// let bits = Bits::new(&[0b0111_0110], 0, 7);
    /// bits.take_into(&[6u32, 3, 1], BitsMut::new(&mut taken, 0, 3));
    /// assert_eq!(taken, [0b101]);
    /// ```
    #[doc(alias("gather"))]
    #[inline]
    #[track_caller]
    pub fn take_into<I: BitIndex>(self, indices: &[I], out: BitsMut<'_>) {
        expect(self.try_take_into(indices, out));
    }

    /// Writes the bits at the indices to `out`, in the order of the indices.
    ///
    /// # Errors
    ///
    /// Returns [`TakeError`] if `out` doesn't have one bit per index, and with the first index that
    /// is out of bounds. In the second case the bits of `out` are arbitrary; otherwise they are
    /// unchanged.
    ///
    /// ```
    /// use vortex_bits::{Bits, BitsMut};
    ///
    /// let (bits, mut taken) = (Bits::new(&[0b10], 0, 2), [0]);
    /// assert!(bits.try_take_into(&[1, 0, 1], BitsMut::new(&mut taken, 0, 3)).is_ok());
    /// assert_eq!(taken, [0b101]);
    /// assert!(bits.try_take_into(&[1, 2], BitsMut::new(&mut taken, 0, 2)).is_err());
    /// ```
    #[inline]
    pub fn try_take_into<I: BitIndex>(
        self,
        indices: &[I],
        out: BitsMut<'_>,
    ) -> Result<(), TakeError> {
        take(self, indices, &None::<Bits<'_>>, out)
    }

    /// Writes the bits at the valid indices to `out` as [`take_into`](Bits::take_into) does, and
    /// false for each other index, whatever its number is.
    ///
    /// # Panics
    ///
    /// Panics if [`try_take_valid_into`](Bits::try_take_valid_into) returns an error.
    ///
    /// ```
    /// use vortex_bits::{Bits, BitsMut};
    ///
    /// let mut taken = [0];
    /// let bits = Bits::new(&[0b0111_0110], 0, 7);
    /// let valid = Bits::new(&[0b101], 0, 3);
    /// bits.take_valid_into(&[6i64, -1, 1], valid, BitsMut::new(&mut taken, 0, 3));
    /// assert_eq!(taken, [0b101]);
    /// ```
    #[doc(alias("gather", "null"))]
    #[inline]
    #[track_caller]
    pub fn take_valid_into<I: BitIndex>(
        self,
        indices: &[I],
        validity: impl Mask,
        out: BitsMut<'_>,
    ) {
        expect(self.try_take_valid_into(indices, validity, out));
    }

    /// Writes the bits at the valid indices to `out` as [`try_take_into`](Bits::try_take_into)
    /// does, and false for each other index, whatever its number is.
    ///
    /// # Errors
    ///
    /// Returns [`TakeError`] if `out` or `validity` doesn't have one bit per index, and with the
    /// first valid index that is out of bounds. In the second case the bits of `out` are arbitrary;
    /// otherwise they are unchanged.
    ///
    /// ```
    /// use vortex_bits::{Bits, BitsMut};
    ///
    /// let (bits, valid, mut taken) = (Bits::new(&[0b10], 0, 2), Bits::new(&[0b01], 0, 2), [0]);
    /// let out = BitsMut::new(&mut taken, 3, 2);
    /// assert!(bits.try_take_valid_into(&[1, -1], valid, out).is_ok());
    /// assert_eq!(taken, [0b1000]);
    /// ```
    #[inline]
    pub fn try_take_valid_into<I: BitIndex>(
        self,
        indices: &[I],
        validity: impl Mask,
        out: BitsMut<'_>,
    ) -> Result<(), TakeError> {
        take(self, indices, &validity, out)
    }
}

fn take<I: BitIndex>(
    bits: Bits<'_>,
    indices: &[I],
    validity: &impl Mask,
    mut out: BitsMut<'_>,
) -> Result<(), TakeError> {
    let (room, count) = (out.len(), indices.len());
    if room != count {
        return Err(TakeError::Room {
            bits: room,
            indices: count,
        });
    }
    one_each(indices, validity)?;
    match kernels::take(&mut out.written(), bits, indices, validity.mask()) {
        Some(position) => Err(refused(indices, position, bits.len())),
        None => Ok(()),
    }
}

fn refused<I: BitIndex>(indices: &[I], position: usize, len: usize) -> TakeError {
    TakeError::Index {
        position,
        index: indices[position].number(),
        len,
    }
}

/// Tests that a validity of indices has one bit per index, or is None.
pub(crate) fn one_each<I>(indices: &[I], validity: &impl Mask) -> Result<(), TakeError> {
    match validity.mask_len() {
        Some(bits) if bits != indices.len() => Err(TakeError::Validity {
            bits,
            indices: indices.len(),
        }),
        _ => Ok(()),
    }
}

/// Tests that the valid indices are below `len`.
#[cfg(feature = "alloc")]
pub(crate) fn all_below<I: BitIndex>(
    indices: &[I],
    len: usize,
    validity: Option<Bits<'_>>,
) -> Result<(), TakeError> {
    match portable::first_past(indices, validity, len) {
        Some(position) => Err(refused(indices, position, len)),
        None => Ok(()),
    }
}
