//! Deposits: bits and values scattered to the set bits of a mask.

use crate::bits_mut::alike;
use crate::mask::sealed::Mask as _;
use crate::{Bits, BitsMut, Value, kernels};

#[cfg(feature = "alloc")]
use crate::Bitmap;

impl Bits<'_> {
    /// Undoes a filter: writes these bits, in order, to `out` at the set bits of `mask`, and false
    /// elsewhere. If a second filter selects among the rows of a first one, this turns its result
    /// into a mask of all rows.
    ///
    /// ```
    /// use vortex_bits::{Bits, BitsMut};
    ///
    /// let (mask, kept, mut rows) = (Bits::new(&[0b1101], 0, 4), Bits::new(&[0b110], 0, 3), [0]);
    /// kept.deposit_into(mask, BitsMut::new(&mut rows, 0, 4));
    /// assert_eq!(rows, [0b1100]);
    /// ```
    ///
    /// # Panics
    ///
    /// Panics if there isn't one bit per set bit of `mask`, or `out` isn't as long as `mask`.
    #[doc(alias("pdep", "scatter", "expand"))]
    #[track_caller]
    pub fn deposit_into(self, mask: Bits<'_>, mut out: BitsMut<'_>) {
        alike(out.len(), mask.len());
        alike(mask.count_ones(), self.len());
        kernels::deposit(&mut out.written(), self, mask);
    }

    /// Returns `mask.len()` bits, with these bits in order at the set bits of `mask`, and false
    /// elsewhere, as [`deposit_into`](Bits::deposit_into) writes them.
    ///
    /// ```
    /// use vortex_bits::Bits;
    ///
    /// let (mask, rows) = (Bits::new(&[0b1101], 0, 4), Bits::new(&[0b1010], 0, 4));
    /// assert_eq!(rows.filter(mask).bits().deposit(mask), rows & mask);
    /// ```
    ///
    /// # Panics
    ///
    /// Panics if there isn't one bit per set bit of `mask`.
    #[doc(alias("pdep", "scatter", "expand"))]
    #[cfg(feature = "alloc")]
    #[must_use]
    #[track_caller]
    pub fn deposit(self, mask: Bits<'_>) -> Bitmap {
        alike(mask.count_ones(), self.len());
        Bitmap::make(mask.len(), |out| self.deposit_into(mask, out))
    }

    /// Writes the values, in their order, to the items of `out` whose bit is set, and returns their
    /// number. The other items of `out` are unchanged, and further values are ignored. It undoes a
    /// [`keep_into`](Bits::keep_into): new values of the selected rows go back to their column.
    ///
    /// ```
    /// use vortex_bits::Bits;
    ///
    /// let mut column = [0.5, 1.5, 2.5, 3.5];
    /// let mask = Bits::new(&[0b1010], 0, 4);
    /// assert_eq!(mask.scatter_into(&[8.0, 9.0], &mut column), 2);
    /// assert_eq!(column, [0.5, 8.0, 2.5, 9.0]);
    /// ```
    ///
    /// # Panics
    ///
    /// Panics if there isn't one item per bit, or a value per set bit; `out` is then unchanged.
    #[doc(alias("expand", "masked_scatter", "put"))]
    #[track_caller]
    pub fn scatter_into<T: Value>(self, values: &[T], out: &mut [T]) -> usize {
        self.of_len(out.len());
        let (set, count) = (self.count_ones(), values.len());
        assert!(set <= count, "{count} values for {set} set bits");
        kernels::scatter(out, &values[..set], self);
        set
    }
}
