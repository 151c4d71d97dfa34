//! The operators `&`, `|`, `^` and `!`, which return new bits, and `&=`, `|=` and `^=`, which write
//! in place.

use core::ops::{BitAndAssign, BitOrAssign, BitXorAssign};

use crate::kernels::Operator;
use crate::{Bits, BitsMut, Mask};

#[cfg(feature = "alloc")]
use crate::{Bitmap, Grow, Validity};
#[cfg(feature = "alloc")]
use core::ops::{BitAnd, BitOr, BitXor, Not};

/// Returns the bits of the right-hand operand, after a test that its length, if it has one, is
/// `left`.
///
/// # Panics
///
/// Panics if the lengths differ.
#[track_caller]
fn right_of(left: usize, right: &impl Mask) -> Option<Bits<'_>> {
    let len = right.mask_len().unwrap_or(left);
    assert!(left == len, "windows of {left} and {len} bits");
    right.mask()
}

/// Returns the operator's result. A left-hand operand without bits is all true.
#[cfg(feature = "alloc")]
#[track_caller]
fn combined(left: Validity<'_>, right: &impl Mask, operator: Operator) -> Bitmap {
    let right = right_of(left.len(), right);
    Bitmap::make(left.len(), |mut out| {
        if let (Some(left), Some(right)) = (left.bits(), right) {
            return out.combine_into(left, right, operator);
        }
        match left.bits() {
            Some(left) => out.copy_from(left),
            None => out.fill(true),
        }
        apply(&mut out, right, operator);
    })
}

/// Applies the operator with a right-hand operand of the same length, or all true.
fn apply(bits: &mut BitsMut<'_>, right: Option<Bits<'_>>, operator: Operator) {
    match right {
        Some(right) => bits.combine(right, operator),
        None => by_all(bits, operator),
    }
}

/// Applies the operator with a right-hand operand that is all true.
fn by_all(bits: &mut BitsMut<'_>, operator: Operator) {
    match operator {
        Operator::And => (),
        Operator::Or => bits.fill(true),
        Operator::Xor => bits.negate(),
        Operator::AndNot => bits.fill(false),
    }
}

#[track_caller]
fn write(bits: &mut BitsMut<'_>, right: &impl Mask, operator: Operator) {
    let right = right_of(bits.len(), right);
    apply(bits, right, operator);
}

/// Implements an operator for a type of left-hand operands. It returns new bits.
#[cfg(feature = "alloc")]
macro_rules! on {
    ($operator:ident, $trait:ident, $name:ident, [$($generic:tt)*] $left:ty, $rows:expr) => {
        /// Returns new bits. The right-hand operand has bits, by value or by reference.
        ///
        /// # Panics
        ///
        /// Panics if the lengths differ.
        impl<$($generic)* R: Mask> $trait<R> for $left {
            type Output = Bitmap;

            #[track_caller]
            fn $name(self, right: R) -> Bitmap {
                let rows: fn(&Self) -> Validity<'_> = $rows;
                combined(rows(&self), &right, Operator::$operator)
            }
        }
    };
}

macro_rules! operators {
    ($($operator:ident: $trait:ident, $name:ident, $assign:ident, $assign_name:ident;)*) => {$(
        #[cfg(feature = "alloc")]
        on!($operator, $trait, $name, [] Bits<'_>, |bits| (*bits).into());
        #[cfg(feature = "alloc")]
        on!($operator, $trait, $name, [] &Bits<'_>, |bits| (**bits).into());
        #[cfg(feature = "alloc")]
        on!($operator, $trait, $name, [] Validity<'_>, |rows| *rows);
        #[cfg(feature = "alloc")]
        on!($operator, $trait, $name, [] &Validity<'_>, |rows| **rows);
        #[cfg(feature = "alloc")]
        on!($operator, $trait, $name, [B: AsRef<[u8]>,] Bitmap<B>, |bitmap| bitmap.bits().into());
        #[cfg(feature = "alloc")]
        on!($operator, $trait, $name, [B: AsRef<[u8]>,] &Bitmap<B>, |bitmap| bitmap.bits().into());

        /// # Panics
        ///
        /// Panics if the lengths differ.
        impl<R: Mask> $assign<R> for BitsMut<'_> {
            #[track_caller]
            fn $assign_name(&mut self, right: R) {
                write(self, &right, Operator::$operator);
            }
        }

        /// Writes in place if the bytes have no other owner, otherwise in a copy.
        ///
        /// # Panics
        ///
        /// Panics if the lengths differ.
        #[cfg(feature = "alloc")]
        impl<B: Grow, R: Mask> $assign<R> for Bitmap<B> {
            #[track_caller]
            fn $assign_name(&mut self, right: R) {
                write(&mut self.bits_mut(), &right, Operator::$operator);
            }
        }
    )*};
}

operators! {
    And: BitAnd, bitand, BitAndAssign, bitand_assign;
    Or: BitOr, bitor, BitOrAssign, bitor_assign;
    Xor: BitXor, bitxor, BitXorAssign, bitxor_assign;
}

#[cfg(feature = "alloc")]
impl Bits<'_> {
    /// Returns new bits, true where these are true and `right` is false.
    ///
    /// ```
    /// use vortex_bits::Bits;
    ///
    /// let (left, right) = (Bits::new(&[0b1100], 0, 4), Bits::new(&[0b1010], 0, 4));
    /// assert_eq!(left.and_not(right), Bits::new(&[0b0100], 0, 4));
    /// assert_eq!((left & right, left | !right), (right & left, !(right.and_not(left))));
    /// ```
    ///
    /// # Panics
    ///
    /// Panics if the lengths differ, as for `&`, `|` and `^`.
    #[must_use]
    #[track_caller]
    pub fn and_not(self, right: impl Mask) -> Bitmap {
        combined(self.into(), &right, Operator::AndNot)
    }
}

#[cfg(feature = "alloc")]
impl Not for Bits<'_> {
    type Output = Bitmap;

    fn not(self) -> Bitmap {
        Bitmap::make(self.len(), |mut out| {
            out.copy_from(self);
            out.negate();
        })
    }
}

#[cfg(feature = "alloc")]
impl Not for &Bits<'_> {
    type Output = Bitmap;

    fn not(self) -> Bitmap {
        !*self
    }
}

/// Returns which rows are null: one bit per row, even if all are valid.
///
/// ```
/// use vortex_bits::{Bitmap, Bits, Validity};
///
/// let (some, all) = (Validity::from(Bits::new(&[0b0110], 0, 4)), Validity::new(None, 4));
/// assert_eq!((!some, !all), (Bitmap::from_indices(4, &[0, 3]), Bitmap::new_unset(4)));
/// assert_eq!((some & all, some ^ all), (Bitmap::from(some), !some));
/// ```
#[cfg(feature = "alloc")]
impl Not for Validity<'_> {
    type Output = Bitmap;

    fn not(self) -> Bitmap {
        let none = || Bitmap::new_unset(self.len());
        self.bits().map_or_else(none, |bits| !bits)
    }
}

#[cfg(feature = "alloc")]
impl Not for &Validity<'_> {
    type Output = Bitmap;

    fn not(self) -> Bitmap {
        !*self
    }
}

#[cfg(feature = "alloc")]
impl<B: AsRef<[u8]>> Not for Bitmap<B> {
    type Output = Bitmap;

    fn not(self) -> Bitmap {
        !self.bits()
    }
}

#[cfg(feature = "alloc")]
impl<B: AsRef<[u8]>> Not for &Bitmap<B> {
    type Output = Bitmap;

    fn not(self) -> Bitmap {
        !self.bits()
    }
}
