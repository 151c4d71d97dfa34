//! The types of values in buffers.

use core::fmt;
use core::iter::FusedIterator;
use core::marker::PhantomData;
use core::ops::Range;

/// A type of values in a buffer. Any bytes of its size are a valid value.
///
/// - `i8`, `i16`, `i32` and `i64` read arrays of signed integers, dates, times, timestamps,
///   durations and months of that width, and of decimals of 32 and 64 bits;
/// - `u8`, `u16`, `u32` and `u64` read unsigned integers of that width; `u16` also reads floats of
///   16 bits, as their bits;
/// - `f32` and `f64` read floats of that width;
/// - `i128` reads decimals of 128 bits, whose buffers often aren't aligned for it;
/// - `[u8; N]` reads values of N bytes of any meaning;
/// - `[u64; 2]` and `[i64; 2]` read values of 16 bytes as halves, on little-endian machines the
///   lower half first. [`values::filter`](crate::values::filter) filters decimals as these.
#[diagnostic::on_unimplemented(
    message = "no array has values of `{Self}`",
    label = "whole numbers of 8 to 64 bits, `i128`, floats, `[u8; N]`, `[u64; 2]` and `[i64; 2]`",
    note = "`Array::bits` returns the truth values of a column, `Array::texts` its texts"
)]
pub trait Primitive: sealed::Primitive {}

pub(super) mod sealed {
    use alloc::borrow::ToOwned;
    use alloc::string::String;

    use crate::arrow::layout::{Kind, Layout};

    /// Any bytes of its size are a value.
    pub trait Primitive: Copy + Send + Sync + 'static {
        /// The arrays that it reads, for an error.
        const WANTED: &'static str;

        /// Returns whether arrays of the layout have such values. These have the width of the type
        /// then.
        fn is_in(layout: Layout) -> bool;

        /// Returns the format that an export of these values has by default.
        fn format() -> String;
    }

    macro_rules! numbers {
        ($($number:ty, $format:literal: $($kind:ident)|*;)*) => {$(
            impl super::Primitive for $number {}

            impl Primitive for $number {
                const WANTED: &'static str = concat!("that of values of ", stringify!($number));

                fn is_in(layout: Layout) -> bool {
                    const WIDTH: usize = size_of::<$number>();
                    matches!(layout, Layout::Fixed($(Kind::$kind)|*, WIDTH))
                }

                fn format() -> String {
                    $format.to_owned()
                }
            }
        )*};
    }

    numbers! {
        i8, "c": Signed;
        u8, "C": Unsigned;
        i16, "s": Signed;
        u16, "S": Unsigned | Float;
        i32, "i": Signed;
        u32, "I": Unsigned;
        i64, "l": Signed;
        u64, "L": Unsigned;
        f32, "f": Float;
        f64, "g": Float;
        i128, "d:38,0": Signed;
        [u64; 2], "w:16": Signed | Bytes;
        [i64; 2], "w:16": Signed | Bytes;
    }

    impl<const N: usize> super::Primitive for [u8; N] {}

    impl<const N: usize> Primitive for [u8; N] {
        const WANTED: &'static str = "that of values of so many bytes";

        fn is_in(layout: Layout) -> bool {
            matches!(layout, Layout::Fixed(_, width) if width == N)
        }

        fn format() -> String {
            alloc::format!("w:{N}")
        }
    }
}

/// Values at any alignment. [`Array::unaligned`](super::Array::unaligned) returns them.
#[derive(Clone, Copy)]
pub struct Unaligned<'a, T> {
    /// `size_of::<T>()` bytes for each value.
    bytes: &'a [u8],
    len: usize,
    values: PhantomData<T>,
}

impl<'a, T: Primitive> Unaligned<'a, T> {
    pub(super) fn new(bytes: &'a [u8], len: usize) -> Self {
        assert_eq!(bytes.len(), len * size_of::<T>());
        Unaligned {
            bytes,
            len,
            values: PhantomData,
        }
    }

    /// Returns the number of values.
    #[inline]
    #[must_use]
    pub fn len(&self) -> usize {
        self.len
    }

    /// Returns whether there are no values.
    #[inline]
    #[must_use]
    pub fn is_empty(&self) -> bool {
        self.len == 0
    }

    /// Returns the value at an index; None if the index is out of bounds.
    #[inline]
    #[must_use]
    pub fn get(&self, place: usize) -> Option<T> {
        // SAFETY: `place` is the index of a value.
        (place < self.len).then(|| unsafe { self.read(place) })
    }

    /// Returns the values at an index and at the next one.
    ///
    /// # Panics
    ///
    /// Panics unless both exist.
    #[inline]
    pub(super) fn pair(&self, place: usize) -> [T; 2] {
        assert!(place < self.len.saturating_sub(1));
        // SAFETY: both are indices of values.
        unsafe { [self.read(place), self.read(place + 1)] }
    }

    /// Returns the value at an index.
    ///
    /// # Safety
    ///
    /// There are more than `place` values.
    #[inline]
    unsafe fn read(&self, place: usize) -> T {
        let bytes = self.bytes.as_ptr().cast::<T>();
        // SAFETY: each value has `size_of::<T>()` bytes, and any such bytes are a value.
        unsafe { bytes.add(place).read_unaligned() }
    }

    /// Returns the bytes of the values in a range.
    pub(super) fn bytes_of(&self, values: Range<usize>) -> &'a [u8] {
        &self.bytes[values.start * size_of::<T>()..values.end * size_of::<T>()]
    }

    /// Returns an iterator over the values.
    #[inline]
    #[must_use]
    pub fn iter(
        self,
    ) -> impl ExactSizeIterator<Item = T> + DoubleEndedIterator + FusedIterator + Clone + use<'a, T>
    {
        // SAFETY: each `place` is the index of a value.
        (0..self.len).map(move |place| unsafe { self.read(place) })
    }
}

impl<T: Primitive + fmt::Debug> fmt::Debug for Unaligned<'_, T> {
    fn fmt(&self, f: &mut fmt::Formatter<'_>) -> fmt::Result {
        f.debug_list().entries(self.iter()).finish()
    }
}
