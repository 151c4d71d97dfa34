//! The offsets between rows, of 32 or 64 bits.

use core::mem;
use core::ops::Range;

use super::each_set;
use crate::Bits;
use crate::arrow::error::Fault;
use crate::arrow::primitive::{Primitive, Unaligned};
use crate::portable::{low, only_word};

/// An offset: the number at which a row begins or ends.
pub(in crate::arrow) trait Offset: Primitive + Into<i64> {
    type Bytes: AsRef<[u8]>;

    fn bytes(self) -> Self::Bytes;

    /// Returns the offset in the first `size_of::<Self>()` bytes; 0 if there are fewer.
    fn of_bytes(bytes: &[u8]) -> Self;

    /// Returns the index as an offset. The result is arbitrary if the type can't represent the
    /// index.
    fn cut(place: usize) -> Self;

    /// Returns the offset as an index. The result is arbitrary if the offset is negative.
    fn place(self) -> usize;

    /// Returns the lowest 32 bits.
    fn low(self) -> u32;

    /// Returns a negative number if this offset is negative or below the one before it. The
    /// subtraction wraps, so the result may also be negative if one of the two is negative.
    fn goes_back(self, before: Self) -> Self;

    /// Returns the difference, which wraps.
    fn minus(self, other: Self) -> Self;

    fn plus(self, further: Self) -> Self;

    fn or(self, other: Self) -> Self;
}

macro_rules! offsets {
    ($($signed:ty, $unsigned:ty;)*) => {$(
        impl Offset for $signed {
            type Bytes = [u8; size_of::<$signed>()];

            #[inline]
            fn bytes(self) -> Self::Bytes {
                self.to_ne_bytes()
            }

            #[inline]
            fn of_bytes(bytes: &[u8]) -> Self {
                bytes.first_chunk().map_or(0, |it| <$signed>::from_ne_bytes(*it))
            }

            #[allow(
                clippy::cast_possible_truncation,
                clippy::cast_possible_wrap,
                reason = "its caller compares the place with what it can tell"
            )]
            #[inline]
            fn cut(place: usize) -> Self {
                place as $signed
            }

            #[inline]
            fn place(self) -> usize {
                let number = <$unsigned>::from_ne_bytes(self.to_ne_bytes());
                usize::try_from(number).unwrap_or(usize::MAX)
            }

            #[allow(
                clippy::cast_possible_truncation,
                clippy::cast_sign_loss,
                reason = "these are the lowest bits"
            )]
            #[inline]
            fn low(self) -> u32 {
                self as u32
            }

            #[inline]
            fn goes_back(self, before: Self) -> Self {
                self.wrapping_sub(before) | self
            }

            #[inline]
            fn minus(self, other: Self) -> Self {
                self.wrapping_sub(other)
            }

            #[inline]
            fn plus(self, further: Self) -> Self {
                self.wrapping_add(further)
            }

            #[inline]
            fn or(self, other: Self) -> Self {
                self | other
            }
        }
    )*};
}

offsets! {
    i32, u32;
    i64, u64;
}

/// Returns the offsets of a range. The compiler vectorizes a loop over them that doesn't branch.
#[inline]
fn numbers<T: Offset>(
    offsets: Unaligned<'_, T>,
    places: Range<usize>,
) -> impl ExactSizeIterator<Item = T> + use<'_, T> {
    let bytes = offsets.bytes_of(places);
    bytes.chunks_exact(size_of::<T>()).map(T::of_bytes)
}

/// Tests that no offset is negative, none is below the one before it, and each fits in an `isize`,
/// as the size of a slice does.
pub(super) fn ascend<T: Offset>(offsets: Unaligned<'_, T>) -> Result<(), Fault> {
    let (Some(last), Some(first)) = (offsets.len().checked_sub(1), offsets.get(0)) else {
        return Ok(());
    };
    let pairs = numbers(offsets, 0..last).zip(numbers(offsets, 1..last + 1));
    let wrong = pairs.fold(first, |wrong, (start, end)| wrong.or(end.goes_back(start)));
    let most = offsets.get(last).map_or(0, Into::into);
    if wrong.into() < 0 || isize::try_from(most).is_err() {
        return first_wrong(offsets);
    }
    Ok(())
}

/// Returns the error of the first offset that [`ascend`] rejects.
#[cold]
fn first_wrong<T: Offset>(offsets: Unaligned<'_, T>) -> Result<(), Fault> {
    let mut start = 0;
    for (place, end) in offsets.iter().map(Into::into).enumerate() {
        if end < start || isize::try_from(end).is_err() {
            let row = place.saturating_sub(1);
            return Err(Fault::Range { row, start, end });
        }
        start = end;
    }
    Ok(())
}

/// Writes the end offsets of these rows as if the first of them began at `start`.
pub(super) fn write_ends<T: Offset>(
    offsets: Unaligned<'_, T>,
    rows: Range<usize>,
    start: usize,
    out: &mut [u8],
) {
    let first = offsets.get(rows.start).unwrap_or(T::cut(0));
    let further = T::cut(start).minus(first);
    let ends = numbers(offsets, rows.start + 1..rows.end + 1);
    for (out, end) in out.chunks_exact_mut(size_of::<T>()).zip(ends) {
        out.copy_from_slice(end.plus(further).bytes().as_ref());
    }
}

/// Returns whether a row has bytes or items, though its bit is unset. The bits are those of the
/// rows from `first` on.
pub(super) fn any_unset<T: Offset>(
    offsets: Unaligned<'_, T>,
    first: usize,
    valid: Bits<'_>,
) -> bool {
    let has_items = |row: usize| {
        let [start, end] = offsets.pair(row).map(Into::into);
        start != end
    };
    (0..valid.len()).step_by(64).any(|row| {
        let len = (valid.len() - row).min(64);
        let nulls = !only_word(valid.part(row, len)) & low(len);
        each_set(nulls, |digit| has_items(first + row + digit)) != 0
    })
}

/// The start of each of 64 rows, counted from the start of the first, and its length. Lengths are
/// stored too: to compute one from a start and an end, a processor would have to wait for two
/// stores.
pub(in crate::arrow) struct Spans {
    pub(in crate::arrow) starts: [u32; 64],
    pub(in crate::arrow) lens: [u32; 64],
}

impl Default for Spans {
    fn default() -> Self {
        let (starts, lens) = ([0; 64], [0; 64]);
        Spans { starts, lens }
    }
}

/// Writes the spans of these rows, at most 64. Those behind them are empty. It is a separate
/// function, so that the compiler knows that the numbers it writes don't overlap those it reads.
#[inline(never)]
pub(super) fn write_spans<T: Offset>(
    offsets: Unaligned<'_, T>,
    rows: Range<usize>,
    out: &mut Spans,
) {
    let (number, first) = (rows.len(), offsets.get(rows.start).unwrap_or(T::cut(0)));
    let starts = numbers(offsets, rows.start..rows.end);
    let ends = numbers(offsets, rows.start + 1..rows.end + 1);
    let spans = out.starts.iter_mut().zip(&mut out.lens);
    for ((own, len), (start, end)) in spans.zip(starts.zip(ends)) {
        (*own, *len) = (start.minus(first).low(), end.minus(start).low());
    }
    if number < 64 {
        let end = offsets.get(rows.end).unwrap_or(first);
        out.starts[number..].fill(end.minus(first).low());
        out.lens[number..].fill(0);
    }
}

/// Folds the ranges of these rows. The first of them begins at `start`.
#[inline]
pub(super) fn fold_rows<T: Offset, A>(
    offsets: Unaligned<'_, T>,
    rows: Range<usize>,
    start: usize,
    first: A,
    mut f: impl FnMut(A, Range<usize>) -> A,
) -> A {
    if rows.is_empty() {
        return first;
    }
    let mut start = start;
    numbers(offsets, rows.start + 1..rows.end + 1).fold(first, |all, end| {
        let end = end.place();
        f(all, mem::replace(&mut start, end)..end)
    })
}
