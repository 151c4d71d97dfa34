//! Copies rows of texts of one array one by one. It is faster than copying by runs, unless the runs
//! are long.

use super::made::Made;
use super::memory::with_room;
use super::rows::Rows;
use super::tested;
use super::variable::long;
use crate::arrow::array::Array;
use crate::arrow::error::ArrowError;
use crate::arrow::field::Field;
use crate::arrow::primitive::Unaligned;
use crate::arrow::ranges::{Offset, Offsets};
use crate::bytes::AlignedBytes;
use crate::{Bits, portable};

/// From this average length of a run on, in rows, copying by runs is faster.
const LONG: usize = 9;
/// A text of up to this number of bytes is copied with a copy of this fixed size.
const FEW: usize = 32;
/// The greatest number of rows per call of [`Each::each`].
const BLOCK: usize = 64;

/// Returns new offsets and the bytes of the valid rows; `valid` has a bit per row. Returns None if
/// copying by runs is faster, which copies the bytes of null rows too.
pub(super) fn rows(
    field: &Field,
    of: &Array,
    rows: Rows<'_>,
    valid: Option<Bits<'_>>,
) -> Result<Option<Made>, ArrowError> {
    let by_runs = match rows {
        Rows::Runs(..) => true,
        Rows::Mask(mask, len) => valid.is_none() && len > LONG * number_of_runs(mask),
        Rows::Places(..) => false,
    };
    if by_runs {
        return Ok(None);
    }
    let (ranges, bytes) = tested::texts_of(field, of, rows)?;
    let rows = Chosen { rows, valid };
    let made = match ranges.offsets() {
        Offsets::Narrow(offsets) => copied(field, offsets, bytes, rows),
        Offsets::Wide(offsets) => copied(field, offsets, bytes, rows),
    };
    made.map(Some)
}

fn number_of_runs(mask: Bits<'_>) -> usize {
    let mut last = 0;
    let begun = mask.words().map(|word| {
        let begun = word & !(word << 1 | last);
        last = word >> 63;
        begun.count_ones() as usize
    });
    begun.sum()
}

/// Copies the texts of rows. The offsets ascend up to the number of bytes. It adds up the lengths
/// before it allocates memory for the bytes.
fn copied<T: Offset>(
    field: &Field,
    offsets: Unaligned<'_, T>,
    bytes: &[u8],
    rows: Chosen<'_>,
) -> Result<Made, ArrowError> {
    let size = rows
        .rows
        .len()
        .saturating_add(1)
        .saturating_mul(size_of::<T>());
    let mut ends = Ends {
        offsets,
        end: 0,
        out: with_room(field, size)?,
    };
    ends.out.extend(T::cut(0).bytes().as_ref());
    rows.each(&mut ends);
    let Ends { end, out: ends, .. } = ends;
    if size_of::<T>() == size_of::<i32>() && i32::try_from(end).is_err() {
        let mut far = Far {
            offsets,
            end: 0,
            first: None,
        };
        rows.each(&mut far);
        return Err(long(field, far.first.into_iter()));
    }
    let mut texts = Texts {
        offsets,
        bytes,
        block: [0; BLOCK * FEW],
        out: with_room(field, end)?,
    };
    rows.each(&mut texts);
    Ok(Made::of([ends, texts.out]))
}

/// One pass over the rows.
trait Each {
    /// Processes at most [`BLOCK`] rows. A row is null if its bit of `valid` is 0.
    fn each(&mut self, rows: impl Iterator<Item = usize>, valid: u64);
}

/// The pass that writes the ends of the rows.
struct Ends<'a, T> {
    offsets: Unaligned<'a, T>,
    end: usize,
    out: AlignedBytes,
}

impl<T: Offset> Each for Ends<'_, T> {
    #[inline]
    fn each(&mut self, rows: impl Iterator<Item = usize>, valid: u64) {
        let (mut end, mut valid) = (self.end, valid);
        let (mut block, mut size) = ([0; BLOCK * size_of::<i64>()], 0);
        for row in rows {
            end = end.saturating_add(of_row(self.offsets, row, valid).1);
            let number = T::cut(end).bytes();
            if let Some(out) = block[size..].get_mut(..size_of::<T>()) {
                out.copy_from_slice(number.as_ref());
            }
            size += size_of::<T>();
            valid >>= 1;
        }
        self.end = end;
        self.out.extend(&block[..size]);
    }
}

/// The pass that finds the first end that an offset can't represent.
struct Far<'a, T> {
    offsets: Unaligned<'a, T>,
    end: usize,
    first: Option<usize>,
}

impl<T: Offset> Each for Far<'_, T> {
    fn each(&mut self, rows: impl Iterator<Item = usize>, valid: u64) {
        for (at, row) in rows.enumerate() {
            let (_, len) = of_row(self.offsets, row, valid >> at);
            self.end = self.end.saturating_add(len);
            if i32::try_from(self.end).is_err() {
                self.first = self.first.or(Some(self.end));
            }
        }
    }
}

/// The pass that copies the bytes of the rows.
struct Texts<'a, T> {
    offsets: Unaligned<'a, T>,
    bytes: &'a [u8],
    /// The bytes of short rows, until they are appended together.
    block: [u8; BLOCK * FEW],
    out: AlignedBytes,
}

impl<T: Offset> Each for Texts<'_, T> {
    #[inline]
    fn each(&mut self, rows: impl Iterator<Item = usize>, valid: u64) {
        let (mut size, mut valid) = (0, valid);
        for row in rows {
            let (start, len) = of_row(self.offsets, row, valid);
            let bytes = &self.bytes[start..];
            let room = self.block[size..].first_chunk_mut::<FEW>();
            match (room, bytes.first_chunk::<FEW>()) {
                // The next row overwrites the bytes after this one.
                (Some(out), Some(few)) if len <= FEW => {
                    *out = *few;
                    size += len;
                }
                _ => {
                    self.out.extend(&self.block[..size]);
                    self.out.extend(&bytes[..len]);
                    size = 0;
                }
            }
            valid >>= 1;
        }
        self.out.extend(&self.block[..size]);
    }
}

/// Returns the start and the length of a row; 0 and 0 if it is null, which is when the lowest bit
/// of `valid` is 0.
#[inline]
fn of_row<T: Offset>(offsets: Unaligned<'_, T>, row: usize, valid: u64) -> (usize, usize) {
    if valid & 1 == 0 {
        return (0, 0);
    }
    let [start, end] = offsets.pair(row).map(T::place);
    (start, end.wrapping_sub(start))
}

/// The selected rows of an array, and a bit per row: whether it is valid.
#[derive(Clone, Copy)]
struct Chosen<'a> {
    rows: Rows<'a>,
    valid: Option<Bits<'a>>,
}

impl Chosen<'_> {
    /// Calls `take` with the rows of one word after the other.
    #[inline]
    fn each(self, take: &mut impl Each) {
        match self.rows {
            Rows::Mask(mask, _) => {
                let mut before = 0;
                for (i, word) in mask.words().enumerate().filter(|(_, word)| *word != 0) {
                    let len = word.count_ones() as usize;
                    let valid = word_of(self.valid, before, len);
                    take.each(
                        Places {
                            base: BLOCK * i,
                            word,
                        },
                        valid,
                    );
                    before += len;
                }
            }
            Rows::Places(places, counts) => {
                for (i, rows) in places.chunks(BLOCK).enumerate() {
                    let word = |bits| word_of(bits, BLOCK * i, rows.len());
                    take.each(rows.iter().copied(), word(counts) & word(self.valid));
                }
            }
            Rows::Runs(..) => (),
        }
    }
}

/// Returns bits of a part as the lowest bits of a word; all ones if there are no bits.
#[inline]
fn word_of(bits: Option<Bits<'_>>, start: usize, len: usize) -> u64 {
    bits.map_or(u64::MAX, |bits| portable::only_word(bits.part(start, len)))
}

/// An iterator over the indices of a word's set bits, which adds `base` to each.
struct Places {
    base: usize,
    word: u64,
}

impl Iterator for Places {
    type Item = usize;

    #[inline]
    fn next(&mut self) -> Option<usize> {
        let place = self.base + self.word.trailing_zeros() as usize;
        let word = self.word.checked_sub(1)?;
        self.word &= word;
        Some(place)
    }
}
