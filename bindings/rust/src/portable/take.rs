//! Takes bits and values at indices, and sets bits there.

use super::word::{only_word, word_at};
use crate::prefetch::Ahead;
use crate::take::BitIndex;
use crate::written::Written;
use crate::{Bits, Value};

/// Writes the bits at the indices. There is one index per bit of `out` and of `validity`. Returns
/// the first valid position whose index is out of bounds; None if there is none.
pub fn take<I: BitIndex>(
    out: &mut Written<'_>,
    bits: Bits<'_>,
    indices: &[I],
    validity: Option<Bits<'_>>,
) -> Option<usize> {
    for (i, indices) in indices.chunks(64).enumerate() {
        let counts = validity.map_or(u64::MAX, |validity| word_at(validity, i));
        // Indices of nulls are often out of bounds.
        let may_be_past = validity.is_some() || I::any_past(indices, bits.len());
        let (word, past) = if may_be_past {
            some_past(bits, indices)
        } else {
            (none_past(bits, indices), 0)
        };
        if past & counts != 0 {
            return Some(64 * i + (past & counts).trailing_zeros() as usize);
        }
        out.write(64 * i, indices.len(), word & counts);
    }
    None
}

/// Returns the bits at up to 64 indices, all in bounds, as the lowest bits of a word.
#[inline]
fn none_past<I: BitIndex>(bits: Bits<'_>, indices: &[I]) -> u64 {
    let (bytes, offset) = (bits.bytes(), bits.offset());
    let word = indices.iter().fold(0, |word, index| {
        let bit = offset + index.place().unwrap_or(0);
        word >> 1 | u64::from(bytes[bit / 8] >> (bit % 8)) << 63
    });
    word >> (64 - indices.len())
}

/// Returns the same, and a second word with the indices that are out of bounds. Their bits in the
/// first word are arbitrary. It has no branch.
fn some_past<I: BitIndex>(bits: Bits<'_>, indices: &[I]) -> (u64, u64) {
    let (mut word, mut past) = (0, 0);
    for index in indices {
        let place = index.place().unwrap_or(usize::MAX);
        let is_past = place >= bits.len();
        let bit = bits.offset() + if is_past { 0 } else { place };
        let byte = bits.bytes().get(bit / 8).copied().unwrap_or(0);
        word = word >> 1 | u64::from(byte >> (bit % 8)) << 63;
        past = past >> 1 | u64::from(is_past) << 63;
    }
    let behind = 64 - indices.len();
    (word >> behind, past >> behind)
}

/// If fewer of 64 indices are selected, it is faster to test each of these.
const FEW: u32 = 16;

/// Writes whether the bits at the indices that `mask` selects are set; false for an index that is
/// out of bounds. There is one index per bit of `out` and of `mask`.
pub fn is_in<I: BitIndex>(
    out: &mut Written<'_>,
    bits: Bits<'_>,
    indices: &[I],
    mask: Option<Bits<'_>>,
) {
    let selected = |_: &Written<'_>, i, _| mask.map_or(u64::MAX, |mask| word_at(mask, i));
    members(out, bits, indices, selected);
}

/// Unsets the bits of `out` whose index is out of bounds, or names a bit that isn't set. There is
/// one index per bit.
pub fn and_is_in<I: BitIndex>(out: &mut Written<'_>, bits: Bits<'_>, indices: &[I]) {
    let own = |out: &Written<'_>, i, len| only_word(out.as_bits().part(64 * i, len));
    members(out, bits, indices, own);
}

/// Writes a bit per index: whether it is selected and names a set bit. `selected` gets the window,
/// the index of a word and the number of its bits, and returns the bits of the selected indices.
#[inline]
fn members<I: BitIndex>(
    out: &mut Written<'_>,
    bits: Bits<'_>,
    indices: &[I],
    selected: impl Fn(&Written<'_>, usize, usize) -> u64,
) {
    let mut ahead = Ahead::default();
    for (i, block) in indices.chunks(64).enumerate() {
        let selected = selected(out, i, block.len());
        let word = if selected.count_ones() < FEW {
            some_among(bits, block, selected)
        } else {
            // The next blocks probably select as many.
            ahead.ask(indices, 64 * (i + 1));
            among(bits, block) & selected
        };
        out.write(64 * i, block.len(), word);
    }
}

/// Returns the same for the selected indices of a block, one by one.
#[inline]
fn some_among<I: BitIndex>(bits: Bits<'_>, indices: &[I], selected: u64) -> u64 {
    let (mut word, mut left) = (0, selected);
    while left != 0 {
        let row = left.trailing_zeros();
        let place = indices[row as usize].place();
        let bit = place.and_then(|place| bits.get(place)).unwrap_or(false);
        word |= u64::from(bit) << row;
        left &= left - 1;
    }
    word
}

/// Returns the bits at up to 64 indices as the lowest bits of a word, false for an index that is
/// out of bounds. The indices of a byte are a loop of known length, which the compiler unrolls.
#[inline]
fn among<I: BitIndex>(bits: Bits<'_>, indices: &[I]) -> u64 {
    let eights = indices.chunks_exact(8);
    let starts = (0..u64::BITS as usize).step_by(8);
    let last = few_among(bits, eights.remainder()) << (indices.len() / 8 * 8 % 64);
    eights.zip(starts).fold(last, |word, (eight, at)| {
        word | few_among(bits, eight) << at
    })
}

/// Returns the same for up to eight indices. For an index that is out of bounds it reads the last
/// byte, and discards the bit. It doesn't branch on that, since it often can't be predicted.
#[inline]
fn few_among<I: BitIndex>(bits: Bits<'_>, indices: &[I]) -> u64 {
    let (bytes, offset, len) = (bits.bytes(), bits.offset(), bits.len());
    let Some(last) = bytes.len().checked_sub(1) else {
        return 0;
    };
    indices.iter().rev().fold(0, |word, index| {
        let place = index.place_or_far();
        let bit = offset.wrapping_add(place);
        let byte = bytes[(bit / 8).min(last)];
        // A bit behind the window may be in its last byte.
        word << 1 | u64::from(byte >> (bit % 8) & u8::from(place < len))
    })
}

/// Writes the values at the indices. There is one index per item of `out` and per bit of
/// `validity`. Returns the first valid position whose index names no value; None if there is none.
#[inline]
pub fn take_values<T: Value, I: BitIndex>(
    out: &mut [T],
    values: &[T],
    indices: &[I],
    validity: Option<Bits<'_>>,
) -> Option<usize> {
    let named = |index: I| index.place().and_then(|place| values.get(place));
    if validity.is_none() {
        return out.iter_mut().zip(indices).position(|(out, &index)| {
            let value = named(index);
            *out = value.copied().unwrap_or(T::ZERO);
            value.is_none()
        });
    }
    for (i, (out, indices)) in out.chunks_mut(64).zip(indices.chunks(64)).enumerate() {
        let mut counts = validity.map_or(u64::MAX, |validity| word_at(validity, i));
        for (at, (out, &index)) in out.iter_mut().zip(indices).enumerate() {
            *out = if counts & 1 == 0 {
                T::ZERO
            } else if let Some(value) = named(index) {
                *value
            } else {
                return Some(64 * i + at);
            };
            counts >>= 1;
        }
    }
    None
}

/// Sets the bits at the indices. Returns the first position whose index is out of bounds; None if
/// there is none.
#[cfg(feature = "alloc")]
pub fn set_all<I: BitIndex>(out: &mut Written<'_>, indices: &[I]) -> Option<usize> {
    let (offset, len) = (out.offset(), out.len());
    let bytes = out.bytes_mut();
    for (position, index) in indices.iter().enumerate() {
        let Some(place) = index.place().filter(|&place| place < len) else {
            return Some(position);
        };
        let bit = offset + place;
        bytes[bit / 8] |= 1 << (bit % 8);
    }
    None
}
