//! Splits rows by their codes, eight at a time.

use super::word::only_word;
use crate::{BitIndex, Bits};

/// Sets the bit of each selected row in the bitmap of its code. Each bitmap has `stride` bytes, all
/// of whose bits from row `first` on are false. A mask has one bit per code. Returns the first
/// selected row whose code has no bitmap, counted from 0, with arbitrary bits from row `first` on;
/// None if there is none.
pub fn split_by_code<I: BitIndex>(
    bytes: &mut [u8],
    stride: usize,
    first: usize,
    codes: &[I],
    mask: Option<Bits<'_>>,
) -> Option<usize> {
    let selected = |start, len| match mask {
        Some(mask) => only_word(mask.part(start, len)),
        None => u64::MAX,
    };
    let head = (first.wrapping_neg() % 8).min(codes.len());
    let (before, rest) = codes.split_at(head);
    let number = bytes.len().checked_div(stride).unwrap_or(0);
    let mut bitmaps = Bitmaps {
        bytes,
        stride,
        number,
    };
    let digit = first % 8;
    let [of_head, ..] = selected(0, head).to_le_bytes();
    let past = bitmaps.set(first / 8, before, of_head, digit);
    if past != 0 {
        return Some(past.trailing_zeros() as usize);
    }
    for (i, codes) in rest.chunks(64).enumerate() {
        let row = head + 64 * i;
        let selected = selected(row, codes.len());
        if let Some(past) = bitmaps.set_many((first + row) / 8, codes, selected) {
            return Some(row + past);
        }
    }
    None
}

/// Bitmaps of `stride` bytes each.
struct Bitmaps<'a> {
    bytes: &'a mut [u8],
    stride: usize,
    number: usize,
}

impl Bitmaps<'_> {
    /// Sets the bits of up to 64 rows, of which the first is bit 0 of byte `at` of each bitmap.
    /// Returns the first selected row whose code has no bitmap. It sets no bits after the group of
    /// eight that has that row.
    #[inline]
    fn set_many<I: BitIndex>(&mut self, at: usize, codes: &[I], selected: u64) -> Option<usize> {
        let mut eights = codes.chunks(8).zip(selected.to_le_bytes()).enumerate();
        eights.find_map(|(i, (eight, selected))| {
            let past = match eight.first_chunk::<8>() {
                Some(eight) => self.set(at + i, eight, selected, 0),
                None => self.set(at + i, eight, selected, 0),
            };
            (past != 0).then(|| 8 * i + past.trailing_zeros() as usize)
        })
    }

    /// Sets the bits of up to eight rows whose bits are in one byte, from bit `digit` of byte `at`
    /// of each bitmap on. Returns which selected rows have a code without a bitmap. It doesn't
    /// branch by the mask, since that often can't be predicted.
    #[inline]
    fn set<I: BitIndex>(&mut self, at: usize, codes: &[I], selected: u8, digit: usize) -> u8 {
        let mut past = 0;
        for (row, code) in codes.iter().enumerate() {
            let bit = selected & 1 << row;
            let code = code.place_or_far().min(self.number);
            match self.bytes.get_mut(code * self.stride + at) {
                Some(byte) => *byte |= bit << digit,
                None => past |= bit,
            }
        }
        past
    }
}
