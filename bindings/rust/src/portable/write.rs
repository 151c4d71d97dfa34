//! Fills, negates, copies, combines, packs and unpacks windows, word by word.

use super::word::{byte_words, eight_of, low, only_word, quick_words, words};
use crate::Bits;
use crate::kernels::Operator;
use crate::written::Written;

pub fn fill(out: &mut Written<'_>, value: bool) {
    let word = if value { u64::MAX } else { 0 };
    if out.len() <= 64 {
        return out.write(0, out.len(), word);
    }
    let all = word.to_le_bytes()[0];
    each_byte(out, |_| all);
}

/// Returns the bits of the window in its first byte and in its last one. The window isn't empty.
#[inline]
fn ends(out: &Written<'_>) -> (u8, u8) {
    let end = out.offset() + out.len();
    let (head, tail) = (!low(out.offset()), low((end - 1) % 8 + 1));
    (head.to_le_bytes()[0], tail.to_le_bytes()[0])
}

/// Replaces each byte of a window of more than 64 bits by `of(byte)`. In the first and the last
/// byte it replaces only the bits of the window.
#[inline]
fn each_byte(out: &mut Written<'_>, of: impl Fn(u8) -> u8) {
    let (head, tail) = ends(out);
    let of_some = |byte: &mut u8, mask: u8| *byte = *byte & !mask | of(*byte) & mask;
    if let [first, whole @ .., last] = out.bytes_mut() {
        of_some(first, head);
        for byte in whole {
            *byte = of(*byte);
        }
        of_some(last, tail);
    }
}

/// Bits to write, or to combine with those that are present. They are read word by word.
trait Source: Copy {
    /// Returns whether the first bit is bit `digit` of its byte.
    fn is_at(self, digit: usize) -> bool;

    /// Returns the `len` bits from index `start` on.
    fn part(self, start: usize, len: usize) -> Self;

    /// Returns at most 64 bits as the lowest bits of a word.
    fn only_word(self) -> u64;

    /// Returns the whole words. The first bit is the first one of a byte.
    fn byte_words(self) -> impl ExactSizeIterator<Item = u64>;

    /// Returns the whole words, for a first bit at any offset.
    fn quick_words(self) -> impl ExactSizeIterator<Item = u64>;
}

impl Source for Bits<'_> {
    #[inline]
    fn is_at(self, digit: usize) -> bool {
        self.offset() % 8 == digit
    }

    #[inline]
    fn part(self, start: usize, len: usize) -> Self {
        Bits::part(self, start, len)
    }

    #[inline]
    fn only_word(self) -> u64 {
        only_word(self)
    }

    #[inline]
    fn byte_words(self) -> impl ExactSizeIterator<Item = u64> {
        byte_words(self)
    }

    #[inline]
    fn quick_words(self) -> impl ExactSizeIterator<Item = u64> {
        quick_words(self)
    }
}

/// The result of an operator on two windows of one length.
#[derive(Clone, Copy)]
struct Both<'a, F> {
    left: Bits<'a>,
    right: Bits<'a>,
    of: F,
}

impl<F: Fn(u64, u64) -> u64 + Copy> Source for Both<'_, F> {
    #[inline]
    fn is_at(self, digit: usize) -> bool {
        self.left.is_at(digit) && self.right.is_at(digit)
    }

    #[inline]
    fn part(self, start: usize, len: usize) -> Self {
        let (left, right) = (self.left.part(start, len), self.right.part(start, len));
        Both {
            left,
            right,
            ..self
        }
    }

    #[inline]
    fn only_word(self) -> u64 {
        (self.of)(only_word(self.left), only_word(self.right))
    }

    #[inline]
    fn byte_words(self) -> impl ExactSizeIterator<Item = u64> {
        let words = self.left.byte_words().zip(self.right.byte_words());
        words.map(move |(left, right)| (self.of)(left, right))
    }

    #[inline]
    fn quick_words(self) -> impl ExactSizeIterator<Item = u64> {
        let words = quick_words(self.left).zip(quick_words(self.right));
        words.map(move |(left, right)| (self.of)(left, right))
    }
}

/// Replaces each bit by `of(bit, other)`, where the other bit is at the same index of a source of
/// the same length.
#[inline]
fn each(out: &mut Written<'_>, source: impl Source, of: impl Fn(u64, u64) -> u64 + Copy) {
    if out.len() > 64 {
        return each_of_many(out, source, of);
    }
    let (digit, len, right) = (out.offset(), out.len(), source.only_word());
    let Some((eight, ninth)) = out.bytes_mut().split_first_chunk_mut() else {
        let made = of(only_word(out.as_bits()), right);
        return out.write(0, len, made);
    };
    *eight = merged(
        u64::from_le_bytes(*eight),
        low(len) << digit,
        right << digit,
        of,
    );
    if let [ninth] = ninth {
        let (mask, right) = (low(digit + len - 64), right >> (64 - digit));
        *ninth = merged(u64::from(*ninth), mask, right, of)[0];
    }
}

/// Returns the bytes of a word whose bits are replaced by `of` at the set bits of `mask`.
#[inline]
fn merged(own: u64, mask: u64, right: u64, of: impl Fn(u64, u64) -> u64) -> [u8; 8] {
    (own & !mask | of(own, right) & mask).to_le_bytes()
}

/// Does [`each`] for more than 64 bits: first the rest of the first byte, then whole words of
/// bytes, then the last bits, which are among the last eight bytes.
#[inline]
fn each_of_many(out: &mut Written<'_>, source: impl Source, of: impl Fn(u64, u64) -> u64 + Copy) {
    let (digit, len) = (out.offset(), out.len());
    let (head, bytes) = (digit.wrapping_neg() % 8, out.bytes_mut());
    let (first, whole) = bytes.split_at_mut(usize::from(head > 0));
    if let [first] = first {
        let right = source.part(0, head).only_word() << digit;
        *first = merged(u64::from(*first), !low(digit), right, of)[0];
    }
    let rest = source.part(head, len - head);
    if rest.is_at(0) {
        each_whole(whole, || rest.byte_words(), of);
    } else {
        each_whole(whole, || rest.quick_words(), of);
    }
    let tail = (len - head) % 64;
    if let (1.., Some(eight)) = (tail, whole.last_chunk_mut()) {
        let behind = (digit + len).wrapping_neg() % 8;
        let right = source.part(len - tail, tail).only_word();
        let up = 64 - behind - tail;
        *eight = merged(u64::from_le_bytes(*eight), low(tail) << up, right << up, of);
    }
}

/// Does the same for the whole words of some bytes. It is a separate function, so that the compiler
/// knows that the bytes it writes don't overlap those it reads, and that each word has eight bytes.
#[inline(never)]
fn each_whole<W: Iterator<Item = u64>>(
    bytes: &mut [u8],
    words: impl FnOnce() -> W,
    of: impl Fn(u64, u64) -> u64,
) {
    for (eight, right) in bytes.chunks_exact_mut(8).zip(words()) {
        let word = of(eight_of(eight), right);
        eight.copy_from_slice(&word.to_le_bytes());
    }
}

/// Replaces each bit by `of` of the bits at the same index of two windows of the same length.
#[inline]
fn each_of(
    out: &mut Written<'_>,
    left: Bits<'_>,
    right: Bits<'_>,
    of: impl Fn(u64, u64) -> u64 + Copy,
) {
    each(out, Both { left, right, of }, |_, made| made);
}

pub fn negate(out: &mut Written<'_>) {
    if out.len() <= 64 {
        return out.write(0, out.len(), !only_word(out.as_bits()));
    }
    each_byte(out, |byte| !byte);
}

/// The windows have one length.
pub fn copy(out: &mut Written<'_>, source: Bits<'_>) {
    each(out, source, |_, word| word);
}

/// Copies `len` bits from index `from` to index `to`, word by word: the first one first if they
/// move towards the front, else the last one first. The window has both.
pub fn copy_within(out: &mut Written<'_>, from: usize, to: usize, len: usize) {
    let copy = |i: usize| {
        let n = (len - 64 * i).min(64);
        let word = only_word(out.as_bits().part(from + 64 * i, n));
        out.write(to + 64 * i, n, word);
    };
    if to <= from {
        (0..len.div_ceil(64)).for_each(copy);
    } else {
        (0..len.div_ceil(64)).rev().for_each(copy);
    }
}

/// The windows have one length. Each operator has its own loop.
pub fn combine(out: &mut Written<'_>, right: Bits<'_>, operator: Operator) {
    match operator {
        Operator::And => each(out, right, |left, right| left & right),
        Operator::Or => each(out, right, |left, right| left | right),
        Operator::Xor => each(out, right, |left, right| left ^ right),
        Operator::AndNot => each(out, right, |left, right| left & !right),
    }
}

/// The windows have one length. Each operator has its own loop.
pub fn combine_into(out: &mut Written<'_>, left: Bits<'_>, right: Bits<'_>, operator: Operator) {
    match operator {
        Operator::And => each_of(out, left, right, |left, right| left & right),
        Operator::Or => each_of(out, left, right, |left, right| left | right),
        Operator::Xor => each_of(out, left, right, |left, right| left ^ right),
        Operator::AndNot => each_of(out, left, right, |left, right| left & !right),
    }
}

/// There is one value per bit.
pub fn pack<T: Copy>(out: &mut Written<'_>, values: &[T], is_true: impl Fn(T) -> bool) {
    for (i, values) in values.chunks(64).enumerate() {
        let word = match values.first_chunk() {
            Some(values) => word_of(values, &is_true),
            None => few(values, &is_true),
        };
        out.write(64 * i, values.len(), word);
    }
}

/// Packs as [`pack`] does, with the bits of `flip` negated, for values as wide as a word.
pub(super) fn pack_wide<T: Copy>(
    out: &mut Written<'_>,
    values: &[T],
    is_true: impl Fn(T) -> bool,
    flip: u64,
) {
    for (i, values) in values.chunks(64).enumerate() {
        let word = match values.first_chunk() {
            Some(values) => lanes_of(values, &is_true),
            None => few(values, &is_true),
        };
        out.write(64 * i, values.len(), word ^ flip);
    }
}

/// Packs 64 values. Each lane collects every eighth value, so that the compiler shifts and adds
/// vectors of results as wide as the values. Narrowing them to bytes takes twice the instructions.
#[inline]
fn lanes_of<T: Copy>(values: &[T; 64], is_true: impl Fn(T) -> bool) -> u64 {
    let mut lanes = [0; 8];
    for eight in values.chunks_exact(8).rev() {
        for (lane, &value) in lanes.iter_mut().zip(eight) {
            *lane = *lane << 8 | u64::from(is_true(value));
        }
    }
    let digits = lanes.iter().enumerate();
    digits.fold(0, |word, (at, lane)| word | lane << at)
}

/// Packs 64 values. It multiplies eight bytes of 0 or 1 by a number that moves each of them to its
/// bit of the highest byte.
#[inline]
pub fn word_of<T: Copy>(values: &[T; 64], is_true: impl Fn(T) -> bool) -> u64 {
    let bytes = values.map(|value| u8::from(is_true(value)));
    let mut packed = [0; 8];
    for (packed, eight) in packed.iter_mut().zip(bytes.chunks_exact(8)) {
        *packed = eight_of(eight)
            .wrapping_mul(0x0102_0408_1020_4080)
            .to_le_bytes()[7];
    }
    u64::from_le_bytes(packed)
}

/// Does the same for fewer than 64 values.
pub(super) fn few<T: Copy>(values: &[T], is_true: impl Fn(T) -> bool) -> u64 {
    let digits = values.iter().enumerate();
    digits.fold(0, |word, (at, &value)| {
        word | u64::from(is_true(value)) << at
    })
}

/// Sets each item to `of` of its bit, 1 or 0. There is one item per bit.
#[inline]
pub fn unpack<T>(out: &mut [T], bits: Bits<'_>, of: impl Fn(u8) -> T) {
    for (word, out) in words(bits).zip(out.chunks_mut(64)) {
        for (byte, out) in word.to_le_bytes().into_iter().zip(out.chunks_mut(8)) {
            for (item, digit) in out.iter_mut().zip(digits_of(byte)) {
                *item = of(digit);
            }
        }
    }
}

/// Returns the bits of a byte, as bytes 0 and 1. A multiplication copies it to each byte of a word,
/// where one bit is kept; adding 127 sets a byte's highest bit unless the byte is 0.
#[inline]
fn digits_of(byte: u8) -> [u8; 8] {
    let each = u64::from(byte).wrapping_mul(0x0101_0101_0101_0101) & 0x8040_2010_0804_0201;
    ((each + 0x7F7F_7F7F_7F7F_7F7F) >> 7 & 0x0101_0101_0101_0101).to_le_bytes()
}
