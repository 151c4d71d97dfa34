//! Read-only calls on windows: counts, searches and comparisons.

use super::word::{byte_words, eight_of, first_eight, low, only_word, quick_words, word_at, words};
use crate::Bits;
use crate::kernels::Operator;

fn ones(word: u64) -> usize {
    word.count_ones() as usize
}

/// Whether words are added up before their bits are counted. That is slower where a processor has
/// an instruction for the bits of a word.
const ADDS_UP: bool = cfg!(all(
    any(target_arch = "x86", target_arch = "x86_64"),
    not(target_feature = "popcnt")
));

/// The number of bytes of a block, which has eight pairs of words. The compiler keeps each pair in
/// a vector.
const SIZE: usize = 8 * size_of::<[u64; 2]>();

/// The number of set bits of blocks. It adds up words digit by digit, and then counts the bits of
/// only one word in eight. Without an instruction for it, counting the bits of a word takes a dozen
/// instructions.
#[derive(Default)]
struct Tally {
    /// For each bit of a pair the lowest three digits of the number of pairs in which it is set.
    ones: [u64; 2],
    twos: [u64; 2],
    fours: [u64; 2],
    /// The sum of these numbers without those digits, in units of eight.
    eights: [u64; 2],
}

impl Tally {
    /// Adds a block. `word` returns the word at an index.
    #[inline]
    fn add(&mut self, word: impl Fn(usize) -> u64) {
        for at in 0..2 {
            let (ones, twos_a) = sum(self.ones[at], word(at), word(2 + at));
            let (ones, twos_b) = sum(ones, word(4 + at), word(6 + at));
            let (twos, fours_a) = sum(self.twos[at], twos_a, twos_b);
            let (ones, twos_a) = sum(ones, word(8 + at), word(10 + at));
            let (ones, twos_b) = sum(ones, word(12 + at), word(14 + at));
            let (twos, fours_b) = sum(twos, twos_a, twos_b);
            let (fours, eights) = sum(self.fours[at], fours_a, fours_b);
            (self.ones[at], self.twos[at], self.fours[at]) = (ones, twos, fours);
            self.eights[at] += u64::from(eights.count_ones());
        }
    }

    #[inline]
    fn total(self) -> usize {
        let count = |words: [u64; 2]| ones(words[0]) + ones(words[1]);
        // It is at most an eighth of the number of bits, which is a `usize`.
        let eights = usize::try_from(self.eights[0] + self.eights[1]).unwrap_or(0);
        8 * eights + 4 * count(self.fours) + 2 * count(self.twos) + count(self.ones)
    }
}

/// Adds three digits at each bit: returns the lower digit of each sum, and the higher one.
#[inline]
fn sum(a: u64, b: u64, c: u64) -> (u64, u64) {
    let some = a ^ b;
    (some ^ c, a & b | some & c)
}

/// Returns the word at an index of a block.
#[inline]
fn word_of(block: &[u8], at: usize) -> u64 {
    eight_of(&block[8 * at..][..8])
}

/// Calls `add` for each pair of blocks of two windows of bytes. It is a separate function, with the
/// tallies in memory, so that the compiler vectorizes it.
#[inline(never)]
fn add_blocks<T>(
    tallies: &mut T,
    (left, right): (&[u8], &[u8]),
    add: impl Fn(&mut T, &[u8], &[u8]),
) {
    for (left, right) in left.chunks_exact(SIZE).zip(right.chunks_exact(SIZE)) {
        add(tallies, left, right);
    }
}

/// Counts whole bytes between the first byte that begins in the window and the last one that ends
/// in it.
pub fn count_ones(bits: Bits<'_>) -> usize {
    let head = bits.len().min(bits.offset().wrapping_neg() % 8);
    let whole = (bits.len() - head) / 8;
    let tail = head + 8 * whole;
    let first = (bits.offset() + head) / 8;
    let ends = [(0, head), (tail, bits.len() - tail)];
    let ends = ends.map(|(start, len)| ones(only_word(bits.part(start, len))));
    ones_of_bytes(&bits.bytes()[first..first + whole]) + ends[0] + ends[1]
}

/// Counts whole blocks, and then words.
fn ones_of_bytes(bytes: &[u8]) -> usize {
    let size = if ADDS_UP {
        bytes.len() / SIZE * SIZE
    } else {
        0
    };
    let (blocks, rest) = bytes.split_at(size);
    let words = rest.chunks_exact(8);
    let last = ones(first_eight(words.remainder()));
    let rest = words.map(eight_of).map(ones).sum::<usize>() + last;
    if blocks.is_empty() {
        return rest;
    }
    let mut tally = Tally::default();
    add_blocks(&mut tally, (blocks, blocks), |tally, block, _| {
        tally.add(|at| word_of(block, at));
    });
    tally.total() + rest
}

pub fn select(bits: Bits<'_>, n: usize) -> Option<usize> {
    nth(bits, n, count_ones, |word| word)
}

pub fn select_unset(bits: Bits<'_>, n: usize) -> Option<usize> {
    nth(
        bits,
        n,
        |block| block.len() - count_ones(block),
        |word| !word,
    )
}

/// Returns the index of the `n`-th set bit after `seen` maps each word of the window. `count`
/// counts the mapped bits of a part. After the first bits it counts block by block, and searches
/// the words of one block only.
#[inline]
fn nth(
    bits: Bits<'_>,
    n: usize,
    count: impl Fn(Bits<'_>) -> usize,
    seen: impl Fn(u64) -> u64 + Copy,
) -> Option<usize> {
    const FIRST: usize = 1024;
    const BLOCK: usize = 4096;
    let first = bits.part(0, bits.len().min(FIRST));
    let mut left = match nth_by_words(first, n, seen) {
        Ok(place) => return Some(place),
        Err(left) => left,
    };
    for start in (FIRST..bits.len()).step_by(BLOCK) {
        let block = bits.part(start, (bits.len() - start).min(BLOCK));
        let ones = count(block);
        if left < ones {
            return nth_by_words(block, left, seen)
                .ok()
                .map(|place| start + place);
        }
        left -= ones;
    }
    None
}

/// Does the same word by word. If there are too few bits, the error is `n` minus their number.
#[inline]
fn nth_by_words(bits: Bits<'_>, n: usize, seen: impl Fn(u64) -> u64) -> Result<usize, usize> {
    let mut left = n;
    for i in 0..bits.len().div_ceil(64) {
        let word = seen(word_at(bits, i)) & low(bits.len() - 64 * i);
        if left < ones(word) {
            return Ok(64 * i + nth_one(word, left));
        }
        left -= ones(word);
    }
    Err(left)
}

/// Returns the index of the `n`-th set bit of a word that has more than `n`.
fn nth_one(word: u64, n: usize) -> usize {
    (0..n)
        .fold(word, |word, _| word & (word - 1))
        .trailing_zeros() as usize
}

pub fn last_set(bits: Bits<'_>) -> Option<usize> {
    last(bits, |word| word)
}

pub fn previous_set(bits: Bits<'_>, before: usize) -> Option<usize> {
    last(bits.part(0, before.min(bits.len())), |word| word)
}

pub fn previous_unset(bits: Bits<'_>, before: usize) -> Option<usize> {
    last(bits.part(0, before.min(bits.len())), |word| !word)
}

pub fn next_set(bits: Bits<'_>, from: usize) -> Option<usize> {
    next(bits, from, |word| word)
}

pub fn next_unset(bits: Bits<'_>, from: usize) -> Option<usize> {
    next(bits, from, |word| !word)
}

/// Returns the index of the first set bit at or after `from`, after `seen` maps each word of the
/// window.
#[inline]
fn next(bits: Bits<'_>, from: usize, seen: impl Fn(u64) -> u64) -> Option<usize> {
    let from = from.min(bits.len());
    let rest = bits.part(from, bits.len() - from);
    words(rest)
        .enumerate()
        .map(|(i, word)| (i, seen(word) & low(rest.len() - 64 * i)))
        .find(|&(_, word)| word != 0)
        .map(|(i, word)| from + 64 * i + word.trailing_zeros() as usize)
}

/// Returns the index of the last set bit, after `seen` maps each word of the window.
fn last(bits: Bits<'_>, seen: impl Fn(u64) -> u64) -> Option<usize> {
    words(bits)
        .enumerate()
        .rev()
        .map(|(i, word)| (i, seen(word) & low(bits.len() - 64 * i)))
        .find(|&(_, word)| word != 0)
        .map(|(i, word)| 64 * i + word.ilog2() as usize)
}

/// The windows have one length. It reads no block after the one with the first difference.
pub fn equal(left: Bits<'_>, right: Bits<'_>) -> bool {
    const BLOCK: usize = 4096;
    let differences = |start: usize| {
        let len = (left.len() - start).min(BLOCK);
        let (left, right) = (left.part(start, len), right.part(start, len));
        fold(left, right, 0, |all, left, right| all | (left ^ right))
    };
    let mut blocks = (0..left.len()).step_by(BLOCK);
    blocks.all(|start| differences(start) == 0)
}

/// The windows have one length. It reads no word after the first one with a bit set in both.
pub fn is_disjoint(left: Bits<'_>, right: Bits<'_>) -> bool {
    words(left)
        .zip(words(right))
        .all(|(left, right)| left & right == 0)
}

/// The windows have one length. It reads no word after the first one with a bit set only on the
/// left.
pub fn is_subset(left: Bits<'_>, right: Bits<'_>) -> bool {
    words(left)
        .zip(words(right))
        .all(|(left, right)| left & !right == 0)
}

/// Returns the number of bits that the operator sets, for windows of one length.
pub fn combined_count(left: Bits<'_>, right: Bits<'_>, operator: Operator) -> usize {
    match operator {
        Operator::And => count_by(left, right, |left, right| left & right),
        Operator::Or => count_by(left, right, |left, right| left | right),
        Operator::Xor => count_by(left, right, |left, right| left ^ right),
        Operator::AndNot => count_by(left, right, |left, right| left & !right),
    }
}

/// Returns the number of set bits after `of` combines the words of two windows. `of` returns 0 for
/// two zero bits.
fn count_by(left: Bits<'_>, right: Bits<'_>, of: impl Fn(u64, u64) -> u64) -> usize {
    let mut tally = Tally::default();
    let (left, right) = after_blocks(left, right, &mut tally, |tally, left, right| {
        tally.add(|at| of(word_of(left, at), word_of(right, at)));
    });
    fold(left, right, tally.total(), |count, left, right| {
        count + ones(of(left, right))
    })
}

/// Returns the number of bits set in both, and the number of those set on the left alone, for
/// windows of one length.
pub fn split_count(left: Bits<'_>, right: Bits<'_>) -> (usize, usize) {
    let mut tallies = (Tally::default(), Tally::default());
    let (left, right) = after_blocks(left, right, &mut tallies, |(both, all), left, right| {
        both.add(|at| word_of(left, at) & word_of(right, at));
        all.add(|at| word_of(left, at));
    });
    let first = (tallies.0.total(), tallies.1.total());
    let (both, all) = fold(left, right, first, |(both, all), left, right| {
        (both + ones(left & right), all + ones(left))
    });
    (both, all - both)
}

/// Adds the whole blocks of two windows of one length, if both begin at the first bit of a byte.
/// Returns the windows of the other bits.
#[inline]
fn after_blocks<'a, T>(
    left: Bits<'a>,
    right: Bits<'a>,
    tallies: &mut T,
    add: impl Fn(&mut T, &[u8], &[u8]),
) -> (Bits<'a>, Bits<'a>) {
    let size = left.len() / 8 / SIZE * SIZE;
    if !ADDS_UP || size == 0 || left.offset() % 8 > 0 || right.offset() % 8 > 0 {
        return (left, right);
    }
    let bytes = |bits: Bits<'a>| &bits.bytes()[bits.offset() / 8..][..size];
    add_blocks(tallies, (bytes(left), bytes(right)), add);
    let rest = |bits: Bits<'a>| bits.part(8 * size, bits.len() - 8 * size);
    (rest(left), rest(right))
}

/// Folds the words of two windows of one length, in their order. If both begin at the same bit of a
/// byte, it first folds the bits up to the next byte, and then reads whole words of bytes;
/// otherwise it reads whole words by [`quick_words`]. The remaining bits are the last word. Zeros
/// fill up words of fewer bits.
#[inline]
fn fold<A>(left: Bits<'_>, right: Bits<'_>, first: A, f: impl Fn(A, u64, u64) -> A) -> A {
    let (digit, len) = (left.offset() % 8, left.len());
    if digit != right.offset() % 8 {
        let quick = quick_words(left).zip(quick_words(right));
        return fold_rest(left, right, fold_pairs(quick, first, &f), &f);
    }
    let head = len.min(digit.wrapping_neg() % 8);
    let heads = [left, right].map(|bits| only_word(bits.part(0, head)));
    let all = if head > 0 {
        f(first, heads[0], heads[1])
    } else {
        first
    };
    let [left, right] = [left, right].map(|bits| bits.part(head, len - head));
    let words = byte_words(left).zip(byte_words(right));
    fold_rest(left, right, fold_pairs(words, all, &f), &f)
}

#[inline]
fn fold_pairs<A>(
    pairs: impl Iterator<Item = (u64, u64)>,
    first: A,
    f: impl Fn(A, u64, u64) -> A,
) -> A {
    pairs.fold(first, |all, (left, right)| f(all, left, right))
}

/// Folds the bits after the whole words.
#[inline]
fn fold_rest<A>(left: Bits<'_>, right: Bits<'_>, all: A, f: impl Fn(A, u64, u64) -> A) -> A {
    if left.len() % 64 == 0 {
        return all;
    }
    let last = left.len() / 64;
    f(all, word_at(left, last), word_at(right, last))
}
