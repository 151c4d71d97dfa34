//! The loops that a Rust program would write by hand. Bits are in words, and one more word follows
//! the last one of a window.

use crate::input::{Input, Window};

fn words(bytes: &[u8]) -> impl ExactSizeIterator<Item = u64> + DoubleEndedIterator {
    bytes
        .chunks_exact(8)
        .map(|word| u64::from_le_bytes(word.try_into().expect("a word has 8 bytes")))
}

fn ones_in(bytes: &[u8]) -> usize {
    words(bytes).map(|word| word.count_ones() as usize).sum()
}

/// Counts the bits of all words, less those of the first and the last word outside of the window.
#[inline(never)]
pub fn count_ones(w: Window) -> usize {
    if w.offset == 0 && w.len == 8 * w.bytes.len() {
        return ones_in(w.bytes);
    }
    let behind = 8 * w.bytes.len() - w.offset - w.len;
    let before = words(w.bytes).next().unwrap_or(0) & !(u64::MAX << w.offset);
    let after = words(w.bytes).next_back().unwrap_or(0) & !(u64::MAX >> behind);
    ones_in(w.bytes) - (before.count_ones() + after.count_ones()) as usize
}

/// The sum of the words, which takes as long as reading them.
#[inline(never)]
pub fn sum_words(bytes: &[u8]) -> usize {
    words(bytes).fold(0, u64::wrapping_add) as usize
}

/// Finds the `n`-th set bit, or clear bit with `UNSET`.
#[inline(never)]
pub fn select<const UNSET: bool>(w: Window, n: usize) -> usize {
    let mut left = n;
    let mut inside = u64::MAX << w.offset;
    for (k, word) in words(w.bytes).enumerate() {
        let word = if UNSET { !word } else { word } & inside;
        let ones = word.count_ones() as usize;
        if left < ones {
            let place = 64 * k + place_in(word, left) - w.offset;
            return if place < w.len { place } else { usize::MAX };
        }
        left -= ones;
        inside = u64::MAX;
    }
    usize::MAX
}

fn place_in(word: u64, n: usize) -> usize {
    let mut word = word;
    for _ in 0..n {
        word &= word - 1;
    }
    word.trailing_zeros() as usize
}

/// Whether any bit is true.
#[inline(never)]
pub fn any_set(w: Window) -> bool {
    has::<false>(w)
}

/// Whether each bit is true.
#[inline(never)]
pub fn all_set(w: Window) -> bool {
    !has::<true>(w)
}

/// Whether any bit is set, or clear with `UNSET`. Tests the first word, those between, the last.
#[inline(always)]
fn has<const UNSET: bool>(w: Window) -> bool {
    let mut words = words(w.bytes).map(|word| if UNSET { !word } else { word });
    let in_first = u64::MAX << w.offset;
    let in_last = u64::MAX >> (8 * w.bytes.len() - w.offset - w.len);
    let first = words.next().unwrap_or(0) & in_first;
    match words.next_back() {
        Some(last) => first != 0 || words.any(|word| word != 0) || last & in_last != 0,
        None => first & in_last != 0,
    }
}

/// Finds the last set bit before an index.
#[inline(never)]
pub fn previous_set(w: Window, before: usize) -> usize {
    let end = w.offset + before;
    let size = end.div_ceil(64);
    let mut inside = u64::MAX >> (64 * size - end);
    for (k, word) in words(&w.bytes[..8 * size]).enumerate().rev() {
        let word = word & inside;
        if word != 0 {
            let place = 64 * k + 63 - word.leading_zeros() as usize;
            return place.checked_sub(w.offset).unwrap_or(usize::MAX);
        }
        inside = u64::MAX;
    }
    usize::MAX
}

/// The words of a window that has a multiple of 64 bits, from its first bit on.
fn realigned(input: &Input, offset: usize, len: usize) -> impl Iterator<Item = u64> {
    let words = &input.words()[offset / 64..];
    let shift = offset % 64;
    words
        .windows(2)
        .take(len / 64)
        .map(move |w| w[0] >> shift | w[1] << 1 << (63 - shift))
}

/// Calls a closure at each set bit of a window of whole words.
#[inline(always)]
pub fn for_each_set_bit(input: &Input, offset: usize, len: usize, mut call: impl FnMut(usize)) {
    let last = (offset + len).div_ceil(64);
    for (k, &word) in input.words()[..last].iter().enumerate() {
        let mut left = word;
        if k == 0 {
            left &= u64::MAX << offset;
        }
        if k + 1 == last {
            left &= u64::MAX >> (64 * last - offset - len);
        }
        while left != 0 {
            call(64 * k + left.trailing_zeros() as usize - offset);
            left &= left - 1;
        }
    }
}

/// The sum of the indices of set bits.
#[inline(never)]
pub fn set_indices(input: &Input, offset: usize, len: usize) -> usize {
    let mut sum = 0usize;
    for_each_set_bit(input, offset, len, |place| sum = sum.wrapping_add(place));
    sum
}

/// The sum of the indices of clear bits.
#[inline(never)]
pub fn unset_indices(input: &Input, offset: usize, len: usize) -> usize {
    let mut sum = 0usize;
    let words = realigned(input, offset, len).enumerate();
    for (k, word) in words {
        let mut left = !word;
        while left != 0 {
            sum = sum.wrapping_add(64 * k + left.trailing_zeros() as usize);
            left &= left - 1;
        }
    }
    sum
}

/// The sum of the indices of set bits, by a test of each bit.
#[inline(never)]
pub fn iter_bits(w: Window) -> usize {
    let bit = |place: usize| w.bytes[(w.offset + place) / 8] >> ((w.offset + place) % 8) & 1 == 1;
    (0..w.len).fold(0, |sum: usize, place| {
        sum.wrapping_add(if bit(place) { place } else { 0 })
    })
}

/// Which bits differ from true at even indices, and from false at odd ones.
#[inline(never)]
pub fn map_cmp(w: Window) -> usize {
    let bit = |place: usize| w.bytes[(w.offset + place) / 8] >> ((w.offset + place) % 8) & 1 == 1;
    collect(w.len, |place| bit(place) != (place % 2 == 0))
}

/// How many bits are set, one after the other.
#[inline(never)]
pub fn iter(w: Window) -> usize {
    let bit = |at: usize| (w.bytes[at / 8] >> (at % 8) & 1) as usize;
    (w.offset..w.offset + w.len).fold(0, |sum, at| sum + bit(at))
}

/// The sum of the words of a window that has a multiple of 64 bits.
#[inline(never)]
pub fn chunks(input: &Input, offset: usize, len: usize) -> usize {
    realigned(input, offset, len).fold(0, u64::wrapping_add) as usize
}

/// Combines two windows of whole words into new words. Returns their number of bits.
#[inline(never)]
pub fn combine(left: (&Input, usize), right: (&Input, usize), len: usize) -> usize {
    let left = realigned(left.0, left.1, len);
    let right = realigned(right.0, right.1, len);
    let made: Vec<u64> = left.zip(right).map(|(l, r)| l & r).collect();
    64 * std::hint::black_box(&made).len()
}

/// How many bits two windows of whole words have in common.
#[inline(never)]
pub fn and_count(left: (&Input, usize), right: (&Input, usize), len: usize) -> usize {
    let left = realigned(left.0, left.1, len);
    let right = realigned(right.0, right.1, len);
    left.zip(right)
        .map(|(l, r)| (l & r).count_ones() as usize)
        .sum()
}

/// Whether the right one of two windows of whole words has all bits of the left one.
#[inline(never)]
pub fn is_subset(left: (&Input, usize), right: (&Input, usize), len: usize) -> bool {
    let left = realigned(left.0, left.1, len);
    let right = realigned(right.0, right.1, len);
    left.zip(right).all(|(l, r)| l & !r == 0)
}

/// Which values are above a limit, eight to a byte.
#[inline(never)]
pub fn above<T: PartialOrd + Copy>(out: &mut [u8], values: &[T], limit: T) {
    for (byte, eight) in out.iter_mut().zip(values.chunks_exact(8)) {
        let digits = eight.iter().enumerate();
        *byte = digits.fold(0, |byte, (at, &value)| byte | u8::from(value > limit) << at);
    }
}

/// Which values are above the others at the same index, eight to a byte.
#[inline(never)]
pub fn above_others<T: PartialOrd + Copy>(out: &mut [u8], values: &[T], others: &[T]) {
    let eights = values.chunks_exact(8).zip(others.chunks_exact(8));
    for (byte, (eight, others)) in out.iter_mut().zip(eights) {
        let digits = eight.iter().zip(others).enumerate();
        *byte = digits.fold(0, |byte, (at, (value, other))| {
            byte | u8::from(value > other) << at
        });
    }
}

/// `and` of truth values that may be null, of two columns of values and validity: which results are
/// true, and which aren't null, word by word.
#[inline(never)]
pub fn and_kleene(
    [trues, valid]: &mut [Vec<u64>; 2],
    left: [&Input; 2],
    right: [&Input; 2],
    offset: usize,
    len: usize,
) {
    let [a, a_valid] = left.map(|it| realigned(it, 0, len));
    let [b, b_valid] = right.map(|it| realigned(it, offset, len));
    let outs = trues.iter_mut().zip(valid);
    for ((to, known), ((a, a_valid), (b, b_valid))) in outs.zip(a.zip(a_valid).zip(b.zip(b_valid)))
    {
        *to = a & a_valid & b & b_valid;
        *known = *to | a_valid & !a | b_valid & !b;
    }
}

/// Combines a right window of whole words into the words of a left one, which begins at bit 0.
#[inline(never)]
pub fn combine_in_place(left: &mut [u64], right: (&Input, usize), len: usize) {
    for (l, r) in left.iter_mut().zip(realigned(right.0, right.1, len)) {
        *l &= r;
    }
}

/// Packs into words the bits that a closure returns for each index. Returns the number of indices.
#[inline(always)]
pub fn collect(len: usize, mut is_true: impl FnMut(usize) -> bool) -> usize {
    let word = |k: usize| {
        let bits = 64 * k..len.min(64 * k + 64);
        bits.fold(0u64, |word, i| word | (is_true(i) as u64) << (i % 64))
    };
    let made: Vec<u64> = (0..len.div_ceil(64)).map(word).collect();
    std::hint::black_box(&made);
    len
}

/// Which values are below a limit.
#[inline(never)]
pub fn collect_below(values: &[u32], limit: u32) -> usize {
    collect(values.len(), |i| values[i] < limit)
}

/// Which bytes aren't 0.
#[inline(never)]
pub fn collect_truthy(bytes: &[u8]) -> usize {
    collect(bytes.len(), |i| bytes[i] != 0)
}

/// Appends truth values to the first `before` bits of words, word by word. Returns the number of
/// all bits.
#[inline(never)]
pub fn append_bools(words: &mut Vec<u64>, before: usize, bools: &[bool]) -> usize {
    let packed = |bools: &[bool]| {
        let digits = bools.iter().enumerate();
        digits.fold(0u64, |word, (at, &bit)| word | u64::from(bit) << at)
    };
    let used = before % 64;
    let (first, rest) = bools.split_at(bools.len().min((64 - used) % 64));
    words.truncate(before.div_ceil(64));
    if used > 0 {
        let last = &mut words[before / 64];
        *last = *last & !(u64::MAX << used) | packed(first) << used;
    }
    words.extend(rest.chunks(64).map(packed));
    before + bools.len()
}

/// Does the same with the bits of an iterator, which it puts into each word one by one.
#[inline(never)]
pub fn extend(words: &mut Vec<u64>, before: usize, mut bits: impl Iterator<Item = bool>) -> usize {
    words.resize(before / 64 + 1, 0);
    let mut word = words.pop().unwrap_or(0) & !(u64::MAX << (before % 64));
    let mut used = before % 64;
    loop {
        for bit in bits.by_ref().take(64 - used) {
            word |= u64::from(bit) << used;
            used += 1;
        }
        if used < 64 {
            break;
        }
        words.push(word);
        (word, used) = (0, 0);
    }
    let len = 64 * words.len() + used;
    if used > 0 {
        words.push(word);
    }
    len
}

/// The bits at indices.
#[inline(never)]
pub fn take<I: Copy>(bytes: &[u8], indices: &[I], place: impl Fn(I) -> usize) -> usize {
    let bit = |at: usize| bytes[at / 8] >> (at % 8) & 1 == 1;
    collect(indices.len(), |i| bit(place(indices[i])))
}

/// The bits at indices; false where the validity is false.
#[inline(never)]
pub fn take_valid<I: Copy>(
    bytes: &[u8],
    indices: &[I],
    validity: &[u8],
    place: impl Fn(I) -> usize,
) -> usize {
    let bit = |bytes: &[u8], at: usize| bytes[at / 8] >> (at % 8) & 1 == 1;
    collect(indices.len(), |i| {
        bit(validity, i) && bit(bytes, place(indices[i]))
    })
}

/// A set with the bits at these indices true. Returns its length.
#[inline(never)]
pub fn from_indices(len: usize, places: &[usize]) -> usize {
    let mut made = vec![0u64; len.div_ceil(64)];
    for &place in places {
        made[place / 64] |= 1 << (place % 64);
    }
    std::hint::black_box(&made);
    len
}

/// A table of the set bits before each block of 512, of a window of the input.
pub fn table(input: &Input, offset: usize, len: usize) -> Vec<usize> {
    let mut before = 0;
    let mut entries = Vec::new();
    for start in (0..len).step_by(512) {
        entries.push(before);
        before += ones_between(input, offset + start, offset + len.min(start + 512));
    }
    entries
}

/// How many bits are set from bit `start` up to `end`.
fn ones_between(input: &Input, start: usize, end: usize) -> usize {
    let words = &input.words()[start / 64..end.div_ceil(64).max(start / 64 + 1)];
    let (skip, last) = (start % 64, words.len() - 1);
    let ones = |k: usize, word: u64| {
        let word = if k == 0 {
            word & u64::MAX << skip
        } else {
            word
        };
        let kept = (end - (start - skip)).saturating_sub(64 * k).min(64);
        let word = if kept == 64 {
            word
        } else {
            word & ((1 << kept) - 1)
        };
        word.count_ones() as usize
    };
    (0..=last).map(|k| ones(k, words[k])).sum()
}

/// How many of the first `i` bits of a window are set, over its table.
#[inline(always)]
pub fn rank(input: &Input, offset: usize, table: &[usize], i: usize) -> usize {
    let block = i.saturating_sub(1) / 512;
    table[block] + ones_between(input, offset + 512 * block, offset + i)
}

/// The index of the `n`-th set bit of a window, over its table.
#[inline(always)]
pub fn select_by_table(input: &Input, offset: usize, table: &[usize], n: usize) -> usize {
    let block = table.partition_point(|&before| before <= n) - 1;
    let mut left = n - table[block];
    let at = offset + 512 * block;
    let mut inside = u64::MAX << (at % 64);
    for (k, &word) in input.words()[at / 64..].iter().enumerate() {
        let word = word & inside;
        let ones = word.count_ones() as usize;
        if left < ones {
            return at / 64 * 64 + 64 * k + place_in(word, left) - offset;
        }
        left -= ones;
        inside = u64::MAX;
    }
    usize::MAX
}

/// Adds `by` to each entry, wrapping around.
#[inline(never)]
pub fn move_entries(entries: &mut [usize], by: usize) {
    for entry in entries {
        *entry = entry.wrapping_add(by);
    }
}

/// Reads numbers from their bytes.
#[inline(never)]
pub fn read_from(bytes: &[u8]) -> Vec<u32> {
    let item = |bytes: &[u8]| u32::from_le_bytes([bytes[0], bytes[1], bytes[2], bytes[3]]);
    bytes.chunks_exact(4).map(item).collect()
}

/// The values whose bit of a mask is set. The mask begins at bit 0 of its words.
#[inline(never)]
pub fn filtered(values: &[u32], mask: &Input) -> Vec<u32> {
    let words = mask.words();
    let is_set = |place: usize| words[place / 64] >> (place % 64) & 1 == 1;
    let mut kept = Vec::new();
    for (place, &value) in values.iter().enumerate() {
        if is_set(place) {
            kept.push(value);
        }
    }
    kept
}

/// Writes the values at the set bits of a mask one by one. The mask begins at bit 0 of its words.
#[inline(never)]
pub fn filter_ones<T: Copy>(out: &mut [T], values: &[T], mask: &Input) -> usize {
    let mut at = 0;
    for_each_set_bit(mask, 0, values.len(), |place| {
        out[at] = values[place];
        at += 1;
    });
    at
}

/// Writes the bits at the set bits of a mask one by one. Both begin at bit 0 of their words.
#[inline(never)]
pub fn filter_bits(out: &mut [u64], bits: &Input, mask: &Input, len: usize) -> usize {
    let words = bits.words();
    let mut at = 0;
    for_each_set_bit(mask, 0, len, |place| {
        let bit = words[place / 64] >> (place % 64) & 1;
        let word = &mut out[at / 64];
        *word = *word & !(1 << (at % 64)) | bit << (at % 64);
        at += 1;
    });
    at
}

/// Writes bits one by one to the set bits of a mask, and 0 elsewhere. Both begin at bit 0 of their
/// words.
#[inline(never)]
pub fn deposit(out: &mut [u64], bits: &Input, mask: &Input, len: usize) -> usize {
    let words = bits.words();
    let mut at = 0;
    out.fill(0);
    for_each_set_bit(mask, 0, len, |place| {
        let bit = words[at / 64] >> (at % 64) & 1;
        out[place / 64] |= bit << (place % 64);
        at += 1;
    });
    at
}
