//! Reads and writes words of up to 64 bits at any bit index.

use crate::Bits;

/// Returns a word whose `len` lowest bits are 1, for a `len` of at most 64.
#[inline]
pub fn low(len: usize) -> u64 {
    if len < 64 { (1 << len) - 1 } else { u64::MAX }
}

/// Returns the first eight bytes as a little-endian number. Missing bytes are 0.
#[inline]
pub fn first_eight(bytes: &[u8]) -> u64 {
    match bytes.first_chunk() {
        Some(eight) => u64::from_le_bytes(*eight),
        None => few(bytes),
    }
}

/// Returns fewer than eight bytes as a number. With at least four it reads two halves that may
/// overlap.
#[inline]
fn few(bytes: &[u8]) -> u64 {
    if let (Some(low), Some(high)) = (bytes.first_chunk(), bytes.last_chunk()) {
        let [low, high] = [low, high].map(|half| u64::from(u32::from_le_bytes(*half)));
        return low | high << (8 * (bytes.len() - 4));
    }
    let digits = bytes.iter().rev();
    digits.fold(0, |word, &byte| word << 8 | u64::from(byte))
}

/// Writes the lowest bytes of a number to fewer than eight bytes.
#[inline]
fn store_few(bytes: &mut [u8], word: u64) {
    let behind = bytes.len().saturating_sub(4);
    if let Some(low) = bytes.first_chunk_mut::<4>() {
        *low = lowest_four(word);
    } else {
        bytes
            .iter_mut()
            .zip(word.to_le_bytes())
            .for_each(|(byte, new)| *byte = new);
        return;
    }
    if let Some(high) = bytes.last_chunk_mut() {
        *high = lowest_four(word >> (8 * behind));
    }
}

#[inline]
fn lowest_four(word: u64) -> [u8; 4] {
    let [a, b, c, d, ..] = word.to_le_bytes();
    [a, b, c, d]
}

/// Returns up to 64 bits from index `64 * i` on, as the lowest bits of a word.
#[inline]
pub fn word_at(bits: Bits<'_>, i: usize) -> u64 {
    only_word(bits.part(64 * i, (bits.len() - 64 * i).min(64)))
}

/// Returns a window of at most 64 bits as the lowest bits of a word.
#[inline]
pub fn only_word(bits: Bits<'_>) -> u64 {
    let (first, shift) = (bits.offset() / 8, bits.offset() % 8);
    let bytes = &bits.bytes()[first..];
    let word = match bytes.split_first_chunk() {
        Some((eight, rest)) => {
            let next = rest.first().copied().map_or(0, u64::from);
            u64::from_le_bytes(*eight) >> shift | next << 1 << (63 - shift)
        }
        None => first_eight(bytes) >> shift,
    };
    word & low(bits.len())
}

/// Returns an iterator over the whole words of a window. It combines each from two words of bytes,
/// the second of which begins one byte later. If one word of bytes has all 64 bits, it reads that
/// one twice.
#[inline]
pub fn quick_words(bits: Bits<'_>) -> impl ExactSizeIterator<Item = u64> {
    let (first, shift) = (bits.offset() / 8, bits.offset() % 8);
    let (bytes, size) = (&bits.bytes()[first..], bits.len() / 64 * 8);
    let next = usize::from(shift > 0);
    let words = bytes[..size].chunks_exact(8);
    let words = words.zip(bytes[next..][..size].chunks_exact(8));
    let back = (8 - shift) % 8;
    words.map(move |(low, high)| eight_of(low) >> shift | eight_of(high) << back)
}

/// Returns an iterator over the whole words of a window whose first bit is the first one of a byte.
#[inline]
pub fn byte_words(bits: Bits<'_>) -> impl ExactSizeIterator<Item = u64> {
    debug_assert!(bits.is_empty() || bits.offset() % 8 == 0);
    let bytes = &bits.bytes()[bits.offset() / 8..];
    bytes[..bits.len() / 64 * 8].chunks_exact(8).map(eight_of)
}

/// Returns eight bytes as a little-endian number. It doesn't branch for fewer bytes, so that the
/// compiler vectorizes loops over it.
#[inline]
pub fn eight_of(bytes: &[u8]) -> u64 {
    bytes
        .first_chunk()
        .map_or(0, |eight| u64::from_le_bytes(*eight))
}

/// Returns an iterator over the bits as words of 64. Zeros fill up the last one.
#[inline]
pub fn words(bits: Bits<'_>) -> impl DoubleEndedIterator<Item = u64> + ExactSizeIterator {
    (0..bits.len().div_ceil(64)).map(move |i| word_at(bits, i))
}

/// Writes the lowest `len` bits of the word, at most 64, from bit `offset` on. It may store later
/// bytes again unchanged: all of them belong to the window.
#[inline]
pub fn write(bytes: &mut [u8], offset: usize, len: usize, word: u64) {
    let (first, shift) = (offset / 8, offset % 8);
    let bytes = &mut bytes[first..];
    match bytes.first_chunk_mut() {
        Some(eight) if shift == 0 && len == 64 => *eight = word.to_le_bytes(),
        _ => merge(bytes, shift, len, word),
    }
}

/// Does the same from bit `shift` of the first byte on. It is a separate function, so that loops
/// over whole words stay small.
#[inline(never)]
fn merge(bytes: &mut [u8], shift: usize, len: usize, word: u64) {
    let (mask, word) = (low(len), word & low(len));
    let merged = first_eight(bytes) & !(mask << shift) | word << shift;
    match bytes.first_chunk_mut() {
        Some(first) => *first = merged.to_le_bytes(),
        None => store_few(bytes, merged),
    }
    if shift + len > 64 {
        let [mask, word] = [mask, word].map(|it| (it >> (64 - shift)).to_le_bytes()[0]);
        bytes[8] = bytes[8] & !mask | word;
    }
}
