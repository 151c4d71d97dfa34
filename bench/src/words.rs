//! Loops over words of 64 bits, as an engine's engineer would write them: windows begin at any bit
//! and have any length, whole words come before the rest, and no byte without a bit of a window is
//! loaded or stored. Bits are packed and spread by the instructions of BMI2 where the level has it.

use crate::input::Window;

/// The 64 bits starting at bit `at` of a window. All of them must be in the window.
#[inline(always)]
fn word(w: Window, at: usize) -> u64 {
    let (byte, shift) = ((w.offset + at) / 8, (w.offset + at) % 8);
    unsafe {
        let from = w.bytes.as_ptr().add(byte);
        let low = from.cast::<u64>().read_unaligned();
        if shift == 0 {
            return low;
        }
        low >> shift | u64::from(*from.add(8)) << (64 - shift)
    }
}

/// The `many` bits, fewer than 64 and at least one, starting at bit `at` of a window.
#[inline(always)]
fn few(w: Window, at: usize, many: usize) -> u64 {
    let (byte, shift) = ((w.offset + at) / 8, (w.offset + at) % 8);
    let byte_at = |k: usize| u64::from(unsafe { *w.bytes.get_unchecked(byte + k) });
    let mut bits = byte_at(0) >> shift;
    for k in 1..(shift + many).div_ceil(8) {
        bits |= byte_at(k) << (8 * k - shift);
    }
    bits & !(u64::MAX << many)
}

#[inline(always)]
fn load(w: Window, at: usize, many: usize) -> u64 {
    if many == 64 {
        word(w, at)
    } else {
        few(w, at, many)
    }
}

/// Splits `len` bits into words, and calls a closure with the first bit of each and its length.
#[inline(always)]
fn by_words(len: usize, mut call: impl FnMut(usize, usize)) {
    let whole = len - len % 64;
    let mut at = 0;
    while at < whole {
        call(at, 64);
        at += 64;
    }
    if whole < len {
        call(whole, len - whole);
    }
}

/// Calls a closure at each set bit of a word.
#[inline(always)]
fn by_ones(mut word: u64, mut call: impl FnMut(usize)) {
    while word != 0 {
        call(word.trailing_zeros() as usize);
        word &= word - 1;
    }
}

/// Calls a closure with each value that a mask selects: a word of the mask whose bits are all set
/// selects 64 values in a row, any other word the values at its set bits.
#[inline(always)]
fn by_selected<T: Copy>(values: &[T], mask: Window, mut call: impl FnMut(usize, T)) {
    by_words(mask.len, |at, many| {
        let word = load(mask, at, many);
        if word == u64::MAX {
            for k in at..at + 64 {
                call(k, unsafe { *values.get_unchecked(k) });
            }
        } else {
            by_ones(word, |k| {
                call(at + k, unsafe { *values.get_unchecked(at + k) });
            });
        }
    });
}

/// Stores bits in order from a bit on, and keeps those before it.
struct Writer {
    to: *mut u8,
    /// The lowest `used` bits are to be stored, the others are 0.
    held: u64,
    used: usize,
}

impl Writer {
    #[inline(always)]
    fn new(bytes: *mut u8, offset: usize) -> Self {
        let (to, used) = (unsafe { bytes.add(offset / 8) }, offset % 8);
        let held = match used {
            0 => 0,
            _ => u64::from(unsafe { *to }) & !(u64::MAX << used),
        };
        Writer { to, held, used }
    }

    /// Adds the lowest `many` bits of a word, whose others are 0.
    #[inline(always)]
    fn push(&mut self, word: u64, many: usize) {
        self.held |= word << self.used;
        let used = self.used + many;
        if used >= 64 {
            unsafe {
                self.to.cast::<u64>().write_unaligned(self.held);
                self.to = self.to.add(8);
            }
            self.held = word >> 1 >> (63 - self.used);
        }
        self.used = used % 64;
    }

    /// Stores what is held. The bits after it in its last byte are unchanged.
    #[inline(always)]
    fn finish(self) {
        let (whole, left) = (self.used / 8, self.used % 8);
        unsafe {
            for k in 0..whole {
                *self.to.add(k) = (self.held >> (8 * k)) as u8;
            }
            if left > 0 {
                let (last, kept) = (self.to.add(whole), u8::MAX << left);
                *last = *last & kept | (self.held >> (8 * whole)) as u8;
            }
        }
    }
}

#[inline(never)]
pub fn count_ones(w: Window) -> usize {
    let mut ones = 0;
    by_words(w.len, |at, many| {
        ones += load(w, at, many).count_ones() as usize
    });
    ones
}

#[inline(never)]
pub fn and_count(left: Window, right: Window) -> usize {
    let mut ones = 0;
    by_words(left.len, |at, many| {
        ones += (load(left, at, many) & load(right, at, many)).count_ones() as usize
    });
    ones
}

#[inline(never)]
pub fn any_set(w: Window) -> bool {
    let whole = w.len - w.len % 64;
    (0..whole / 64).any(|k| word(w, 64 * k) != 0)
        || whole < w.len && few(w, whole, w.len - whole) != 0
}

#[inline(never)]
pub fn equal(left: Window, right: Window) -> bool {
    let whole = left.len - left.len % 64;
    let last = left.len - whole;
    (0..whole / 64).all(|k| word(left, 64 * k) == word(right, 64 * k))
        && (last == 0 || few(left, whole, last) == few(right, whole, last))
}

/// Finds the `n`-th set bit.
#[inline(never)]
pub fn select(w: Window, n: usize) -> usize {
    let (mut at, mut left) = (0, n);
    while at < w.len {
        let word = load(w, at, (w.len - at).min(64));
        let ones = word.count_ones() as usize;
        if left < ones {
            return at + select_in(word, left);
        }
        left -= ones;
        at += 64;
    }
    usize::MAX
}

/// The index of the `n`-th one of a word.
#[inline(always)]
fn select_in(word: u64, n: usize) -> usize {
    #[cfg(target_feature = "bmi2")]
    return deposited(1 << n, word).trailing_zeros() as usize;
    #[cfg(not(target_feature = "bmi2"))]
    {
        let from = (0..n).fold(word, |word, _| word & (word - 1));
        from.trailing_zeros() as usize
    }
}

/// The bits at the ones of a mask, packed.
#[inline(always)]
fn extracted(bits: u64, mask: u64) -> u64 {
    #[cfg(target_feature = "bmi2")]
    return unsafe { std::arch::x86_64::_pext_u64(bits, mask) };
    #[cfg(not(target_feature = "bmi2"))]
    {
        let (mut packed, mut many) = (0, 0);
        by_ones(mask, |at| {
            packed |= (bits >> at & 1) << many;
            many += 1;
        });
        packed
    }
}

/// A word with the lowest bits deposited at the ones of a mask, and 0 elsewhere.
#[inline(always)]
fn deposited(bits: u64, mask: u64) -> u64 {
    #[cfg(target_feature = "bmi2")]
    return unsafe { std::arch::x86_64::_pdep_u64(bits, mask) };
    #[cfg(not(target_feature = "bmi2"))]
    {
        let (mut spread, mut left) = (0, bits);
        by_ones(mask, |at| {
            spread |= (left & 1) << at;
            left >>= 1;
        });
        spread
    }
}

#[inline(never)]
pub fn copy(out: &mut [u8], to: usize, from: Window) {
    let mut out = Writer::new(out.as_mut_ptr(), to);
    by_words(from.len, |at, many| out.push(load(from, at, many), many));
    out.finish();
}

#[inline(never)]
pub fn and_into(out: &mut [u8], to: usize, left: Window, right: Window) {
    let mut out = Writer::new(out.as_mut_ptr(), to);
    by_words(left.len, |at, many| {
        out.push(load(left, at, many) & load(right, at, many), many)
    });
    out.finish();
}

/// In place: each word is loaded before it is stored.
#[inline(never)]
pub fn and(out: &mut [u8], to: usize, right: Window) {
    let (size, out) = (out.len(), out.as_mut_ptr());
    let mut writer = Writer::new(out, to);
    by_words(right.len, |at, many| {
        let left = Window {
            bytes: unsafe { std::slice::from_raw_parts(out, size) },
            offset: to,
            len: right.len,
        };
        writer.push(load(left, at, many) & load(right, at, many), many)
    });
    writer.finish();
}

#[inline(never)]
pub fn and_kleene(outs: [&mut [u8]; 2], to: usize, left: [Window; 2], right: [Window; 2]) {
    let [mut trues, mut valid] = outs.map(|out| Writer::new(out.as_mut_ptr(), to));
    by_words(left[0].len, |at, many| {
        let [a, a_valid] = left.map(|w| load(w, at, many));
        let [b, b_valid] = right.map(|w| load(w, at, many));
        let both = a & a_valid & b & b_valid;
        trues.push(both, many);
        valid.push(both | a_valid & !a | b_valid & !b, many);
    });
    trues.finish();
    valid.finish();
}

/// Which values are above a number: a byte for each of 64 values, and eight bytes packed at a time.
#[inline(never)]
pub fn above<T: PartialOrd + Copy>(out: &mut [u8], to: usize, values: &[T], number: T) {
    let mut out = Writer::new(out.as_mut_ptr(), to);
    let (words, rest) = values.as_chunks::<64>();
    for values in words {
        let above = values.map(|it| u8::from(it > number));
        let (eights, _) = above.as_chunks::<8>();
        let bytes = eights.iter().enumerate();
        out.push(
            bytes.fold(0, |word, (k, &it)| word | packed(it) << (8 * k)),
            64,
        );
    }
    let bits = rest.iter().enumerate();
    let word = bits.fold(0, |word, (k, &it)| word | u64::from(it > number) << k);
    out.push(word, rest.len());
    out.finish();
}

/// The lowest bits of eight bytes, side by side.
#[inline(always)]
fn packed(eight: [u8; 8]) -> u64 {
    u64::from_le_bytes(eight).wrapping_mul(0x0102_0408_1020_4080) >> 56
}

/// The values at the ones of a mask, and how many.
#[inline(never)]
pub fn filter<T: Copy>(out: &mut [T], values: &[T], mask: Window) -> usize {
    let mut kept = 0;
    by_words(values.len(), |at, many| {
        by_ones(load(mask, at, many), |k| unsafe {
            *out.get_unchecked_mut(kept) = *values.get_unchecked(at + k);
            kept += 1;
        });
    });
    kept
}

#[inline(never)]
pub fn set_indices(out: &mut [usize], w: Window) -> usize {
    let mut many = 0;
    by_words(w.len, |at, in_word| {
        by_ones(load(w, at, in_word), |k| unsafe {
            *out.get_unchecked_mut(many) = at + k;
            many += 1;
        });
    });
    many
}

/// The bits at the ones of a mask, and how many.
#[inline(never)]
pub fn filter_bits(out: &mut [u8], to: usize, from: Window, mask: Window) -> usize {
    let (mut out, mut kept) = (Writer::new(out.as_mut_ptr(), to), 0);
    by_words(mask.len, |at, many| {
        let word = load(mask, at, many);
        let ones = word.count_ones() as usize;
        out.push(extracted(load(from, at, many), word), ones);
        kept += ones;
    });
    out.finish();
    kept
}

/// A bit at each set bit of a mask, and false elsewhere.
#[inline(never)]
pub fn deposit(out: &mut [u8], to: usize, from: Window, mask: Window) {
    let (mut out, mut taken) = (Writer::new(out.as_mut_ptr(), to), 0);
    by_words(mask.len, |at, many| {
        let word = load(mask, at, many);
        let ones = word.count_ones() as usize;
        // Bits beyond the number of set bits are ignored.
        let bits = match from.len - taken {
            0 => 0,
            left if left >= 64 => self::word(from, taken),
            left => few(from, taken, left.min(ones.max(1))),
        };
        out.push(deposited(bits, word), many);
        taken += ones;
    });
    out.finish();
}

#[inline(always)]
fn are_below(indices: &[u32], len: usize) -> bool {
    indices
        .iter()
        .fold(true, |below, &at| below & ((at as usize) < len))
}

/// Writes the values at indices if all of these are in range. Returns whether they are.
#[inline(never)]
pub fn take<T: Copy>(out: &mut [T], values: &[T], indices: &[u32]) -> bool {
    if !are_below(indices, values.len()) {
        return false;
    }
    for (to, &at) in out.iter_mut().zip(indices) {
        *to = unsafe { *values.get_unchecked(at as usize) };
    }
    true
}

/// Writes the values at valid indices, and 0 elsewhere. Returns whether valid ones are in range.
#[inline(never)]
pub fn take_valid(out: &mut [i64], values: &[i64], indices: &[u32], valid: Window) -> bool {
    let mut good = true;
    by_words(indices.len(), |at, many| {
        let word = load(valid, at, many);
        for k in 0..many {
            let is_valid = word >> k & 1 == 1;
            let index = unsafe { *indices.get_unchecked(at + k) } as usize;
            let value = values.get(index).copied();
            good &= value.is_some() | !is_valid;
            let kept = if is_valid { value.unwrap_or(0) } else { 0 };
            unsafe { *out.get_unchecked_mut(at + k) = kept };
        }
    });
    good
}

/// Writes the bits at indices if all of these are in range. Returns whether they are.
#[inline(never)]
pub fn take_bits(out: &mut [u8], to: usize, from: Window, indices: &[u32]) -> bool {
    if !are_below(indices, from.len) {
        return false;
    }
    let mut out = Writer::new(out.as_mut_ptr(), to);
    by_words(indices.len(), |at, many| {
        let mut word = 0;
        for k in 0..many {
            let bit = from.offset + unsafe { *indices.get_unchecked(at + k) } as usize;
            let byte = unsafe { *from.bytes.get_unchecked(bit / 8) };
            word |= u64::from(byte >> (bit % 8) & 1) << k;
        }
        out.push(word, many);
    });
    out.finish();
    true
}

/// The sum of the values that a mask selects, without overflow.
#[inline(never)]
pub fn masked_sum<T: Copy + Into<i64>>(values: &[T], mask: Window) -> i128 {
    let mut sum = 0;
    by_selected(values, mask, |_, value| sum += i128::from(value.into()));
    sum
}

/// The sum of the values that a mask selects, wrapped around.
#[inline(never)]
pub fn masked_wrapping_sum(values: &[i64], mask: Window) -> i64 {
    let mut sum = 0i64;
    by_selected(values, mask, |_, value| sum = sum.wrapping_add(value));
    sum
}

/// The least of the values that a mask selects.
#[inline(never)]
pub fn masked_min<T: Copy + Ord>(values: &[T], mask: Window) -> Option<T> {
    let mut least = None;
    by_selected(values, mask, |_, value| {
        least = Some(least.map_or(value, |it: T| it.min(value)));
    });
    least
}

/// Adds each selected row to the count of its code. Returns whether each such code has a count.
#[inline(never)]
pub fn group_counts(counts: &mut [u64], codes: &[u32], mask: Window) -> bool {
    let mut good = true;
    by_selected(codes, mask, |_, code| match counts.get_mut(code as usize) {
        Some(count) => *count += 1,
        None => good = false,
    });
    good
}

/// Adds each selected value to the sum of its code. Returns whether each such code has a sum.
#[inline(never)]
pub fn group_sums(sums: &mut [i64], codes: &[u32], values: &[i64], mask: Window) -> bool {
    let mut good = true;
    by_selected(codes, mask, |k, code| match sums.get_mut(code as usize) {
        Some(sum) => *sum = sum.wrapping_add(unsafe { *values.get_unchecked(k) }),
        None => good = false,
    });
    good
}
