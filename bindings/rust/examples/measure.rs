//! Compares the calls at each level with loops that one would write by hand, in a release build.
//! Runs both in turn, and prints the least time of each.
//!
//!     cargo run --release --features levels --example measure

use std::cell::RefCell;
use std::hint::black_box;
use std::time::Instant;

use vortex_bits::{Bitmap, Bits, BitsMut, Comparison, Level, values};

/// How many bits and values there are.
const N: usize = 1_000_000;

struct Data {
    values: Vec<i64>,
    /// The values for `values::compare`.
    keys: Vec<u32>,
    /// Bytes of N + 64 bits, set at random: 1/2 of them in `half`, 3/4 in `most`, 1/10 in `few`.
    half: Vec<u8>,
    most: Vec<u8>,
    few: Vec<u8>,
    indices: Vec<u32>,
}

impl Data {
    fn new() -> Data {
        let mut state = 1u64;
        let mut number = move || {
            state ^= state << 13;
            state ^= state >> 7;
            state ^= state << 17;
            (state >> 32) as u32
        };
        let mut bytes = |tenths: u32| {
            let bits: Bitmap = (0..N + 64).map(|_| number() % 20 < tenths).collect();
            bits.bits().bytes().to_vec()
        };
        let (half, most, few) = (bytes(10), bytes(15), bytes(2));
        Data {
            values: (0..N).map(|_| i64::from(number())).collect(),
            keys: (0..N).map(|_| number() % 1000).collect(),
            half,
            most,
            few,
            indices: (0..N).map(|_| number() % 1_000_000).collect(),
        }
    }
}

fn bit(bytes: &[u8], place: usize) -> bool {
    bytes[place / 8] >> (place % 8) & 1 == 1
}

/// Which keys are above 499, a bit each.
fn above_by_loop(keys: &[u32]) -> Vec<u8> {
    let mut bytes = vec![0; N / 8];
    for (byte, keys) in bytes.iter_mut().zip(keys.chunks_exact(8)) {
        for (i, &key) in keys.iter().enumerate() {
            *byte |= u8::from(key > 499) << i;
        }
    }
    bytes
}

fn above_by_fill(keys: &[u32]) -> Vec<u8> {
    let mut bytes = vec![0; N / 8];
    BitsMut::new(&mut bytes, 0, N).fill_with(|row| keys[row] > 499);
    bytes
}

fn above_by_collect(keys: &[u32]) -> Bitmap {
    keys.iter().map(|&key| key > 499).collect()
}

fn above_by_compare(keys: &[u32]) -> Bitmap {
    values::compare(keys, Comparison::Greater, 499)
}

/// Writes the selected values to the front of `kept`, without a branch.
fn kept_by_loop(values: &[i64], mask: &[u8], kept: &mut [i64]) -> usize {
    let mut len = 0;
    for (row, &value) in values.iter().enumerate() {
        kept[len] = value;
        len += usize::from(bit(mask, row));
    }
    len
}

/// The bits from bit 3 on that the mask selects, without a branch.
fn filtered_by_loop(bits: &[u8], mask: &[u8]) -> Vec<u8> {
    let (mut kept, mut len) = (vec![0; N / 8 + 1], 0);
    for row in 0..N {
        let keeps = bit(mask, row);
        kept[len / 8] |= u8::from(bit(bits, row + 3) & keeps) << (len % 8);
        len += usize::from(keeps);
    }
    kept.truncate(len.div_ceil(8));
    kept
}

/// The bits at the indices, which count from bit 3.
fn taken_by_loop(bits: &[u8], indices: &[u32]) -> Vec<u8> {
    let mut taken = vec![0; N / 8];
    for (byte, indices) in taken.iter_mut().zip(indices.chunks_exact(8)) {
        for (i, &index) in indices.iter().enumerate() {
            *byte |= u8::from(bit(bits, index as usize + 3)) << i;
        }
    }
    taken
}

/// The sum of the indices of the set bits, word by word.
fn places_by_loop(bytes: &[u8]) -> usize {
    let mut sum = 0;
    for start in (0..N).step_by(64) {
        let mut word = word_at(bytes, start);
        while word != 0 {
            sum += start + word.trailing_zeros() as usize;
            word &= word - 1;
        }
    }
    sum
}

/// The 64 bits from this one on.
fn word_at(bytes: &[u8], bit: usize) -> u64 {
    let (byte, shift) = (bit / 8, bit % 8);
    let word = bytes[byte..byte + 8]
        .try_into()
        .map_or(0, u64::from_le_bytes);
    if shift == 0 {
        return word;
    }
    word >> shift | u64::from(bytes[byte + 8]) << (64 - shift)
}

/// The words of `left & right`, from bit 3 of `left` and bit 5 of `right` on.
fn both<'a>(left: &'a [u8], right: &'a [u8]) -> impl Iterator<Item = u64> + 'a {
    (0..N)
        .step_by(64)
        .map(|bit| word_at(left, bit + 3) & word_at(right, bit + 5))
}

fn both_by_loop(left: &[u8], right: &[u8]) -> Vec<u8> {
    both(left, right).flat_map(u64::to_le_bytes).collect()
}

/// The index of the n-th set bit, word by word.
fn nth_by_loop(bytes: &[u8], mut n: usize) -> usize {
    for start in (0..N).step_by(64) {
        let mut word = word_at(bytes, start);
        let ones = word.count_ones() as usize;
        if n < ones {
            (0..n).for_each(|_| word &= word - 1);
            return start + word.trailing_zeros() as usize;
        }
        n -= ones;
    }
    N
}

fn sum(bytes: &[u8]) -> usize {
    bytes.iter().map(|&it| usize::from(it)).sum()
}

/// Calls each 60 times, in turn. Returns the least time of each, in microseconds.
fn times(one: &dyn Fn() -> usize, other: &dyn Fn() -> usize) -> [f64; 2] {
    assert_eq!(one(), other());
    let mut least = [f64::INFINITY; 2];
    for _ in 0..60 {
        for (call, least) in [one, other].into_iter().zip(&mut least) {
            let start = Instant::now();
            black_box(call());
            *least = least.min(start.elapsed().as_secs_f64() * 1e6);
        }
    }
    least
}

fn row(name: &str, call: impl Fn() -> usize, by_loop: impl Fn() -> usize) {
    let [ours, plain] = times(&call, &by_loop);
    let level = Level::current();
    println!(
        "{level:?} | {name} | {ours:.1} | {plain:.1} | {:.2}",
        ours / plain
    );
}

fn counts(data: &Data) {
    let (half, most) = (&data.half[..], &data.most[..]);
    let (left, right) = (Bits::new(half, 3, N), Bits::new(most, 5, N));
    let word = |it: &[u8]| u64::from_ne_bytes(it.try_into().expect("eight")).count_ones();
    row(
        "`count_ones`",
        || Bits::new(half, 0, N).count_ones(),
        || {
            half[..N / 8]
                .chunks_exact(8)
                .map(|it| word(it) as usize)
                .sum()
        },
    );
    row(
        "`and_count`, offsets 3 and 5",
        || left.and_count(right),
        || {
            both(half, most)
                .map(|word| word.count_ones() as usize)
                .sum()
        },
    );
    row(
        "`&` into a `Bitmap`, offsets 3 and 5",
        || sum((left & right).bits().bytes()),
        || sum(&both_by_loop(half, most)),
    );
    let last = Bits::new(half, 0, N).count_ones() - 1;
    row(
        "`select` of the last set bit",
        || Bits::new(half, 0, N).select(last).unwrap_or(N),
        || nth_by_loop(half, last),
    );
}

fn filters(data: &Data) {
    let Data {
        values,
        keys,
        half,
        most,
        few,
        indices,
    } = data;
    row(
        "`values::compare`",
        || sum(above_by_compare(keys).bits().bytes()),
        || sum(&above_by_loop(keys)),
    );
    row(
        "`fill_with` of a comparison",
        || sum(&above_by_fill(keys)),
        || sum(&above_by_loop(keys)),
    );
    row(
        "`collect` of a comparison",
        || sum(above_by_collect(keys).bits().bytes()),
        || sum(&above_by_loop(keys)),
    );
    let room = RefCell::new(vec![0; N + 1]);
    for (name, mask) in [("half", half), ("one in ten", few)] {
        row(
            &format!("`keep_into` of `i64`, {name}"),
            || Bits::new(mask, 0, N).keep_into(values, &mut room.borrow_mut()),
            || kept_by_loop(values, mask, &mut room.borrow_mut()),
        );
        let kept = Bits::new(mask, 0, N);
        let bits = Bits::new(most, 3, N);
        row(
            &format!("`filter` of bits, {name}"),
            || sum(bits.filter(kept).bits().bytes()),
            || sum(&filtered_by_loop(most, mask)),
        );
        row(
            &format!("`set_indices`, {name}, summed"),
            || kept.set_indices().sum(),
            || places_by_loop(mask),
        );
    }
    row(
        "`take` of bits at random `u32`",
        || sum(Bits::new(half, 3, N).take(indices).bits().bytes()),
        || sum(&taken_by_loop(half, indices)),
    );
}

fn main() {
    let data = Data::new();
    println!("level | call | µs | loop, µs | over the loop");
    for level in Level::available() {
        assert!(level.make_current());
        counts(&data);
        filters(&data);
    }
}
