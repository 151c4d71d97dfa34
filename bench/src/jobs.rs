//! Three of the jobs of crates/run_jobs over vortex-buffer, with the same digest of all answers: a
//! yardstick for `bench/run`. It filters values by the runs of the mask, and bits by its indices,
//! since vortex-buffer has no call that filters.
//!
//!     jobs JOB ROUNDS SEED

use std::env;

use vortex_buffer::{Alignment, BitBuffer, BitBufferMut, Buffer, BufferMut, ByteBuffer};

/// The sequence of numbers of a seed: SplitMix64, of Steele, Lea and Flood.
struct Random(u64);

impl Random {
    fn number(&mut self) -> u64 {
        self.0 = self.0.wrapping_add(0x9E37_79B9_7F4A_7C15);
        let mut mixed = self.0;
        mixed = (mixed ^ (mixed >> 30)).wrapping_mul(0xBF58_476D_1CE4_E5B9);
        mixed = (mixed ^ (mixed >> 27)).wrapping_mul(0x94D0_49BB_1331_11EB);
        mixed ^ (mixed >> 31)
    }

    fn below(&mut self, end: usize) -> usize {
        let number = self.number();
        if end == 0 {
            return 0;
        }
        ((number >> 32) as u32 % end as u32) as usize
    }

    fn bytes(&mut self, words: usize) -> Vec<u8> {
        (0..words)
            .flat_map(|_| self.number().to_le_bytes())
            .collect()
    }
}

/// A sum of all answers so far, and one that depends on their order.
#[derive(Clone, Copy, Default)]
struct Digest {
    sum: u64,
    order: u64,
}

impl Digest {
    fn add(&mut self, number: u64) {
        self.sum = self.sum.wrapping_add(number);
        self.order = self.order.wrapping_add(self.sum);
    }

    fn add_option(&mut self, place: Option<usize>) {
        self.add(place.map_or(u64::MAX, |it| it as u64));
    }

    fn add_values(&mut self, values: &[u32]) {
        let mut digest = *self;
        values.iter().for_each(|&it| digest.add(u64::from(it)));
        digest.add(values.len() as u64);
        *self = digest;
    }

    fn add_bits(&mut self, bits: &BitBuffer) {
        bits.chunks().iter_padded().for_each(|it| self.add(it));
        self.add(bits.len() as u64);
    }
}

/// The bytes of values, and the bits of two masks: at random, and in runs.
struct Pages {
    values: Vec<u8>,
    random: ByteBuffer,
    runs: ByteBuffer,
}

impl Pages {
    fn new(random: &mut Random, values: usize, bits: usize) -> Self {
        let values = random.bytes(values);
        let bytes = ByteBuffer::from(random.bytes(bits));
        let runs = runs_page(random, bits * 64, 200);
        Pages {
            values,
            random: bytes,
            runs,
        }
    }
}

fn runs_page(random: &mut Random, bits: usize, most: usize) -> ByteBuffer {
    let mut set = BitBufferMut::with_capacity(bits);
    let mut value = false;
    for _ in 0..bits {
        let left = bits - set.len();
        set.append_n(value, (random.below(most) + 1).min(left));
        value = !value;
        if left == 0 {
            break;
        }
    }
    set.into_inner().freeze()
}

fn window(page: &ByteBuffer, random: &mut Random, bits: usize) -> BitBuffer {
    let offset = random.below(page.len() * 8 - bits);
    BitBuffer::new_with_offset(page.clone(), bits, offset)
}

fn read(bytes: &[u8]) -> Buffer<u32> {
    let bytes = ByteBuffer::copy_from_aligned(bytes, Alignment::of::<u32>());
    Buffer::from_byte_buffer(bytes)
}

fn filtered(values: &Buffer<u32>, mask: &BitBuffer) -> Buffer<u32> {
    let mut kept = BufferMut::with_capacity(mask.true_count());
    for (start, end) in mask.set_slices() {
        kept.extend_from_slice(&values[start..end]);
    }
    kept.freeze()
}

fn filtered_bits(bits: &BitBuffer, mask: &BitBuffer) -> BitBuffer {
    let mut kept = BitBufferMut::with_capacity(mask.true_count());
    for place in mask.set_indices() {
        kept.append(bits.value(place));
    }
    kept.freeze()
}

fn scan(rounds: u32, random: &mut Random, digest: &mut Digest) {
    let pages = Pages::new(random, 262_144, 65_536);
    for _ in 0..rounds {
        for turn in 0..16 {
            let rows = match turn {
                3 | 8 | 12 => 65_536,
                15 => {
                    let most = random.below(300) + 1;
                    random.below(most) + 1
                }
                _ => 8_192,
            };
            batch(&pages, rows, random, digest);
        }
    }
}

fn batch(pages: &Pages, rows: usize, random: &mut Random, digest: &mut Digest) {
    let start = random.below(pages.values.len() - rows * 4);
    let values = read(&pages.values[start..start + rows * 4]);
    let valid = window(&pages.random, random, rows);
    let fresh = window(&pages.runs, random, rows);
    let kept = rows_kept(&values, &valid, &fresh, random);
    digest.add(kept.true_count() as u64);
    digest.add_values(&filtered(&values, &kept));
    digest.add_bits(&filtered_bits(&valid, &kept));
}

fn rows_kept(
    values: &Buffer<u32>,
    valid: &BitBuffer,
    fresh: &BitBuffer,
    random: &mut Random,
) -> BitBuffer {
    let (below, limit) = match random.below(4) {
        0 => (true, 4_294_967),
        1 => (true, 429_496_729),
        2 => (false, 2_147_483_648),
        _ => (false, 42_949_673),
    };
    let met = if below {
        BitBuffer::collect_bool(values.len(), |i| values[i] < limit)
    } else {
        BitBuffer::collect_bool(values.len(), |i| values[i] >= limit)
    };
    let either = match random.below(4) {
        0 => &met & valid,
        1 => valid & &met,
        2 => valid | &met,
        _ => met.clone(),
    };
    match random.below(3) {
        0 => fresh & &either,
        1 => either.bitand_not(fresh),
        _ => &!fresh & &either,
    }
}

fn index(rounds: u32, random: &mut Random, digest: &mut Digest) {
    for round in 0..rounds {
        let rows = if round % 8 == 7 {
            10_000_000
        } else {
            1_000_000 + random.below(1_000_000)
        };
        let sets: Vec<_> = (0..22)
            .map(|kind| {
                let page = page(kind, (rows.div_ceil(64) + 8) * 64, random);
                window(&page, random, rows)
            })
            .collect();
        for (place, left) in sets.iter().enumerate() {
            for right in &sets[place..] {
                ask(left & right, digest);
                ask(left | right, digest);
                ask(left.bitand_not(right), digest);
            }
        }
        ask_all(&sets, digest);
    }
}

fn page(kind: usize, bits: usize, random: &mut Random) -> ByteBuffer {
    match kind % 10 {
        0 => scattered(bits, 10_000, random),
        1 | 2 => scattered(bits, 200, random),
        3 => scattered(bits, 10, random),
        4 => ByteBuffer::from(random.bytes(bits.div_ceil(64))),
        5 => runs_page(random, bits, 60),
        6 => runs_page(random, bits, 5_000),
        7 => Buffer::full(0x55, bits.div_ceil(8)),
        8 => Buffer::full(0xFF, bits.div_ceil(8)),
        _ => Buffer::zeroed(bits.div_ceil(8)),
    }
}

fn scattered(bits: usize, each: usize, random: &mut Random) -> ByteBuffer {
    let mut set = BitBufferMut::new_unset(bits);
    let mut place = random.below(each * 2) + 1;
    while place < bits {
        set.set(place);
        place += random.below(each * 2) + 1;
    }
    set.into_inner().freeze()
}

fn ask(set: BitBuffer, digest: &mut Digest) {
    digest.add_bits(&set);
    let count = set.true_count();
    digest.add(count as u64);
    digest.add_option(set.select(count / 2));
    for place in set.set_indices().take(10) {
        digest.add(place as u64);
    }
    if count < set.len() / 8 {
        for (start, end) in set.set_slices() {
            digest.add(start as u64);
            digest.add(end as u64);
        }
    }
}

fn ask_all(sets: &[BitBuffer], digest: &mut Digest) {
    let mut one = sets[0].clone();
    for (place, set) in sets.iter().enumerate() {
        one = match place % 3 {
            0 => one | set,
            1 => one.into_bitand_not(set),
            _ => &one ^ set,
        };
    }
    for place in one.set_indices() {
        digest.add(place as u64);
    }
}

fn build(rounds: u32, random: &mut Random, digest: &mut Digest) {
    let pages = Pages::new(random, 131_072, 65_536);
    for _ in 0..rounds {
        let size = 400_000 + 4 * random.below(20_000);
        let start = random.below(pages.values.len() - size);
        let values = read(&pages.values[start..start + size]);
        of_values(&values, digest);
        of_items(&values, digest);
        of_bits(&pages, random, digest);
        of_sets(&pages, random, digest);
        of_places(&pages, random, digest);
        for _ in 0..2_000 {
            small(&pages, random, digest);
        }
    }
}

fn of_values(values: &Buffer<u32>, digest: &mut Digest) {
    let below = BitBuffer::collect_bool(values.len(), |i| values[i] < 1 << 30);
    digest.add_bits(&below);
    let bools: Vec<bool> = below.iter().collect();
    digest.add_bits(&BitBuffer::from(bools.as_slice()));
    let set: BitBuffer = bools.iter().copied().collect();
    digest.add_bits(&set);
}

fn of_items(values: &[u32], digest: &mut Digest) {
    let mut single = BufferMut::<u32>::empty();
    values.iter().for_each(|it| single.push(it.rotate_left(3)));
    digest.add_values(&single.freeze());
    let mut parts = BufferMut::<u32>::empty();
    values.chunks(48).for_each(|it| parts.extend_from_slice(it));
    parts.extend(values.iter().map(|it| it ^ 1));
    digest.add_values(&parts);
}

fn of_bits(pages: &Pages, random: &mut Random, digest: &mut Digest) {
    let bits = window(&pages.random, random, 100_000);
    let mut set = BitBufferMut::empty();
    bits.iter().for_each(|it| set.append(it));
    digest.add_bits(&set.freeze());
}

fn of_sets(pages: &Pages, random: &mut Random, digest: &mut Digest) {
    let mut set = BitBufferMut::empty();
    for turn in 0..2_000 {
        let len = random.below(if turn % 20 == 0 { 10_000 } else { 300 });
        set.append_buffer(&window(&pages.runs, random, len));
        set.append_n(turn % 2 == 0, turn % 11);
    }
    digest.add_bits(&set.freeze());
}

fn of_places(pages: &Pages, random: &mut Random, digest: &mut Digest) {
    let len = 100_000 + random.below(100_000);
    let mask = window(&pages.random, random, len);
    let places: Vec<usize> = mask.set_indices().collect();
    let shared = BitBuffer::from_indices(mask.len(), places.iter().copied());
    digest.add_bits(&shared);
    let mut edited = BitBufferMut::copy_from(&shared);
    for _ in 0..1_000 {
        let place = random.below(edited.len());
        edited.set_to(place, place.is_multiple_of(3));
    }
    digest.add_bits(&(&edited.freeze() ^ &shared));
}

fn small(pages: &Pages, random: &mut Random, digest: &mut Digest) {
    let len = 64 + random.below(449);
    let left = window(&pages.random, random, len);
    let right = window(&pages.runs, random, len);
    let both = &left & &right;
    let rest = !&both;
    digest.add(both.true_count() as u64);
    digest.add_bits(&filtered_bits(&rest, &left));
    let mut open = rest.try_into_mut().expect("the set has no other owner");
    open.append_n(true, 5);
    let len = open.len();
    open.fill_range(len / 3, len / 2, false);
    digest.add_bits(&open.freeze());
}

fn main() {
    let words: Vec<String> = env::args().collect();
    let [_, job, rounds, seed] = words.as_slice() else {
        panic!("usage: jobs JOB ROUNDS SEED");
    };
    let rounds = rounds.parse().expect("rounds");
    let random = &mut Random(seed.parse().expect("seed"));
    let mut digest = Digest::default();
    match job.as_str() {
        "scan" => scan(rounds, random, &mut digest),
        "index" => index(rounds, random, &mut digest),
        "build" => build(rounds, random, &mut digest),
        _ => panic!("no job of this name"),
    }
    println!("{job} {:016x} {:016x}", digest.sum, digest.order);
}
