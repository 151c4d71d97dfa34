//! Inputs to count, search and combine: bits without a pattern, of which a given share is set, and
//! numbers without a pattern.

/// Numbers without a pattern (splitmix64).
pub struct Random(pub u64);

impl Random {
    pub fn number(&mut self) -> u64 {
        self.0 = self.0.wrapping_add(0x9e37_79b9_7f4a_7c15);
        let z = (self.0 ^ (self.0 >> 30)).wrapping_mul(0xbf58_476d_1ce4_e5b9);
        let z = (z ^ (z >> 27)).wrapping_mul(0x94d0_49bb_1331_11eb);
        z ^ (z >> 31)
    }

    /// A number below the limit.
    pub fn below(&mut self, limit: usize) -> usize {
        ((self.number() as u128 * limit as u128) >> 64) as usize
    }

    /// `many` numbers below the limit.
    pub fn list(&mut self, many: usize, limit: usize) -> Vec<usize> {
        (0..many).map(|_| self.below(limit)).collect()
    }
}

#[derive(Clone, Copy)]
#[repr(C, align(64))]
struct Line([u64; 8]);

/// Bytes that begin at a cache line, followed by one more line.
pub struct Input(Vec<Line>);

impl Input {
    fn of(size: usize, mut word: impl FnMut() -> u64) -> Self {
        let mut line = || Line(std::array::from_fn(|_| word()));
        Input((0..size.div_ceil(64) + 1).map(|_| line()).collect())
    }

    /// One bit in two is set.
    pub fn random(size: usize) -> Self {
        Input::set_in_all_of(1, size)
    }

    /// One bit in 64 is set.
    pub fn sparse(size: usize) -> Self {
        Input::set_in_all_of(6, size)
    }

    /// One bit in 4,096 is set.
    pub fn sparsest(size: usize) -> Self {
        Input::set_in_all_of(12, size)
    }

    /// Each word is the `and` of so many random ones.
    fn set_in_all_of(words: usize, size: usize) -> Self {
        let mut random = Random(1);
        Input::of(size, || {
            (0..words).fold(u64::MAX, |word, _| word & random.number())
        })
    }

    /// This share of the bits is set.
    pub fn with_set(share: f64, size: usize) -> Self {
        let mut random = Random(3);
        let limit = (share * (1u64 << 32) as f64) as u64;
        let mut bit = move || (random.number() >> 32 < limit) as u64;
        Input::of(size, || (0..64).fold(0, |word, _| word << 1 | bit()))
    }

    /// The same line over and over, of which one bit in two is set.
    pub fn repeated(size: usize) -> Self {
        let line = Input::random(64).0[0];
        Input(vec![line; size.div_ceil(64) + 1])
    }

    /// The bits of another input, behind `offset` false bits, fewer than 64.
    pub fn shifted(other: &Input, offset: usize) -> Self {
        let mut before = 0;
        let mut words = other.words().iter();
        let size = 64 * (other.0.len() - 1);
        Input::of(size, || {
            let word = *words.next().expect("a line for each line");
            let made = word << offset | before >> 1 >> (63 - offset);
            before = word;
            made
        })
    }

    /// Runs of so many bits on average, half of them set.
    pub fn in_runs(run: usize, size: usize) -> Self {
        let mut random = Random(4);
        let (mut left, mut bit) = (0, 0);
        let mut next = move || {
            if left == 0 {
                left = 1 + random.below(2 * run);
                bit ^= 1;
            }
            left -= 1;
            bit
        };
        Input::of(size, || (0..64).fold(0, |word, k| word | next() << k))
    }

    /// A copy of whole words.
    pub fn copied(bytes: &[u8]) -> Self {
        let mut words = bytes
            .chunks_exact(8)
            .map(|word| word.try_into().expect("8 bytes"));
        Input::of(bytes.len(), || words.next().map_or(0, u64::from_le_bytes))
    }

    /// The first `size` bytes.
    pub fn bytes(&self, size: usize) -> &[u8] {
        assert!(size <= 64 * self.0.len());
        unsafe { std::slice::from_raw_parts(self.0.as_ptr().cast(), size) }
    }

    /// All words.
    pub fn words(&self) -> &[u64] {
        unsafe { std::slice::from_raw_parts(self.0.as_ptr().cast(), 8 * self.0.len()) }
    }

    /// A window of bits in the first `size` bytes, which begins and ends within a byte if `offset`
    /// isn't 0.
    pub fn window(&self, size: usize, offset: usize) -> Window<'_> {
        let len = if offset == 0 { 8 * size } else { 8 * size - 8 };
        Window {
            bytes: self.bytes(size),
            offset,
            len,
        }
    }

    /// The `len` bits from bit `offset` on, in as few bytes as hold them.
    pub fn bits(&self, offset: usize, len: usize) -> Window<'_> {
        Window {
            bytes: self.bytes((offset + len).div_ceil(8)),
            offset,
            len,
        }
    }
}

/// What the calls are passed: the bytes, and the window's bits.
#[derive(Clone, Copy)]
pub struct Window<'a> {
    pub bytes: &'a [u8],
    pub offset: usize,
    pub len: usize,
}
