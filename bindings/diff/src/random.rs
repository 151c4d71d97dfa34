//! Numbers that look random, the same for the same seed (Marsaglia's xorshift of 64 bits).

pub struct Random(u64);

impl Random {
    /// Returns the numbers of a seed. Seed 0 gives those of seed 1: xorshift would stay at 0.
    pub fn new(seed: u64) -> Random {
        Random(seed.max(1))
    }

    pub fn next(&mut self) -> u64 {
        self.0 ^= self.0 << 13;
        self.0 ^= self.0 >> 7;
        self.0 ^= self.0 << 17;
        self.0
    }

    /// Below `n`, which isn't 0.
    pub fn below(&mut self, n: usize) -> usize {
        (self.next() % n as u64) as usize
    }
}
