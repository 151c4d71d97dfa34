//! Random rows with a mask, for calls that are compared with plain loops.
use vortex_bits::Bits;

/// Random numbers.
pub struct Random(pub u64);

impl Random {
    pub fn next(&mut self) -> u64 {
        self.0 ^= self.0 << 13;
        self.0 ^= self.0 >> 7;
        self.0 ^= self.0 << 17;
        self.0
    }

    pub fn below(&mut self, limit: usize) -> usize {
        usize::try_from(self.next() >> 33).unwrap() % limit
    }

    /// Returns bytes for 300 bits: any, all set, or few set.
    pub fn bytes(&mut self) -> Vec<u8> {
        let kind = self.below(4);
        let byte = |random: &mut Random| match kind {
            0 => u8::MAX,
            1 => 1 << random.below(8) & random.next().to_le_bytes()[0],
            _ => random.next().to_le_bytes()[0],
        };
        (0..38).map(|_| byte(self)).collect()
    }
}

/// Rows with a mask; None selects all.
pub struct Rows<'a> {
    pub mask: Option<Bits<'a>>,
    pub len: usize,
    #[allow(dead_code, reason = "groups are compared at the mask's offset alone")]
    pub offset: usize,
}

impl Rows<'_> {
    pub fn is_selected(&self, row: usize) -> bool {
        self.mask.is_none_or(|mask| mask[row])
    }
}

/// Calls the test for 0 to 200 rows, with masks that begin at bits 0 to 9.
pub fn each(test: impl Fn(&mut Random, &Rows<'_>)) {
    let mut random = Random(88_172_645_463_325_252);
    let lens = (0..=200).filter(|len| !cfg!(miri) || len % 13 == 0);
    for len in lens {
        for offset in 0..=9 {
            let bytes = random.bytes();
            let mask = (random.below(5) > 0).then(|| Bits::new(&bytes, offset, len));
            let rows = Rows { mask, len, offset };
            test(&mut random, &rows);
        }
    }
}
