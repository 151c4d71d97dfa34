//! Two windows of one length over bytes of their own, and the other arguments of the calls.

use vortex_bits::Bits;

use crate::random::Random;

#[derive(Debug)]
pub struct Case {
    pub left: Vec<u8>,
    pub l: usize,
    pub right: Vec<u8>,
    pub r: usize,
    pub len: usize,
    /// The rank of the bit to select, and the number of items of an output.
    pub n: usize,
    pub value: bool,
}

/// Bytes with `len` bits from bit `offset` on, and up to three bytes more. Few bits are true, few
/// are false, the runs are long, or the bits are arbitrary: a fourth of the cases each.
fn bytes(random: &mut Random, offset: usize, len: usize) -> Vec<u8> {
    let size = (offset + len).div_ceil(8) + random.below(4);
    let kind = random.below(4);
    let mut run = 0;
    (0..size)
        .map(|_| {
            let few = random.next() & random.next() & random.next() & random.next();
            if random.below(20) == 0 {
                run = random.next() & 1;
            }
            match kind {
                0 => few as u8,
                1 => !few as u8,
                2 => (0 - run as i64) as u8,
                _ => random.next() as u8,
            }
        })
        .collect()
}

impl Case {
    /// Returns a random case. Most are short; one in a hundred has up to 70,000 bits.
    pub fn new(random: &mut Random, number: u64) -> Case {
        let most = match number % 100 {
            0 => 70_000,
            1..20 => 3_000,
            _ => 300,
        };
        let len = random.below(most);
        let l = random.below(30);
        let r = random.below(30);
        let left = bytes(random, l, len);
        let mut right = bytes(random, r, len);
        // A third of the cases has equal windows, and a third has windows that differ in one bit.
        let alike = random.below(3);
        if alike > 0 {
            for i in 0..len {
                put(&mut right, r + i, bit(&left, l + i));
            }
        }
        if alike == 2 && len > 0 {
            let at = random.below(len);
            put(&mut right, r + at, !bit(&left, l + at));
        }
        Case {
            left,
            l,
            right,
            r,
            len,
            n: random.below(len + 2),
            value: random.below(2) == 0,
        }
    }

    pub fn left(&self) -> Bits<'_> {
        Bits::new(&self.left, self.l, self.len)
    }

    /// Returns whether the mask, either the window on the right or `None`, selects a row.
    pub fn is_selected(&self, mask: Option<Bits<'_>>, row: usize) -> bool {
        mask.is_none() || bit(&self.right, self.r + row)
    }

    pub fn right(&self) -> Bits<'_> {
        Bits::new(&self.right, self.r, self.len)
    }
}

pub fn bit(bytes: &[u8], i: usize) -> bool {
    bytes[i / 8] >> (i % 8) & 1 == 1
}

pub fn put(bytes: &mut [u8], i: usize, value: bool) {
    let digit = 1 << (i % 8);
    if value {
        bytes[i / 8] |= digit;
    } else {
        bytes[i / 8] &= !digit;
    }
}
