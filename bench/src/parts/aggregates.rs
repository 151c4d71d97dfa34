//! Sums, least values and groups of the rows that a mask selects, compared with loops over its
//! words and the portable code of the Rust crate.

use std::cell::RefCell;

use vortex_bits::{Bits, values};

use super::MILLION;
use crate::bench::Bench;
use crate::calls::{self, Masked, Optional, Wide};
use crate::input::{Input, Random, Window};
use crate::measure::Contender;
use crate::row::{LOOP, PORTABLE, Row};
use crate::words;

/// How many rows there are.
const ROWS: [usize; 3] = [64, 1_000, MILLION];

/// The shares of the rows that are selected.
const SHARES: [f64; 5] = [0.001, 0.1, 0.5, 0.9, 1.0];

/// How many groups there are.
const GROUPS: usize = 100;

/// The columns, and the rows that are selected.
struct Case<'a> {
    halves: &'a [i32],
    wide: &'a [i64],
    codes: &'a [u32],
    mask: Window<'a>,
}

pub fn measure(bench: &mut Bench) {
    bench.begin("Aggregates");
    let mut random = Random(7);
    let halves: Vec<_> = (0..MILLION).map(|_| random.number() as i32).collect();
    let wide: Vec<_> = (0..MILLION).map(|_| random.number() as i64).collect();
    let codes: Vec<_> = (0..MILLION).map(|_| random.below(GROUPS) as u32).collect();
    for len in ROWS {
        for share in SHARES {
            let mask = Input::with_set(share, MILLION / 8 + 1);
            // Another first bit changes only the loads of the mask: one share is enough for it.
            let offsets: &[usize] = if share == 0.5 { &[0, 3] } else { &[0] };
            for &offset in offsets {
                let case = Case {
                    halves: &halves[..len],
                    wide: &wide[..len],
                    codes: &codes[..len],
                    mask: mask.bits(offset, len),
                };
                for row in rows(&case) {
                    let row = row.items(len).set(share).offsets(&[offset]);
                    bench.row(row.at_most(1.0, LOOP));
                }
            }
        }
    }
}

fn bits(mask: Window<'_>) -> Bits<'_> {
    Bits::new(mask.bytes, mask.offset, mask.len)
}

fn rows<'a>(c: &'a Case) -> Vec<Row<'a>> {
    let low = |it: Wide| it.low as usize;
    vec![
        aggregate(
            ("`vb_masked_sum_i32`", calls::vb_masked_sum_i32, low),
            (c.halves, c.mask),
            || words::masked_sum(c.halves, c.mask) as usize,
            || values::masked_sum(c.halves, bits(c.mask)) as usize,
        ),
        aggregate(
            ("`vb_masked_sum_i64`", calls::vb_masked_sum_i64, low),
            (c.wide, c.mask),
            || words::masked_sum(c.wide, c.mask) as usize,
            || values::masked_sum(c.wide, bits(c.mask)) as usize,
        ),
        aggregate(
            (
                "`vb_masked_wrapping_sum_i64`",
                calls::vb_masked_wrapping_sum_i64,
                |it| it as usize,
            ),
            (c.wide, c.mask),
            || words::masked_wrapping_sum(c.wide, c.mask) as usize,
            || values::masked_wrapping_sum(c.wide, bits(c.mask)) as usize,
        ),
        aggregate(
            ("`vb_masked_min_i32`", calls::vb_masked_min_i32, |it| {
                number(it.option())
            }),
            (c.halves, c.mask),
            || number(words::masked_min(c.halves, c.mask)),
            || number(values::masked_min(c.halves, bits(c.mask))),
        ),
        group_counts(c),
        group_sums(c),
    ]
}

impl<T> Optional<T> {
    fn option(self) -> Option<T> {
        self.has_value.then_some(self.value)
    }
}

fn number(least: Option<i32>) -> usize {
    least.map_or(usize::MAX, |it| it as usize)
}

/// A call: its name, the function, and the conversion of its result to a number.
type Call<T, A> = (&'static str, Masked<T, A>, fn(A) -> usize);

/// The call over values and a mask.
fn aggregate<'a, T, A: 'a>(
    (call, ours, number): Call<T, A>,
    (values, mask): (&'a [T], Window<'a>),
    plain: impl Fn() -> usize + 'a,
    portable: impl Fn() -> usize + 'a,
) -> Row<'a> {
    let bytes = mask.bytes;
    let ours = move || unsafe {
        number(ours(
            values.as_ptr(),
            values.len(),
            bytes.as_ptr(),
            bytes.len(),
            mask.offset,
        ))
    };
    Row::new(call, Contender::of(ours))
        .plain(Contender::of(plain))
        .beside(PORTABLE, Contender::of(portable))
}

fn group_counts<'a>(c: &'a Case) -> Row<'a> {
    let (codes, mask) = (c.codes, c.mask);
    let counts = || RefCell::new(vec![0u64; GROUPS]);
    let (of_ours, of_plain, of_portable) = (counts(), counts(), counts());
    let ours = move || unsafe {
        let mut counts = of_ours.borrow_mut();
        let (to, from, bytes) = (counts.as_mut_ptr(), codes.as_ptr(), mask.bytes);
        calls::vb_group_counts_u32(
            to,
            GROUPS,
            from,
            codes.len(),
            false,
            bytes.as_ptr(),
            bytes.len(),
            mask.offset,
        )
        .is_none()
        .into()
    };
    let plain = move || words::group_counts(&mut of_plain.borrow_mut(), codes, mask).into();
    let portable = move || {
        values::group_counts(&mut of_portable.borrow_mut(), codes, bits(mask));
        1
    };
    Row::new("`vb_group_counts_u32`", Contender::of(ours))
        .plain(Contender::of(plain))
        .beside(PORTABLE, Contender::of(portable))
}

fn group_sums<'a>(c: &'a Case) -> Row<'a> {
    let (codes, from, mask) = (c.codes, c.wide, c.mask);
    let sums = || RefCell::new(vec![0i64; GROUPS]);
    let (of_ours, of_plain, of_portable) = (sums(), sums(), sums());
    let ours = move || unsafe {
        let mut sums = of_ours.borrow_mut();
        let (to, bytes) = (sums.as_mut_ptr(), mask.bytes);
        calls::vb_group_sums_i64_u32(
            to,
            GROUPS,
            codes.as_ptr(),
            codes.len(),
            from.as_ptr(),
            from.len(),
            false,
            bytes.as_ptr(),
            bytes.len(),
            mask.offset,
        )
        .is_none()
        .into()
    };
    let plain = move || words::group_sums(&mut of_plain.borrow_mut(), codes, from, mask).into();
    let portable = move || {
        values::group_sums(&mut of_portable.borrow_mut(), codes, from, bits(mask));
        1
    };
    Row::new("`vb_group_sums_i64_u32`", Contender::of(ours))
        .plain(Contender::of(plain))
        .beside(PORTABLE, Contender::of(portable))
}
