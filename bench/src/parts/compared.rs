//! Values compared with a number and with others, into bits.

use std::cell::RefCell;

use super::MILLION;
use crate::bench::Bench;
use crate::calls::{self, Compare, CompareWith};
use crate::input::Random;
use crate::loops;
use crate::measure::Contender;
use crate::row::{LOOP, Row};

/// Above, as the C functions number comparisons.
pub const GREATER: u8 = 4;

pub fn measure(bench: &mut Bench) {
    bench.begin("Comparisons");
    let mut random = Random(5);
    let numbers: Vec<u32> = (0..MILLION).map(|_| random.number() as u32).collect();
    let wide: Vec<i64> = numbers.iter().map(|&it| i64::from(it)).collect();
    let halves: Vec<f32> = numbers.iter().map(|&it| it as f32).collect();
    let floats: Vec<f64> = numbers.iter().map(|&it| f64::from(it)).collect();
    for offset in [0, 3] {
        for row in [
            row(
                "`compare_u32`",
                &numbers,
                1 << 31,
                calls::vb_compare_u32,
                offset,
            ),
            row(
                "`compare_i64`",
                &wide,
                1 << 31,
                calls::vb_compare_i64,
                offset,
            ),
            row("`compare_f32`", &halves, 2e9, calls::vb_compare_f32, offset),
            row("`compare_f64`", &floats, 2e9, calls::vb_compare_f64, offset),
        ] {
            bench.row(row.at_most(1.2, LOOP));
        }
        for row in [
            with_others(
                "`compare_with_u32`",
                &numbers,
                calls::vb_compare_with_u32,
                offset,
            ),
            with_others(
                "`compare_with_i64`",
                &wide,
                calls::vb_compare_with_i64,
                offset,
            ),
        ] {
            bench.row(row);
        }
    }
}

/// Values compared with the same values in reverse order.
fn with_others<'a, T: PartialOrd + Copy + 'a>(
    call: &str,
    values: &'a [T],
    compare: CompareWith<T>,
    offset: usize,
) -> Row<'a> {
    let others: Vec<T> = values.iter().rev().copied().collect();
    let again = others.clone();
    let (to, over) = (vec![0u8; values.len() / 8 + 1], vec![0u8; values.len() / 8]);
    let (to, over) = (RefCell::new(to), RefCell::new(over));
    let ours = move || {
        let out = &mut *to.borrow_mut();
        let (to, size) = (out.as_mut_ptr(), out.len());
        let (from, many) = (values.as_ptr(), values.len());
        let (beside, as_many) = (others.as_ptr(), others.len());
        unsafe { compare(to, size, offset, from, many, GREATER, beside, as_many) };
        some_answers(out, offset)
    };
    let plain = move || {
        let out = &mut *over.borrow_mut();
        loops::above_others(out, values, &again);
        some_answers(out, 0)
    };
    Row::new(call, Contender::of(ours))
        .items(values.len())
        .offsets(&[offset])
        .plain(Contender::of(plain))
}

fn row<'a, T: PartialOrd + Copy + 'a>(
    call: &str,
    values: &'a [T],
    limit: T,
    compare: Compare<T>,
    offset: usize,
) -> Row<'a> {
    let (to, over) = (vec![0u8; values.len() / 8 + 1], vec![0u8; values.len() / 8]);
    let (to, over) = (RefCell::new(to), RefCell::new(over));
    let ours = move || {
        let out = &mut *to.borrow_mut();
        let (from, many) = (values.as_ptr(), values.len());
        unsafe {
            compare(
                out.as_mut_ptr(),
                out.len(),
                offset,
                from,
                many,
                GREATER,
                limit,
            )
        };
        some_answers(out, offset)
    };
    let plain = move || {
        let out = &mut *over.borrow_mut();
        loops::above(out, values, limit);
        some_answers(out, 0)
    };
    Row::new(call, Contender::of(ours))
        .items(values.len())
        .offsets(&[offset])
        .plain(Contender::of(plain))
}

/// The results for some values in the middle, as a number, by which the contenders are compared.
/// The result for the first value is bit `offset`.
fn some_answers(bits: &[u8], offset: usize) -> usize {
    let middle = bits[MILLION / 16..].first_chunk().expect("eight bytes");
    (u64::from_le_bytes(*middle) >> offset) as u32 as usize
}
