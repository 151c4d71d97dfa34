//! Values and bits that a mask selects, and bits deposited by one.

use std::cell::RefCell;
use std::hint::black_box;

use super::{MILLION, upstream};
use crate::bench::Bench;
use crate::calls::{self, Filter};
use crate::input::Input;
use crate::loops;
use crate::measure::Contender;
use crate::row::{LOOP, ONES, Row};

const MEMCPY: &str = "memcpy";

pub fn measure(bench: &mut Bench) {
    bench.begin("Filters");
    let values: &Vec<u32> = &(0..MILLION as u32).collect();
    for share in [0.5, 0.1, 0.001, 0.9, 1.0] {
        let mask = &Input::with_set(share, MILLION / 8);
        let into = into(
            "`filter_elements_into`",
            values,
            mask,
            calls::vb_filter_values_u32,
        )
        .plain(plain(values, mask))
        .beside(MEMCPY, memcpy(values));
        for row in [owned(values, mask), into] {
            let row = row.set(share);
            bench.row(match share {
                1.0 => row.at_most(1.3, MEMCPY),
                0.9 => row,
                _ => row.at_most(0.8, LOOP),
            });
        }
    }
    other_widths(bench);
    for share in [0.5, 0.1, 0.001] {
        let mask = &Input::with_set(share, MILLION / 8);
        for offset in [0, 3] {
            let row = bits(&Input::random(MILLION / 8), mask, offset);
            bench.row(row.set(share).offsets(&[offset]));
        }
    }
    for share in [0.5, 0.1, 0.001, 0.9] {
        let mask = &Input::with_set(share, MILLION / 8);
        let row = deposit(&Input::random(MILLION / 8), mask).set(share);
        bench.row(match share {
            0.5 | 0.9 => row.at_most(0.35, LOOP),
            _ => row,
        });
    }
}

fn plain<'a>(values: &'a [u32], mask: &'a Input) -> Contender<'a> {
    Contender::of(move || black_box(&loops::filtered(values, mask)).len())
}

fn memcpy(values: &[u32]) -> Contender<'_> {
    let over = RefCell::new(vec![0; values.len()]);
    Contender::of(move || {
        over.borrow_mut().copy_from_slice(values);
        0
    })
}

/// A filter into a new buffer.
fn owned<'a>(values: &'a [u32], mask: &'a Input) -> Row<'a> {
    let bytes = mask.bytes(MILLION / 8);
    let ours = move |rounds| unsafe {
        let (items, many) = (values.as_ptr(), values.len());
        calls::bench_filtered(items, many, bytes.as_ptr(), bytes.len(), rounds)
    };
    Row::new("`Buffer::filtered`", Contender::in_rounds(ours))
        .items(values.len())
        .upstream(upstream!({
            let set = crate::upstream::set(mask.bits(0, values.len()));
            let buffer = vortex_buffer::Buffer::<u32>::copy_from(values);
            Contender::of(move || crate::upstream::filtered(&buffer, &set))
        }))
        .plain(plain(values, mask))
        .beside(MEMCPY, memcpy(values))
}

/// A filter into existing memory.
fn into<'a, T: Copy + Default + 'a>(
    call: &str,
    values: &'a [T],
    mask: &'a Input,
    filter: Filter<T>,
) -> Row<'a> {
    let bytes = mask.bytes(MILLION / 8);
    let over = RefCell::new(vec![T::default(); values.len()]);
    let ours = move || {
        let out = &mut *over.borrow_mut();
        let (to, room) = (out.as_mut_ptr(), out.len());
        let (from, many) = (values.as_ptr(), values.len());
        unsafe { filter(to, room, from, many, bytes.as_ptr(), bytes.len(), 0) }
    };
    let over = RefCell::new(vec![T::default(); values.len()]);
    let ones = move || loops::filter_ones(&mut over.borrow_mut(), values, mask);
    Row::new(call, Contender::of(ours))
        .items(values.len())
        .beside(ONES, Contender::of(ones))
}

/// Values of other widths than four bytes.
fn other_widths(bench: &mut Bench) {
    let bytes: &Vec<u8> = &(0..MILLION).map(|it| it as u8).collect();
    let halves: &Vec<u16> = &(0..MILLION).map(|it| it as u16).collect();
    let wide: &Vec<u64> = &(0..MILLION as u64).collect();
    for share in [0.5, 0.1, 0.001, 0.9] {
        let mask = &Input::with_set(share, MILLION / 8);
        for row in [
            into(
                "`filter_elements_into` of `u8`",
                bytes,
                mask,
                calls::vb_filter_values_u8,
            ),
            into(
                "`filter_elements_into` of `u16`",
                halves,
                mask,
                calls::vb_filter_values_u16,
            ),
            into(
                "`filter_elements_into` of `u64`",
                wide,
                mask,
                calls::vb_filter_values_u64,
            ),
        ] {
            bench.row(row.set(share));
        }
    }
}

/// A filter to the bits from bit `offset` on of existing memory.
fn bits<'a>(values: &Input, mask: &'a Input, offset: usize) -> Row<'a> {
    let (values, by) = (
        Input::copied(values.bytes(MILLION / 8)),
        mask.bytes(MILLION / 8),
    );
    let (from, to) = (values, RefCell::new(vec![0u64; MILLION / 64 + 1]));
    let again = Input::copied(from.bytes(MILLION / 8));
    #[cfg(feature = "upstream")]
    let sets = [&from, mask].map(|it| crate::upstream::set(it.bits(0, MILLION)));
    let ours = move || {
        let out = &mut *to.borrow_mut();
        let (bytes, size) = (from.bytes(MILLION / 8), MILLION / 8);
        let (out, room) = (out.as_mut_ptr().cast(), 8 * out.len());
        unsafe {
            let (from, mask) = (bytes.as_ptr(), by.as_ptr());
            calls::vb_filter_bits(out, room, offset, from, size, 0, mask, by.len(), 0, MILLION)
        }
    };
    let over = RefCell::new(vec![0u64; MILLION / 64]);
    let plain = move || loops::filter_bits(&mut over.borrow_mut(), &again, mask, MILLION);
    Row::new("`filter_into`, of bits", Contender::of(ours))
        .bits(MILLION)
        .upstream(upstream!({
            let [bits, mask] = sets;
            Contender::of(move || crate::upstream::filter_bits(&bits, &mask))
        }))
        .plain(Contender::of(plain))
        .at_most(0.25, LOOP)
}

fn deposit<'a>(values: &Input, mask: &'a Input) -> Row<'a> {
    let (from, again, by) = (copied(values), copied(values), mask.bytes(MILLION / 8));
    let to = RefCell::new(vec![0u64; MILLION / 64]);
    let many = by.iter().map(|byte| byte.count_ones() as usize).sum();
    #[cfg(feature = "upstream")]
    let sets = [values.bits(0, many), mask.bits(0, MILLION)].map(crate::upstream::set);
    let ours = move || {
        let out = &mut *to.borrow_mut();
        let (bytes, size) = (from.bytes(MILLION / 8), MILLION / 8);
        let (out, room) = (out.as_mut_ptr().cast(), 8 * out.len());
        unsafe {
            let (from, mask) = (bytes.as_ptr(), by.as_ptr());
            calls::bench_deposit_into(out, room, from, size, many, mask, by.len(), MILLION)
        }
    };
    let over = RefCell::new(vec![0u64; MILLION / 64]);
    let plain = move || loops::deposit(&mut over.borrow_mut(), &again, mask, MILLION);
    Row::new("`deposit_into`, of bits", Contender::of(ours))
        .bits(MILLION)
        .upstream(upstream!({
            let [bits, mask] = sets;
            Contender::of(move || crate::upstream::deposit(&bits, &mask))
        }))
        .plain(Contender::of(plain))
}

fn copied(input: &Input) -> Input {
    Input::copied(input.bytes(MILLION / 8))
}
