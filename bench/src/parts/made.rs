//! Sets built from closures, lists, iterators and indices.

use std::cell::RefCell;

use super::{MILLION, upstream};
use crate::bench::Bench;
use crate::calls;
use crate::input::Random;
use crate::loops;
use crate::measure::Contender;
use crate::row::{LOOP, Row, UPSTREAM};

const READING: &str = "sum of the bytes' words";
const FROM_BOOLS: &str = "`from_bools`";
const LIMIT: u32 = 1 << 31;

pub fn measure(bench: &mut Bench) {
    bench.begin("Packing");
    let mut random = Random(6);
    let values: Vec<u32> = (0..MILLION).map(|_| random.number() as u32).collect();
    collected(bench, &values);
    let bools: Vec<bool> = values.iter().map(|&value| value < LIMIT).collect();
    let truthy: Vec<u8> = values
        .iter()
        .map(|&v| if v < LIMIT { v as u8 | 1 } else { 0 })
        .collect();
    packed(bench, &bools, &truthy);
    for many in [100, MILLION] {
        for before in [0, 3] {
            bench.row(appended(&bools[..many], before));
            bench.row(extended(&truthy[..many], before));
        }
    }
    places(bench);
}

fn collected(bench: &mut Bench, values: &[u32]) {
    let (list, many) = (values.as_ptr(), values.len());
    let plain = || Contender::of(move || loops::collect_below(values, LIMIT));
    let ours = move || unsafe { calls::bench_collect_bool(list, many, LIMIT) };
    let row = Row::new("`collect_bool`, `v[i] < x`", Contender::of(ours))
        .items(many)
        .upstream(upstream!(Contender::of(move || {
            crate::upstream::collect_bool(values, LIMIT)
        })))
        .plain(plain());
    bench.row(row.at_most(1.0, UPSTREAM));
    let ours = move || unsafe { calls::bench_collect_bool_multiversioned(list, many, LIMIT) };
    let row = Row::new(
        "`collect_bool_multiversioned`, `v[i] < x`",
        Contender::of(ours),
    )
    .items(many)
    .upstream(upstream!(Contender::of(move || {
        crate::upstream::collect_bool_multiversioned(values, LIMIT)
    })))
    .plain(plain());
    bench.row(row.at_most(1.0, UPSTREAM));
}

fn packed(bench: &mut Bench, bools: &[bool], truthy: &[u8]) {
    let many = truthy.len();
    let reading = || Contender::of(move || loops::sum_words(truthy));
    let bytes = truthy.as_ptr();
    let from_bools =
        || Contender::of(move || unsafe { calls::bench_from_bools(bools.as_ptr(), many) });
    let row = Row::new("`from_bools`", from_bools())
        .items(many)
        .upstream(upstream!(Contender::of(move || {
            crate::upstream::from_bools(bools)
        })))
        .plain(Contender::of(move || loops::collect(many, |i| bools[i])))
        .beside(READING, reading());
    bench.row(row.at_most(2.0, READING));
    let ours = move || unsafe { calls::bench_from_truthy(bytes, many) };
    let row = Row::new("`from_truthy`", Contender::of(ours))
        .items(many)
        .upstream(upstream!(Contender::of(move || {
            crate::upstream::from_truthy(truthy)
        })))
        .plain(Contender::of(move || loops::collect_truthy(truthy)))
        .beside(READING, reading());
    bench.row(row.at_most(2.0, READING));
    let ours = move || unsafe { calls::bench_from_iter(bytes, many) };
    let row = Row::new("`from_iter`", Contender::of(ours))
        .items(many)
        .upstream(upstream!(Contender::of(
            move || crate::upstream::from_iter(truthy)
        )))
        .beside(FROM_BOOLS, from_bools());
    bench.row(row.at_most(2.0, FROM_BOOLS));
}

/// Truth values appended after so many bits.
fn appended(bools: &[bool], before: usize) -> Row<'_> {
    let (list, many) = (bools.as_ptr(), bools.len());
    let ours = move |rounds| unsafe { calls::bench_append_bools(list, many, before, rounds) };
    let words = RefCell::new(vec![u64::MAX; before.div_ceil(64)]);
    let plain = move || loops::append_bools(&mut words.borrow_mut(), before, bools);
    Row::new("`append_bools`", Contender::in_rounds(ours))
        .items(many)
        .how(format!("behind {before} bits"))
        .upstream(upstream!({
            let grown = RefCell::new(vortex_buffer::BitBufferMut::new_set(before));
            Contender::of(move || {
                crate::upstream::append_bools(&mut grown.borrow_mut(), bools, before)
            })
        }))
        .plain(Contender::of(plain))
        .at_most(1.0, LOOP)
}

/// The same by an iterator.
fn extended(truthy: &[u8], before: usize) -> Row<'_> {
    let (bytes, many) = (truthy.as_ptr(), truthy.len());
    let ours = move |rounds| unsafe { calls::bench_extend(bytes, many, before, rounds) };
    let words = RefCell::new(vec![u64::MAX; before.div_ceil(64)]);
    let plain = move || {
        let bits = truthy.iter().map(|&byte| byte != 0);
        loops::extend(&mut words.borrow_mut(), before, bits)
    };
    Row::new("`extend` of bits", Contender::in_rounds(ours))
        .items(many)
        .how(format!("behind {before} bits"))
        .upstream(upstream!({
            let grown = RefCell::new(vortex_buffer::BitBufferMut::new_set(before));
            Contender::of(move || crate::upstream::extend(&mut grown.borrow_mut(), truthy, before))
        }))
        .plain(Contender::of(plain))
        .at_most(1.0, LOOP)
}

fn places(bench: &mut Bench) {
    let len = 2 * MILLION;
    let mut random = Random(7);
    let ascending: Vec<usize> = (0..MILLION).map(|k| 2 * k + random.below(2)).collect();
    let anywhere = random.list(MILLION, len);
    for (how, list) in [("ascending", &ascending), ("random", &anywhere)] {
        let ours = move || unsafe { calls::bench_from_indices(len, list.as_ptr(), list.len()) };
        let row = Row::new("`from_indices`", Contender::of(ours))
            .items(list.len())
            .bits(len)
            .how(how)
            .upstream(upstream!(Contender::of(move || {
                crate::upstream::from_indices(len, list)
            })))
            .plain(Contender::of(move || loops::from_indices(len, list)));
        bench.row(if how == "ascending" {
            row.at_most_ns_an_item(2.0)
        } else {
            row
        });
    }
}
