//! Calls that take little time each: sets made, shared, sliced, edited and grown.

use super::{MILLION, upstream};
use crate::bench::Bench;
use crate::calls;
use crate::input::{Input, Random, Window};
use crate::measure::Contender;
use crate::row::{Row, UPSTREAM};

pub fn measure(bench: &mut Bench) {
    bench.begin("Small calls");
    for len in [64, 10_000, MILLION] {
        made(bench, len);
    }
    let input = Input::random(MILLION / 8);
    let w = input.bits(0, MILLION);
    for start in [5, 1_000] {
        let call = format!("`slice` from bit {start} on, and drop");
        let row = question(&call, w, 0, start).upstream(upstream!({
            let set = crate::upstream::set(w);
            Contender::of(move || crate::upstream::slice(&set, start))
        }));
        bench.row(row.at_most(0.8, UPSTREAM));
    }
    let row = question("`clone` and drop", w, 1, 0).upstream(upstream!({
        let set = crate::upstream::set(w);
        Contender::of(move || crate::upstream::clone(&set))
    }));
    bench.row(row.at_most(1.05, UPSTREAM));
    shared(bench);
    edits(bench);
    grown(bench);
}

fn made(bench: &mut Bench, len: usize) {
    let ours = move || unsafe { calls::bench_new_set(len) };
    let row = Row::new("`new_set`", Contender::of(ours))
        .bits(len)
        .upstream(upstream!(Contender::of(move || crate::upstream::new_set(
            len
        ))));
    bench.row(row.at_most(1.1, UPSTREAM));
    let ours = move || unsafe { calls::bench_new_unset(len) };
    let row = Row::new("`new_unset`", Contender::of(ours))
        .bits(len)
        .upstream(upstream!(Contender::of(
            move || crate::upstream::new_unset(len)
        )));
    bench.row(row.at_most(1.1, UPSTREAM));
}

/// A call on a set by reference that returns a set.
fn question<'a>(call: &str, w: Window<'a>, question: usize, start: usize) -> Row<'a> {
    let (bytes, size) = (w.bytes.as_ptr(), w.bytes.len());
    let ours = move |rounds| unsafe {
        calls::bench_set(bytes, size, w.offset, w.len, question, start, rounds)
    };
    Row::new(call, Contender::in_rounds(ours)).bits(w.len)
}

fn shared(bench: &mut Bench) {
    let ours = |rounds| unsafe { calls::bench_freeze_try_into_mut(MILLION, rounds) };
    let row = Row::new("`freeze` and `try_into_mut`", Contender::in_rounds(ours))
        .bits(MILLION)
        .upstream(upstream!({
            let set = std::cell::Cell::new(Some(vortex_buffer::BitBufferMut::new_set(MILLION)));
            Contender::of(move || crate::upstream::freeze_try_into_mut(&set))
        }));
    bench.row(row.at_most(1.05, UPSTREAM));
}

fn edits(bench: &mut Bench) {
    for (len, start) in [(512, 0), (512, 3), (MILLION, 0), (MILLION, 3)] {
        let ours = move |rounds| unsafe { calls::bench_fill_range(len, start, rounds) };
        let row = Row::new("`fill_range`", Contender::in_rounds(ours))
            .bits(len)
            .how(format!("from bit {start} on"))
            .upstream(upstream!({
                let set = std::cell::RefCell::new(vortex_buffer::BitBufferMut::new_unset(len));
                let value = std::cell::Cell::new(false);
                Contender::of(move || {
                    value.set(!value.get());
                    crate::upstream::fill_range(&mut set.borrow_mut(), start, value.get())
                })
            }));
        bench.row(row.at_most(1.05, UPSTREAM));
    }
    let places = &Random(11).list(4096, MILLION);
    let ours = move |rounds| unsafe {
        calls::bench_set_to(MILLION, places.as_ptr(), places.len(), rounds)
    };
    let row = Row::new(
        "`set_to` at 4,096 random places",
        Contender::in_rounds(ours),
    )
    .bits(MILLION)
    .upstream(upstream!({
        let set = std::cell::RefCell::new(vortex_buffer::BitBufferMut::new_unset(MILLION));
        Contender::of(move || crate::upstream::set_to(&mut set.borrow_mut(), places))
    }));
    bench.row(row.at_most(1.05, UPSTREAM));
}

fn grown(bench: &mut Bench) {
    let input = Input::random(MILLION);
    let bytes = &input.bytes(MILLION)[..MILLION];
    let bools: &Vec<u8> = &bytes.iter().map(|byte| byte & 1).collect();
    for (how, room) in [("with capacity", MILLION), ("without capacity", 0)] {
        let ours = move || unsafe { calls::bench_append(bools.as_ptr(), MILLION, room) };
        let row = Row::new("`append` of a million bits", Contender::of(ours))
            .items(MILLION)
            .how(how)
            .upstream(upstream!(Contender::of(move || crate::upstream::append(
                bools, room
            ))));
        bench.row(row.at_most_ns_an_item(0.8));
        let ours = move || unsafe { calls::bench_appender(bools.as_ptr(), MILLION, room) };
        let row = Row::new(
            "`append` of an appender, a million bits",
            Contender::of(ours),
        )
        .items(MILLION)
        .how(how)
        .upstream(upstream!(Contender::of(move || crate::upstream::append(
            bools, room
        ))));
        bench.row(row.at_most_ns_an_item(0.8));
    }
    for before in [0, 3] {
        let ours = move || unsafe { calls::bench_append_n(before, MILLION) };
        let row = Row::new("`append_n` of a million bits", Contender::of(ours))
            .bits(MILLION)
            .how(format!("behind {before} bits"))
            .upstream(upstream!(Contender::of(move || {
                crate::upstream::append_n(before, MILLION)
            })));
        bench.row(row.at_most(1.05, UPSTREAM));
    }
}
