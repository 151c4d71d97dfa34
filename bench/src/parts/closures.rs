//! Closures called at the bits of a set.

use super::walks::SHARES;
use super::{MILLION, upstream};
use crate::bench::Bench;
use crate::calls::{self, InRounds, in_rounds};
use crate::input::{Input, Window};
use crate::loops;
use crate::measure::Contender;
use crate::row::{LOOP, Row, UPSTREAM};

pub fn measure(bench: &mut Bench) {
    bench.begin("Closures");
    for offset in [0, 3] {
        for share in SHARES {
            let input = &Input::with_set(share, MILLION / 8);
            bench.row(set(input, input.bits(offset, MILLION), share));
            bench.row(unset(input, input.bits(offset, MILLION), share));
        }
        let input = Input::random(MILLION / 8);
        bits(bench, input.bits(offset, MILLION));
    }
}

fn row<'a>(call: &str, ours: InRounds, w: Window<'a>, share: f64) -> Row<'a> {
    let ours = Contender::in_rounds(move |rounds| in_rounds(ours, w, rounds));
    Row::new(call, ours)
        .bits(w.len)
        .offsets(&[w.offset])
        .set(share)
}

/// The target is relative to the loop; if `share` is less than a tenth, to upstream.
fn held(row: Row<'_>, share: f64) -> Row<'_> {
    if share < 0.1 {
        row.at_most(1.0, UPSTREAM)
    } else {
        row.at_most(1.05, LOOP)
    }
}

fn set<'a>(input: &'a Input, w: Window<'a>, share: f64) -> Row<'a> {
    let row = row(
        "`for_each_set_index`, summed",
        calls::bench_for_each_set_index,
        w,
        share,
    )
    .upstream(upstream!({
        let set = crate::upstream::set(w);
        Contender::of(move || crate::upstream::for_each_set_index(&set))
    }))
    .plain(Contender::of(move || {
        loops::set_indices(input, w.offset, w.len)
    }));
    held(row, share)
}

fn unset<'a>(input: &'a Input, w: Window<'a>, share: f64) -> Row<'a> {
    let row = row(
        "`for_each_unset_index`, summed",
        calls::bench_for_each_unset_index,
        w,
        share,
    )
    .upstream(upstream!({
        let set = crate::upstream::set(w);
        Contender::of(move || crate::upstream::for_each_unset_index(&set))
    }))
    .plain(Contender::of(move || {
        loops::unset_indices(input, w.offset, w.len)
    }));
    held(row, 1.0 - share)
}

/// Closures that are called at every bit.
fn bits(bench: &mut Bench, w: Window) {
    let row_of_bits = row("`iter_bits`, summed", calls::bench_iter_bits, w, 0.5)
        .upstream(upstream!({
            let set = crate::upstream::set(w);
            Contender::of(move || crate::upstream::iter_bits(&set))
        }))
        .plain(Contender::of(move || loops::iter_bits(w)));
    bench.row(row_of_bits.at_most(1.05, UPSTREAM));
    let row_of_map = row("`map_cmp` with a parity", calls::bench_map_cmp, w, 0.5)
        .upstream(upstream!({
            let set = crate::upstream::set(w);
            Contender::of(move || crate::upstream::map_cmp(&set))
        }))
        .plain(Contender::of(move || loops::map_cmp(w)));
    bench.row(row_of_map.at_most(1.0, UPSTREAM));
}
