//! Walks over the bits, their words, the indices of set bits, and runs.

use super::{MILLION, upstream};
use crate::bench::Bench;
use crate::calls::{self, OnWindow, on};
use crate::input::{Input, Random, Window};
use crate::loops;
use crate::measure::Contender;
use crate::row::{LOOP, Row, UPSTREAM};

/// The shares of bits that are set.
pub const SHARES: [f64; 6] = [0.001, 0.01, 0.1, 0.5, 0.99, 1.0];

#[cfg(feature = "upstream")]
const UPSTREAM_FOLD: &str = "upstream in a `fold`";

pub fn measure(bench: &mut Bench) {
    bench.begin("Walks");
    for offset in [0, 3] {
        for share in SHARES {
            let input = &Input::with_set(share, MILLION / 8);
            let w = input.bits(offset, MILLION);
            bench.row(places(input, w, share));
            bench.row(runs(w).set(share));
        }
        let long = Input::in_runs(1_000, MILLION / 8);
        bench.row(runs(long.bits(offset, MILLION)).how("runs of 1,000 bits"));
        let input = &Input::random(MILLION / 8);
        bits(bench, input.bits(offset, MILLION));
        words(bench, input, offset);
        single(bench, input.bits(offset, MILLION));
    }
}

fn walk<'a>(call: &str, ours: OnWindow, w: Window<'a>) -> Row<'a> {
    Row::new(call, Contender::of(move || on(ours, w)))
        .bits(w.len)
        .offsets(&[w.offset])
}

/// A target is relative to the loop; if less than a tenth of the bits is set, one to upstream too.
fn places<'a>(input: &'a Input, w: Window<'a>, share: f64) -> Row<'a> {
    let row = walk("`set_indices`, summed", calls::bench_set_indices, w)
        .set(share)
        .upstream(upstream!(Contender::of(move || {
            crate::upstream::set_indices(w)
        })))
        .plain(Contender::of(move || {
            loops::set_indices(input, w.offset, w.len)
        }))
        .at_most(1.05, LOOP);
    if share < 0.1 {
        row.at_most(1.0, UPSTREAM)
    } else {
        row
    }
}

fn runs(w: Window<'_>) -> Row<'_> {
    walk("`set_slices`, summed", calls::bench_set_slices, w)
        .upstream(upstream!(Contender::of(move || {
            crate::upstream::set_slices(w)
        })))
        .at_most(0.8, UPSTREAM)
}

fn bits(bench: &mut Bench, w: Window) {
    let plain = || Contender::of(move || loops::iter(w));
    let row = walk("`iter`, one by one", calls::bench_iter, w)
        .set(0.5)
        .upstream(upstream!(Contender::of(move || crate::upstream::iter(w))))
        .plain(plain())
        .at_most(1.0, UPSTREAM);
    bench.row(row);
    let row = walk("`iter`, folded", calls::bench_iter_fold, w)
        .set(0.5)
        .upstream(upstream!(Contender::of(
            move || crate::upstream::iter_fold(w)
        )))
        .plain(plain())
        .at_most(1.0, UPSTREAM);
    bench.row(row);
}

fn words(bench: &mut Bench, input: &Input, offset: usize) {
    let most = if offset == 0 { 1.0 } else { 0.8 };
    let w = input.bits(offset, MILLION);
    let plain = || Contender::of(move || loops::chunks(input, offset, MILLION));
    let row = walk("`chunks`, summed", calls::bench_chunks, w)
        .upstream(upstream!(Contender::of(move || crate::upstream::chunks(w))))
        .plain(plain())
        .at_most(most, UPSTREAM);
    bench.row(row);
    let row = walk(
        "`iter_padded`, summed in a `for`",
        calls::bench_iter_padded,
        w,
    )
    .upstream(upstream!(Contender::of(move || {
        crate::upstream::iter_padded(w)
    })))
    .plain(plain())
    .at_most(most, UPSTREAM);
    #[cfg(feature = "upstream")]
    let row = row.beside(
        UPSTREAM_FOLD,
        Contender::of(move || crate::upstream::iter_padded_fold(w)),
    );
    bench.row(row);
}

/// Single bits: those at random indices, and the last set bit of a set with only its first bit.
fn single(bench: &mut Bench, w: Window) {
    let places = &Random(5).list(4096, w.len);
    let value = move || unsafe {
        let (bytes, size) = (w.bytes.as_ptr(), w.bytes.len());
        calls::bench_value(bytes, size, w.offset, w.len, places.as_ptr(), places.len())
    };
    let bit = move |at: usize| (w.bytes[at / 8] >> (at % 8) & 1) as usize;
    let plain = move || places.iter().map(|place| bit(w.offset + place)).sum();
    let row = Row::new("`value`, random places", Contender::of_each(4096, value))
        .bits(w.len)
        .offsets(&[w.offset])
        .upstream(upstream!(Contender::of_each(4096, move || {
            crate::upstream::value(w, places)
        })))
        .plain(Contender::of_each(4096, plain))
        .at_most(1.05, UPSTREAM);
    bench.row(row);
    let mut one = vec![0; w.bytes.len()];
    one[0] = 0x80;
    let w = Window { bytes: &one, ..w };
    let row = walk(
        "`last_set_index` of a first bit",
        calls::bench_last_set_index,
        w,
    )
    .upstream(upstream!({
        let set = crate::upstream::set(w);
        Contender::of(move || crate::upstream::last_set_index(&set))
    }))
    .plain(Contender::of(move || {
        let byte = w
            .bytes
            .iter()
            .rposition(|&byte| byte != 0)
            .expect("one bit is true");
        8 * byte + 7 - w.bytes[byte].leading_zeros() as usize - w.offset
    }))
    .at_most(1.05, UPSTREAM);
    bench.row(row);
}
