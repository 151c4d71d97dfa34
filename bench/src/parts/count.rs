//! Counts.

use super::{SIZES, upstream};
use crate::bench::Bench;
use crate::calls::{on, vb_count_ones};
use crate::input::Input;
use crate::loops;
use crate::measure::Contender;
use crate::row::{LOOP, Row, UPSTREAM};

const READING: &str = "sum of the words";

pub fn measure(bench: &mut Bench) {
    bench.begin("Counts");
    let input = Input::random(*SIZES.last().expect("there are sizes"));
    for offset in [0, 3] {
        for (k, size) in SIZES.into_iter().enumerate() {
            let w = input.window(size, offset);
            let mut row = Row::new("`count_ones`", Contender::of(move || on(vb_count_ones, w)))
                .bits(w.len)
                .offsets(&[offset])
                .set(0.5)
                .upstream(upstream!(Contender::of(move || {
                    crate::upstream::count_ones(w)
                })))
                .plain(Contender::of(move || loops::count_ones(w)));
            let most = most(&bench.level, offset)[k];
            row = row.at_most(most, LOOP);
            if size > 64 {
                row = row.at_most(most, UPSTREAM);
            }
            if size == 64 << 20 {
                let sum = Contender::of(move || loops::sum_words(w.bytes));
                row = row.beside(READING, sum).at_most(1.0 / 0.9, READING);
            }
            bench.row(row);
        }
    }
}

/// The greatest allowed ratio of a count to the loop, for each size. At x86-64-v2 the loop's
/// instruction counts a word a cycle, which vectors of 16 bytes don't outdo.
fn most(level: &str, offset: usize) -> [f64; 6] {
    match (level, offset) {
        ("x86-64-v2", 0) => [1.5, 1.05, 1.05, 1.05, 1.05, 1.05],
        ("x86-64-v2", _) => [1.3, 1.05, 1.05, 1.05, 1.05, 1.05],
        ("x86-64-v3", 0) => [1.5, 1.05, 0.85, 0.75, 0.75, 1.05],
        (_, 0) => [1.5, 1.05, 0.85, 0.55, 0.55, 1.05],
        _ => [1.5, 1.05, 1.05, 1.05, 1.05, 1.05],
    }
}
