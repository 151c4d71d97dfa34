//! Two windows at once: how many bits they have in common, and whether one has all of the other's.

use super::MILLION;
use crate::bench::Bench;
use crate::calls;
use crate::input::Input;
use crate::loops;
use crate::measure::Contender;
use crate::row::{LOOP, Row};

pub fn measure(bench: &mut Bench) {
    bench.begin("Two windows");
    let (left, right) = (&Input::random(MILLION / 8), &Input::random(MILLION / 8));
    for (l, r) in [(0, 0), (0, 3), (3, 5)] {
        let (a, b) = (left.bits(l, MILLION), right.bits(r, MILLION));
        let ours = move || unsafe {
            let (from, by) = (a.bytes.as_ptr(), b.bytes.as_ptr());
            calls::vb_and_count(from, a.bytes.len(), l, by, b.bytes.len(), r, MILLION)
        };
        let plain = move || loops::and_count((left, l), (right, r), MILLION);
        let row = Row::new("`and_count`", Contender::of(ours))
            .bits(MILLION)
            .offsets(&[l, r])
            .plain(Contender::of(plain));
        bench.row(row.at_most(1.0, LOOP));
    }
    let all = left.bits(0, MILLION);
    let ours = move || unsafe {
        let (bytes, size) = (all.bytes.as_ptr(), all.bytes.len());
        usize::from(calls::vb_is_subset(bytes, size, 0, bytes, size, 0, MILLION))
    };
    let plain = move || usize::from(loops::is_subset((left, 0), (left, 0), MILLION));
    let row = Row::new("`is_subset`, of itself", Contender::of(ours))
        .bits(MILLION)
        .plain(Contender::of(plain));
    bench.row(row.at_most(1.2, LOOP));
}
