//! Truth values that may be null, combined by three-valued logic.

use std::cell::RefCell;

use super::MILLION;
use crate::bench::Bench;
use crate::calls;
use crate::input::Input;
use crate::loops;
use crate::measure::Contender;
use crate::row::{LOOP, Row};

pub fn measure(bench: &mut Bench) {
    bench.begin("Three-valued logic");
    let size = MILLION / 8;
    let left = [&Input::random(size), &Input::with_set(0.9, size)];
    let right = [&Input::with_set(0.3, size), &Input::with_set(0.8, size)];
    for offset in [0, 3] {
        bench.row(row(left, right, offset, MILLION - 64).at_most(1.2, LOOP));
    }
}

/// `and` of two columns of values and validity. The right column begins with bit `offset`.
fn row<'a>(left: [&'a Input; 2], right: [&'a Input; 2], offset: usize, len: usize) -> Row<'a> {
    let outs = || RefCell::new([vec![0u64; len / 64], vec![0u64; len / 64]]);
    let (to, over) = (outs(), outs());
    let columns = [
        left.map(|it| it.bits(0, len)),
        right.map(|it| it.bits(offset, len)),
    ];
    let ours = move || {
        let [trues, valid] = &mut *to.borrow_mut();
        let [[a, a_valid], [b, b_valid]] = columns;
        unsafe {
            calls::vb_and_kleene(
                trues.as_mut_ptr().cast(),
                8 * trues.len(),
                0,
                valid.as_mut_ptr().cast(),
                8 * valid.len(),
                0,
                a.bytes.as_ptr(),
                a.bytes.len(),
                a.offset,
                false,
                a_valid.bytes.as_ptr(),
                a_valid.bytes.len(),
                a_valid.offset,
                b.bytes.as_ptr(),
                b.bytes.len(),
                b.offset,
                false,
                b_valid.bytes.as_ptr(),
                b_valid.bytes.len(),
                b_valid.offset,
                len,
            )
        };
        0
    };
    let plain = move || {
        loops::and_kleene(&mut over.borrow_mut(), left, right, offset, len);
        0
    };
    Row::new("`and_kleene`", Contender::of(ours))
        .bits(len)
        .offsets(&[0, offset])
        .plain(Contender::of(plain))
}
