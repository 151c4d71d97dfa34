//! Operators, negation and equality.

use std::cell::RefCell;

use super::{MILLION, upstream};
use crate::bench::Bench;
use crate::calls;
use crate::input::{Input, Window};
use crate::loops;
use crate::measure::Contender;
use crate::row::{LOOP, Row, UPSTREAM};

/// Offsets of a left and a right set.
const PAIRS: [(usize, usize); 3] = [(0, 0), (0, 3), (5, 2)];

const NAMES: [&str; 4] = ["`&`", "`|`", "`^`", "`bitand_not`"];

const MEMCMP: &str = "memcmp";

pub fn measure(bench: &mut Bench) {
    bench.begin("Operators");
    let left = &Input::random(MILLION / 8);
    let right = &Input::with_set(0.3, MILLION / 8);
    for (operator, name) in NAMES.into_iter().enumerate() {
        let pairs = if operator == 0 {
            &PAIRS[..]
        } else {
            &PAIRS[..2]
        };
        for &offsets in pairs {
            let most = if offsets == (0, 0) { 1.0 } else { 0.2 };
            bench.row(lent(name, operator, left, right, offsets, MILLION).at_most(most, UPSTREAM));
            bench.row(owned(name, operator, left, right, offsets));
        }
    }
    for len in [64, 512] {
        for offsets in PAIRS {
            bench.row(lent("`&`", 0, left, right, offsets, len).at_most(1.0, UPSTREAM));
        }
    }
    for offset in [0, 3] {
        negations(bench, left.bits(offset, MILLION));
    }
    equality(bench, left);
}

/// An operator by reference.
fn lent<'a>(
    name: &str,
    operator: usize,
    left: &'a Input,
    right: &'a Input,
    (l, r): (usize, usize),
    len: usize,
) -> Row<'a> {
    let (a, b) = (left.bits(l, len), right.bits(r, len));
    let ours = move |rounds| unsafe { run(calls::bench_operator, a, b, operator, rounds) };
    let row = Row::new(format!("{name} by reference"), Contender::in_rounds(ours))
        .bits(len)
        .offsets(&[l, r])
        .upstream(upstream!({
            let (a, b) = (crate::upstream::set(a), crate::upstream::set(b));
            let combine = std::hint::black_box(crate::upstream::operator(operator));
            Contender::of(move || combine(&a, &b))
        }));
    if operator > 0 {
        return row;
    }
    row.plain(Contender::of(move || {
        loops::combine((left, l), (right, r), len)
    }))
}

/// An operator with an owned left set, in place.
fn owned<'a>(
    name: &str,
    operator: usize,
    left: &'a Input,
    right: &'a Input,
    (l, r): (usize, usize),
) -> Row<'a> {
    let (a, b) = (left.bits(l, MILLION), right.bits(r, MILLION));
    let ours = move |rounds| unsafe { run(calls::bench_operator_owned, a, b, operator, rounds) };
    let row = Row::new(format!("{name} in place"), Contender::in_rounds(ours))
        .bits(MILLION)
        .offsets(&[l, r])
        .upstream(upstream!({
            let a = std::cell::Cell::new(Some(crate::upstream::set(a)));
            let b = crate::upstream::set(b);
            let combine = std::hint::black_box(crate::upstream::operator_owned(operator));
            Contender::of(move || combine(&a, &b))
        }));
    if operator > 0 {
        return row;
    }
    let words = RefCell::new(left.words()[..MILLION / 64].to_vec());
    let plain = move || {
        loops::combine_in_place(&mut words.borrow_mut(), (right, r), MILLION);
        MILLION
    };
    let row = row.plain(Contender::of(plain));
    // The loop's left words begin at bit 0, so only at left offset 0 does it do the same work.
    if l == 0 { row.at_most(1.0, LOOP) } else { row }
}

unsafe fn run(
    call: calls::Operator,
    a: Window,
    b: Window,
    operator: usize,
    rounds: usize,
) -> usize {
    let (left, right) = (a.bytes.as_ptr(), b.bytes.as_ptr());
    let sizes = (a.bytes.len(), b.bytes.len());
    unsafe {
        call(
            left, sizes.0, a.offset, right, sizes.1, b.offset, a.len, operator, rounds,
        )
    }
}

fn negations(bench: &mut Bench, w: Window) {
    let (bytes, size) = (w.bytes.as_ptr(), w.bytes.len());
    let lent =
        move |rounds| unsafe { calls::bench_set(bytes, size, w.offset, w.len, 2, 0, rounds) };
    let row = Row::new("`!` by reference", Contender::in_rounds(lent))
        .bits(w.len)
        .offsets(&[w.offset])
        .upstream(upstream!({
            let set = crate::upstream::set(w);
            Contender::of(move || crate::upstream::not(&set))
        }))
        .at_most(1.0, UPSTREAM);
    bench.row(row);
    let owned =
        move |rounds| unsafe { calls::bench_not_owned(bytes, size, w.offset, w.len, rounds) };
    let words = RefCell::new(vec![0u64; w.len / 64]);
    let plain = move || {
        words
            .borrow_mut()
            .iter_mut()
            .for_each(|word| *word = !*word);
        w.len
    };
    let row = Row::new("`!` in place", Contender::in_rounds(owned))
        .bits(w.len)
        .offsets(&[w.offset])
        .upstream(upstream!({
            let set = std::cell::Cell::new(Some(crate::upstream::set(w)));
            Contender::of(move || crate::upstream::not_owned(&set))
        }))
        .plain(Contender::of(plain))
        .at_most(1.0, UPSTREAM);
    bench.row(row);
}

fn equality(bench: &mut Bench, input: &Input) {
    let sets: Vec<Input> = (0..6).map(|offset| Input::shifted(input, offset)).collect();
    for len in [512, MILLION] {
        for (l, r) in [(0, 0), (3, 3), (0, 3), (5, 2)] {
            let most = if l == r { 1.05 } else { 1.5 };
            let row = equal(sets[l].bits(l, len), sets[r].bits(r, len));
            bench.row(if len == MILLION {
                row.at_most(most, MEMCMP)
            } else {
                row
            });
        }
    }
    let other = Input::shifted(&Input::with_set(0.3, MILLION / 8), 3);
    for l in [3, 0] {
        let row = equal(sets[l].bits(l, MILLION), other.bits(3, MILLION));
        bench.row(row.how("the first words differ").at_most_ns(20.0));
    }
}

fn equal<'a>(left: Window<'a>, right: Window<'a>) -> Row<'a> {
    let ours = move || unsafe {
        let (a, b) = (left.bytes, right.bytes);
        let (l, r) = (left.offset, right.offset);
        calls::bench_eq(a.as_ptr(), a.len(), l, b.as_ptr(), b.len(), r, left.len)
    };
    let size = left.len / 8;
    let copy = Input::copied(&left.bytes[..size]);
    let compare = move || (std::hint::black_box(copy.bytes(size)) == &left.bytes[..size]) as usize;
    Row::new("`==`", Contender::of(ours))
        .bits(left.len)
        .offsets(&[left.offset, right.offset])
        .upstream(upstream!(Contender::of(move || crate::upstream::eq(
            left, right
        ))))
        .beside(MEMCMP, Contender::of(compare))
}
