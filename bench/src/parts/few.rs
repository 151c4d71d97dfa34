//! C's calls on few bits and values, as engines make them by the million, compared with loops over
//! words and the portable code of the Rust crate.

use std::cell::RefCell;
use std::mem::size_of;
use std::ptr::null;

use vortex_bits::{Bits, BitsMut, Compare as Compared, Comparison, Level, Value, values};

use super::compared::GREATER;
use crate::bench::Bench;
use crate::calls::{self, Bytes, Compare};
use crate::input::{Input, Random, Window};
use crate::measure::Contender;
use crate::row::{LOOP, PORTABLE, Row};
use crate::words;

/// How many bits or values there are.
const SIZES: [usize; 4] = [8, 64, 512, 1_000];

/// The first bits of the windows: of the left one, of the right one or the mask, and of those that
/// are written.
const OFFSETS: [[usize; 3]; 2] = [[0, 0, 0], [3, 5, 1]];

/// Calls whose loops, from x86-64-v3 on, use instructions that Rattle has no operation for.
const PACKED: [&str; 2] = ["`vb_filter_bits`", "`vb_deposit_bits`"];

/// What the calls of a size are given.
struct Case<'a> {
    len: usize,
    left: Window<'a>,
    left_valid: Window<'a>,
    right: Window<'a>,
    right_valid: Window<'a>,
    unset: Window<'a>,
    /// The first bit that is written.
    to: usize,
    halves: &'a [i32],
    wide: &'a [i64],
    floats: &'a [f64],
    indices: &'a [u32],
    outs: RefCell<Outs>,
}

/// What the calls write.
#[derive(PartialEq)]
struct Outs {
    bits: Vec<u8>,
    valid: Vec<u8>,
    halves: Vec<i32>,
    wide: Vec<i64>,
    indices: Vec<usize>,
}

impl Outs {
    fn new(len: usize) -> Self {
        let bytes = len / 8 + 9;
        Outs {
            bits: vec![0xA5; bytes],
            valid: vec![0xA5; bytes],
            halves: vec![0; len],
            wide: vec![0; len],
            indices: vec![0; len],
        }
    }
}

pub fn measure(bench: &mut Bench) {
    bench.begin("Few bits and values");
    assert_eq!(Level::current(), Level::Portable, "the Rust crate's code");
    let most = SIZES[3];
    let [bits, mask] = [Input::random(most), Input::with_set(0.5, most)];
    let [valid, unset] = [0.9, 0.0].map(|share| Input::with_set(share, most));
    let mut random = Random(6);
    let halves: Vec<_> = (0..most).map(|_| random.number() as i32).collect();
    let wide: Vec<_> = halves.iter().map(|&it| i64::from(it)).collect();
    let floats: Vec<_> = halves.iter().map(|&it| f64::from(it)).collect();
    for len in SIZES {
        let indices: Vec<_> = (0..len).map(|_| random.below(len) as u32).collect();
        for offsets in OFFSETS {
            let case = Case {
                len,
                left: bits.bits(offsets[0], len),
                left_valid: valid.bits(offsets[0], len),
                right: mask.bits(offsets[1], len),
                right_valid: valid.bits(offsets[1], len),
                unset: unset.bits(offsets[0], len),
                to: offsets[2],
                halves: &halves[..len],
                wide: &wide[..len],
                floats: &floats[..len],
                indices: &indices,
                outs: RefCell::new(Outs::new(len)),
            };
            for row in rows(&case) {
                let has_target = bench.level == "x86-64-v2" || !PACKED.contains(&row.call());
                let shown = if case.to == 0 {
                    &offsets[..1]
                } else {
                    &offsets
                };
                let row = row.offsets(shown);
                bench.row(if has_target {
                    row.at_most(1.0, LOOP)
                } else {
                    row
                });
            }
        }
    }
}

/// The arguments of C for a window.
fn raw(w: Window) -> (Bytes, usize, usize) {
    (w.bytes.as_ptr(), w.bytes.len(), w.offset)
}

fn bits(w: Window<'_>) -> Bits<'_> {
    Bits::new(w.bytes, w.offset, w.len)
}

/// The result of a call, as a number.
trait Answer {
    fn number(self) -> usize;
}

impl Answer for () {
    fn number(self) -> usize {
        0
    }
}

impl Answer for bool {
    fn number(self) -> usize {
        self.into()
    }
}

impl Answer for usize {
    fn number(self) -> usize {
        self
    }
}

/// A call, the loop, and the portable code, which write and return the same.
fn row<'a, A: Answer, B: Answer, C: Answer>(
    case: &'a Case,
    call: &str,
    ours: impl Fn(&mut Outs) -> A + 'a,
    plain: impl Fn(&mut Outs) -> B + 'a,
    portable: impl Fn(&mut Outs) -> C + 'a,
) -> Row<'a> {
    let ours = move |outs: &mut Outs| ours(outs).number();
    let plain = move |outs: &mut Outs| plain(outs).number();
    let portable = move |outs: &mut Outs| portable(outs).number();
    let calls: [&dyn Fn(&mut Outs) -> usize; 3] = [&ours, &plain, &portable];
    let [wanted, others @ ..] = calls.map(|call| {
        let mut outs = Outs::new(case.len);
        (call(&mut outs), outs)
    });
    assert!(
        others.iter().all(|it| *it == wanted),
        "{call} of {}",
        case.len
    );
    let outs = &case.outs;
    Row::new(call, Contender::of(move || ours(&mut outs.borrow_mut())))
        .plain(Contender::of(move || plain(&mut outs.borrow_mut())))
        .beside(
            PORTABLE,
            Contender::of(move || portable(&mut outs.borrow_mut())),
        )
}

fn rows<'a>(c: &'a Case) -> Vec<Row<'a>> {
    let read = read(c).into_iter().chain(written(c));
    let of_bits = read.map(|row| row.bits(c.len));
    let of_values = of_values(c).into_iter().map(|row| row.items(c.len));
    of_bits.chain(of_values).collect()
}

/// Calls that only read bits.
fn read<'a>(c: &'a Case) -> Vec<Row<'a>> {
    let len = c.len;
    let ((l, ls, lo), (r, rs, ro)) = (raw(c.left), raw(c.right));
    let (u, us, uo) = raw(c.unset);
    let last = bits(c.left).count_ones() - 1;
    vec![
        row(
            c,
            "`vb_count_ones`",
            move |_| unsafe { calls::vb_count_ones(l, ls, lo, len) },
            |_| words::count_ones(c.left),
            |_| bits(c.left).count_ones(),
        ),
        row(
            c,
            "`vb_and_count`",
            move |_| unsafe { calls::vb_and_count(l, ls, lo, r, rs, ro, len) },
            |_| words::and_count(c.left, c.right),
            |_| bits(c.left).and_count(bits(c.right)),
        ),
        row(
            c,
            "`vb_select`",
            move |_| unsafe { calls::vb_select(l, ls, lo, len, last).index() },
            move |_| words::select(c.left, last),
            move |_| bits(c.left).select(last).unwrap_or(usize::MAX),
        )
        .how("last place"),
        row(
            c,
            "`vb_any_set`",
            move |_| unsafe { calls::vb_any_set(u, us, uo, len) },
            |_| words::any_set(c.unset),
            |_| bits(c.unset).any(),
        )
        .how("none set"),
        row(
            c,
            "`vb_equal_bits`",
            move |_| unsafe { calls::vb_equal_bits(l, ls, lo, l, ls, lo, len) },
            |_| words::equal(c.left, c.left),
            |_| bits(c.left) == bits(c.left),
        ),
        row(
            c,
            "`vb_set_indices`",
            move |o| unsafe { calls::vb_set_indices(o.indices.as_mut_ptr(), len, l, ls, lo, len) },
            |o| words::set_indices(&mut o.indices, c.left),
            |o| bits(c.left).write_set_indices(&mut o.indices),
        ),
    ]
}

/// Calls that write bits built from other bits.
fn written<'a>(c: &'a Case) -> Vec<Row<'a>> {
    let (len, to, size) = (c.len, c.to, (c.to + c.len).div_ceil(8));
    let ((l, ls, lo), (r, rs, ro)) = (raw(c.left), raw(c.right));
    let ((lv, lvs, _), (rv, rvs, _)) = (raw(c.left_valid), raw(c.right_valid));
    let kept = bits(c.right).count_ones();
    // One bit per set bit of the mask.
    let packed = Window {
        bytes: &c.left.bytes[..(lo + kept).div_ceil(8)],
        len: kept,
        ..c.left
    };
    let ps = packed.bytes.len();
    vec![
        row(
            c,
            "`vb_copy_bits`",
            move |o| unsafe {
                calls::vb_copy_bits(o.bits.as_mut_ptr(), size, to, l, ls, lo, len);
            },
            move |o| words::copy(&mut o.bits, to, c.left),
            move |o| {
                BitsMut::new(&mut o.bits, to, len).copy_from(bits(c.left));
            },
        ),
        row(
            c,
            "`vb_and_bits`",
            move |o| unsafe {
                calls::vb_and_bits(o.bits.as_mut_ptr(), size, to, l, ls, lo, len);
            },
            move |o| words::and(&mut o.bits, to, c.left),
            move |o| {
                BitsMut::new(&mut o.bits, to, len).and(bits(c.left));
            },
        ),
        row(
            c,
            "`vb_and_into`",
            move |o| unsafe {
                let out = o.bits.as_mut_ptr();
                calls::vb_and_into(out, size, to, l, ls, lo, r, rs, ro, len);
            },
            move |o| words::and_into(&mut o.bits, to, c.left, c.right),
            move |o| {
                BitsMut::new(&mut o.bits, to, len).and_of(bits(c.left), bits(c.right));
            },
        ),
        row(
            c,
            "`vb_and_kleene`",
            move |o| unsafe {
                let (t, v) = (o.bits.as_mut_ptr(), o.valid.as_mut_ptr());
                calls::vb_and_kleene(
                    t, size, to, v, size, to, l, ls, lo, false, lv, lvs, lo, r, rs, ro, false, rv,
                    rvs, ro, len,
                );
            },
            move |o| {
                let (left, right) = ([c.left, c.left_valid], [c.right, c.right_valid]);
                words::and_kleene([&mut o.bits, &mut o.valid], to, left, right)
            },
            move |o| {
                values::and_kleene_into(
                    bits(c.left),
                    bits(c.left_valid),
                    bits(c.right),
                    bits(c.right_valid),
                    BitsMut::new(&mut o.bits, to, len),
                    BitsMut::new(&mut o.valid, to, len),
                );
            },
        ),
        row(
            c,
            "`vb_filter_bits`",
            move |o| unsafe {
                let out = o.bits.as_mut_ptr();
                calls::vb_filter_bits(out, size, to, l, ls, lo, r, rs, ro, len)
            },
            move |o| words::filter_bits(&mut o.bits, to, c.left, c.right),
            move |o| {
                let out = BitsMut::new(&mut o.bits, to, kept);
                bits(c.left).filter_into(bits(c.right), out);
                kept
            },
        ),
        row(
            c,
            "`vb_deposit_bits`",
            move |o| unsafe {
                let out = o.bits.as_mut_ptr();
                calls::vb_deposit_bits(out, size, to, l, ps, lo, r, rs, ro, len);
            },
            move |o| words::deposit(&mut o.bits, to, packed, c.right),
            move |o| {
                let out = BitsMut::new(&mut o.bits, to, len);
                bits(packed).deposit_into(bits(c.right), out);
            },
        ),
        row(
            c,
            "`vb_take_bits_u32`",
            move |o| unsafe {
                let (out, by) = (o.bits.as_mut_ptr(), c.indices.as_ptr());
                calls::vb_take_bits_u32(out, size, to, l, ls, lo, len, by, len, true, null(), 0, 0)
                    .is_none()
            },
            move |o| words::take_bits(&mut o.bits, to, c.left, c.indices),
            move |o| {
                bits(c.left).take_into(c.indices, BitsMut::new(&mut o.bits, to, len));
                true
            },
        ),
    ]
}

/// Calls on values.
fn of_values<'a>(c: &'a Case) -> Vec<Row<'a>> {
    let len = c.len;
    let (v, vs, vo) = raw(c.left_valid);
    let mut rows = vec![
        compared(c, "`vb_compare_i32`", calls::vb_compare_i32, c.halves, 0),
        compared(c, "`vb_compare_i64`", calls::vb_compare_i64, c.wide, 0),
        compared(c, "`vb_compare_f64`", calls::vb_compare_f64, c.floats, 0.0),
        filtered(c, "`vb_filter_values` of 4 bytes", c.halves, |o| {
            &mut o.halves
        }),
        filtered(c, "`vb_filter_values` of 8 bytes", c.wide, |o| &mut o.wide),
    ];
    let ours = move |o: &mut Outs, all: bool| unsafe {
        let (out, from) = (o.wide.as_mut_ptr().cast(), c.wide.as_ptr().cast());
        let by = c.indices.as_ptr().cast();
        calls::vb_take_values(out, len, from, len, 8, by, len, 4, all, v, vs, vo).is_none()
    };
    let call = "`vb_take_values` of 8 bytes";
    rows.push(row(
        c,
        &format!("{call}, with a validity"),
        move |o| ours(o, false),
        |o| words::take_valid(&mut o.wide, c.wide, c.indices, c.left_valid),
        |o| {
            values::take_valid_into(c.wide, c.indices, bits(c.left_valid), &mut o.wide);
            true
        },
    ));
    // A call without a validity has no offset, so its row is added once.
    if c.to == 0 {
        rows.push(row(
            c,
            call,
            move |o| ours(o, true),
            |o| words::take(&mut o.wide, c.wide, c.indices),
            |o| {
                values::take_into(c.wide, c.indices, &mut o.wide);
                true
            },
        ));
    }
    rows
}

fn compared<'a, T: Compared>(
    c: &'a Case,
    call: &str,
    compare: Compare<T>,
    values: &'a [T],
    number: T,
) -> Row<'a> {
    let (len, to, size) = (c.len, c.to, (c.to + c.len).div_ceil(8));
    row(
        c,
        call,
        move |o| unsafe {
            let (out, from) = (o.bits.as_mut_ptr(), values.as_ptr());
            compare(out, size, to, from, len, GREATER, number);
        },
        move |o| words::above(&mut o.bits, to, values, number),
        move |o| {
            let out = BitsMut::new(&mut o.bits, to, len);
            values::compare_into(values, Comparison::Greater, number, out);
        },
    )
}

fn filtered<'a, T: Value>(
    c: &'a Case,
    call: &str,
    values: &'a [T],
    out: fn(&mut Outs) -> &mut Vec<T>,
) -> Row<'a> {
    let (len, (m, ms, mo)) = (c.len, raw(c.right));
    row(
        c,
        call,
        move |o| unsafe {
            let (out, from) = (out(o).as_mut_ptr().cast(), values.as_ptr().cast());
            calls::vb_filter_values(out, len, from, len, size_of::<T>(), m, ms, mo)
        },
        move |o| words::filter(out(o), values, c.right),
        move |o| bits(c.right).keep_into(values, out(o)),
    )
}
