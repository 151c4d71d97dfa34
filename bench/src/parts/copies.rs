//! Copies, fills and appends of bits.

use std::cell::RefCell;

use super::{MILLION, upstream};
use crate::bench::Bench;
use crate::calls::{self, Write};
use crate::input::{Input, Window};
use crate::loops;
use crate::measure::Contender;
use crate::row::{LOOP, Row, UPSTREAM};

const MEMCPY: &str = "memcpy";

pub fn measure(bench: &mut Bench) {
    bench.begin("Copies");
    let input = &Input::random(MILLION / 8);
    for (from, to) in [(0, 0), (3, 3), (0, 3), (5, 2)] {
        let row = written(
            "`copy_bits`",
            calls::vb_copy_bits,
            input.bits(from, MILLION),
            to,
        )
        .beside(MEMCPY, memcpy(input.bytes(MILLION / 8)));
        bench.row(row.at_most(2.5, MEMCPY));
    }
    for (from, to) in [(0, 0), (3, 0), (2, 5)] {
        let row = written(
            "`zip_words`, `&`",
            calls::vb_and_bits,
            input.bits(from, MILLION),
            to,
        );
        let words = RefCell::new(input.words()[..MILLION / 64].to_vec());
        let plain = move || {
            loops::combine_in_place(&mut words.borrow_mut(), (input, from), MILLION);
            0
        };
        let row = row.plain(Contender::of(plain));
        bench.row(if to == 0 { row.at_most(1.0, LOOP) } else { row });
    }
    writes(bench);
    for (from, before) in [(0, 3), (0, 8), (3, 8), (3, 3)] {
        bench.row(appended(input, from, before));
    }
    sliced(bench, input.bits(3, MILLION));
}

/// Bits of an input written over others, from a bit on.
fn written<'a>(call: &str, write: Write, from: Window<'a>, to: usize) -> Row<'a> {
    let over = RefCell::new(vec![0xFFu8; from.bytes.len() + 1]);
    let ours = move || {
        let over = &mut *over.borrow_mut();
        let (dst, src) = (over.as_mut_ptr(), from.bytes.as_ptr());
        let sizes = (over.len(), from.bytes.len());
        unsafe { write(dst, sizes.0, to, src, sizes.1, from.offset, from.len) };
        0
    };
    Row::new(call, Contender::of(ours))
        .bits(from.len)
        .offsets(&[from.offset, to])
}

fn memcpy(bytes: &[u8]) -> Contender<'_> {
    let over = RefCell::new(vec![0u8; bytes.len()]);
    Contender::of(move || {
        over.borrow_mut().copy_from_slice(bytes);
        0
    })
}

/// Fills and negations of a window.
fn writes(bench: &mut Bench) {
    let memset = || {
        let over = RefCell::new(vec![0u8; MILLION / 8]);
        Contender::of(move || {
            over.borrow_mut().fill(0xFF);
            0
        })
    };
    for offset in [0, 3] {
        let over = RefCell::new(vec![0u8; MILLION / 8 + 1]);
        let ours = move || unsafe {
            let over = &mut *over.borrow_mut();
            calls::vb_fill_bits(over.as_mut_ptr(), over.len(), offset, MILLION, true);
            0
        };
        let row = Row::new("`fill_bits`", Contender::of(ours))
            .bits(MILLION)
            .offsets(&[offset]);
        bench.row(row.beside("memset", memset()));
        let over = RefCell::new(vec![0u8; MILLION / 8 + 1]);
        let ours = move || unsafe {
            let over = &mut *over.borrow_mut();
            calls::vb_negate_bits(over.as_mut_ptr(), over.len(), offset, MILLION);
            0
        };
        let words = RefCell::new(vec![0u64; MILLION / 64]);
        let plain = move || {
            words
                .borrow_mut()
                .iter_mut()
                .for_each(|word| *word = !*word);
            0
        };
        let row = Row::new("`map_words`, `!`", Contender::of(ours)).bits(MILLION);
        bench.row(row.offsets(&[offset]).plain(Contender::of(plain)));
    }
}

/// A set appended after so many bits.
fn appended(input: &Input, from: usize, before: usize) -> Row<'_> {
    let w = input.bits(from, MILLION);
    let ours = move |rounds| unsafe {
        let (bytes, size) = (w.bytes.as_ptr(), w.bytes.len());
        calls::bench_append_buffer(bytes, size, w.offset, w.len, before, rounds)
    };
    let row = Row::new("`append_buffer`", Contender::in_rounds(ours))
        .bits(MILLION)
        .offsets(&[from])
        .how(format!("behind {before} bits"))
        .upstream(upstream!({
            let set = crate::upstream::set(w);
            let grown = RefCell::new(vortex_buffer::BitBufferMut::new_set(before));
            Contender::of(move || {
                crate::upstream::append_buffer(&mut grown.borrow_mut(), &set, before)
            })
        }))
        .beside(MEMCPY, memcpy(input.bytes(MILLION / 8)));
    let row = row.at_most(1.0, UPSTREAM);
    if (from, before) == (0, 8) {
        row.at_most(1.1, MEMCPY)
    } else {
        row
    }
}

fn sliced(bench: &mut Bench, w: Window) {
    let (bytes, size) = (w.bytes.as_ptr(), w.bytes.len());
    let ours =
        move |rounds| unsafe { calls::bench_set(bytes, size, w.offset, w.len, 3, 0, rounds) };
    let row = Row::new("`sliced`", Contender::in_rounds(ours))
        .bits(w.len)
        .offsets(&[w.offset])
        .upstream(upstream!({
            let set = crate::upstream::set(w);
            Contender::of(move || crate::upstream::sliced(&set))
        }))
        .at_most(1.0, UPSTREAM);
    bench.row(row);
}
