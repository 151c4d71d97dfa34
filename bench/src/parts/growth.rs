//! What an item costs as there are more of them.

use crate::bench::Bench;
use crate::calls::{self, OnWindow, on};
use crate::input::{Input, Random};
use crate::measure::Contender;

/// The first size of walks and counts, in bits, and of lists, in items. The last is 1,000 times
/// that: these bits still fit a core's second-level cache, and lists of wide items don't.
const BITS: usize = 8 << 10;
const ITEMS: usize = 1_000;

/// The bytes of so many bits.
const BYTES: fn(usize) -> usize = |bits| bits / 8;

/// Walks over bits that are the same in each line, so that the processor comes to predict the
/// branches at all sizes.
const WALKS: [(&str, OnWindow); 8] = [
    ("`count_ones`", calls::vb_count_ones),
    ("`set_indices`", calls::bench_set_indices),
    ("`set_slices`", calls::bench_set_slices),
    ("`iter`", calls::bench_iter),
    ("`chunks`", calls::bench_chunks),
    ("`iter_padded`", calls::bench_iter_padded),
    ("`last_set_index`", calls::bench_last_set_index),
    ("`for_each_set_index`", each),
];

unsafe extern "C" fn each(bytes: calls::Bytes, size: usize, offset: usize, len: usize) -> usize {
    unsafe { calls::bench_for_each_set_index(bytes, size, offset, len, 1) }
}

pub fn measure(bench: &mut Bench) {
    bench.begin("Growth");
    let input = &Input::repeated(125 * BITS + 1024);
    for (name, walk) in WALKS {
        let at = |len| Contender::of(move || on(walk, input.bits(3, len)));
        bench.growth(&format!("{name}, offset 3"), BITS, BYTES, at);
    }
    selects(bench, input);
    writes(bench, input);
    sets(bench, input);
    lists(bench);
    edits(bench);
}

fn selects(bench: &mut Bench, input: &Input) {
    bench.growth("`bit_select`, last place, offset 3", BITS, BYTES, |len| {
        let w = input.bits(3, len);
        let last = on(calls::vb_count_ones, w) - 1;
        let (bytes, size) = (w.bytes.as_ptr(), w.bytes.len());
        Contender::of(move || unsafe { calls::vb_select(bytes, size, 3, len, last).index() })
    });
    bench.growth("`==`, offsets 3, 3", BITS, BYTES, |len| {
        let w = input.bits(3, len);
        let (bytes, size) = (w.bytes.as_ptr(), w.bytes.len());
        Contender::of(move || unsafe { calls::bench_eq(bytes, size, 3, bytes, size, 3, len) })
    });
}

fn writes(bench: &mut Bench, input: &Input) {
    bench.growth("`copy_bits`, offsets 3, 5", BITS, BYTES, |len| {
        let w = input.bits(3, len);
        let over = std::cell::RefCell::new(vec![0u8; w.bytes.len() + 1]);
        Contender::of(move || unsafe {
            let over = &mut *over.borrow_mut();
            let (dst, src) = (over.as_mut_ptr(), w.bytes.as_ptr());
            calls::vb_copy_bits(dst, over.len(), 5, src, w.bytes.len(), 3, len);
            0
        })
    });
    bench.growth("`fill_bits`", BITS, BYTES, |len| {
        let over = std::cell::RefCell::new(vec![0u8; len / 8 + 1]);
        Contender::of(move || unsafe {
            let over = &mut *over.borrow_mut();
            calls::vb_fill_bits(over.as_mut_ptr(), over.len(), 3, len, true);
            0
        })
    });
}

fn sets(bench: &mut Bench, input: &Input) {
    for (l, r) in [(0, 0), (0, 3)] {
        bench.growth(
            &format!("`&` by reference, offsets {l}, {r}"),
            BITS,
            BYTES,
            |len| {
                let (a, b) = (input.bits(l, len).bytes, input.bits(r, len).bytes);
                Contender::in_rounds(move |rounds| unsafe {
                    let (left, right) = (a.as_ptr(), b.as_ptr());
                    calls::bench_operator(left, a.len(), l, right, b.len(), r, len, 0, rounds)
                })
            },
        );
    }
    bench.growth("`!` in place", BITS, BYTES, |len| {
        let w = input.bits(3, len);
        let (bytes, size) = (w.bytes.as_ptr(), w.bytes.len());
        Contender::in_rounds(move |rounds| unsafe {
            calls::bench_not_owned(bytes, size, 3, len, rounds)
        })
    });
    bench.growth("`append_buffer` behind 3 bits", BITS, BYTES, |len| {
        let w = input.bits(0, len);
        let (bytes, size) = (w.bytes.as_ptr(), w.bytes.len());
        Contender::in_rounds(move |rounds| unsafe {
            calls::bench_append_buffer(bytes, size, 0, len, 3, rounds)
        })
    });
    bench.growth("`new_set`", BITS, BYTES, |len| {
        Contender::of(move || unsafe { calls::bench_new_set(len) })
    });
}

fn lists(bench: &mut Bench) {
    let input = &Input::repeated(1_000 * ITEMS);
    let bytes = input.bytes(1_000 * ITEMS);
    let of = |call: unsafe extern "C" fn(calls::Bytes, usize) -> usize| {
        move |many: usize| Contender::of(move || unsafe { call(bytes[..many].as_ptr(), many) })
    };
    bench.growth(
        "`from_truthy`",
        ITEMS,
        |many| many,
        of(calls::bench_from_truthy),
    );
    bench.growth(
        "`from_iter`",
        ITEMS,
        |many| many,
        of(calls::bench_from_iter),
    );
    bench.growth(
        "`append` to a directory",
        ITEMS,
        |many| many,
        of(calls::bench_ranked_append),
    );
    bench.growth(
        "`append`",
        ITEMS,
        |many| many,
        |many| Contender::of(move || unsafe { calls::bench_append(bytes.as_ptr(), many, 0) }),
    );
    let values: &Vec<u32> = &(0..1_000 * ITEMS as u32).collect();
    bench.growth(
        "`collect_bool`",
        ITEMS,
        |many| 4 * many,
        |many| {
            Contender::of(move || unsafe { calls::bench_collect_bool(values.as_ptr(), many, 500) })
        },
    );
    bench.growth(
        "`BufferMut::push`",
        ITEMS,
        |many| 4 * many,
        |many| Contender::of(move || unsafe { calls::bench_buffer_push(values.as_ptr(), many) }),
    );
    bench.growth(
        "`take_bits` by `u32`, random, of as many bits",
        ITEMS,
        |many| 4 * many,
        |many| {
            let mut random = Random(12);
            let list: Vec<u32> = (0..many).map(|_| random.below(many) as u32).collect();
            let size = many.div_ceil(8);
            Contender::of(move || unsafe {
                let (bits, list) = (bytes.as_ptr(), list.as_ptr());
                calls::bench_take_u32(bits, size, many, list, many, bits, size, false)
            })
        },
    );
    bench.growth(
        "`from_indices`, ascending",
        ITEMS,
        |many| 8 * many,
        |many| {
            let list: Vec<usize> = (0..many).map(|k| 2 * k).collect();
            Contender::of(move || unsafe {
                calls::bench_from_indices(2 * many, list.as_ptr(), list.len())
            })
        },
    );
}

/// Rounds of edits; a round counts as an item.
fn edits(bench: &mut Bench) {
    bench.growth(
        "rounds of `freeze` and `try_into_mut`",
        ITEMS,
        |_| 1_000,
        |rounds| Contender::of(move || unsafe { calls::bench_freeze_try_into_mut(10_000, rounds) }),
    );
}
