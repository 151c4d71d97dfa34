//! Selects: the indices of bits by rank, by search.

use super::{SIZES, upstream};
use crate::bench::Bench;
use crate::calls::{Select, on, vb_count_ones, vb_select, vb_select_unset};
use crate::input::{Input, Random, Window};
use crate::loops;
use crate::measure::Contender;
use crate::row::{LOOP, Row, UPSTREAM};

const COUNT: &str = "`count_ones`";

pub fn measure(bench: &mut Bench) {
    bench.begin("Selects");
    let longest = *SIZES.last().expect("there are sizes");
    let input = Input::random(longest);
    let sparse = Input::sparse(longest);
    let sparsest = Input::sparsest(longest);
    for offset in [0, 3] {
        for size in SIZES {
            let w = input.window(size, offset);
            let ones = on(vb_count_ones, w);
            let most = most(&bench.level, offset);
            let last = last(w, offset, 0.5);
            bench.row(if size == 64 {
                last.at_most(most, LOOP)
            } else {
                last
            });
            let turn = true_bits("places in turn", w, in_turn(ones))
                .offsets(&[offset])
                .set(0.5);
            bench.row(if size == 64 {
                turn.at_most(most, LOOP)
            } else {
                turn
            });
            bench.row(
                true_bits("random places", w, random(ones))
                    .offsets(&[offset])
                    .set(0.5),
            );
            bench.row(self::last(sparse.window(size, offset), offset, 1.0 / 64.0));
            bench.row(self::last(
                sparsest.window(size, offset),
                offset,
                1.0 / 4096.0,
            ));
            let zeros = w.len - ones;
            bench.row(
                false_bits("last place", w, vec![zeros - 1])
                    .offsets(&[offset])
                    .set(0.5),
            );
            bench.row(
                false_bits("random places", w, random(zeros))
                    .offsets(&[offset])
                    .set(0.5),
            );
        }
    }
}

/// The last true bit. A short window may have none: then the select of rank 0 finds none.
fn last(w: Window<'_>, offset: usize, set: f64) -> Row<'_> {
    let rank = on(vb_count_ones, w).saturating_sub(1);
    let row = true_bits("last place", w, vec![rank])
        .offsets(&[offset])
        .set(set);
    match w.bytes.len() {
        64 => row,
        1_048_576 => at_count(row.at_most(1.0, UPSTREAM), w),
        _ => row.at_most(1.0, UPSTREAM),
    }
}

/// The greatest allowed ratio of a select within a cache line to the loop.
fn most(level: &str, offset: usize) -> f64 {
    match (level, offset) {
        (_, 0) => 12.0 / 7.0,
        ("x86-64-v2", _) => 1.3,
        _ => 1.5,
    }
}

/// A select of a last bit passes over all bits, as a count does.
fn at_count<'a>(row: Row<'a>, w: Window<'a>) -> Row<'a> {
    row.beside(COUNT, Contender::of(move || on(vb_count_ones, w)))
        .at_most(1.05, COUNT)
}

fn true_bits<'a>(how: &str, w: Window<'a>, ranks: Vec<usize>) -> Row<'a> {
    let others = upstream!({
        let ranks = ranks.clone();
        let select = move |n| crate::upstream::bit_select(w, n);
        Contender::of_each(ranks.len(), move || sum(&ranks, select))
    });
    row("`bit_select`", vb_select, how, w, ranks.clone())
        .upstream(others)
        .plain(Contender::of_each(ranks.len(), move || {
            sum(&ranks, |n| loops::select::<false>(w, n))
        }))
}

fn false_bits<'a>(how: &str, w: Window<'a>, ranks: Vec<usize>) -> Row<'a> {
    let others = upstream!({
        let (ranks, set) = (ranks.clone(), crate::upstream::set(w));
        Contender::of_each(ranks.len(), move || {
            sum(&ranks, |n| crate::upstream::bit_select_unset(&set, n))
        })
    });
    row("`bit_select_unset`", vb_select_unset, how, w, ranks.clone())
        .upstream(others)
        .plain(Contender::of_each(ranks.len(), move || {
            sum(&ranks, |n| loops::select::<true>(w, n))
        }))
}

fn row<'a>(call: &str, select: Select, how: &str, w: Window<'a>, ranks: Vec<usize>) -> Row<'a> {
    let ours = move |n| unsafe { select(w.bytes.as_ptr(), w.bytes.len(), w.offset, w.len, n) };
    let ours = Contender::of_each(ranks.len(), move || sum(&ranks, |n| ours(n).index()));
    Row::new(call, ours).how(how).bits(w.len)
}

fn sum(ranks: &[usize], select: impl Fn(usize) -> usize) -> usize {
    ranks.iter().fold(0, |sum, &n| sum.wrapping_add(select(n)))
}

/// A few ranks in ascending order, over and over: the processor comes to predict each branch.
fn in_turn(count: usize) -> Vec<usize> {
    let ranks = 64.min(questions(count));
    (0..ranks).map(|k| k * count / ranks).collect()
}

/// Ranks in random order, so that the processor can't predict the branches.
fn random(count: usize) -> Vec<usize> {
    Random(2).list(questions(count), count)
}

/// The number of ranks to select among `count`: fewer if each one takes long.
fn questions(count: usize) -> usize {
    ((1 << 25) / count.next_power_of_two()).clamp(4, 4096)
}
