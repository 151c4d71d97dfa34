//! The directory of counts, compared with Rust loops over the same table.

use std::cell::RefCell;

use super::MILLION;
use crate::bench::Bench;
use crate::calls::{self, OfTable, OfTableInTurn, SelectRounds};
use crate::input::{Input, Random};
use crate::loops;
use crate::measure::Contender;
use crate::row::{LOOP, Row};

const MEMCPY: &str = "memcpy";

/// The lengths of the sets in bits, and the number of calls for each.
const LENGTHS: [(usize, usize); 2] = [(MILLION, 4096), (1 << 30, 1 << 17)];

/// A set's bits, its table, random indices, and random ranks.
struct Asked<'a> {
    input: &'a Input,
    offset: usize,
    len: usize,
    table: Vec<usize>,
    places: Vec<usize>,
    ranks: Vec<usize>,
}

pub fn measure(bench: &mut Bench) {
    bench.begin("Directory");
    for (len, many) in LENGTHS {
        let input = Input::random(len / 8);
        for offset in [0, 3] {
            let asked = Asked::new(&input, offset, len, many);
            asked.ranks(bench);
            asked.selects(bench);
        }
        selects_of_many(bench, &input, len);
        edits(bench, len);
    }
    appends(bench);
}

impl<'a> Asked<'a> {
    fn new(input: &'a Input, offset: usize, len: usize, many: usize) -> Self {
        let table = loops::table(input, offset, len);
        let ones = *table.last().expect("there are blocks");
        Asked {
            input,
            offset,
            len,
            places: Random(9).list(many, len + 1),
            ranks: Random(10).list(many, ones),
            table,
        }
    }

    fn ranks(&self, bench: &mut Bench) {
        let rank = |place| loops::rank(self.input, self.offset, &self.table, place);
        let row = self.row("`rank`", calls::bench_rank, &self.places, rank);
        bench.row(row.at_most(1.5, LOOP));
        let row = self.in_turn("`rank`", calls::bench_rank_in_turn, &self.places, rank);
        bench.row(row.at_most(1.5, LOOP));
    }

    fn selects(&self, bench: &mut Bench) {
        let select = |n| loops::select_by_table(self.input, self.offset, &self.table, n);
        let row = self.row("`select`", calls::bench_select, &self.ranks, select);
        bench.row(row.at_most(2.0, LOOP));
        let row = self.in_turn("`select`", calls::bench_select_in_turn, &self.ranks, select);
        bench.row(row.at_most(2.0, LOOP));
    }

    /// Calls that don't wait for one another.
    fn row<'b>(
        &'b self,
        call: &str,
        ours: OfTable,
        list: &'b [usize],
        plain: impl Fn(usize) -> usize + 'b,
    ) -> Row<'b> {
        let bytes = self.input.bytes((self.offset + self.len).div_ceil(8));
        let ours = move || unsafe {
            let (table, entries) = (self.table.as_ptr(), self.table.len());
            let (places, many) = (list.as_ptr(), list.len());
            let (offset, len) = (self.offset, self.len);
            ours(
                bytes.as_ptr(),
                bytes.len(),
                offset,
                len,
                table,
                entries,
                places,
                many,
            )
        };
        let plain = move || {
            list.iter()
                .fold(0, |sum: usize, &at| sum.wrapping_add(plain(at)))
        };
        Row::new(call, Contender::of_each(list.len(), ours))
            .bits(self.len)
            .offsets(&[self.offset])
            .how("random, on their own")
            .plain(Contender::of_each(list.len(), plain))
    }

    /// Calls that each wait for the result of the one before.
    fn in_turn<'b>(
        &'b self,
        call: &str,
        ours: OfTableInTurn,
        list: &'b [usize],
        plain: impl Fn(usize) -> usize + 'b,
    ) -> Row<'b> {
        let bytes = self.input.bytes((self.offset + self.len).div_ceil(8));
        let none = || std::hint::black_box(0usize);
        let ours = move || unsafe {
            let (table, entries) = (self.table.as_ptr(), self.table.len());
            let (places, many) = (list.as_ptr(), list.len());
            let (offset, len) = (self.offset, self.len);
            ours(
                bytes.as_ptr(),
                bytes.len(),
                offset,
                len,
                table,
                entries,
                places,
                many,
                none(),
            )
        };
        let plain = move || {
            let mask = none();
            list.iter().fold(0, |sum: usize, &at| {
                sum.wrapping_add(plain(at ^ (sum & mask)))
            })
        };
        Row::new(call, Contender::of_each(list.len(), ours))
            .bits(self.len)
            .offsets(&[self.offset])
            .how("random, in turn")
            .plain(Contender::of_each(list.len(), plain))
    }
}

/// Selects at a thousand ranks by one call, compared with a call for each.
fn selects_of_many(bench: &mut Bench, input: &Input, len: usize) {
    let bytes = input.bytes(len / 8);
    let ranks = &Random(11).list(1000, len / 2);
    let of = move |call: SelectRounds| {
        Contender::in_rounds(move |rounds| unsafe {
            let (list, many) = (ranks.as_ptr(), ranks.len());
            call(bytes.as_ptr(), bytes.len(), len, list, many, rounds)
        })
    };
    let row = Row::new(
        "`select_many` of a directory",
        of(calls::bench_ranked_select_many),
    )
    .bits(len)
    .how("1,000 ranks at random")
    .beside("`select` of each", of(calls::bench_ranked_select));
    bench.row(row);
}

/// An edit of the first bit, compared with a loop over a table of one number per block, which
/// changes all later entries.
fn edits(bench: &mut Bench, len: usize) {
    let entries = RefCell::new(vec![0usize; len / 512]);
    let by = RefCell::new(1usize);
    let plain = move || {
        let next = by.borrow().wrapping_neg();
        by.replace(next);
        loops::move_entries(&mut entries.borrow_mut()[1..], next);
        len
    };
    let (from, to) = (
        vec![1usize; len / 512],
        RefCell::new(vec![0usize; len / 512]),
    );
    let copy = move || {
        to.borrow_mut().copy_from_slice(&from);
        0
    };
    let ours = move |rounds| unsafe { calls::bench_ranked_set_to(len, rounds) };
    let row = Row::new("`set_to` of the first bit", Contender::in_rounds(ours))
        .bits(len)
        .plain(Contender::of(plain))
        .beside(MEMCPY, Contender::of(copy));
    bench.row(row.at_most(2.0, MEMCPY));
}

fn appends(bench: &mut Bench) {
    let input = Input::random(MILLION);
    let bytes = input.bytes(MILLION);
    let ours = move || unsafe { calls::bench_ranked_append(bytes.as_ptr(), bytes.len()) };
    let plain = move || unsafe { calls::bench_append(bytes.as_ptr(), bytes.len(), 0) };
    let row = Row::new("`append` to a directory", Contender::of_each(MILLION, ours))
        .how("a bit, of a million")
        .beside("`append` to a set", Contender::of_each(MILLION, plain));
    bench.row(row);
}
