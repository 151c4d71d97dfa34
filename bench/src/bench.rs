//! A run: rows are measured as they come, and kept for the tables.

use std::cell::RefCell;
use std::fs::File;
use std::io::{BufWriter, Write};
use std::time::Duration;

use crate::json::Object;
use crate::measure::{Contender, best};
use crate::row::{Measured, NOISE, Row, grouped};
use crate::times::{Placed, Times};

/// The sizes of a growth row, as multiples of the first one.
const GROWTH: [usize; 4] = [1, 10, 100, 1_000];

/// The greatest allowed ratio of an item's cost to its cost at the first size. The growth of the
/// cost of a copy of the item is subtracted first.
const GROWN: f64 = 1.1;

const GROWTH_HEAD: &str = "| call | first size | ns an item at 1, 10, 100, 1,000 times it | a copy \
    of as many bytes | most over the first, less what the copy grew by |\n|---|---|---|---|---|\n";

/// A run at one processor level.
pub struct Bench {
    pub level: String,
    /// How long the rounds of a row go on.
    budget: Duration,
    /// The run measures only the rows and parts that have this word.
    word: String,
    /// Where rows go as lines of JSON.
    lines: BufWriter<File>,
    times: Times,
    part: &'static str,
    parts: Vec<(&'static str, String)>,
    misses: String,
    met: usize,
    missed: usize,
}

impl Bench {
    pub fn new(level: String, budget: Duration, word: String, lines: File, times: Times) -> Self {
        Bench {
            level,
            budget,
            word,
            lines: BufWriter::new(lines),
            times,
            part: "",
            parts: Vec::new(),
            misses: String::new(),
            met: 0,
            missed: 0,
        }
    }

    /// The rows from here on belong to this part, which standard error names.
    pub fn begin(&mut self, part: &'static str) {
        eprintln!("  measures {part}");
        self.part = part;
        self.parts.push((part, String::new()));
    }

    fn add(&mut self, line: &str) {
        let (_, table) = self.parts.last_mut().expect("a part has begun");
        table.push_str(line);
    }

    /// The times of contenders at all placements until now.
    fn times_of(&mut self, contenders: &[Contender]) -> Vec<Placed> {
        self.times.with_those_before(&best(contenders, self.budget))
    }

    /// Measures a row, after a test that all of its `equals` return the same. At x86-64-v4 it
    /// ignores the targets, except those of counts.
    pub fn row(&mut self, row: Row) {
        let has_targets = self.level != "x86-64-v4" || self.part == "Counts";
        let row = if has_targets {
            row
        } else {
            row.without_targets()
        };
        if !row.has(&self.word) && !self.part.contains(&self.word) {
            return;
        }
        let contenders = row.contenders();
        let answer = contenders[0].answer();
        let same = row.equals().all(|it| it.answer() == answer);
        assert!(same, "{}, {}: the answers differ", row.call(), row.input());
        let measured = row.measured(self.times_of(contenders));
        let met = measured
            .targets()
            .iter()
            .filter(|target| target.is_met())
            .count();
        self.met += met;
        self.missed += measured.targets().len() - met;
        self.misses.push_str(&measured.misses());
        if self.parts.last().is_some_and(|(_, table)| table.is_empty()) {
            self.add(Measured::HEAD);
        }
        self.add(&measured.line());
        let line = measured.json(&self.level, self.part);
        writeln!(self.lines, "{line}").expect("the file of lines can be written");
    }

    /// Measures a call at 1, 10, 100 and 1,000 times its first size, in turn, and copies of the
    /// same number of bytes. The growth of a copy's cost, which comes from caches and memory, is
    /// subtracted.
    pub fn growth<'a>(
        &mut self,
        call: &str,
        first: usize,
        bytes_of: impl Fn(usize) -> usize,
        at: impl Fn(usize) -> Contender<'a>,
    ) {
        if !call.contains(&self.word) && !self.part.contains(&self.word) {
            return;
        }
        let sizes = GROWTH.map(|times| times * first);
        let mut contenders: Vec<_> = sizes.into_iter().map(at).collect();
        contenders.extend(sizes.map(|size| copy_of(bytes_of(size))));
        let times = self.times_of(&contenders);
        let costs: Vec<f64> = times.iter().zip(sizes.iter().cycle()).map(each).collect();
        self.grown(call, first, &costs[..GROWTH.len()], &costs[GROWTH.len()..]);
    }

    /// Adds a growth row: what an item costs at each size, and a copy of its bytes.
    fn grown(&mut self, call: &str, first: usize, costs: &[f64], copies: &[f64]) {
        let grown_by = costs.iter().zip(copies).skip(1);
        let beyond = grown_by.map(|(cost, copy)| {
            let memory = (copy - copies[0]).max(0.0);
            (cost - memory) / costs[0]
        });
        let grown = beyond.fold(0f64, f64::max);
        let is_met = grown <= GROWN * NOISE;
        self.met += is_met as usize;
        self.missed += !is_met as usize;
        let met = if is_met { "met" } else { "**missed**" };
        if !is_met {
            let text = format!("- Growth of {call}: {grown:.2} (target {GROWN}): {met}\n");
            self.misses.push_str(&text);
        }
        if self.parts.last().is_some_and(|(_, table)| table.is_empty()) {
            self.add(GROWTH_HEAD);
        }
        let (shown, copied) = (listed(costs), listed(copies));
        let size = grouped(first);
        let outcome = format!("{grown:.2} (target {GROWN}): {met}");
        self.add(&format!(
            "| {call} | {size} | {shown} | {copied} | {outcome} |\n"
        ));
        let mut line = Object::default();
        line.text("level", &self.level)
            .text("part", self.part)
            .text("call", call);
        line.count("first", Some(first));
        line.list("ns_an_item", costs.iter().map(f64::to_string));
        line.list("ns_an_item_copied", copies.iter().map(f64::to_string));
        line.number("grown", Some(grown));
        writeln!(self.lines, "{}", line.line()).expect("the file of lines can be written");
    }

    /// Prints the tables.
    pub fn print(self) {
        println!("## {}\n", self.level);
        println!("{} targets met, {} missed.\n", self.met, self.missed);
        for (part, table) in self.parts.iter().filter(|(_, table)| !table.is_empty()) {
            println!("### {part}, {}\n\n{table}", self.level);
        }
        if !self.misses.is_empty() {
            println!("### Missed, {}\n\n{}", self.level, self.misses);
        }
    }
}

/// A copy of so many bytes.
fn copy_of<'a>(size: usize) -> Contender<'a> {
    let (from, to) = (vec![1u8; size], RefCell::new(vec![0u8; size]));
    Contender::of(move || {
        to.borrow_mut().copy_from_slice(&from);
        0
    })
}

/// The time per item of a call on `items` items.
fn each((time, items): (&Placed, &usize)) -> f64 {
    time.median() / *items as f64
}

fn listed(costs: &[f64]) -> String {
    let costs: Vec<_> = costs.iter().map(|cost| format!("{cost:.5}")).collect();
    costs.join(", ")
}
