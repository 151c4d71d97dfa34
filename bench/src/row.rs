//! A row: one call on one input, with what it is compared with and what its targets are.

use std::fmt::Write;

use crate::json::Object;
use crate::measure::Contender;
use crate::times::Placed;

/// The names of the contenders that have separate columns.
pub const UPSTREAM: &str = "upstream";
pub const LOOP: &str = "loop";

/// The names of two contenders in the column `beside`: a loop over the ones of a mask, and the Rust
/// crate without its archives.
pub const ONES: &str = "a loop over ones";
pub const PORTABLE: &str = "portable Rust";

/// A target counts as met up to this factor: a tolerance for the noise of rounds.
pub const NOISE: f64 = 1.02;

/// The unit of a target.
#[derive(Clone, Copy)]
enum Over {
    /// The time of another contender.
    Other(&'static str),
    /// One nanosecond per call. The next one is per item.
    Nanosecond,
    NanosecondAnItem,
}

/// A target: at most so much.
struct Target {
    over: Over,
    most: f64,
}

/// What is measured of one call on one input.
pub struct Row<'a> {
    call: String,
    how: String,
    bits: Option<usize>,
    items: Option<usize>,
    offsets: Vec<usize>,
    set: Option<f64>,
    names: Vec<&'static str>,
    contenders: Vec<Contender<'a>>,
    targets: Vec<Target>,
}

impl<'a> Row<'a> {
    pub fn new(call: impl Into<String>, ours: Contender<'a>) -> Self {
        Row {
            call: call.into(),
            how: String::new(),
            bits: None,
            items: None,
            offsets: Vec::new(),
            set: None,
            names: vec!["ours"],
            contenders: vec![ours],
            targets: Vec::new(),
        }
    }

    /// What else is to be said of the input.
    pub fn how(mut self, how: impl Into<String>) -> Self {
        self.how = how.into();
        self
    }

    pub fn bits(mut self, bits: usize) -> Self {
        self.bits = Some(bits);
        self
    }

    pub fn items(mut self, items: usize) -> Self {
        self.items = Some(items);
        self
    }

    pub fn offsets(mut self, offsets: &[usize]) -> Self {
        self.offsets = offsets.to_vec();
        self
    }

    /// The share of bits that are set.
    pub fn set(mut self, share: f64) -> Self {
        self.set = Some(share);
        self
    }

    /// Another contender.
    pub fn beside(mut self, name: &'static str, other: Contender<'a>) -> Self {
        self.names.push(name);
        self.contenders.push(other);
        self
    }

    /// Upstream's crate, if the build has it.
    pub fn upstream(self, other: Option<Contender<'a>>) -> Self {
        match other {
            Some(other) => self.beside(UPSTREAM, other),
            None => self,
        }
    }

    /// A loop that a Rust program would write by hand.
    pub fn plain(self, other: Contender<'a>) -> Self {
        self.beside(LOOP, other)
    }

    /// At most so much of another contender's time.
    pub fn at_most(mut self, most: f64, other: &'static str) -> Self {
        let over = Over::Other(other);
        self.targets.push(Target { over, most });
        self
    }

    /// At most so many nanoseconds.
    pub fn at_most_ns(mut self, most: f64) -> Self {
        let over = Over::Nanosecond;
        self.targets.push(Target { over, most });
        self
    }

    /// At most so many nanoseconds an item.
    pub fn at_most_ns_an_item(mut self, most: f64) -> Self {
        let over = Over::NanosecondAnItem;
        self.targets.push(Target { over, most });
        self
    }

    /// The same row, without targets.
    pub fn without_targets(mut self) -> Self {
        self.targets.clear();
        self
    }

    /// Whether the call or the input has a word.
    pub fn has(&self, word: &str) -> bool {
        self.call.contains(word) || self.input().contains(word)
    }

    /// The contenders that give the same answer as ours.
    pub fn equals(&self) -> impl Iterator<Item = &Contender<'a>> {
        let named = self.names.iter().zip(&self.contenders);
        named
            .filter(|(name, _)| [UPSTREAM, LOOP, ONES, PORTABLE].contains(name))
            .map(|(_, it)| it)
    }

    pub fn contenders(&self) -> &[Contender<'a>] {
        &self.contenders
    }

    pub fn call(&self) -> &str {
        &self.call
    }

    /// The input in words.
    pub fn input(&self) -> String {
        let mut parts = Vec::new();
        parts.extend(self.bits.map(|bits| format!("{} bits", grouped(bits))));
        parts.extend(self.items.map(|items| format!("{} items", grouped(items))));
        parts.extend(self.set.map(|set| format!("{} % set", percent(set))));
        let offsets: Vec<_> = self.offsets.iter().map(usize::to_string).collect();
        match offsets.len() {
            0 => {}
            1 => parts.push(format!("offset {}", offsets[0])),
            _ => parts.push(format!("offsets {}", offsets.join(", "))),
        }
        if !self.how.is_empty() {
            parts.push(self.how.clone());
        }
        parts.join("; ")
    }

    /// The row with its times.
    pub fn measured(&self, times: Vec<Placed>) -> Measured {
        let targets = self
            .targets
            .iter()
            .filter_map(|target| self.outcome(target, &times));
        Measured {
            call: self.call.clone(),
            input: self.input(),
            bits: self.bits,
            items: self.items,
            offsets: self.offsets.clone(),
            set: self.set,
            names: self.names.clone(),
            targets: targets.collect(),
            times,
        }
    }

    /// The outcome of a target; None if its other contender is missing.
    fn outcome(&self, target: &Target, times: &[Placed]) -> Option<Outcome> {
        let (over, reached) = match target.over {
            Over::Other(name) => {
                let other = self.names.iter().position(|it| *it == name)?;
                (format!("of {name}"), times[0].over(&times[other]))
            }
            Over::Nanosecond => ("ns".into(), times[0].median()),
            Over::NanosecondAnItem => {
                let each = times[0].median() / self.items? as f64;
                ("ns an item".into(), each)
            }
        };
        Some(Outcome {
            over,
            most: target.most,
            reached,
        })
    }
}

/// A target, and what was reached.
pub struct Outcome {
    over: String,
    most: f64,
    reached: f64,
}

impl Outcome {
    /// Whether it was reached, within the tolerance.
    pub fn is_met(&self) -> bool {
        self.reached <= self.most * NOISE
    }

    fn text(&self) -> String {
        let met = if self.is_met() { "met" } else { "**missed**" };
        format!(
            "{:.2} {} (target {:.2}): {met}",
            self.reached, self.over, self.most
        )
    }
}

/// A row that was measured.
pub struct Measured {
    call: String,
    input: String,
    bits: Option<usize>,
    items: Option<usize>,
    offsets: Vec<usize>,
    set: Option<f64>,
    names: Vec<&'static str>,
    times: Vec<Placed>,
    targets: Vec<Outcome>,
}

impl Measured {
    pub const HEAD: &'static str = "| call | input | ours, ns, least to greatest | upstream | \
        Rust loop | beside | targets |\n\
        |---|---|---|---|---|---|---|\n";

    pub fn targets(&self) -> &[Outcome] {
        &self.targets
    }

    /// A line of a table in Markdown: our time, with the least and the greatest of all placements,
    /// and the times of the others, each with the ratio of ours to it.
    pub fn line(&self) -> String {
        let others = || self.names.iter().zip(&self.times).skip(1);
        let ours = &self.times[0];
        let cell = |time: &Placed| format!("{} ({:.2})", figure(time.median()), ours.over(time));
        let of = |name: &str| {
            let mut found = others().filter(|(it, _)| **it == name);
            found.next().map_or(String::new(), |(_, time)| cell(time))
        };
        let beside = others().filter(|(it, _)| ![UPSTREAM, LOOP].contains(it));
        let beside: Vec<_> = beside
            .map(|(it, time)| format!("{it} {}", cell(time)))
            .collect();
        let targets: Vec<_> = self.targets.iter().map(Outcome::text).collect();
        let [least, greatest] = ours.range();
        format!(
            "| {} | {} | {}, {} to {} | {} | {} | {} | {} |\n",
            self.call,
            self.input,
            figure(ours.median()),
            figure(least),
            figure(greatest),
            of(UPSTREAM),
            of(LOOP),
            beside.join(", "),
            targets.join("; "),
        )
    }

    /// A line on each target that is missed.
    pub fn misses(&self) -> String {
        let mut lines = String::new();
        for target in self.targets.iter().filter(|target| !target.is_met()) {
            let (call, input, text) = (&self.call, &self.input, target.text());
            writeln!(lines, "- {call}, {input}: {text}").expect("a string takes all");
        }
        lines
    }

    /// One line of JSON.
    pub fn json(&self, level: &str, part: &str) -> String {
        let mut row = Object::default();
        row.text("level", level)
            .text("part", part)
            .text("call", &self.call);
        row.text("input", &self.input);
        row.count("bits", self.bits).count("items", self.items);
        row.list("offsets", self.offsets.iter().map(usize::to_string));
        row.number("set", self.set);
        let (mut times, mut ratios) = (Object::default(), Object::default());
        let ours = &self.times[0];
        for (name, time) in self.names.iter().zip(&self.times) {
            times.number(name, Some(time.median()));
            ratios.number(name, Some(ours.over(time)));
        }
        row.object("ns", times).object("ours_over", ratios);
        let range = ours.range();
        row.list("ours_from_to", range.iter().map(f64::to_string));
        row.list("targets", self.targets.iter().map(Outcome::json));
        row.line()
    }
}

impl Outcome {
    fn json(&self) -> String {
        let mut target = Object::default();
        target
            .text("over", &self.over)
            .number("at_most", Some(self.most));
        target.number("is", Some(self.reached));
        target.line()
    }
}

/// A time, with two decimals below 10, one below 1,000, else none.
pub fn figure(time: f64) -> String {
    match time {
        ..10.0 => format!("{time:.2}"),
        ..1000.0 => format!("{time:.1}"),
        _ => grouped(time.round() as usize),
    }
}

/// A share as a percentage with at most two decimals.
fn percent(share: f64) -> String {
    let percent = 100.0 * share;
    if percent >= 1.0 {
        format!("{}", (100.0 * percent).round() / 100.0)
    } else {
        format!("{percent:.2}")
    }
}

/// A number as `1,048,576`.
pub fn grouped(number: usize) -> String {
    let digits = number.to_string();
    let mut text = String::new();
    for (k, digit) in digits.chars().enumerate() {
        if k > 0 && (digits.len() - k).is_multiple_of(3) {
            text.push(',');
        }
        text.push(digit);
    }
    text
}
