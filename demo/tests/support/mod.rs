//! Code that the tests share: numbers that look random, files that go away, and random tables with
//! conditions on them.
#![allow(dead_code, reason = "each test uses a part of it")]

use std::fs;
use std::path::{Path, PathBuf};
use std::process;
use std::sync::atomic::{AtomicUsize, Ordering};

use demo::query::condition::{Condition, Literal, Name, Operand};
use vortex_bits::Comparison;

/// Numbers that look random, the same in each run.
pub struct Random(u64);

impl Random {
    pub fn new(seed: u64) -> Random {
        Random(seed.wrapping_mul(0x9E37_79B9_7F4A_7C15) | 1)
    }

    pub fn below(&mut self, end: usize) -> usize {
        self.0 ^= self.0 << 13;
        self.0 ^= self.0 >> 7;
        self.0 ^= self.0 << 17;
        usize::try_from((self.0 >> 11) % end as u64).unwrap()
    }

    pub fn of<T: Copy>(&mut self, items: &[T]) -> T {
        items[self.below(items.len())]
    }
}

/// A folder for files, which `drop` removes. Its name has spaces, as a user's may.
pub struct Folder(PathBuf);

impl Folder {
    pub fn new(name: &str) -> Folder {
        // Two tests of one program may name their folders alike.
        static NEXT: AtomicUsize = AtomicUsize::new(0);
        let at = NEXT.fetch_add(1, Ordering::Relaxed);
        let path = std::env::temp_dir().join(format!("demo {name} {} {at}", process::id()));
        fs::create_dir_all(&path).unwrap();
        Folder(path)
    }

    pub fn path(&self, name: &str) -> PathBuf {
        self.0.join(name)
    }

    pub fn file(&self, name: &str, content: impl AsRef<[u8]>) -> PathBuf {
        let path = self.path(name);
        fs::write(&path, content).unwrap();
        path
    }
}

impl Drop for Folder {
    fn drop(&mut self) {
        let _ = fs::remove_dir_all(&self.0);
    }
}

/// The program, to be run on a file.
pub fn program(file: &Path) -> process::Command {
    let mut command = process::Command::new(env!("CARGO_BIN_EXE_query"));
    command.arg(file);
    command
}

/// The status and the output of a run of the program.
pub fn run(file: &Path, args: &[&str]) -> process::Output {
    program(file).args(args).output().unwrap()
}

/// Returns the output of a run, which must succeed.
pub fn printed(file: &Path, args: &[&str]) -> String {
    let output = run(file, args);
    let errors = String::from_utf8(output.stderr).unwrap();
    assert_eq!(output.status.code(), Some(0), "{args:?}: {errors}");
    String::from_utf8(output.stdout).unwrap()
}

/// The error of a run that fails, without the line on the code that runs.
pub fn error(file: &Path, args: &[&str]) -> String {
    let output = run(file, args);
    assert_eq!(
        (output.status.code(), output.stdout.len()),
        (Some(2), 0),
        "{args:?}"
    );
    let errors = String::from_utf8(output.stderr).unwrap();
    errors
        .lines()
        .filter(|line| !line.starts_with("the bit functions"))
        .collect::<Vec<_>>()
        .join("\n")
}

/// The columns of random tables: two of whole numbers, two of floats, two of texts.
pub const COLUMNS: [&str; 6] = ["a", "B", "x", "y z", "t", "u\"v"];

/// Whole numbers, some at the ends of 64 bits, and some that no float equals.
pub const WHOLES: [&str; 12] = [
    "0",
    "1",
    "-1",
    "2",
    "7",
    "007",
    "+5",
    "9007199254740993",
    "9007199254740992",
    "-40",
    "9223372036854775807",
    "-9223372036854775808",
];
/// Floats that are multiples of a quarter, or large.
pub const FLOATS: [&str; 11] = [
    "0.5",
    "-0.25",
    "1.0",
    "2",
    "7.75",
    "-0.0",
    "1e3",
    "9007199254740992.0",
    "9.3e18",
    "-1E20",
    "4.",
];
/// Texts, some with what CSV quotes, some beyond ASCII.
pub const TEXTS: [&str; 11] = [
    "a",
    "b",
    "ab",
    "A",
    "it's",
    "é",
    "\u{1F600}",
    "x,y",
    "say \"hi\"",
    "two\nlines",
    " ",
];

/// A field of a column; empty for a null.
pub fn field(random: &mut Random, column: usize) -> &'static str {
    if random.below(4) == 0 {
        return "";
    }
    match column {
        0 | 1 => random.of(&WHOLES),
        2 | 3 => random.of(&FLOATS),
        _ => random.of(&TEXTS),
    }
}

/// The fields of so many rows. The first one has no null, so that each column has its type.
pub fn table(random: &mut Random, rows: usize) -> Vec<[&'static str; 6]> {
    let first = ["1", "2", "0.5", "1.5", "a", "b"];
    let others = (1..rows).map(|_| [0, 1, 2, 3, 4, 5].map(|column| field(random, column)));
    std::iter::once(first).chain(others).take(rows).collect()
}

/// The table as CSV, with any of its line ends, and quotes also where none are needed.
pub fn written(random: &mut Random, rows: &[[&str; 6]]) -> String {
    let mut text = String::new();
    let header = COLUMNS.map(|name| quoted(name, false));
    for (place, row) in std::iter::once(header.join(","))
        .chain(
            rows.iter()
                .map(|row| row.map(|it| quoted(it, random.below(8) == 0)).join(",")),
        )
        .enumerate()
    {
        if place > 0 {
            text.push_str(if place % 3 == 0 { "\r\n" } else { "\n" });
        }
        text.push_str(&row);
    }
    text
}

fn quoted(field: &str, always: bool) -> String {
    let special = always && !field.is_empty() || field.contains([',', '"', '\n', '\r']);
    if special {
        format!("\"{}\"", field.replace('"', "\"\""))
    } else {
        field.to_string()
    }
}

/// A random condition on the columns.
pub fn condition(random: &mut Random, depth: usize) -> Condition {
    let parts = |random: &mut Random| -> Vec<Condition> {
        (0..2 + random.below(2))
            .map(|_| condition(random, depth - 1))
            .collect()
    };
    match random.below(if depth == 0 { 2 } else { 6 }) {
        0 => Condition::IsNull(name(COLUMNS[random.below(6)])),
        2 => Condition::Not(Box::new(condition(random, depth - 1))),
        3 => Condition::And(parts(random)),
        4 => Condition::Or(parts(random)),
        _ => comparison(random),
    }
}

fn comparison(random: &mut Random) -> Condition {
    let op = random.of(&[
        Comparison::Equal,
        Comparison::NotEqual,
        Comparison::Less,
        Comparison::LessOrEqual,
        Comparison::Greater,
        Comparison::GreaterOrEqual,
    ]);
    let is_text = random.below(3) == 0;
    let column = |random: &mut Random| {
        let place = if is_text {
            4 + random.below(2)
        } else {
            random.below(4)
        };
        Operand::Column(name(COLUMNS[place]))
    };
    let (left, right) = (column(random), column(random));
    match random.below(4) {
        0 => Condition::Compare(left, op, right),
        1 => Condition::Compare(Operand::Literal(literal(random, is_text), 0), op, right),
        _ => Condition::Compare(left, op, Operand::Literal(literal(random, is_text), 0)),
    }
}

fn literal(random: &mut Random, is_text: bool) -> Literal {
    if is_text {
        return Literal::Text(random.of(&TEXTS).to_string());
    }
    match random.below(2) {
        0 => Literal::Whole(random.of(&WHOLES).parse().unwrap()),
        _ => Literal::Float(random.of(&FLOATS).parse().unwrap()),
    }
}

fn name(name: &str) -> Name {
    Name {
        name: name.to_string(),
        at: 0,
    }
}
