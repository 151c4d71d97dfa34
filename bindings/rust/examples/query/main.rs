//! A small engine: `where a > x and b is not null` over a stream of batches, as another part of the
//! program gives it by the Arrow C stream interface.
//!
//!     cargo run --release --features arrow --example query -- [ROWS | FILE] [time | csv]
//!
//! It makes ROWS rows (by default a hundred thousand), or reads FILE: the line `a,b,c,flag`, and
//! then a line per row with a comma between two fields; an empty field is null. With `time` it also
//! runs the query and plain loops 30 times in turn, and prints the least time of each; with `csv`
//! it prints the rows instead of the results.

mod engine;
mod loops;
mod rows;

use std::env;
use std::error::Error;
use std::fs;
use std::hint::black_box;
use std::io::{self, Write};
use std::time::Instant;

use engine::Question;
use rows::Rows;
use vortex_bits::Level;
use vortex_bits::arrow::{Array, Stream};

/// The number of rows in a batch, read or generated.
const BATCH: usize = 65_536;

fn rows_of(word: Option<&str>) -> Result<Rows, Box<dyn Error>> {
    let word = word.unwrap_or("100000");
    match word.parse() {
        Ok(rows) => Ok(Rows::made(rows)),
        Err(_) => Ok(Rows::read(&fs::read_to_string(word)?)?),
    }
}

/// Calls each 30 times, in turn. Returns the least time of each, in milliseconds.
fn times(mut one: impl FnMut(), mut other: impl FnMut()) -> [f64; 2] {
    let mut least = [f64::INFINITY; 2];
    let mut timed = |place: usize, call: &mut dyn FnMut()| {
        let start = Instant::now();
        call();
        least[place] = least[place].min(start.elapsed().as_secs_f64() * 1e3);
    };
    for _ in 0..30 {
        timed(0, &mut one);
        timed(1, &mut other);
    }
    least
}

fn compare(batches: &[Array], question: &Question) -> io::Result<()> {
    let all = || batches.iter().cloned().map(Ok);
    let [engine, loops] = times(
        || _ = black_box(engine::ask(all(), question)),
        || _ = black_box(loops::ask(all(), question)),
    );
    writeln!(
        io::stdout(),
        "{:?}: {engine:.3} ms, by plain loops {loops:.3} ms: {:.2} of it",
        Level::current(),
        engine / loops
    )
}

fn run() -> Result<(), Box<dyn Error>> {
    let words: Vec<String> = env::args().skip(1).collect();
    let [is_timed, is_csv] = ["time", "csv"].map(|word| words.iter().any(|it| it == word));
    let source = words.iter().find(|it| *it != "time" && *it != "csv");
    let rows = rows_of(source.map(String::as_str))?;
    if is_csv {
        return Ok(io::stdout().write_all(rows.written().as_bytes())?);
    }
    let mut raw = rows.stream(BATCH).into_raw();

    // SAFETY: the stream is as the interface requires, and no one else has it. From here on it
    // could be that of any other producer.
    let stream = unsafe { Stream::from_raw(&raw mut raw)? };
    let batches: Vec<Array> = stream.collect::<Result<_, _>>()?;
    let question = Question::new(700, 999);
    let answer = engine::ask(batches.iter().cloned().map(Ok), &question)?;
    assert_eq!(
        answer,
        loops::ask(batches.iter().cloned().map(Ok), &question)?
    );
    writeln!(io::stdout(), "{answer}")?;
    if is_timed {
        compare(&batches, &question)?;
    }
    Ok(())
}

fn main() -> Result<(), Box<dyn Error>> {
    let is_closed = |wrong: &io::Error| wrong.kind() == io::ErrorKind::BrokenPipe;
    match run() {
        // No one reads on, as behind `| head -1`.
        Err(wrong) if wrong.downcast_ref().is_some_and(is_closed) => Ok(()),
        ended => ended,
    }
}
