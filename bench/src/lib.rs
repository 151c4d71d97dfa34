//! Times of the repository's calls, compared with plain Rust loops and vortex-buffer, as tables in
//! Markdown and as lines of JSON. `bench/rows` builds all of them for one processor level (at
//! x86-64-v4 only the calls; the others for v3), links this library several times, each time with
//! its code at another placement, and runs the programs one after the other. It passes the level's
//! name, for how many milliseconds the rounds of a row go on, the file for the lines, a word that
//! selects rows, the file for this program's times, and those of the programs before it.

mod bench;
mod calls;
mod input;
mod json;
mod loops;
mod measure;
mod parts;
mod row;
mod times;
#[cfg(feature = "upstream")]
mod upstream;
mod words;

use std::env;
use std::fs::File;
use std::time::Duration;

use bench::Bench;
use times::Times;

/// The program.
#[unsafe(no_mangle)]
extern "C" fn main() -> i32 {
    let mut words = env::args().skip(1);
    let mut word = || words.next().unwrap_or_default();
    let level = word();
    let budget = Duration::from_millis(word().parse().expect("milliseconds"));
    let lines = File::create(word()).expect("the file of lines can be written");
    let only = word();
    let times = Times::new(&word(), words);
    let mut bench = Bench::new(level, budget, only, lines, times);
    parts::measure(&mut bench);
    bench.print();
    0
}
