//! Times queries by an engine over Arrow's batches and by plain loops over the same rows.
//!
//!     cargo run --release -- [--quick]
//!
//! It prints which code the engine's calls run, and then a line for each query and each size of a
//! batch: the least time of both in 21 turns, in nanoseconds a row, and the ratio; below 1 the
//! engine is faster. `--quick` takes three turns. It stops if two answers differ.

mod engine;
mod loops;
mod table;

use std::env;
use std::hint::black_box;
use std::time::Instant;

use engine::Result;
use table::{FEW, HALF, Packed, Random, Rows, Table};
use vortex_bits::arrow::{Array, Export};
use vortex_bits::values::{masked_float_max, masked_float_min, masked_float_sum};
use vortex_bits::values::{masked_max, masked_min, masked_sum};
use vortex_bits::{Bitmap, Level};

/// A table, the number of its rows, and how many turns a query takes.
type Timed<'a> = (&'a Table, u32, usize);

/// Compares the answers of both to a query, times them by turns, and prints the line. It panics if
/// the answers differ.
fn time<A, B>(
    (table, rows, turns): Timed<'_>,
    name: &str,
    engine: impl Fn(&[Array]) -> Result<A>,
    loops: impl Fn(&[Rows]) -> B,
    are_equal: impl Fn(A, B) -> bool,
) -> Result<()> {
    let equal = are_equal(engine(&table.batches)?, loops(&table.parts));
    assert!(equal, "{name}: the answers differ");
    let mut least = [f64::INFINITY; 2];
    for _ in 0..turns {
        let start = Instant::now();
        black_box(engine(black_box(&table.batches))?);
        let middle = Instant::now();
        black_box(loops(black_box(&table.parts)));
        let times = [middle - start, middle.elapsed()];
        least = [0, 1].map(|it| times[it].as_secs_f64().min(least[it]));
    }
    let batch = table.parts[0].id.len();
    let [engine, loops] = least.map(|it| it * 1e9 / f64::from(rows));
    let ratio = engine / loops;
    println!("{name},{rows},{batch},{engine:.4},{loops:.4},{ratio:.2}");
    Ok(())
}

/// Times a query, given the answer of the engine, that of loops, and a comparison of both; without
/// one, `==` compares them.
macro_rules! query {
    ($of:ident, $name:literal, $engine:expr; $loops:expr) => {
        query!($of, $name, $engine; $loops; |a, b| a == b)
    };
    ($of:ident, $name:literal, $engine:expr; $loops:expr; $are_equal:expr) => {
        time($of, $name, $engine, $loops, $are_equal)?
    };
}

fn are_rows(batches: Vec<Export>, parts: Vec<Rows>) -> bool {
    let read = |batch: Export| Rows::read(&batch.into_array()).ok();
    let rows = batches.into_iter().map(read);
    rows.eq(parts.into_iter().map(Some))
}

fn are_bits(a: engine::Index, b: loops::Index) -> bool {
    let words = a.cities.into_iter().chain([a.flag]);
    let words = words.map(|it| it.words().collect::<Vec<_>>());
    words.eq(b.cities.into_iter().chain([b.flag]))
}

/// Runs all queries over random rows, `batch` in each batch, and times each for `turns` turns.
fn run(rows: u32, batch: usize, turns: usize) -> Result<()> {
    let table = Table::random(rows, batch)?;
    let of = (&table, rows, turns);
    query!(of, "select * of 50 %", |it| engine::select(it, HALF); |it| loops::select(it, HALF);
        are_rows);
    query!(of, "select * of 1 %", |it| engine::select(it, FEW); |it| loops::select(it, FEW);
        are_rows);
    let at = rows as usize / 100..rows as usize / 100 + 50;
    query!(of, "page of 50 rows", |it| engine::page(it, &at); |it| loops::page(it, &at);
        |page, rows| are_rows(vec![page], vec![rows]));
    query!(of, "top 10", |it| engine::top(it, 10); |it| loops::top(it, 10));
    query!(of, "group by", engine::group; loops::group);
    let mut random = Random(2);
    let numbers: Vec<u32> = (0..10_000).map(|_| random.below(100_000)).collect();
    let set = Bitmap::from_indices(100_000, &numbers);
    let packed = Packed::of(set.bits());
    query!(of, "semi-join", |it| engine::semi_join(it, &set); |it| loops::semi_join(it, &packed));
    texts(of)?;
    index(of)?;
    let kept = table.batches.iter().map(|it| engine::kept(it, HALF));
    let kept = kept.collect::<Result<Vec<_>>>()?;
    let packed: Vec<Packed> = kept.iter().map(|it| Packed::of(it.bits())).collect();
    query!(of, "aggregates of i64", |it| engine::aggregates(it, &kept, "number", |all, of| {
            (masked_sum(all, of), masked_min(all, of), masked_max(all, of))
        });
        |it| loops::aggregates(it, &packed, |rows| &rows.number));
    query!(of, "aggregates of f64", |it| engine::aggregates(it, &kept, "price", |all, of| {
            (masked_float_sum(all, of), masked_float_min(all, of), masked_float_max(all, of))
        });
        |it| loops::aggregates(it, &packed, |rows| &rows.price));
    Ok(())
}

/// The compiler doesn't know the texts to search for, as in an engine.
fn texts(of: Timed<'_>) -> Result<()> {
    let [equal, start, part] = black_box(["orange juice with pulp", "honey", "with pulp"]);
    let set = black_box(["fig", "lemon", "kiwi", "pear", "quince", "date 7"]);
    let bytes = set.map(str::as_bytes);
    query!(of, "text equals", |it| engine::named(it, |names| names.equals(equal));
        |it| loops::named(it, |name| name == equal.as_bytes()));
    query!(of, "text starts with", |it| engine::named(it, |names| names.starts_with(start));
        |it| loops::named(it, |name| name.starts_with(start.as_bytes())));
    let has_part = |name: &[u8]| name.windows(part.len()).any(|it| it == part.as_bytes());
    query!(of, "text contains", |it| engine::named(it, |names| names.contains(part));
        |it| loops::named(it, has_part));
    query!(of, "text in a set of 6", |it| engine::named(it, |names| names.is_in(set));
        |it| loops::named(it, |name| bytes.contains(&name)));
    Ok(())
}

fn index(of: Timed<'_>) -> Result<()> {
    query!(of, "bitmap index: build", engine::Index::new; loops::Index::new; are_bits);
    let a = engine::Index::new(&of.0.batches)?;
    let b = loops::Index::new(&of.0.parts);
    let cities = || black_box([3, 17, 42]);
    query!(of, "bitmap index: (a or b or c) and d",
        |_| Ok(a.one_of(cities())); |_| b.one_of(cities()); |a, b| a.words().eq(b));
    let city = || black_box(5);
    query!(of, "bitmap index: two counts", |_| Ok(a.counts(city())); |_| b.counts(city()));
    Ok(())
}

fn main() -> Result<()> {
    let is_quick = env::args().any(|word| word == "--quick");
    let turns = if is_quick { 3 } else { 21 };
    println!("# {:?}", Level::current());
    println!("query,rows,batch,engine_ns_a_row,loop_ns_a_row,ratio");
    run(1_000_000, 1_000, turns)?;
    run(1_000_000, 65_536, turns)
}

#[cfg(test)]
mod tests {
    #[test]
    fn engine_and_loops_return_the_same_answers() {
        for batch in [1_000, 4_099, 65_536] {
            super::run(10_000, batch, 0).expect("no query fails");
        }
    }
}
