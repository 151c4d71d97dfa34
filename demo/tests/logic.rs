//! Conditions compared with their evaluation row by row, by the truth tables of SQL.

mod support;

use std::cmp::Ordering;

use demo::draw::{Histogram, Strip};
use demo::engine::{self, Batch, Output};
use demo::error::Error;
use demo::query::condition::{Condition, Literal, Operand};
use demo::query::{self, Filter};
use demo::survey::{Kind, Survey};
use demo::table::{Format, Table};
use support::{COLUMNS, Folder, Random};
use vortex_bits::{Bitmap, Comparison};

/// The selected rows, by their positions in the file.
#[derive(Default)]
struct Rows(Vec<u64>);

impl Output for Rows {
    fn take(&mut self, batch: &Batch<'_>, kept: &Bitmap) -> Result<(), Error> {
        self.0
            .extend(kept.set_indices().map(|row| batch.before + row as u64));
        Ok(())
    }
}

/// A value of a row. Numbers are in quarters, so that they are compared exactly.
#[derive(Clone, Copy, PartialEq)]
enum Value<'a> {
    Null,
    Quarters(i128),
    Text(&'a str),
}

fn value(field: &str, is_text: bool) -> Value<'_> {
    match field {
        "" => Value::Null,
        text if is_text => Value::Text(text),
        number => Value::Quarters(quarters(number)),
    }
}

#[allow(
    clippy::cast_possible_truncation,
    reason = "the floats are multiples of a quarter"
)]
fn quarters(number: &str) -> i128 {
    let whole = number.parse::<i64>().map(|number| i128::from(number) * 4);
    whole.unwrap_or_else(|_| (number.parse::<f64>().unwrap() * 4.0) as i128)
}

fn operand<'a>(operand: &'a Operand, row: &[&'a str; 6]) -> Value<'a> {
    match operand {
        Operand::Column(name) => {
            let place = COLUMNS.iter().position(|it| *it == name.name).unwrap();
            value(row[place], place >= 4)
        }
        Operand::Literal(Literal::Text(text), _) => Value::Text(text),
        Operand::Literal(number, _) => Value::Quarters(quarters(&number.to_string())),
    }
}

fn order(left: Value<'_>, right: Value<'_>) -> Option<Ordering> {
    match (left, right) {
        (Value::Quarters(left), Value::Quarters(right)) => Some(left.cmp(&right)),
        (Value::Text(left), Value::Text(right)) => Some(left.as_bytes().cmp(right.as_bytes())),
        _ => None,
    }
}

fn compared(op: Comparison, order: Ordering) -> bool {
    match op {
        Comparison::Equal => order == Ordering::Equal,
        Comparison::NotEqual => order != Ordering::Equal,
        Comparison::Less => order == Ordering::Less,
        Comparison::LessOrEqual => order != Ordering::Greater,
        Comparison::Greater => order == Ordering::Greater,
        Comparison::GreaterOrEqual => order != Ordering::Less,
    }
}

/// None for null.
fn truth(condition: &Condition, row: &[&str; 6]) -> Option<bool> {
    let all = |parts: &[Condition]| -> Vec<Option<bool>> {
        parts.iter().map(|part| truth(part, row)).collect()
    };
    match condition {
        Condition::Compare(left, op, right) => Some(compared(
            *op,
            order(operand(left, row), operand(right, row))?,
        )),
        Condition::IsNull(name) => {
            let column = Operand::Column(name.clone());
            Some(operand(&column, row) == Value::Null)
        }
        Condition::Not(inner) => truth(inner, row).map(|truth| !truth),
        Condition::And(parts) => match all(parts) {
            parts if parts.contains(&Some(false)) => Some(false),
            parts if parts.contains(&None) => None,
            _ => Some(true),
        },
        Condition::Or(parts) => match all(parts) {
            parts if parts.contains(&Some(true)) => Some(true),
            parts if parts.contains(&None) => None,
            _ => Some(false),
        },
    }
}

fn kept(table: &Table, survey: &Survey, condition: &Condition) -> Vec<u64> {
    let filter = Filter::new(condition, survey).unwrap();
    let mut rows = Rows::default();
    engine::run(table, survey, Some(&filter), &mut [&mut rows]).unwrap();
    rows.0
}

#[test]
fn conditions_keep_the_rows_that_are_true() {
    let (folder, mut random) = (Folder::new("logic"), Random::new(1));
    for rows in [1, 63, 64, 65, 130, 700] {
        let fields = support::table(&mut random, rows);
        let file = folder.file("table.csv", support::written(&mut random, &fields));
        let table = Table::open(&file, Format::default()).unwrap();
        let survey = Survey::of(&table, &[]).unwrap();
        let kinds: Vec<Kind> = survey.columns.iter().map(|column| column.kind).collect();
        assert_eq!(
            kinds,
            [
                Kind::Whole,
                Kind::Whole,
                Kind::Float,
                Kind::Float,
                Kind::Text,
                Kind::Text
            ]
        );
        for _ in 0..150 {
            let condition = support::condition(&mut random, 3);
            let wanted = (0..)
                .zip(&fields)
                .filter(|(_, row)| truth(&condition, row) == Some(true));
            let wanted: Vec<u64> = wanted.map(|(row, _)| row).collect();
            assert_eq!(kept(&table, &survey, &condition), wanted, "{condition}");
        }
    }
}

#[test]
fn conditions_are_read_as_they_are_written() {
    let mut random = Random::new(2);
    for _ in 0..3000 {
        let condition = support::condition(&mut random, 4);
        let text = condition.to_string();
        assert_eq!(query::condition(&text).unwrap().to_string(), text);
    }
}

/// Compares the number of values in each bin with a plain loop.
fn check_bins(bins: &[(String, u64)], numbers: &[f64]) {
    let edges: Vec<f64> = bins.iter().map(|(edge, _)| edge.parse().unwrap()).collect();
    let mut counts = vec![0; edges.len()];
    for number in numbers {
        let bin = edges.iter().rposition(|edge| edge <= number);
        counts[bin.unwrap_or_else(|| panic!("{number} is before {edges:?}"))] += 1;
    }
    assert_eq!(bins.iter().map(|bin| bin.1).collect::<Vec<_>>(), counts);
}

/// Compares the share of selected rows in each cell with a plain loop.
fn check_strip(strip: &Strip, rows: u64, kept: &[u64]) {
    let shares: Vec<f64> = strip.shares().collect();
    let cells = shares.len() as u64;
    let starts: Vec<u64> = (0..=cells).map(|cell| rows * cell / cells).collect();
    for (place, share) in shares.into_iter().enumerate() {
        let cell = starts[place]..starts[place + 1];
        let of_cell = kept.iter().filter(|row| cell.contains(row)).count() as u64;
        let [of_cell, rows] = [of_cell, cell.end - cell.start].map(|it| u32::try_from(it).unwrap());
        let wanted = f64::from(of_cell) / f64::from(rows);
        assert!(
            (share - wanted).abs() < 1e-12,
            "cell {place}: {share}, {wanted}"
        );
    }
}

#[test]
fn pictures_show_the_rows_that_are_kept() {
    let (folder, mut random) = (Folder::new("pictures"), Random::new(6));
    for rows in [1, 40, 64, 130, 1000] {
        let fields = support::table(&mut random, rows);
        let file = folder.file("table.csv", support::written(&mut random, &fields));
        let table = Table::open(&file, Format::default()).unwrap();
        let survey = Survey::of(&table, &[]).unwrap();
        for column in [0, 2, 3] {
            let condition = support::condition(&mut random, 2);
            let filter = Filter::new(&condition, &survey).unwrap();
            let mut kept = Rows::default();
            let mut strip = Strip::new(rows as u64, 72);
            let mut histogram = Histogram::new(column, survey.columns[column].range.unwrap());
            let outputs: &mut [&mut dyn Output] = &mut [&mut kept, &mut strip, &mut histogram];
            engine::run(&table, &survey, Some(&filter), outputs).unwrap();
            let numbers = kept
                .0
                .iter()
                .map(|&row| fields[usize::try_from(row).unwrap()][column]);
            let numbers = numbers.filter(|field| !field.is_empty());
            check_bins(
                &histogram.bins(),
                &numbers.map(|it| it.parse().unwrap()).collect::<Vec<_>>(),
            );
            check_strip(&strip, rows as u64, &kept.0);
        }
    }
}

/// More rows than a batch has, so that rows are counted over several of them.
#[test]
fn rows_of_many_batches() {
    let folder = Folder::new("batches");
    let numbers = (0..150_000).map(|row| format!("{}\n", row % 1000));
    let file = folder.file("numbers.csv", format!("n\n{}", numbers.collect::<String>()));
    let table = Table::open(&file, Format::default()).unwrap();
    let survey = Survey::of(&table, &[]).unwrap();
    let condition = query::condition("n = 999 or n < 1").unwrap();
    let filter = Filter::new(&condition, &survey).unwrap();
    let (mut rows, mut strip) = (Rows::default(), Strip::new(150_000, 7));
    let mut histogram = Histogram::new(0, survey.columns[0].range.unwrap());
    let outputs: &mut [&mut dyn Output] = &mut [&mut rows, &mut strip, &mut histogram];
    engine::run(&table, &survey, Some(&filter), outputs).unwrap();
    let wanted = (0..150_000).filter(|row| matches!(row % 1000, 0 | 999));
    assert_eq!(rows.0, wanted.collect::<Vec<u64>>());
    check_strip(&strip, 150_000, &rows.0);
    let bins = histogram.bins();
    assert_eq!((bins[0].1, bins[bins.len() - 1].1), (150, 150));
}
