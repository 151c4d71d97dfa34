//! Times of the same rows by several programs. Each has the code of all contenders at a different
//! placement, writes a line of its times for each row, and reads those of the programs before it.

use std::fs::File;
use std::io::{BufRead, BufReader, BufWriter, Lines, Write};

/// The file of this program, and those of the programs before it.
pub struct Times {
    own: BufWriter<File>,
    before: Vec<Lines<BufReader<File>>>,
}

impl Times {
    pub fn new(own: &str, before: impl Iterator<Item = String>) -> Self {
        let open = |path: String| {
            let file = File::open(path).expect("the times of the programs before can be read");
            BufReader::new(file).lines()
        };
        Times {
            own: BufWriter::new(File::create(own).expect("the file of times can be written")),
            before: before.map(open).collect(),
        }
    }

    /// The times of the next row's contenders: this program's, and those of the programs before.
    pub fn with_those_before(&mut self, own: &[f64]) -> Vec<Placed> {
        let mut placed: Vec<_> = own.iter().map(|&time| Placed(vec![time])).collect();
        for lines in &mut self.before {
            let line = lines.next().expect("a line for each row").expect("a line");
            let times = line.split(' ').map(|it| it.parse().expect("a time"));
            for (placed, time) in placed.iter_mut().zip(times) {
                placed.0.push(time);
            }
        }
        let words: Vec<_> = own.iter().map(f64::to_string).collect();
        writeln!(self.own, "{}", words.join(" ")).expect("the file of times can be written");
        placed
    }
}

/// The times of a contender in nanoseconds, one per program.
pub struct Placed(Vec<f64>);

impl Placed {
    pub fn median(&self) -> f64 {
        median(self.0.clone())
    }

    /// The median of the ratios of these times to those of another contender.
    pub fn over(&self, other: &Placed) -> f64 {
        median(self.0.iter().zip(&other.0).map(|(a, b)| a / b).collect())
    }

    /// The least and the greatest time.
    pub fn range(&self) -> [f64; 2] {
        let least = self.0.iter().copied().fold(f64::INFINITY, f64::min);
        [least, self.0.iter().copied().fold(0.0, f64::max)]
    }
}

/// The number in the middle, or the mean of the two numbers there.
fn median(mut numbers: Vec<f64>) -> f64 {
    numbers.sort_by(f64::total_cmp);
    let at = numbers.len() / 2;
    if numbers.len() % 2 == 1 {
        numbers[at]
    } else {
        f64::midpoint(numbers[at - 1], numbers[at])
    }
}
