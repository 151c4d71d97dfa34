//! The edges of a histogram's bins, by steps of 1, 2 or 5 times a power of ten.

use crate::survey::{Range, Spread};

/// The approximate greatest number of bins of equal width.
const BINS: f64 = 16.0;
/// Bins grow with the numbers only if the greatest number is at least this many times the least.
const DECADES: f64 = 1000.0;

/// The number at which each bin begins, in ascending order. The last bin has no end.
#[derive(Clone, Debug, PartialEq)]
pub enum Edges {
    /// The edges of integers.
    Whole(Vec<i64>),
    /// The edges of floats.
    Float(Vec<f64>),
}

impl Edges {
    /// Returns the edges for numbers of a range. The bins have equal width. They grow with the
    /// numbers only if the range is wide, no number is negative, and the mean is small.
    #[must_use]
    pub fn new(range: Range) -> Edges {
        match range {
            Range::Whole(spread) => Edges::Whole(wholes(spread)),
            Range::Float(spread) => Edges::Float(floats(spread)),
        }
    }

    /// Returns the number of bins.
    #[must_use]
    pub fn len(&self) -> usize {
        match self {
            Edges::Whole(edges) => edges.len(),
            Edges::Float(edges) => edges.len(),
        }
    }

    /// Returns each edge as text.
    #[must_use]
    pub fn labels(&self) -> Vec<String> {
        match self {
            Edges::Whole(edges) => edges.iter().map(i64::to_string).collect(),
            Edges::Float(edges) => edges.iter().map(|&edge| label(edge)).collect(),
        }
    }
}

fn label(edge: f64) -> String {
    match edge.abs() {
        size if size == 0.0 || (1e-4..1e12).contains(&size) => format!("{edge}"),
        _ => format!("{edge:e}"),
    }
}

/// A step: 1, 2 or 5 times a power of ten.
#[derive(Clone, Copy, Debug, PartialEq)]
struct Step {
    digit: i128,
    exponent: i32,
}

impl Step {
    /// Returns the least step that is at least `width`.
    fn above(width: f64) -> Step {
        #[allow(
            clippy::cast_possible_truncation,
            reason = "an exponent of a float is small"
        )]
        let exponent = width.log10().floor() as i32;
        let all = [exponent, exponent + 1].into_iter().flat_map(Step::of);
        let found = all.clone().find(|step| step.times(1) >= width);
        found.or(all.last()).unwrap_or(Step { digit: 1, exponent })
    }

    /// Returns the steps of a power of ten.
    fn of(exponent: i32) -> [Step; 3] {
        [1, 2, 5].map(|digit| Step { digit, exponent })
    }

    /// Returns the float nearest to a multiple of the step.
    fn times(self, number: i128) -> f64 {
        let text = format!("{}e{}", self.digit * number, self.exponent);
        text.parse().unwrap_or(f64::NAN)
    }

    /// Returns the step as an integer of 64 bits; None if it isn't one.
    fn whole(self) -> Option<i64> {
        let power = 10i64.checked_pow(u32::try_from(self.exponent).ok()?)?;
        power.checked_mul(i64::try_from(self.digit).ok()?)
    }
}

/// Returns whether a wide range, without negative numbers, has its mean in its first sixteenth.
fn is_skewed(least: f64, greatest: f64, mean: f64) -> bool {
    let start = if least == 0.0 { 1.0 } else { least };
    least >= 0.0 && greatest / start >= DECADES && mean - least < (greatest - least) / BINS
}

#[allow(clippy::cast_precision_loss, reason = "a step is round")]
fn wholes(
    Spread {
        least,
        greatest,
        mean,
    }: Spread<i64>,
) -> Vec<i64> {
    if is_skewed(least as f64, greatest as f64, mean) {
        let steps = (0..19).flat_map(Step::of).filter_map(Step::whole);
        let all: Vec<i64> = std::iter::once(0).chain(steps).collect();
        return between(&all, least, greatest);
    }
    // Two large numbers may round to the same float.
    let width = greatest.abs_diff(least) as f64 / BINS;
    let step = Step::above(width.max(1.0)).whole().unwrap_or(i64::MAX);
    let (step, least) = (i128::from(step), i128::from(least));
    let first = least.div_euclid(step) * step;
    let edges = (0..).map(|place| first + place * step);
    let edges = edges.take_while(|&edge| edge <= i128::from(greatest));
    edges
        .map(|edge| i64::try_from(edge).unwrap_or(i64::MIN))
        .collect()
}

fn floats(
    Spread {
        least,
        greatest,
        mean,
    }: Spread<f64>,
) -> Vec<f64> {
    if least > 0.0 && is_skewed(least, greatest, mean) {
        let steps = (-323..=308).flat_map(Step::of).map(|step| step.times(1));
        return between(&steps.collect::<Vec<f64>>(), least, greatest);
    }
    let width = greatest / BINS - least / BINS;
    if width <= 0.0 {
        return vec![least];
    }
    let step = Step::above(width);
    #[allow(
        clippy::cast_possible_truncation,
        reason = "least is fewer than 2^60 steps from 0"
    )]
    let first = (least / step.times(1)).floor() as i128;
    // The first edge may be below all floats.
    let edges = (0..=2 * 16).map(|place| step.times(first + place).max(f64::MIN));
    edges
        .take_while(|&edge| edge <= greatest && edge.is_finite())
        .collect()
}

/// Returns the edges from the last one at or below `least` up to `greatest`. If there are too many,
/// it returns every n-th one.
fn between<T: PartialOrd + Copy>(all: &[T], least: T, greatest: T) -> Vec<T> {
    let first = all.iter().rposition(|edge| *edge <= least).unwrap_or(0);
    let within: Vec<T> = all[first..]
        .iter()
        .copied()
        .take_while(|edge| *edge <= greatest)
        .collect();
    let each = within.len().div_ceil(2 * 16);
    within.into_iter().step_by(each.max(1)).collect()
}

#[cfg(test)]
mod tests {
    use super::*;

    fn of_wholes(least: i64, greatest: i64, mean: f64) -> Vec<String> {
        Edges::new(Range::Whole(Spread {
            least,
            greatest,
            mean,
        }))
        .labels()
    }

    fn of_floats(least: f64, greatest: f64, mean: f64) -> Vec<String> {
        Edges::new(Range::Float(Spread {
            least,
            greatest,
            mean,
        }))
        .labels()
    }

    #[test]
    fn whole_numbers() {
        assert_eq!(of_wholes(7, 7, 7.0), ["7"]);
        assert_eq!(
            of_wholes(-3, 4, 0.0),
            ["-3", "-2", "-1", "0", "1", "2", "3", "4"]
        );
        assert_eq!(of_wholes(0, 99, 50.0)[..3], ["0", "10", "20"]);
        assert_eq!(of_wholes(3, 5000, 20.0)[..4], ["2", "5", "10", "20"]);
        assert_eq!(of_wholes(0, 5000, 20.0).last().unwrap(), "5000");
    }

    /// Bins grow only if most numbers would be in the first one.
    #[test]
    fn wide_ranges() {
        assert_eq!(of_wholes(0, 1_000_000, 500_000.0)[..2], ["0", "100000"]);
        assert_eq!(of_wholes(0, 1_000_000, 5000.0)[..2], ["0", "1"]);
        assert_eq!(of_floats(1.0, 1e6, 5e5)[..2], ["0", "100000"]);
        assert_eq!(of_floats(1.0, 1e6, 5e3)[..2], ["1", "2"]);
        assert_eq!(of_wholes(-1, 1_000_000, 5000.0)[..2], ["-100000", "0"]);
    }

    #[test]
    fn whole_numbers_at_the_ends() {
        let edges = of_wholes(i64::MIN, i64::MAX, 0.0);
        assert_eq!(edges[0], "-9223372036854775808");
        assert!((8..=20).contains(&edges.len()), "{edges:?}");
        assert_eq!(of_wholes(i64::MAX, i64::MAX, 0.0), ["9223372036854775807"]);
        assert_eq!(of_wholes(i64::MIN, i64::MIN, 0.0), ["-9223372036854775808"]);
        assert_eq!(of_wholes(1, i64::MAX, 5.0).len(), 29);
        assert_eq!(
            of_wholes(i64::MAX - 47, i64::MAX, 0.0)[..2],
            ["9223372036854775760", "9223372036854775765"]
        );
        assert_eq!(of_wholes(i64::MIN, i64::MIN + 500, 0.0).len(), 11);
    }

    #[test]
    fn floats_of_all_sizes() {
        assert_eq!(of_floats(0.0, 1.0, 0.5)[..4], ["0", "0.1", "0.2", "0.3"]);
        assert_eq!(of_floats(2.5, 2.5, 2.5), ["2.5"]);
        assert_eq!(
            of_floats(0.001, 50.0, 0.1)[..3],
            ["0.001", "0.002", "0.005"]
        );
        for (least, greatest) in [
            (-1e308, 1e308),
            (f64::MIN, f64::MAX),
            (f64::MIN, -1e300),
            (5e-324, 1.7e308),
            (-5e-324, 0.0),
            (1e15, 1e15 + 1.0),
        ] {
            let edges = of_floats(least, greatest, least);
            assert!((1..=33).contains(&edges.len()), "{edges:?}");
        }
        assert_eq!(
            of_floats(f64::MIN, f64::MAX, 0.0)[0],
            "-1.7976931348623157e308"
        );
    }
}
