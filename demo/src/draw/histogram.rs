//! The distribution of a column's values.

use vortex_bits::{Bitmap, Compare, Comparison, values};

use super::edges::Edges;
use crate::column::Values;
use crate::engine::{Batch, Output};
use crate::error::Error;
use crate::survey::Range;

/// The number of values of a column in each bin, in the selected rows.
#[derive(Clone, Debug)]
pub struct Histogram {
    column: usize,
    edges: Edges,
    /// The number of values at or above each edge; for the first edge, all values.
    above: Vec<u64>,
}

impl Histogram {
    /// Returns the histogram of a column whose numbers are in a range, without a value yet.
    #[must_use]
    pub fn new(column: usize, range: Range) -> Histogram {
        let edges = Edges::new(range);
        Histogram {
            column,
            above: vec![0; edges.len()],
            edges,
        }
    }

    /// Returns the column.
    #[must_use]
    pub fn column(&self) -> usize {
        self.column
    }

    /// Returns the edge of each bin with its number of values, from the first bin with a value to
    /// the last one.
    #[must_use]
    pub fn bins(&self) -> Vec<(String, u64)> {
        let next = self.above.iter().skip(1).chain(&[0]);
        let counts = self
            .above
            .iter()
            .zip(next)
            .map(|(above, next)| above - next);
        let mut bins: Vec<(String, u64)> = self.edges.labels().into_iter().zip(counts).collect();
        let last = bins.iter().rposition(|bin| bin.1 > 0);
        bins.truncate(last.map_or(0, |last| last + 1));
        let first = bins.iter().position(|bin| bin.1 > 0);
        bins.split_off(first.unwrap_or(0))
    }

    /// Returns the bins as lines with bars. The longest bar has `width` characters.
    #[must_use]
    pub fn lines(&self, width: usize) -> Vec<String> {
        let bins = self.bins();
        let label = bins.iter().map(|bin| bin.0.len()).max().unwrap_or(0);
        let most = bins.iter().map(|bin| bin.1).max().unwrap_or(0);
        let line = |(edge, count): &(String, u64)| {
            let bar = bar(*count, most, width);
            let count = crate::progress::grouped(*count);
            format!("{edge:>label$} │{bar} {count}")
        };
        bins.iter().map(line).collect()
    }
}

/// Returns a bar in eighths of a character. A bin with a value has at least one eighth.
fn bar(count: u64, most: u64, width: usize) -> String {
    const PARTS: [&str; 8] = ["", "▏", "▎", "▍", "▌", "▋", "▊", "▉"];
    let eighths = u128::from(count) * width as u128 * 8;
    let eighths = eighths.div_ceil(u128::from(most.max(1)));
    let eighths = usize::try_from(eighths).unwrap_or(0);
    format!("{}{}", "█".repeat(eighths / 8), PARTS[eighths % 8])
}

impl Output for Histogram {
    fn uses(&self) -> Vec<usize> {
        vec![self.column]
    }

    fn take(&mut self, batch: &Batch<'_>, kept: &Bitmap) -> Result<(), Error> {
        let column = batch.column(self.column);
        let mask = kept & column.validity();
        match (&column.values, &self.edges) {
            (Values::Whole(numbers), Edges::Whole(edges)) => {
                add_above(numbers, edges, &mask, &mut self.above);
            }
            (Values::Float(numbers), Edges::Float(edges)) => {
                add_above(numbers, edges, &mask, &mut self.above);
            }
            _ => unreachable!("the range of a column is of its type"),
        }
        Ok(())
    }
}

/// Adds the number of the mask's values at or above each edge; to the first one, all of them.
fn add_above<T: Compare>(numbers: &[T], edges: &[T], mask: &Bitmap, above: &mut [u64]) {
    if let Some(all) = above.first_mut() {
        *all += mask.count_ones() as u64;
    }
    for (&edge, above) in edges.iter().zip(above).skip(1) {
        let at_least = values::compare(numbers, Comparison::GreaterOrEqual, edge);
        *above += at_least.bits().and_count(mask) as u64;
    }
}

#[cfg(test)]
mod tests {
    use super::*;
    use crate::survey::Spread;

    #[test]
    fn values_in_bins() {
        let range = Range::Whole(Spread {
            least: 0,
            greatest: 4,
            mean: 2.0,
        });
        let mut histogram = Histogram::new(0, range);
        let Edges::Whole(edges) = histogram.edges.clone() else {
            unreachable!()
        };
        assert_eq!(edges, [0, 1, 2, 3, 4]);
        let mask = Bitmap::from([true, true, false, true, true, true]);
        add_above(&[1, 3, 3, 1, 1, 2], &edges, &mask, &mut histogram.above);
        assert_eq!(
            histogram.bins(),
            [("1", 3), ("2", 1), ("3", 1)].map(|(a, b)| (a.into(), b))
        );
        assert_eq!(histogram.lines(6), ["1 │██████ 3", "2 │██ 1", "3 │██ 1"]);
    }

    #[test]
    fn bars() {
        assert_eq!(bar(0, 100, 10), "");
        assert_eq!(bar(1, 1_000_000, 10), "▏");
        assert_eq!(bar(50, 100, 3), "█▌");
        assert_eq!(bar(u64::MAX, u64::MAX, 2), "██");
    }
}
