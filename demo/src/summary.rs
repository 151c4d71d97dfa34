//! Aggregates of the selected rows: counts, sums, means, the least and the greatest value.

use vortex_bits::{Bitmap, Value, values};

use crate::column;
use crate::engine::{Batch, Output};
use crate::error::Error;
use crate::query::{Aggregate, Answer};
use crate::survey::{Range, Spread};

/// The number of selected rows, added up batch by batch.
#[derive(Clone, Copy, Debug, Default)]
pub struct Count(pub u64);

impl Output for Count {
    fn take(&mut self, _: &Batch<'_>, kept: &Bitmap) -> Result<(), Error> {
        self.0 += kept.count_ones() as u64;
        Ok(())
    }
}

/// The aggregates of one column, over the selected values that aren't null.
#[derive(Clone, Debug)]
pub struct Summary {
    column: usize,
    /// The number of values.
    pub count: u64,
    /// None before the first value.
    total: Option<Total>,
}

/// The aggregates of values of one type.
#[derive(Clone, Debug)]
enum Total {
    /// The sum is exact.
    Whole(Values<i64, i128>),
    Float(Values<f64, Sum>),
    /// Texts have no sum.
    Text(Values<Vec<u8>, ()>),
}

/// The least value, the greatest one, and the sum of all.
#[derive(Clone, Debug)]
struct Values<T, S> {
    least: T,
    greatest: T,
    sum: S,
}

impl<T: PartialOrd, S> Values<T, S> {
    fn joined(self, other: Values<T, S>, plus: impl FnOnce(S, S) -> S) -> Values<T, S> {
        let (less, more) = (other.least < self.least, other.greatest > self.greatest);
        Values {
            least: if less { other.least } else { self.least },
            greatest: if more { other.greatest } else { self.greatest },
            sum: plus(self.sum, other.sum),
        }
    }
}

impl Summary {
    /// Returns the summary of no rows.
    #[must_use]
    pub fn new(column: usize) -> Summary {
        Summary {
            column,
            count: 0,
            total: None,
        }
    }

    /// Returns one answer as text. All but a count are empty if there is no value; a sum and a mean
    /// of texts always are.
    #[must_use]
    pub fn answer(&self, aggregate: Aggregate) -> Vec<u8> {
        let Some(total) = &self.total else {
            let none = if aggregate == Aggregate::Count {
                "0"
            } else {
                ""
            };
            return none.into();
        };
        match aggregate {
            Aggregate::Count => self.count.to_string().into_bytes(),
            Aggregate::Sum => total.sum().unwrap_or_default().into_bytes(),
            Aggregate::Min => total.least(),
            Aggregate::Max => total.greatest(),
            Aggregate::Avg => self.mean().map(text).unwrap_or_default().into_bytes(),
        }
    }

    /// Returns the range of the values; None if there is no value, or they are texts.
    #[must_use]
    #[allow(clippy::cast_precision_loss, reason = "a mean is rounded")]
    pub fn range(&self) -> Option<Range> {
        let count = self.count as f64;
        match self.total.as_ref()? {
            Total::Whole(Values {
                least,
                greatest,
                sum,
            }) => {
                let mean = *sum as f64 / count;
                Some(Range::Whole(Spread {
                    least: *least,
                    greatest: *greatest,
                    mean,
                }))
            }
            Total::Float(Values {
                least,
                greatest,
                sum,
            }) => {
                let mean = sum.mean(count);
                Some(Range::Float(Spread {
                    least: *least,
                    greatest: *greatest,
                    mean,
                }))
            }
            Total::Text(_) => None,
        }
    }

    fn mean(&self) -> Option<f64> {
        self.range().map(|range| match range {
            Range::Whole(spread) => spread.mean,
            Range::Float(spread) => spread.mean,
        })
    }

    fn add(&mut self, total: Total) {
        self.total = Some(match self.total.take() {
            Some(before) => before.joined(total),
            None => total,
        });
    }
}

impl Output for Summary {
    fn uses(&self) -> Vec<usize> {
        vec![self.column]
    }

    fn take(&mut self, batch: &Batch<'_>, kept: &Bitmap) -> Result<(), Error> {
        let column = batch.column(self.column);
        let mask = kept & column.validity();
        self.count += mask.count_ones() as u64;
        let total = match &column.values {
            column::Values::Whole(numbers) => Total::wholes(&values::filter(numbers, &mask)),
            column::Values::Float(numbers) => Total::floats(&values::filter(numbers, &mask)),
            column::Values::Text => {
                let rows = mask.set_indices();
                Total::texts(rows.map(|row| batch.rows.field(row, self.column)))
            }
        };
        if let Some(total) = total {
            self.add(total);
        }
        Ok(())
    }
}

impl Total {
    fn wholes(numbers: &[i64]) -> Option<Total> {
        let sum = numbers.iter().copied().map(i128::from).sum();
        Some(Total::Whole(ends(numbers, sum)?))
    }

    fn floats(numbers: &[f64]) -> Option<Total> {
        let sum = numbers.iter().fold(Sum::default(), |sum, &it| sum.plus(it));
        Some(Total::Float(ends(numbers, sum)?))
    }

    fn texts<'a>(mut texts: impl Iterator<Item = &'a [u8]>) -> Option<Total> {
        let first = texts.next()?;
        let (least, greatest) = texts.fold((first, first), |(least, most), text| {
            (least.min(text), most.max(text))
        });
        let (least, greatest) = (least.to_vec(), greatest.to_vec());
        Some(Total::Text(Values {
            least,
            greatest,
            sum: (),
        }))
    }

    /// Joins the totals of two batches of one column.
    fn joined(self, other: Total) -> Total {
        match (self, other) {
            (Total::Whole(a), Total::Whole(b)) => Total::Whole(a.joined(b, |a, b| a + b)),
            (Total::Float(a), Total::Float(b)) => Total::Float(a.joined(b, Sum::joined)),
            (Total::Text(a), Total::Text(b)) => Total::Text(a.joined(b, |(), ()| ())),
            _ => unreachable!("a column has one type"),
        }
    }

    fn sum(&self) -> Option<String> {
        match self {
            Total::Whole(values) => Some(values.sum.to_string()),
            Total::Float(values) => Some(text(values.sum.value())),
            Total::Text(_) => None,
        }
    }

    fn least(&self) -> Vec<u8> {
        match self {
            Total::Whole(values) => values.least.to_string().into_bytes(),
            Total::Float(values) => text(values.least).into_bytes(),
            Total::Text(values) => values.least.clone(),
        }
    }

    fn greatest(&self) -> Vec<u8> {
        match self {
            Total::Whole(values) => values.greatest.to_string().into_bytes(),
            Total::Float(values) => text(values.greatest).into_bytes(),
            Total::Text(values) => values.greatest.clone(),
        }
    }
}

/// Returns a float with the fewest digits that read back as the same one, with a point or an
/// exponent.
fn text(number: f64) -> String {
    format!("{number:?}")
}

fn ends<T: Value + PartialOrd, S>(numbers: &[T], sum: S) -> Option<Values<T, S>> {
    let (&first, rest) = numbers.split_first()?;
    let (least, greatest) = rest
        .iter()
        .fold((first, first), |(least, greatest), &number| {
            let least = if number < least { number } else { least };
            (least, if number > greatest { number } else { greatest })
        });
    Some(Values {
        least,
        greatest,
        sum,
    })
}

/// The unit of large numbers in a [`Sum`], a power of two.
const UNIT: f64 = 18_446_744_073_709_551_616.0;
/// The greatest number that isn't large: sums of fewer than `UNIT` such numbers don't overflow.
const LARGEST: f64 = f64::MAX / UNIT;

/// A sum of finite floats, which overflows only in the end.
#[derive(Clone, Copy, Debug, Default)]
struct Sum {
    /// The sum of numbers up to `LARGEST`.
    small: Part,
    /// The sum of the larger ones, in units of `UNIT`.
    large: Part,
}

/// A sum of floats that keeps the digits that each step rounds away (Neumaier's algorithm).
#[derive(Clone, Copy, Debug, Default)]
struct Part {
    high: f64,
    low: f64,
}

impl Sum {
    /// Returns the sum with one more number.
    fn plus(self, number: f64) -> Sum {
        let Sum { small, large } = self;
        if number.abs() <= LARGEST {
            let small = small.plus(number);
            Sum { small, large }
        } else {
            let large = large.plus(number / UNIT);
            Sum { small, large }
        }
    }

    fn joined(self, other: Sum) -> Sum {
        Sum {
            small: self.small.joined(other.small),
            large: self.large.joined(other.large),
        }
    }

    /// Returns the sum, rounded; infinity if it is beyond the range of floats.
    fn value(self) -> f64 {
        self.mean(1.0)
    }

    /// Returns the sum divided by a number of values, rounded.
    fn mean(self, count: f64) -> f64 {
        if self.large.value() == 0.0 {
            return self.small.value() / count;
        }
        let small = [self.small.high, self.small.low].map(|part| part / UNIT);
        let sum = small.into_iter().fold(self.large, Part::plus);
        sum.value() / count * UNIT
    }
}

impl Part {
    fn plus(self, number: f64) -> Part {
        let high = self.high + number;
        let lost = if self.high.abs() >= number.abs() {
            (self.high - high) + number
        } else {
            (number - high) + self.high
        };
        Part {
            high,
            low: self.low + lost,
        }
    }

    fn joined(self, other: Part) -> Part {
        self.plus(other.high).plus(other.low)
    }

    fn value(self) -> f64 {
        self.high + self.low
    }
}

/// Returns the text of each answer in a list.
#[must_use]
pub fn answers(list: &[Answer<usize>], rows: u64, summaries: &[Summary]) -> Vec<Vec<u8>> {
    let of = |column: usize| summaries.iter().find(|it| it.column == column);
    let answer = |answer: &Answer<usize>| match answer {
        Answer::Rows => rows.to_string().into_bytes(),
        Answer::Of(aggregate, column) => {
            of(*column).map_or_else(Vec::new, |summary| summary.answer(*aggregate))
        }
    };
    list.iter().map(answer).collect()
}

#[cfg(test)]
mod tests {
    use super::*;

    fn sum(numbers: &[f64]) -> String {
        Total::floats(numbers)
            .and_then(|total| total.sum())
            .unwrap()
    }

    #[test]
    fn sums_of_floats() {
        assert_eq!(sum(&[1e100, 1.0, -1e100]), "1.0");
        assert_eq!(sum(&[0.1; 10]), "1.0");
    }

    /// Only a sum that is itself beyond the range of floats is infinite.
    #[test]
    fn sums_of_large_floats() {
        assert_eq!(sum(&[1e308, 1e308, -1e308]), "1e308");
        assert_eq!(sum(&[1e308, 0.5, 1e308, -1e308, -1e308]), "0.5");
        assert_eq!(sum(&[f64::MAX, 1e291]), "1.7976931348623157e308");
        assert_eq!(sum(&[f64::MAX, 1e292]), "inf");
        assert_eq!(sum(&[-1e308, -1e308]), "-inf");
        let three = [1e308; 3].into_iter().fold(Sum::default(), Sum::plus);
        assert_eq!(text(three.mean(3.0)), "1e308");
    }

    #[test]
    fn sums_beyond_64_bits() {
        let total = Total::wholes(&[i64::MAX, i64::MAX, 3]).unwrap();
        let total = total.joined(Total::wholes(&[i64::MIN]).unwrap());
        assert_eq!(total.sum().unwrap(), "9223372036854775809");
        assert_eq!(total.least(), b"-9223372036854775808");
        assert_eq!(total.greatest(), b"9223372036854775807");
    }

    #[test]
    fn batches_are_joined() {
        let total = Total::floats(&[1e100, 0.5]).unwrap();
        let total = total.joined(Total::floats(&[-1e100, -2.0]).unwrap());
        assert_eq!(
            (total.sum().unwrap().as_str(), total.least()),
            ("-1.5", b"-1e100".to_vec())
        );
        let large = [1e308, 1e308];
        for (batches, wanted) in [
            ([&large[..], &[0.5]], "inf"),
            ([&[0.5], &large], "inf"),
            ([&large, &[-1e308, -1e308]], "0.0"),
        ] {
            let [total, other] = batches.map(|batch| Total::floats(batch).unwrap());
            assert_eq!(total.joined(other).sum().unwrap(), wanted);
        }
        let texts = Total::texts([&b"b"[..], b"a"].into_iter()).unwrap();
        let texts = texts.joined(Total::texts([&b"\xFF"[..]].into_iter()).unwrap());
        assert_eq!(
            (texts.least(), texts.greatest(), texts.sum()),
            (b"a".to_vec(), b"\xFF".to_vec(), None)
        );
    }
}
