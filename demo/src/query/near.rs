//! Exact comparisons of a number of one type with values of another.

use std::cmp::Ordering;

use vortex_bits::Comparison;

use crate::number;

/// The position of a number among the values of type `T`.
#[derive(Clone, Copy, Debug, PartialEq)]
pub enum Near<T> {
    /// The number is this value.
    At(T),
    /// The number is above this value, and below the next one.
    Above(T),
    /// The number is below this value, and above the one before.
    Below(T),
}

/// The meaning of a comparison with a number, for values of another type.
#[derive(Clone, Copy, Debug, PartialEq)]
pub enum Meaning<T> {
    /// A comparison with a value of their type.
    Compare(Comparison, T),
    /// The same truth value for each.
    Always(bool),
}

impl Near<i64> {
    /// Returns the position of a finite float among the integers of 64 bits.
    #[must_use]
    pub fn float(float: f64) -> Near<i64> {
        #[allow(
            clippy::cast_possible_truncation,
            reason = "beyond i64 the cast saturates"
        )]
        let floor = float.floor() as i64;
        match number::compare(floor, float) {
            Ordering::Less => Near::Above(floor),
            Ordering::Equal => Near::At(floor),
            Ordering::Greater => Near::Below(floor),
        }
    }
}

impl Near<f64> {
    /// Returns the position of an integer among floats.
    #[must_use]
    pub fn whole(whole: i64) -> Near<f64> {
        #[allow(clippy::cast_precision_loss, reason = "the nearest float is compared")]
        let nearest = whole as f64;
        match number::compare(whole, nearest) {
            Ordering::Less => Near::Below(nearest),
            Ordering::Equal => Near::At(nearest),
            Ordering::Greater => Near::Above(nearest),
        }
    }
}

impl<T> Near<T> {
    /// Returns the meaning of a comparison with this number, for values of type `T`.
    #[must_use]
    pub fn meaning(self, op: Comparison) -> Meaning<T> {
        use Comparison::{Equal, Greater, GreaterOrEqual, Less, LessOrEqual, NotEqual};
        match (self, op) {
            (Near::At(value), op) => Meaning::Compare(op, value),
            (_, Equal) => Meaning::Always(false),
            (_, NotEqual) => Meaning::Always(true),
            (Near::Above(value), Less | LessOrEqual) => Meaning::Compare(LessOrEqual, value),
            (Near::Above(value), Greater | GreaterOrEqual) => Meaning::Compare(Greater, value),
            (Near::Below(value), Less | LessOrEqual) => Meaning::Compare(Less, value),
            (Near::Below(value), Greater | GreaterOrEqual) => {
                Meaning::Compare(GreaterOrEqual, value)
            }
        }
    }
}

#[cfg(test)]
mod tests {
    use super::*;
    use crate::query::truth::holds;

    #[test]
    fn floats_among_whole_numbers() {
        assert_eq!(Near::float(4.0), Near::At(4));
        assert_eq!(Near::float(4.5), Near::Above(4));
        assert_eq!(Near::float(-4.5), Near::Above(-5));
        assert_eq!(Near::float(1e300), Near::Above(i64::MAX));
        assert_eq!(
            Near::float(9_223_372_036_854_775_808.0),
            Near::Above(i64::MAX)
        );
        assert_eq!(Near::float(-1e300), Near::Below(i64::MIN));
        assert_eq!(
            Near::float(-9_223_372_036_854_775_808.0),
            Near::At(i64::MIN)
        );
    }

    #[test]
    fn whole_numbers_among_floats() {
        let big = 9_007_199_254_740_992.0;
        assert_eq!(Near::whole(-3), Near::At(-3.0));
        assert_eq!(Near::whole(9_007_199_254_740_993), Near::Above(big));
        assert_eq!(Near::whole(9_007_199_254_740_995), Near::Below(big + 4.0));
    }

    /// Tests each comparison of a few values with a number that is between two of them, or equal to
    /// one.
    #[test]
    fn meanings() {
        type Wanted = fn(i64, f64) -> bool;
        let comparisons: [(Comparison, Wanted); 6] = [
            (Comparison::Equal, |a, b| number::compare(a, b).is_eq()),
            (Comparison::NotEqual, |a, b| number::compare(a, b).is_ne()),
            (Comparison::Less, |a, b| number::compare(a, b).is_lt()),
            (Comparison::LessOrEqual, |a, b| {
                number::compare(a, b).is_le()
            }),
            (Comparison::Greater, |a, b| number::compare(a, b).is_gt()),
            (Comparison::GreaterOrEqual, |a, b| {
                number::compare(a, b).is_ge()
            }),
        ];
        for (near, number) in [
            (Near::Above(1), 1.5),
            (Near::Below(2), 1.5),
            (Near::At(2), 2.0),
        ] {
            for (op, wanted) in comparisons {
                for value in 0..4i64 {
                    let found = match near.meaning(op) {
                        Meaning::Compare(op, other) => holds(op, value.cmp(&other)),
                        Meaning::Always(truth) => truth,
                    };
                    assert_eq!(found, wanted(value, number), "{value} {op:?} {number}");
                }
            }
        }
    }
}
