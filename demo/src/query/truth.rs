//! Truth values of rows, which may be null, and the results of comparisons.

use std::cmp::Ordering;

use vortex_bits::{Bitmap, Comparison, values};

/// A truth value per row, by SQL's three-valued logic.
#[derive(Clone, Debug)]
pub struct Truth {
    /// The true rows. The bits of nulls are ignored.
    pub trues: Bitmap,
    /// The rows that aren't null; None if no row is null.
    pub valid: Option<Bitmap>,
}

impl Truth {
    /// Returns the rows that are true.
    #[must_use]
    pub fn kept(self) -> Bitmap {
        match self.valid {
            Some(valid) => self.trues & valid,
            None => self.trues,
        }
    }

    /// Returns `self and other`.
    #[must_use]
    pub fn and(self, other: &Truth) -> Truth {
        let (a, b) = (&self, other);
        let (trues, valid) =
            values::and_kleene(&a.trues, a.valid.as_ref(), &b.trues, b.valid.as_ref());
        Truth { trues, valid }
    }

    /// Returns `self or other`.
    #[must_use]
    pub fn or(self, other: &Truth) -> Truth {
        let (a, b) = (&self, other);
        let (trues, valid) =
            values::or_kleene(&a.trues, a.valid.as_ref(), &b.trues, b.valid.as_ref());
        Truth { trues, valid }
    }
}

impl std::ops::Not for Truth {
    type Output = Truth;

    fn not(self) -> Truth {
        Truth {
            trues: !self.trues,
            valid: self.valid,
        }
    }
}

/// Returns whether a comparison holds between values in this order.
#[must_use]
pub fn holds(op: Comparison, order: Ordering) -> bool {
    match op {
        Comparison::Equal => order.is_eq(),
        Comparison::NotEqual => order.is_ne(),
        Comparison::Less => order.is_lt(),
        Comparison::LessOrEqual => order.is_le(),
        Comparison::Greater => order.is_gt(),
        Comparison::GreaterOrEqual => order.is_ge(),
    }
}

/// Returns the comparison with its sides swapped.
#[must_use]
pub fn swapped(op: Comparison) -> Comparison {
    match op {
        Comparison::Equal | Comparison::NotEqual => op,
        Comparison::Less => Comparison::Greater,
        Comparison::LessOrEqual => Comparison::GreaterOrEqual,
        Comparison::Greater => Comparison::Less,
        Comparison::GreaterOrEqual => Comparison::LessOrEqual,
    }
}
