//! Nullable columns as an Arrow-like engine keeps them: numbers and truth values with validity,
//! filtered, taken, sliced, and their nulls counted and ranked.
//!
//!     cargo run --release --example arrow_like

use std::ops::Range;

use vortex_bits::{Bitmap, Comparison, values};

/// A column of numbers. Those of null rows are arbitrary.
struct Numbers {
    values: Vec<u32>,
    valid: Bitmap,
}

impl Numbers {
    fn null_count(&self) -> usize {
        self.valid.count_zeros()
    }

    fn above(&self, limit: u32) -> Bools {
        Bools {
            values: values::compare(&self.values, Comparison::Greater, limit),
            valid: self.valid.clone(),
        }
    }

    fn filter(&self, mask: &Bitmap) -> Numbers {
        Numbers {
            values: values::filter(&self.values, mask),
            valid: self.valid.filter(mask),
        }
    }

    fn take(&self, rows: &[u32]) -> Numbers {
        Numbers {
            values: values::take(&self.values, rows),
            valid: self.valid.take(rows),
        }
    }

    fn slice(&self, rows: Range<usize>) -> Numbers {
        Numbers {
            values: self.values[rows.clone()].to_vec(),
            valid: self.valid.slice(rows),
        }
    }

    fn sum(&self) -> u64 {
        let rows = self.valid.set_indices();
        rows.map(|row| u64::from(self.values[row])).sum()
    }
}

/// A column of truth values.
struct Bools {
    values: Bitmap,
    valid: Bitmap,
}

impl Bools {
    /// The rows that are valid and true, which a filter selects.
    fn mask(&self) -> Bitmap {
        &self.values & &self.valid
    }

    fn filter(&self, mask: &Bitmap) -> Bools {
        Bools {
            values: self.values.filter(mask),
            valid: self.valid.filter(mask),
        }
    }
}

/// A hundred thousand rows, of which each seventh is null.
fn numbers() -> Numbers {
    let rows = 0..100_000u32;
    Numbers {
        values: rows
            .clone()
            .map(|row| row.wrapping_mul(2_654_435_761) >> 22)
            .collect(),
        valid: rows.map(|row| row % 7 != 0).collect(),
    }
}

/// By a loop over the rows: how many are valid and above a limit, and their sum.
fn plain(numbers: &Numbers, limit: u32) -> (usize, u64) {
    let valid = numbers.values.iter().zip(&numbers.valid);
    let kept = valid.filter(|&(&value, valid)| valid && value > limit);
    kept.fold((0, 0), |(rows, sum), (&value, _)| {
        (rows + 1, sum + u64::from(value))
    })
}

fn main() {
    let all = numbers();
    let part = all.slice(13..90_013);
    let above = part.above(500);
    let kept = part.filter(&above.mask());
    assert_eq!((kept.values.len(), kept.sum()), plain(&part, 500));
    assert_eq!(kept.null_count(), 0);
    assert!(above.filter(&above.mask()).values.all());

    let valid = part.valid.clone().ranked();
    let nulls: Vec<u32> = (0..3)
        .filter_map(|n| valid.select_unset(n))
        .map(|row| u32::try_from(row).unwrap())
        .collect();
    assert_eq!(part.take(&nulls).null_count(), 3);
    println!(
        "{} of {} rows are null, the first at {nulls:?}; {} are above 500, with sum {}",
        part.null_count(),
        valid.len(),
        kept.values.len(),
        kept.sum()
    );
}
