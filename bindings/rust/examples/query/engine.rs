//! The query, by the calls of the crate.

use std::fmt;

use vortex_bits::arrow::{Array, ArrowError};
use vortex_bits::{Bitmap, Comparison, values};

/// The query: `select b, c where a > limit and b is not null`.
pub struct Question {
    pub limit: i32,
    /// The index of the row to find among the selected rows.
    pub nth: usize,
    /// Indices of rows to take among the selected rows. Indices out of bounds are skipped.
    pub at: Vec<u32>,
}

impl Question {
    pub fn new(limit: i32, nth: usize) -> Question {
        let at = (0..1000u32).map(|it| it.wrapping_mul(2_654_435_761) >> 16);
        Question {
            limit,
            nth,
            at: at.collect(),
        }
    }
}

/// The results of the query.
#[derive(Debug, Default)]
pub struct Answer {
    /// How many rows there are.
    pub rows: usize,
    /// The columns of the rows that are kept, and which values of c are valid.
    pub b: Vec<i64>,
    pub c: Vec<f64>,
    pub c_valid: Bitmap,
    /// The sums of the selected, valid values. No sum of `i64` is too great for an `i128`.
    pub sum_b: i128,
    pub sum_c: f64,
    /// The numbers of the first selected row, and of the row to find.
    pub first: Option<usize>,
    pub nth: Option<usize>,
    /// In how many rows a or b is null, and in how many the flag is true.
    pub nulls: usize,
    pub flags: usize,
    /// The values of b at the indices `at`, and the number of nulls in c there.
    pub taken: Vec<i64>,
    pub taken_nulls: usize,
}

/// Whether both are the same float: any NaN is the same as another, since a sum may have any.
fn is_same(one: f64, other: f64) -> bool {
    one.to_bits() == other.to_bits() || (one.is_nan() && other.is_nan())
}

impl PartialEq for Answer {
    fn eq(&self, other: &Answer) -> bool {
        let mut values = self.c.iter().zip(&other.c);
        self.rows == other.rows
            && self.b == other.b
            && self.c.len() == other.c.len()
            && values.all(|(&one, &other)| is_same(one, other))
            && self.c_valid == other.c_valid
            && self.sum_b == other.sum_b
            && is_same(self.sum_c, other.sum_c)
            && self.first == other.first
            && self.nth == other.nth
            && self.nulls == other.nulls
            && self.flags == other.flags
            && self.taken == other.taken
            && self.taken_nulls == other.taken_nulls
    }
}

impl fmt::Display for Answer {
    fn fmt(&self, f: &mut fmt::Formatter<'_>) -> fmt::Result {
        let kept = self.b.len();
        writeln!(f, "{kept} of {} rows are kept", self.rows)?;
        writeln!(f, "sums {} and {}", self.sum_b, self.sum_c)?;
        writeln!(f, "first {:?}, n-th {:?}", self.first, self.nth)?;
        write!(f, "{} nulls, {} flags", self.nulls, self.flags)
    }
}

impl Answer {
    fn add(&mut self, batch: &Array, question: &Question) -> Result<(), ArrowError> {
        let [a, b, c, flag] = ["a", "b", "c", "flag"].map(|name| batch.column(name));
        let (a, b, c, flag) = (a?, b?, c?, flag?);
        let (a_valid, b_valid) = (a.validity()?, b.validity()?);

        let mask =
            values::compare(a.values()?, Comparison::Greater, question.limit) & a_valid & b_valid;
        self.find(&mask, question);
        values::filter_onto(b.values()?, &mask, &mut self.b);
        values::filter_onto(c.values()?, &mask, &mut self.c);
        match c.validity()?.filter(&mask) {
            Some(valid) => self.c_valid.append_bits(valid.bits()),
            None => self.c_valid.append_n(mask.count_ones(), true),
        }
        let both = a_valid.and(b_valid);
        self.nulls += both.map_or(0, |valid| valid.count_zeros());
        self.flags += flag.bits()?.and_count(flag.validity()?);
        self.rows += batch.len();
        Ok(())
    }

    /// Finds the first and the n-th selected row, if this batch has them.
    fn find(&mut self, mask: &Bitmap, question: &Question) {
        let place = |row: usize| self.rows + row;
        self.first = self.first.or_else(|| mask.first_set().map(place));
        if let (None, Some(n)) = (self.nth, question.nth.checked_sub(self.b.len())) {
            self.nth = mask.select(n).map(place);
        }
    }

    /// Sums the selected values, and takes those at the indices `at`.
    fn finish(&mut self, question: &Question) {
        self.sum_b = self.b.iter().copied().map(i128::from).sum();
        let valid = self.c_valid.set_indices();
        // The sum of no floats by `sum` is -0.
        self.sum_c = valid.fold(0.0, |sum, row| sum + self.c[row]);
        let at = question.at.iter().copied();
        let at: Vec<u32> = at.filter(|&row| (row as usize) < self.b.len()).collect();
        self.taken = values::take(&self.b, &at);
        self.taken_nulls = self.c_valid.take(&at).count_zeros();
    }
}

pub fn ask(
    batches: impl Iterator<Item = Result<Array, ArrowError>>,
    question: &Question,
) -> Result<Answer, ArrowError> {
    let mut answer = Answer::default();
    for batch in batches {
        answer.add(&batch?, question)?;
    }
    answer.finish(question);
    Ok(answer)
}
