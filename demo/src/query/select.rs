//! Answers about the selected rows.

use std::fmt;

use super::condition::Name;

/// An answer about a column `C`, or about the rows.
#[derive(Clone, Debug, PartialEq)]
pub enum Answer<C> {
    /// `count(*)`: the number of rows.
    Rows,
    /// An answer about a column.
    Of(Aggregate, C),
}

impl Answer<usize> {
    /// Returns the index of the answer's column.
    #[must_use]
    pub fn column(&self) -> Option<usize> {
        match self {
            Answer::Rows => None,
            Answer::Of(_, column) => Some(*column),
        }
    }
}

/// An aggregate of the selected values of a column that aren't null.
#[derive(Clone, Copy, Debug, PartialEq, Eq)]
pub enum Aggregate {
    /// The number of values.
    Count,
    /// The sum of all values.
    Sum,
    /// The least value.
    Min,
    /// The greatest value.
    Max,
    /// The mean of all values, a float.
    Avg,
}

impl Aggregate {
    const ALL: [(&str, Aggregate); 5] = [
        ("count", Aggregate::Count),
        ("sum", Aggregate::Sum),
        ("min", Aggregate::Min),
        ("max", Aggregate::Max),
        ("avg", Aggregate::Avg),
    ];

    /// Returns the aggregate with this name, in upper or lower case.
    #[must_use]
    pub fn named(name: &str) -> Option<Aggregate> {
        let mut all = Aggregate::ALL.into_iter();
        all.find(|(own, _)| own.eq_ignore_ascii_case(name))
            .map(|(_, aggregate)| aggregate)
    }
}

impl fmt::Display for Aggregate {
    fn fmt(&self, f: &mut fmt::Formatter<'_>) -> fmt::Result {
        let own = Aggregate::ALL
            .iter()
            .find(|(_, aggregate)| aggregate == self);
        f.write_str(own.map_or("", |(name, _)| name))
    }
}

/// Writes the answer as the header of its column.
impl fmt::Display for Answer<Name> {
    fn fmt(&self, f: &mut fmt::Formatter<'_>) -> fmt::Result {
        match self {
            Answer::Rows => f.write_str("count(*)"),
            Answer::Of(aggregate, column) => write!(f, "{aggregate}({})", column.name),
        }
    }
}
