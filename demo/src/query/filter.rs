//! A condition on the columns of a table, and the rows that it selects.

use vortex_bits::{Bitmap, Comparison, values};

use super::condition::{Condition, Literal, Name, Operand};
use super::near::{Meaning, Near};
use super::truth::{Truth, holds, swapped};
use crate::column::Values;
use crate::engine::Batch;
use crate::error::QueryError;
use crate::number;
use crate::survey::{Kind, Survey};

/// A condition with the indices of its columns.
#[derive(Clone, Debug, PartialEq)]
pub enum Filter {
    /// A comparison of a column of integers with a number.
    Whole(usize, Comparison, i64),
    /// A comparison of a column of floats with a number.
    Float(usize, Comparison, f64),
    /// A comparison of a column of texts with a text.
    Text(usize, Comparison, String),
    /// A comparison of two columns, both of numbers or both of texts.
    Columns(usize, Comparison, usize),
    /// The same truth value for each row in which a column isn't null.
    Always(usize, bool),
    /// True if a column is null.
    IsNull(usize),
    /// The negation of a condition.
    Not(Box<Filter>),
    /// True if all conditions are.
    And(Vec<Filter>),
    /// True if at least one condition is.
    Or(Vec<Filter>),
}

impl Filter {
    /// Returns the meaning of a condition for the columns of a table.
    ///
    /// # Errors
    ///
    /// Returns an error at a name that no column or several have, at a comparison without a column,
    /// and at one of types that don't compare.
    pub fn new(condition: &Condition, survey: &Survey) -> Result<Filter, QueryError> {
        let all = |parts: &[Condition]| -> Result<Vec<Filter>, QueryError> {
            parts.iter().map(|part| Filter::new(part, survey)).collect()
        };
        Ok(match condition {
            Condition::Compare(left, op, right) => return compare(left, *op, right, survey),
            Condition::IsNull(name) => Filter::IsNull(place(name, survey)?),
            Condition::Not(inner) => Filter::Not(Box::new(Filter::new(inner, survey)?)),
            Condition::And(parts) => Filter::And(all(parts)?),
            Condition::Or(parts) => Filter::Or(all(parts)?),
        })
    }

    /// Returns the columns of the condition.
    #[must_use]
    pub fn uses(&self) -> Vec<usize> {
        match self {
            Filter::Whole(column, ..)
            | Filter::Float(column, ..)
            | Filter::Text(column, ..)
            | Filter::Always(column, _)
            | Filter::IsNull(column) => vec![*column],
            Filter::Columns(left, _, right) => vec![*left, *right],
            Filter::Not(inner) => inner.uses(),
            Filter::And(parts) | Filter::Or(parts) => parts.iter().flat_map(Filter::uses).collect(),
        }
    }

    /// Returns the rows that the condition selects: those for which it is true, and neither false
    /// nor null.
    #[must_use]
    pub fn kept(&self, batch: &Batch<'_>) -> Bitmap {
        self.truth(batch).kept()
    }

    fn truth(&self, batch: &Batch<'_>) -> Truth {
        match self {
            Filter::Not(inner) => !inner.truth(batch),
            Filter::And(parts) => folded(parts, batch, Truth::and),
            Filter::Or(parts) => folded(parts, batch, Truth::or),
            Filter::IsNull(column) => Truth {
                trues: !batch.column(*column).validity(),
                valid: None,
            },
            Filter::Columns(left, op, right) => columns(batch, *left, *op, *right),
            Filter::Whole(column, ..)
            | Filter::Float(column, ..)
            | Filter::Text(column, ..)
            | Filter::Always(column, _) => Truth {
                trues: self.compared(batch),
                valid: batch.column(*column).valid(),
            },
        }
    }

    /// Returns which rows of a column compare in this way with a number or a text. The bits of
    /// nulls are arbitrary.
    fn compared(&self, batch: &Batch<'_>) -> Bitmap {
        let rows = batch.rows;
        match self {
            Filter::Whole(column, op, number) => {
                values::compare(batch.column(*column).wholes(), *op, *number)
            }
            Filter::Float(column, op, number) => {
                values::compare(batch.column(*column).floats(), *op, *number)
            }
            Filter::Text(column, op, text) => each(rows.len(), |row| {
                holds(*op, rows.field(row, *column).cmp(text.as_bytes()))
            }),
            Filter::Always(_, true) => Bitmap::new_set(rows.len()),
            _ => Bitmap::new_unset(rows.len()),
        }
    }
}

/// Joins the truth values of the conditions one by one.
fn folded(parts: &[Filter], batch: &Batch<'_>, join: fn(Truth, &Truth) -> Truth) -> Truth {
    let truths = parts.iter().map(|part| part.truth(batch));
    let joined = truths.reduce(|left, right| join(left, &right));
    joined.expect("a condition has parts")
}

/// Returns a bit per row: the result of the test.
fn each(rows: usize, mut test: impl FnMut(usize) -> bool) -> Bitmap {
    Bitmap::make(rows, |mut out| out.fill_with(&mut test))
}

fn columns(batch: &Batch<'_>, left: usize, op: Comparison, right: usize) -> Truth {
    let rows = batch.rows;
    let (a, b) = (batch.column(left), batch.column(right));
    let trues = match (&a.values, &b.values) {
        (Values::Whole(a), Values::Whole(b)) => values::compare_with(a, op, b),
        (Values::Float(a), Values::Float(b)) => values::compare_with(a, op, b),
        (Values::Whole(a), Values::Float(b)) => {
            each(rows.len(), |row| holds(op, number::compare(a[row], b[row])))
        }
        (Values::Float(a), Values::Whole(b)) => each(rows.len(), |row| {
            holds(swapped(op), number::compare(b[row], a[row]))
        }),
        _ => each(rows.len(), |row| {
            holds(op, rows.field(row, left).cmp(rows.field(row, right)))
        }),
    };
    Truth {
        trues,
        valid: a.validity().and(b.validity()),
    }
}

fn place(name: &Name, survey: &Survey) -> Result<usize, QueryError> {
    survey
        .find(&name.name)
        .map_err(|wrong| QueryError::new(name.at, wrong))
}

fn compare(
    left: &Operand,
    op: Comparison,
    right: &Operand,
    survey: &Survey,
) -> Result<Filter, QueryError> {
    match (left, right) {
        (Operand::Column(left), Operand::Column(right)) => two(left, op, right, survey),
        (Operand::Column(name), Operand::Literal(literal, at)) => {
            with_literal(name, op, (literal, *at), survey)
        }
        (Operand::Literal(literal, at), Operand::Column(name)) => {
            with_literal(name, swapped(op), (literal, *at), survey)
        }
        (Operand::Literal(..), Operand::Literal(_, at)) => Err(QueryError::new(
            *at,
            "a column is wanted on one side of a comparison",
        )),
    }
}

fn two(left: &Name, op: Comparison, right: &Name, survey: &Survey) -> Result<Filter, QueryError> {
    let (a, b) = (place(left, survey)?, place(right, survey)?);
    let [a_kind, b_kind] = [a, b].map(|it| survey.columns[it].kind);
    if (a_kind == Kind::Text) != (b_kind == Kind::Text) {
        let wrong = format!(
            "column {right} is {b_kind} and column {left} is {a_kind}; numbers compare with \
             numbers, and texts with texts; --type {}=text makes both texts",
            if a_kind == Kind::Text { right } else { left }
        );
        return Err(QueryError::new(right.at, wrong));
    }
    Ok(Filter::Columns(a, op, b))
}

fn with_literal(
    name: &Name,
    op: Comparison,
    (literal, at): (&Literal, usize),
    survey: &Survey,
) -> Result<Filter, QueryError> {
    let column = place(name, survey)?;
    let kind = survey.columns[column].kind;
    Ok(match (kind, literal) {
        (Kind::Whole, Literal::Whole(number)) => Filter::Whole(column, op, *number),
        (Kind::Float, Literal::Float(number)) => Filter::Float(column, op, *number),
        (Kind::Text, Literal::Text(text)) => Filter::Text(column, op, text.clone()),
        (Kind::Whole, Literal::Float(number)) => match Near::float(*number).meaning(op) {
            Meaning::Compare(op, number) => Filter::Whole(column, op, number),
            Meaning::Always(truth) => Filter::Always(column, truth),
        },
        (Kind::Float, Literal::Whole(number)) => match Near::whole(*number).meaning(op) {
            Meaning::Compare(op, number) => Filter::Float(column, op, number),
            Meaning::Always(truth) => Filter::Always(column, truth),
        },
        (Kind::Text, number) => {
            let kind = match number {
                Literal::Whole(_) => Kind::Whole,
                _ => Kind::Float,
            };
            let wrong = format!(
                "column {name} is text; a text is wanted, as '{number}'; --type {name}={kind} \
                 reads it as numbers, or names the first line where it has none"
            );
            return Err(QueryError::new(at, wrong));
        }
        (Kind::Whole | Kind::Float, Literal::Text(_)) => {
            let wrong = format!(
                "column {name} has numbers; a number without quotes is wanted; --type {name}=text \
                 reads it as texts"
            );
            return Err(QueryError::new(at, wrong));
        }
    })
}
