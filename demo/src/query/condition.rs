//! The syntax tree of a condition.

use std::fmt;

use vortex_bits::Comparison;

/// A condition.
#[derive(Clone, Debug, PartialEq)]
pub enum Condition {
    /// A comparison of two operands.
    Compare(Operand, Comparison, Operand),
    /// True if a column is null.
    IsNull(Name),
    /// The negation of a condition.
    Not(Box<Condition>),
    /// True if all conditions are.
    And(Vec<Condition>),
    /// True if at least one condition is.
    Or(Vec<Condition>),
}

/// A side of a comparison.
#[derive(Clone, Debug, PartialEq)]
pub enum Operand {
    /// A column.
    Column(Name),
    /// A number or a text.
    Literal(Literal, usize),
}

/// The name of a column.
#[derive(Clone, Debug, PartialEq)]
pub struct Name {
    /// The name without its quotes.
    pub name: String,
    /// The byte of the text at which it begins.
    pub at: usize,
}

/// A number or a text.
#[derive(Clone, Debug, PartialEq)]
pub enum Literal {
    /// A whole number.
    Whole(i64),
    /// A float.
    Float(f64),
    /// A text.
    Text(String),
}

impl Condition {
    /// Returns the names of columns, in their order in the text.
    #[must_use]
    pub fn names(&self) -> Vec<&Name> {
        match self {
            Condition::Compare(left, _, right) => [left, right]
                .into_iter()
                .filter_map(Operand::name)
                .collect(),
            Condition::IsNull(name) => vec![name],
            Condition::Not(inner) => inner.names(),
            Condition::And(parts) | Condition::Or(parts) => {
                parts.iter().flat_map(Condition::names).collect()
            }
        }
    }
}

impl Operand {
    fn name(&self) -> Option<&Name> {
        match self {
            Operand::Column(name) => Some(name),
            Operand::Literal(..) => None,
        }
    }
}

/// Returns the sign of a comparison.
#[must_use]
pub fn sign(comparison: Comparison) -> &'static str {
    match comparison {
        Comparison::Equal => "=",
        Comparison::NotEqual => "<>",
        Comparison::Less => "<",
        Comparison::LessOrEqual => "<=",
        Comparison::Greater => ">",
        Comparison::GreaterOrEqual => ">=",
    }
}

impl fmt::Display for Name {
    fn fmt(&self, f: &mut fmt::Formatter<'_>) -> fmt::Result {
        write!(f, "\"{}\"", self.name.replace('"', "\"\""))
    }
}

impl fmt::Display for Literal {
    fn fmt(&self, f: &mut fmt::Formatter<'_>) -> fmt::Result {
        match self {
            Literal::Whole(number) => write!(f, "{number}"),
            Literal::Float(number) => write!(f, "{number:?}"),
            Literal::Text(text) => write!(f, "'{}'", text.replace('\'', "''")),
        }
    }
}

impl fmt::Display for Operand {
    fn fmt(&self, f: &mut fmt::Formatter<'_>) -> fmt::Result {
        match self {
            Operand::Column(name) => name.fmt(f),
            Operand::Literal(literal, _) => literal.fmt(f),
        }
    }
}

/// Writes the condition in SQL, with each part in parentheses.
impl fmt::Display for Condition {
    fn fmt(&self, f: &mut fmt::Formatter<'_>) -> fmt::Result {
        match self {
            Condition::Compare(left, op, right) => write!(f, "{left} {} {right}", sign(*op)),
            Condition::IsNull(name) => write!(f, "{name} is null"),
            Condition::Not(inner) => write!(f, "not ({inner})"),
            Condition::And(parts) => joined(f, parts, " and "),
            Condition::Or(parts) => joined(f, parts, " or "),
        }
    }
}

fn joined(f: &mut fmt::Formatter<'_>, parts: &[Condition], word: &str) -> fmt::Result {
    let parts: Vec<String> = parts.iter().map(|part| format!("({part})")).collect();
    f.write_str(&parts.join(word))
}
