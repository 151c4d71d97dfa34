//! Conditions and lists of answers: their syntax, their meaning for a table, and the rows that a
//! condition selects.

pub mod condition;
mod filter;
mod near;
mod parse;
mod select;
mod token;
mod truth;

pub use filter::Filter;
pub use parse::{column_names, condition, selection};
pub use select::{Aggregate, Answer};
