//! Pictures of the selected rows, and of the distribution of a column's selected values.

mod edges;
mod histogram;
mod strip;
mod svg;

pub use histogram::Histogram;
pub use strip::Strip;
pub use svg::{Picture, svg};
