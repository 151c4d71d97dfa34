//! A small query engine over a CSV file, as an example of a program that uses `vortex_bits`.
//!
//! It reads the file in batches of rows, first to find the types of the columns ([`survey`]), then
//! to answer the query ([`engine`]). Comparisons, `and`, `or`, `not` and null tests make a bitmap
//! of each batch ([`query`]). Counts, sums, the n-th row, the selected rows and the pictures follow
//! from these bitmaps ([`summary`], [`found`], [`draw`]).

pub mod args;
pub mod column;
pub mod csv;
pub mod draw;
pub mod engine;
pub mod error;
pub mod found;
pub mod number;
pub mod outputs;
pub mod progress;
pub mod query;
pub mod report;
pub mod rows;
pub mod run;
pub mod summary;
pub mod survey;
pub mod table;
