//! Iterators over a window: its bits, its words, the indices and runs of its set and unset bits,
//! and its writable parts. C functions fill blocks of items, so most items need no call.

mod blocks;
mod chunks;
mod counted;
mod places;
mod runs;
mod words;

pub use chunks::ChunksMut;
pub use places::{SetIndices, UnsetIndices};
pub use runs::{SetSlices, UnsetSlices};
pub use words::{Iter, Words};
