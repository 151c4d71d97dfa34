//! The calls in plain Rust, which process words of 64 bits. They run on machines without proved
//! code, and for windows of one word. They keep the promises of the proved code, but are not
//! proved. Nothing here is `unsafe`.

mod aggregate;
#[cfg(feature = "alloc")]
mod by_code;
mod compare;
mod count;
mod filter;
mod group;
mod kleene;
mod rank;
mod take;
#[cfg(feature = "alloc")]
mod top;
mod walk;
mod word;
mod write;

pub use aggregate::*;
#[cfg(feature = "alloc")]
pub use by_code::*;
pub use compare::*;
pub use count::*;
pub use filter::*;
pub use group::*;
pub use kleene::*;
pub use rank::*;
pub use take::*;
#[cfg(feature = "alloc")]
pub use top::*;
pub use walk::*;
#[cfg(feature = "arrow")]
pub use word::first_eight;
pub use word::{low, only_word, quick_words, write};
pub use write::*;
