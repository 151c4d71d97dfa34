//! Functions over windows of bits in byte slices, least significant bit first. They count, search,
//! compare, iterate over, fill, negate, copy, combine, pack, unpack, take (gather), filter and rank
//! bits, and scatter values by them. [`values`] filters, compares, takes and sums values, and finds
//! their minimum and maximum.
//!
//! ```
//! # #[cfg(feature = "alloc")] {
//! use vortex_bits::{Bitmap, Bits, Comparison, values};
//!
//! // Which of five rows are valid, from bit 3 of a byte on, and which of these are above 2.
//! let (valid, column) = (Bits::new(&[0b1110_1000], 3, 5), [7, 0, 9, 2, 8]);
//! let mask = values::compare(&column, Comparison::Greater, 2) & valid;
//! assert_eq!((values::filter(&column, &mask), mask.select(1)), (vec![7, 9, 8], Some(2)));
//!
//! // Rows at indices.
//! assert_eq!(values::take(&column, &[4u32, 0]), [8, 7]);
//! assert_eq!(valid.take(&[4u32, 1]), Bitmap::from([true, false]));
//! # }
//! ```
//!
//! Bit `i` of some bytes is bit `i % 8` of byte `i / 8`. A window is the `len` bits starting at bit
//! `offset`. [`Bits`] reads one, [`BitsMut`] writes one, and a [`Validity`] has one or none. No
//! result depends on a bit outside of the windows, and only a bitmap that grows changes one.
//! Lengths, offsets and indices are in bits.
//!
//! The constructor of a window tests that it is in bounds of its bytes. Later calls panic, with a
//! message, only if a condition fails that the constructor can't test: two windows must have equal
//! lengths, for example, and an index must be in bounds. A call that returns or grows a `Bitmap`
//! (bits with their bytes), a `BitmapsByCode`, a `TopK`, `AlignedBytes`, `SharedBytes`, `SharedVec`
//! or a `Vec`, writes a bitmap with shared bytes, or returns a `Ranked` may allocate memory. If it
//! runs out, the program aborts, or panics without `std`.
//!
//! # What is proved
//!
//! On x86-64 Linux, most calls over more than 64 bits run C functions. They are proved in Rattle to
//! meet their definitions at every offset and length, at the level x86-64-v2 or x86-64-v3,
//! depending on the processor. Comparisons, packing, unpacking, takes of bits and ranks run them at
//! any length; takes of values, and counts and sums by group, run them for more than 16 items. The
//! rest is Rust of this crate, which isn't proved, but tested against loops over single bits:
//!
//! - single bits, other windows of at most 64, values at up to 16 indices, and the types of
//!   values and indices that plain Rust processes: see [`Value`], [`Compare`], [`Summand`] and
//!   [`BitIndex`];
//! - code that joins calls: `fill_with`, and the blocks that iterators fill;
//! - sums, minimum and maximum without a mask; the minimum and maximum of floats, and their sums
//!   by group; groups by codes of 64 bits; minimum, maximum and bitmaps by group, members of a set,
//!   and the first `k` values of an order;
//! - iterators over unset bits and from the end, the building and growth of bitmaps, [`Validity`],
//!   and `arrow`;
//! - everything at [`Level::Portable`]: on other targets, on processors (without `std`: compiler
//!   targets) below x86-64-v2, under Miri, and if the archives of those functions are missing at
//!   build time.
//!
//! [`Level::current`] returns the level of the code that runs.
//!
//! # Features
//!
//! - `proved`: the build fails if the archives of the proved functions are missing, or if the
//!   target isn't x86-64 Linux. Miri can't run them and is exempt. Without this feature, cargo
//!   shows the warning about missing archives only for path dependencies. With or without it,
//!   the build fails if it would link archives of another version's sources. The processor is known
//!   only at run time: assert there that [`Level::current`] isn't [`Level::Portable`].
//! - `std` (default): tests the processor at run time. Without it, the compiler's target
//!   (`-C target-cpu`) decides.
//! - `alloc` (enabled by `std`): adds `Bitmap`, which owns its bytes, `Ranked`, a bitmap with its
//!   ranks, `BitmapsByCode`, `TopK`, and the calls that return a `Bitmap` or a `Vec`. The target
//!   needs atomic numbers of its pointers' size, which count the owners of shared bytes.
//! - `arrow` (enables `alloc`): reads arrays and streams of Arrow's C interfaces in place, and
//!   exports them. Only this part and the calls of proved functions use `unsafe`. A build that has
//!   one of them also uses it to ask the processor for memory ahead.
//! - `levels`: adds `Level::make_current` and `Level::available`, for measurements and tests.
#![no_std]
#![cfg_attr(docsrs, feature(doc_cfg))]
#![cfg_attr(not(any(vortex_bits_native, feature = "arrow")), forbid(unsafe_code))]
#![cfg_attr(not(vortex_bits_native), deny(unsafe_code))]

#[cfg(feature = "alloc")]
extern crate alloc;
#[cfg(feature = "std")]
extern crate std;

mod aggregate;
#[cfg(feature = "arrow")]
#[allow(unsafe_code, reason = "the structs of the interface have pointers")]
pub mod arrow;
#[cfg(feature = "alloc")]
mod bitmap;
mod bits;
mod bits_mut;
#[cfg(feature = "alloc")]
mod by_code;
#[cfg(feature = "alloc")]
mod bytes;
mod compare;
mod counts;
mod deposit;
mod error;
mod filter;
mod float;
mod group;
mod group_best;
pub mod iter;
mod kernels;
mod kleene;
mod level;
mod looks;
mod mask;
mod member;
#[cfg(vortex_bits_native)]
#[macro_use]
mod digest;
#[cfg(vortex_bits_native)]
mod native;
mod operators;
mod portable;
mod prefetch;
mod rank;
mod split;
mod take;
#[cfg(feature = "alloc")]
mod top;
mod validity;
mod value;
pub mod values;
mod written;

pub use aggregate::{Summand, WideSummand};
#[cfg(feature = "alloc")]
pub use bitmap::{Bitmap, BitmapMut};
pub use bits::Bits;
pub use bits_mut::BitsMut;
#[cfg(feature = "alloc")]
pub use by_code::BitmapsByCode;
#[cfg(feature = "alloc")]
pub use bytes::{AlignedBytes, Grow, SharedBytes, SharedVec};
pub use compare::{Compare, Comparison};
pub use error::{
    BadIndex, GroupError, OutOfBounds, ShortTable, SplitError, TakeError, TakeValuesError,
};
pub use float::Float;
pub use group::GroupSummand;
pub use level::Level;
pub use mask::Mask;
#[cfg(feature = "alloc")]
pub use rank::Ranked;
pub use rank::{Ranks, blocks};
pub use take::BitIndex;
#[cfg(feature = "alloc")]
pub use top::TopK;
pub use validity::Validity;
pub use value::Value;

/// The examples of the README.
#[cfg(all(doctest, feature = "arrow", feature = "std"))]
#[doc = include_str!("../README.md")]
struct Readme;
