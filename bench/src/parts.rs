//! What is measured, part by part.

mod aggregates;
mod buffers;
mod closures;
mod compared;
mod copies;
mod count;
mod directory;
mod few;
mod filters;
mod growth;
mod kleene;
mod made;
mod nearest;
mod operators;
mod pairs;
mod select;
mod small;
mod taking;
mod walks;

use crate::bench::Bench;

/// `Some` of an expression over vortex-buffer with the feature `upstream`, else `None`.
macro_rules! upstream {
    ($other:expr) => {{
        #[cfg(feature = "upstream")]
        {
            Some($other)
        }
        #[cfg(not(feature = "upstream"))]
        {
            None
        }
    }};
}
use upstream;

/// A million of bits or items, as 2^20.
const MILLION: usize = 1 << 20;

/// The sizes in bytes of what is counted and searched: a cache line, what the caches of a core
/// hold, main memory.
const SIZES: [usize; 6] = [64, 512, 4 << 10, 64 << 10, 1 << 20, 64 << 20];

pub fn measure(bench: &mut Bench) {
    few::measure(bench);
    count::measure(bench);
    select::measure(bench);
    walks::measure(bench);
    closures::measure(bench);
    compared::measure(bench);
    kleene::measure(bench);
    operators::measure(bench);
    pairs::measure(bench);
    nearest::measure(bench);
    copies::measure(bench);
    made::measure(bench);
    taking::measure(bench);
    filters::measure(bench);
    aggregates::measure(bench);
    directory::measure(bench);
    small::measure(bench);
    buffers::measure(bench);
    growth::measure(bench);
}
