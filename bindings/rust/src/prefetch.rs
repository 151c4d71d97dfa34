//! Asks the processor to load memory before a call reads it. No result depends on that.
//!
//! A processor begins the loads of the next few hundred instructions before their turn, and often
//! those of the next lines of a page that is read in order. A loop with many instructions per cache
//! line still waits for lines on a page that it just reached, and for lines in no order, unless it
//! asks for them earlier.

/// The number of bytes that a loop asks for ahead of those that it reads.
const AHEAD: usize = 2048;

/// How far a loop over values has asked for them.
#[derive(Default)]
pub struct Ahead {
    /// The index of the first value that it hasn't asked for.
    next: usize,
}

impl Ahead {
    /// Asks for the values in the `AHEAD` bytes from an index on, each once.
    #[inline]
    pub fn ask<T>(&mut self, values: &[T], from: usize) {
        let end = values.len().min(from + AHEAD / size_of::<T>());
        let start = self.next.max(from).min(end);
        self.next = end;
        let size = size_of_val(&values[start..end]);
        for behind in (0..size).step_by(LINE) {
            line(values[start..].as_ptr().wrapping_byte_add(behind));
        }
    }
}

/// The number of bytes of a cache line.
const LINE: usize = 64;

/// Asks for the cache line with this address. There need not be any memory.
#[cfg(all(
    target_arch = "x86_64",
    target_feature = "sse",
    any(vortex_bits_native, feature = "arrow"),
    not(miri)
))]
#[allow(unsafe_code, reason = "the instruction takes an address")]
#[inline]
pub fn line<T>(address: *const T) {
    use core::arch::x86_64::{_MM_HINT_T0, _mm_prefetch};
    // SAFETY: the processor has the instruction, which ignores addresses without memory.
    unsafe { _mm_prefetch::<_MM_HINT_T0>(address.cast()) }
}

/// Does nothing: there is no such instruction, or no `unsafe` in this build.
#[cfg(not(all(
    target_arch = "x86_64",
    target_feature = "sse",
    any(vortex_bits_native, feature = "arrow"),
    not(miri)
)))]
#[inline]
pub const fn line<T>(_: *const T) {}
