//! Writes the indices and runs of set bits into a slice. The C functions skip four words of zeros
//! at once, and these words may be on two pages of memory. So the calls here pass a window page by
//! page, and pass no further page once the slice is full.

use super::Run;
use crate::{Bits, portable};

#[cfg(vortex_bits_native)]
use super::{is_word, select_unset};
#[cfg(vortex_bits_native)]
use crate::level::kernels;
#[cfg(vortex_bits_native)]
use crate::native::Kernels;

/// The type of an index that is written.
pub trait Index: Copy {
    /// Returns an index, which the type can represent.
    fn of(place: usize) -> Self;

    /// Returns the index plus `base`, which the type can represent too.
    #[cfg(vortex_bits_native)]
    fn moved(self, base: usize) -> Self;

    /// Writes the indices of a page's set bits by the level's C function.
    #[cfg(vortex_bits_native)]
    fn find(kernels: &Kernels, page: Bits<'_>, out: &mut [Self]) -> usize;
}

macro_rules! indices {
    ($($index:ty, $name:ident;)*) => {$(
        impl Index for $index {
            #[allow(clippy::cast_possible_truncation, reason = "the type can represent it")]
            #[inline]
            fn of(place: usize) -> $index {
                place as $index
            }

            #[cfg(vortex_bits_native)]
            #[allow(clippy::cast_possible_truncation, reason = "the type can represent it")]
            #[inline]
            fn moved(self, base: usize) -> $index {
                self + base as $index
            }

            #[cfg(vortex_bits_native)]
            fn find(kernels: &Kernels, page: Bits<'_>, out: &mut [$index]) -> usize {
                native!(@call kernels.$name, [] slice_mut out, window page)
            }
        }
    )*};
}

indices! {
    usize, set_indices;
    u32, set_indices_u32;
}

/// Writes the indices of the set bits to the front of `out`, up to its length, and returns their
/// number. The type can represent each index of the window.
#[inline]
pub fn set_indices<I: Index>(bits: Bits<'_>, out: &mut [I]) -> usize {
    #[cfg(vortex_bits_native)]
    if let Some(kernels) = kernels().filter(|_| !is_word(bits)) {
        return indices_by_pages(kernels, bits, out);
    }
    portable::set_indices(bits, out)
}

/// Writes the runs of set bits to the front of `out`, up to its length, and returns their number.
#[inline]
pub fn set_slices(bits: Bits<'_>, out: &mut [Run]) -> usize {
    #[cfg(vortex_bits_native)]
    if let Some(kernels) = kernels().filter(|_| !is_word(bits)) {
        return slices_by_pages(kernels, bits, out);
    }
    portable::set_slices(bits, out)
}

/// Returns the bits from index `start` up to the end of their page, over bytes that end there.
#[cfg(vortex_bits_native)]
fn in_page(bits: Bits<'_>, start: usize) -> Bits<'_> {
    const PAGE: usize = 4096;
    let first = bits.offset() + start;
    let within = (bits.bytes().as_ptr().addr() + first / 8) % PAGE;
    let len = (8 * (PAGE - within) - first % 8).min(bits.len() - start);
    Bits::new(&bits.bytes()[..(first + len).div_ceil(8)], first, len)
}

#[cfg(vortex_bits_native)]
fn indices_by_pages<I: Index>(kernels: &Kernels, bits: Bits<'_>, out: &mut [I]) -> usize {
    if out.len() >= bits.len() {
        return indices(kernels, bits, 0, out);
    }
    let (mut written, mut at) = (0, 0);
    while at < bits.len() && written < out.len() {
        let page = in_page(bits, at);
        written += indices(kernels, page, at, &mut out[written..]);
        at += page.len();
    }
    written
}

#[cfg(vortex_bits_native)]
fn slices_by_pages(kernels: &Kernels, bits: Bits<'_>, out: &mut [Run]) -> usize {
    if out.len() >= bits.len().div_ceil(2) {
        return slices(kernels, bits, 0, out);
    }
    let (mut written, mut at) = (0, 0);
    while at < bits.len() && written < out.len() {
        let page = in_page(bits, at);
        written += slices(kernels, page, at, &mut out[written..]);
        at += page.len();
        if let Some(last) = out[..written].last_mut().filter(|last| last.end == at) {
            at = run_end(bits, at);
            last.end = at;
        }
    }
    written
}

/// Returns the end of a run of set bits that contains index `start` or ends there.
#[cfg(vortex_bits_native)]
fn run_end(bits: Bits<'_>, start: usize) -> usize {
    let mut at = start;
    while at < bits.len() {
        let page = in_page(bits, at);
        if let Some(behind) = select_unset(page, 0) {
            return at + behind;
        }
        at += page.len();
    }
    at
}

/// Writes the indices of a page's set bits, plus `base`.
#[cfg(vortex_bits_native)]
fn indices<I: Index>(kernels: &Kernels, page: Bits<'_>, base: usize, out: &mut [I]) -> usize {
    let found = I::find(kernels, page, out);
    let moved = if base > 0 { found } else { 0 };
    for place in &mut out[..moved] {
        *place = place.moved(base);
    }
    found
}

/// Writes the runs of a page, plus `base`.
#[cfg(vortex_bits_native)]
fn slices(kernels: &Kernels, page: Bits<'_>, base: usize, out: &mut [Run]) -> usize {
    let found = native!(@call kernels.set_slices, [] slice_mut out, window page);
    let moved = if base > 0 { found } else { 0 };
    for run in &mut out[..moved] {
        run.start += base;
        run.end += base;
    }
    found
}
