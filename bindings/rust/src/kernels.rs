//! Each call at the current level. Most calls on at most one word stay in Rust, without a call
//! through a pointer.

#[macro_use]
mod call;
mod aggregate;
mod compare;
mod filter;
mod gather;
mod group;
mod kleene;
mod values;
mod walk;

pub use aggregate::{
    masked_checked_sum, masked_float_sum, masked_max, masked_min, masked_sum, masked_wrapping_sum,
};
pub use compare::{compare, compare_with};
pub use filter::{filter, keep, retain, scatter};
pub use gather::{pack_bools, pack_truthy, take, unpack_bools, unpack_bytes};
pub use group::{group_counts, group_sums};
pub use kleene::{Column, Logic, combine_truths};
pub use values::take_values;
pub use walk::{Index, set_indices, set_slices};

use crate::written::Written;
use crate::{Bits, blocks, portable};

#[cfg(vortex_bits_native)]
use crate::level::kernels;
#[cfg(vortex_bits_native)]
use crate::native::{Combine, CombineInto, CountCombined, Kernels};

/// A run of set bits, with C's layout: its first index, and the index after it.
#[repr(C)]
#[derive(Clone, Copy, Default)]
pub struct Run {
    pub start: usize,
    pub end: usize,
}

/// An operator on two bits. Each returns false for two false bits: the counts include the padding
/// of the last word.
#[derive(Clone, Copy)]
pub enum Operator {
    And,
    Or,
    Xor,
    AndNot,
}

#[cfg(vortex_bits_native)]
impl Operator {
    fn native(self, kernels: &Kernels) -> Combine {
        match self {
            Operator::And => kernels.and_bits,
            Operator::Or => kernels.or_bits,
            Operator::Xor => kernels.xor_bits,
            Operator::AndNot => kernels.and_not_bits,
        }
    }

    fn native_count(self, kernels: &Kernels) -> CountCombined {
        match self {
            Operator::And => kernels.and_count,
            Operator::Or => kernels.or_count,
            Operator::Xor => kernels.xor_count,
            Operator::AndNot => kernels.and_not_count,
        }
    }

    fn native_into(self, kernels: &Kernels) -> CombineInto {
        match self {
            Operator::And => kernels.and_into,
            Operator::Or => kernels.or_into,
            Operator::Xor => kernels.xor_into,
            Operator::AndNot => kernels.and_not_into,
        }
    }
}

#[inline]
fn is_word(bits: Bits<'_>) -> bool {
    bits.len() <= 64
}

#[inline]
pub fn count_ones(bits: Bits<'_>) -> usize {
    if is_word(bits) {
        return portable::only_word(bits).count_ones() as usize;
    }
    native!(count_ones: window bits);
    portable::count_ones(bits)
}

#[inline]
pub fn select(bits: Bits<'_>, n: usize) -> Option<usize> {
    if !is_word(bits) {
        native!(select: window bits, value n);
    }
    portable::select(bits, n)
}

#[inline]
pub fn select_unset(bits: Bits<'_>, n: usize) -> Option<usize> {
    if !is_word(bits) {
        native!(select_unset: window bits, value n);
    }
    portable::select_unset(bits, n)
}

#[inline]
pub fn last_set(bits: Bits<'_>) -> Option<usize> {
    if !is_word(bits) {
        native!(last_set: window bits);
    }
    portable::last_set(bits)
}

// Written by tools/write-lists from tools/families/questions.txt.
#[inline]
pub fn next_set(bits: Bits<'_>, from: usize) -> Option<usize> {
    if !is_word(bits) {
        native!(next_set: window bits, value from);
    }
    portable::next_set(bits, from)
}

#[inline]
pub fn next_unset(bits: Bits<'_>, from: usize) -> Option<usize> {
    if !is_word(bits) {
        native!(next_unset: window bits, value from);
    }
    portable::next_unset(bits, from)
}

#[inline]
pub fn previous_set(bits: Bits<'_>, before: usize) -> Option<usize> {
    if !is_word(bits) {
        native!(previous_set: window bits, value before);
    }
    portable::previous_set(bits, before)
}

#[inline]
pub fn previous_unset(bits: Bits<'_>, before: usize) -> Option<usize> {
    if !is_word(bits) {
        native!(previous_unset: window bits, value before);
    }
    portable::previous_unset(bits, before)
}
// To here.

#[inline]
pub fn any_set(bits: Bits<'_>) -> bool {
    if !is_word(bits) {
        native!(any_set: window bits);
    }
    portable::next_set(bits, 0).is_some()
}

#[inline]
pub fn all_set(bits: Bits<'_>) -> bool {
    if !is_word(bits) {
        native!(all_set: window bits);
    }
    portable::next_unset(bits, 0).is_none()
}

/// The windows have one length.
#[inline]
pub fn equal(left: Bits<'_>, right: Bits<'_>) -> bool {
    debug_assert_eq!(left.len(), right.len());
    if is_word(left) {
        return portable::only_word(left) == portable::only_word(right);
    }
    native!(equal_bits: start left, window right);
    portable::equal(left, right)
}

#[inline]
pub fn fill(out: &mut Written<'_>, value: bool) {
    if !is_word(out.as_bits()) {
        native!(fill_bits: start_mut out, value out.len(), value value);
    }
    portable::fill(out, value);
}

#[inline]
pub fn negate(out: &mut Written<'_>) {
    if !is_word(out.as_bits()) {
        native!(negate_bits: start_mut out, value out.len());
    }
    portable::negate(out);
}

/// The windows have one length.
#[inline]
pub fn copy(out: &mut Written<'_>, source: Bits<'_>) {
    debug_assert_eq!(out.len(), source.len());
    if !is_word(source) {
        native!(copy_bits: start_mut out, window source);
    }
    portable::copy(out, source);
}

/// Copies `len` bits from index `from` to index `to`. The window has both.
#[inline]
pub fn copy_within(out: &mut Written<'_>, from: usize, to: usize, len: usize) {
    debug_assert!(from.max(to) <= out.len() && len <= out.len() - from.max(to));
    #[cfg(vortex_bits_native)]
    if let Some(kernels) = kernels().filter(|_| len > 64) {
        let (offset, bytes) = (out.offset(), out.bytes_mut());
        let (from, to) = (offset + from, offset + to);
        return native!(
            @call kernels.move_bits, [] slice_mut bytes, value to, value from, value len
        );
    }
    portable::copy_within(out, from, to, len);
}

/// The windows have one length.
#[inline]
pub fn combine(out: &mut Written<'_>, right: Bits<'_>, operator: Operator) {
    debug_assert_eq!(out.len(), right.len());
    if !is_word(right) {
        #[cfg(vortex_bits_native)]
        if let Some(kernels) = kernels() {
            return native!(@call operator.native(kernels), [] start_mut out, window right);
        }
    }
    portable::combine(out, right, operator);
}

/// The windows have one length.
#[inline]
pub fn combine_into(out: &mut Written<'_>, left: Bits<'_>, right: Bits<'_>, operator: Operator) {
    debug_assert!(out.len() == left.len() && out.len() == right.len());
    if !is_word(right) {
        #[cfg(vortex_bits_native)]
        if let Some(kernels) = kernels() {
            let function = operator.native_into(kernels);
            return native!(@call function, [] start_mut out, start left, window right);
        }
    }
    portable::combine_into(out, left, right, operator);
}

/// Returns the number of bits that the operator sets, for windows of one length.
#[inline]
pub fn combined_count(left: Bits<'_>, right: Bits<'_>, operator: Operator) -> usize {
    debug_assert_eq!(left.len(), right.len());
    #[cfg(vortex_bits_native)]
    if let Some(kernels) = kernels().filter(|_| !is_word(left)) {
        let function = operator.native_count(kernels);
        return native!(@call function, [] start left, window right);
    }
    portable::combined_count(left, right, operator)
}

/// Returns the number of bits set in both, and the number of those set on the left alone, for
/// windows of one length.
#[inline]
pub fn split_count(left: Bits<'_>, right: Bits<'_>) -> (usize, usize) {
    debug_assert_eq!(left.len(), right.len());
    #[cfg(vortex_bits_native)]
    if kernels().is_some_and(|_| !is_word(left)) {
        let count = |operator| combined_count(left, right, operator);
        return (count(Operator::And), count(Operator::AndNot));
    }
    portable::split_count(left, right)
}

// Written by tools/write-lists from tools/families/questions.txt.
/// The windows have one length.
#[inline]
pub fn is_disjoint(left: Bits<'_>, right: Bits<'_>) -> bool {
    debug_assert_eq!(left.len(), right.len());
    if !is_word(left) {
        native!(is_disjoint: start left, window right);
    }
    portable::is_disjoint(left, right)
}

/// The windows have one length.
#[inline]
pub fn is_subset(left: Bits<'_>, right: Bits<'_>) -> bool {
    debug_assert_eq!(left.len(), right.len());
    if !is_word(left) {
        native!(is_subset: start left, window right);
    }
    portable::is_subset(left, right)
}
// To here.

/// `bits` has one bit per set bit of the mask, and `out` is as long as the mask.
#[inline]
pub fn deposit(out: &mut Written<'_>, bits: Bits<'_>, mask: Bits<'_>) {
    debug_assert_eq!(out.len(), mask.len());
    debug_assert_eq!(bits.len(), portable::count_ones(mask));
    if !is_word(mask) {
        native!(deposit_bits: start_mut out, start bits, window mask);
    }
    portable::deposit(out, bits, mask);
}

/// Writes the number of set bits before each block, and returns the number of entries. The table
/// has one entry per block.
pub fn block_counts(bits: Bits<'_>, table: &mut [usize]) -> usize {
    debug_assert_eq!(table.len(), blocks(bits.len()));
    native!(block_counts: slice_mut table, window bits);
    portable::block_counts(bits, table)
}

/// `place` is at most the length, and the table has one entry per block.
#[inline]
pub fn rank(bits: Bits<'_>, table: &[usize], place: usize) -> usize {
    debug_assert!(table.len() == blocks(bits.len()) && place <= bits.len());
    native!(rank: window bits, slice table, value place);
    portable::rank(bits, table, place)
}

/// The table has one entry per block.
#[inline]
pub fn ranked_select(bits: Bits<'_>, table: &[usize], n: usize) -> Option<usize> {
    debug_assert_eq!(table.len(), blocks(bits.len()));
    native!(ranked_select: window bits, slice table, value n);
    portable::ranked_select(bits, table, n)
}

/// The table has one entry per block.
#[inline]
pub fn ranked_select_unset(bits: Bits<'_>, table: &[usize], n: usize) -> Option<usize> {
    debug_assert_eq!(table.len(), blocks(bits.len()));
    native!(ranked_select_unset: window bits, slice table, value n);
    portable::ranked_select_unset(bits, table, n)
}
