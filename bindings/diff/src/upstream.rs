//! Compares with the same calls of vortex-buffer.

use std::ops::Not;

use vortex_bits::{Bits, BitsMut};
use vortex_buffer::{BitBuffer, ByteBuffer};

use crate::ask::same;
use crate::case::Case;

fn set(bits: Bits<'_>) -> BitBuffer {
    BitBuffer::new_with_offset(
        ByteBuffer::copy_from(bits.bytes()),
        bits.len(),
        bits.offset(),
    )
}

/// The set of the window after `write` wrote to it.
fn after(case: &Case, write: impl Fn(&mut BitsMut<'_>)) -> BitBuffer {
    let mut bytes = case.left.clone();
    let mut bits = BitsMut::new(&mut bytes, case.l, case.len);
    write(&mut bits);
    set(bits.as_bits())
}

pub fn compare(case: &Case) -> Result<u64, String> {
    let (left, right, n) = (case.left(), case.right(), case.n);
    let (a, b) = (set(left), set(right));
    let places: Vec<usize> = left.set_indices().collect();
    let runs: Vec<_> = left.set_slices().collect();
    let full = if case.value {
        BitBuffer::new_set(case.len)
    } else {
        BitBuffer::new_unset(case.len)
    };
    let wanted: Vec<_> = a.set_slices().map(|(start, end)| start..end).collect();
    Ok(same("count_ones", left.count_ones(), a.true_count())?
        + same("select", left.select(n), a.select(n))?
        + same("select_unset", left.select_unset(n), a.select_unset(n))?
        + same("last_set", left.last_set(), a.last_set_index())?
        + same("==", left == right, a == b)?
        + same("set_indices", places, a.set_indices().collect::<Vec<_>>())?
        + same("set_slices", runs, wanted)?
        + same("fill", after(case, |it| it.fill(case.value)), full)?
        + same("negate", after(case, |it| it.negate()), (&a).not())?
        + same("and", after(case, |it| it.and(right)), &a & &b)?
        + same("or", after(case, |it| it.or(right)), &a | &b)?
        + same("xor", after(case, |it| it.xor(right)), &a ^ &b)?
        + same(
            "and_not",
            after(case, |it| it.and_not(right)),
            a.bitand_not(&b),
        )?)
}
