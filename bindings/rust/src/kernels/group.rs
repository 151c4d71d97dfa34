//! Counts and sums by group.

use crate::group::GroupSummand;
use crate::{BitIndex, Bits, portable};

#[cfg(vortex_bits_native)]
use crate::level::kernels;
#[cfg(vortex_bits_native)]
use crate::value::Laid;

/// For up to this number of rows a call through a pointer costs more than adding them.
#[cfg(vortex_bits_native)]
const FEW: usize = 16;

/// Counts the selected rows of each group. A mask has one bit per code. Returns the first selected
/// row whose code has no count, with the counts unchanged; None if there is none.
#[inline]
pub fn group_counts<I: BitIndex>(
    counts: &mut [u64],
    codes: &[I],
    mask: Option<Bits<'_>>,
) -> Option<usize> {
    debug_assert!(mask.is_none_or(|mask| mask.len() == codes.len()));
    #[cfg(vortex_bits_native)]
    if let Some(kernels) = kernels().filter(|_| codes.len() > FEW) {
        let (all, bits) = (mask.is_none(), mask.unwrap_or_default());
        let groups = counts.len().min(I::END);
        macro_rules! by {
            ($function:ident) => {{
                let counts = &mut counts[..groups];
                return native!(@call kernels.$function, [] slice_mut counts, slice codes,
                    value all, start bits);
            }};
        }
        match Laid::of::<I>() {
            Some(Laid::One) => by!(group_counts_u8),
            Some(Laid::Two) => by!(group_counts_u16),
            Some(Laid::Four) => by!(group_counts_u32),
            _ => {}
        }
    }
    portable::group_counts(counts, codes, mask)
}

/// Adds the selected values to the sums of their groups. There is one value per code. Returns the
/// first selected row whose code has no sum, with the sums unchanged; None if there is none.
#[inline]
pub fn group_sums<V: GroupSummand, I: BitIndex>(
    sums: &mut [V::Sum],
    codes: &[I],
    values: &[V],
    mask: Option<Bits<'_>>,
) -> Option<usize> {
    debug_assert!(mask.is_none_or(|mask| mask.len() == codes.len()));
    debug_assert_eq!(values.len(), codes.len());
    #[cfg(vortex_bits_native)]
    if let Some(by) = kernels()
        .filter(|_| codes.len() > FEW)
        .and_then(V::group_sums)
    {
        let (all, bits) = (mask.is_none(), mask.unwrap_or_default());
        let groups = sums.len().min(I::END);
        macro_rules! by {
            ($width:ident) => {{
                let sums = &mut sums[..groups];
                return native!(@call by.$width, [] slice_mut sums, slice codes, slice values,
                    value all, start bits);
            }};
        }
        match Laid::of::<I>() {
            Some(Laid::One) => by!(one_byte),
            Some(Laid::Two) => by!(two_bytes),
            Some(Laid::Four) => by!(four_bytes),
            _ => {}
        }
    }
    portable::group_sums(sums, codes, values, mask)
}
