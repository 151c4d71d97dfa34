//! Packs truth values into bits, unpacks bits, and takes bits at indices.

use crate::take::BitIndex;
use crate::written::Written;
use crate::{Bits, portable};

#[cfg(vortex_bits_native)]
use crate::level::kernels;
#[cfg(vortex_bits_native)]
use crate::native::Kernels;
#[cfg(vortex_bits_native)]
use crate::value::Laid;

/// There is one value per bit. A `bool` is a byte 0 or 1.
#[inline]
pub fn pack_bools(out: &mut Written<'_>, bools: &[bool]) {
    debug_assert_eq!(out.len(), bools.len());
    native!(pack_truthy: start_mut out, slice bools);
    portable::pack(out, bools, |value| value);
}

/// There is one byte per bit.
#[inline]
pub fn pack_truthy(out: &mut Written<'_>, truthy: &[u8]) {
    debug_assert_eq!(out.len(), truthy.len());
    native!(pack_truthy: start_mut out, slice truthy);
    portable::pack(out, truthy, |value| value != 0);
}

/// Writes one bool per bit. The C function writes bytes 0 and 1, which bools are.
#[inline]
pub fn unpack_bools(out: &mut [bool], bits: Bits<'_>) {
    debug_assert_eq!(out.len(), bits.len());
    native!(unpack_bytes: cast_mut out, window bits);
    portable::unpack(out, bits, |digit| digit != 0);
}

/// Writes one byte per bit, 0 or 1.
#[inline]
pub fn unpack_bytes(out: &mut [u8], bits: Bits<'_>) {
    debug_assert_eq!(out.len(), bits.len());
    native!(unpack_bytes: slice_mut out, window bits);
    portable::unpack(out, bits, |digit| digit);
}

/// Writes the bits at the indices. There is one index per bit of `out` and of `validity`. Returns
/// the first valid position whose index is out of bounds; None if there is none.
#[inline]
pub fn take<I: BitIndex>(
    out: &mut Written<'_>,
    bits: Bits<'_>,
    indices: &[I],
    validity: Option<Bits<'_>>,
) -> Option<usize> {
    debug_assert!(validity.is_none_or(|validity| validity.len() == indices.len()));
    debug_assert_eq!(out.len(), indices.len());
    #[cfg(vortex_bits_native)]
    if let (Some(kernels), Some(width)) = (kernels(), Laid::of::<I>()) {
        let bits = bits.part(0, bits.len().min(I::END));
        return take_by_width(kernels, width, out, bits, indices, validity);
    }
    portable::take(out, bits, indices, validity)
}

/// Calls the C function for the layout of the indices.
#[cfg(vortex_bits_native)]
#[inline]
fn take_by_width<I: BitIndex>(
    kernels: &Kernels,
    width: Laid,
    out: &mut Written<'_>,
    bits: Bits<'_>,
    indices: &[I],
    validity: Option<Bits<'_>>,
) -> Option<usize> {
    let (all_valid, valid) = (validity.is_none(), validity.unwrap_or_default());
    macro_rules! by {
        ($name:ident) => {
            native!(@call kernels.$name, [] start_mut out, window bits, slice indices,
                value all_valid, start valid)
        };
    }
    match width {
        // Written by tools/write-lists from tools/families/take_bits.txt.
        Laid::One => by!(take_bits_u8),
        Laid::Two => by!(take_bits_u16),
        Laid::Four => by!(take_bits_u32),
        Laid::Eight => by!(take_bits_u64),
        // To here.
        Laid::Sixteen => portable::take(out, bits, indices, validity),
    }
}
