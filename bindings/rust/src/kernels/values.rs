//! Takes values at indices.

use crate::take::BitIndex;
use crate::{Bits, Value, portable};

#[cfg(vortex_bits_native)]
use crate::level::kernels;
#[cfg(vortex_bits_native)]
use crate::native::Kernels;
#[cfg(vortex_bits_native)]
use crate::value::Laid;

/// For up to this number of values a call through a pointer costs more than taking them.
#[cfg(vortex_bits_native)]
const FEW: usize = 16;

/// Writes the values at the indices. There is one index per item of `out` and per bit of
/// `validity`. Returns the first valid position whose index names no value; None if there is none.
#[inline]
pub fn take_values<T: Value, I: BitIndex>(
    out: &mut [T],
    values: &[T],
    indices: &[I],
    validity: Option<Bits<'_>>,
) -> Option<usize> {
    debug_assert_eq!(out.len(), indices.len());
    debug_assert!(validity.is_none_or(|validity| validity.len() == indices.len()));
    #[cfg(vortex_bits_native)]
    if let (Some(kernels), Some(laid), Some(width)) = (
        kernels().filter(|_| indices.len() > FEW),
        Laid::of::<T>(),
        Laid::of::<I>(),
    ) {
        let values = &values[..values.len().min(I::END)];
        return by_kind(kernels, laid, width, out, values, indices, validity);
    }
    portable::take_values(out, values, indices, validity)
}

/// Calls the C function for the layouts of the values and the indices.
#[cfg(vortex_bits_native)]
#[inline]
fn by_kind<T: Value, I: BitIndex>(
    kernels: &Kernels,
    laid: Laid,
    width: Laid,
    out: &mut [T],
    values: &[T],
    indices: &[I],
    validity: Option<Bits<'_>>,
) -> Option<usize> {
    let (all_valid, valid) = (validity.is_none(), validity.unwrap_or_default());
    macro_rules! kinds {
        ($($laid:ident $width:ident => $name:ident;)*) => {
            match (laid, width) {
                $((Laid::$laid, Laid::$width) => native!(@call kernels.$name, [] cast_mut out,
                    slice values, slice indices, value all_valid, start valid),)*
                (_, Laid::Sixteen) => portable::take_values(out, values, indices, validity),
            }
        };
    }
    kinds! {
        // Written by tools/write-lists from tools/families/take_values.txt.
        One One => take_values_u8_u8;
        One Two => take_values_u8_u16;
        One Four => take_values_u8_u32;
        One Eight => take_values_u8_u64;
        Two One => take_values_u16_u8;
        Two Two => take_values_u16_u16;
        Two Four => take_values_u16_u32;
        Two Eight => take_values_u16_u64;
        Four One => take_values_u32_u8;
        Four Two => take_values_u32_u16;
        Four Four => take_values_u32_u32;
        Four Eight => take_values_u32_u64;
        Eight One => take_values_u64_u8;
        Eight Two => take_values_u64_u16;
        Eight Four => take_values_u64_u32;
        Eight Eight => take_values_u64_u64;
        Sixteen One => take_values_u128_u8;
        Sixteen Two => take_values_u128_u16;
        Sixteen Four => take_values_u128_u32;
        Sixteen Eight => take_values_u128_u64;
        // To here.
    }
}
