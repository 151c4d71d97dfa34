//! Selects bits and values by a mask, also in place, and scatters values by one.

use crate::written::Written;
use crate::{Bits, Value, portable};

#[cfg(vortex_bits_native)]
use super::is_word;
#[cfg(vortex_bits_native)]
use crate::level::kernels;
#[cfg(vortex_bits_native)]
use crate::value::Laid;

/// `mask` is as long as `bits`, and `out` has one bit per set bit of `mask`.
#[inline]
pub fn filter(out: &mut Written<'_>, bits: Bits<'_>, mask: Bits<'_>) {
    debug_assert_eq!(bits.len(), mask.len());
    debug_assert_eq!(out.len(), portable::count_ones(mask));
    #[cfg(vortex_bits_native)]
    if let Some(kernels) = kernels().filter(|_| !is_word(mask)) {
        let function = kernels.filter_bits;
        let kept: usize = native!(@call function, [] start_mut out, start bits, window mask);
        debug_assert_eq!(kept, out.len());
        return;
    }
    portable::filter(out, bits, mask);
}

/// There is one value per bit of the mask, and one item of `out` per set bit. Returns their number.
#[inline]
pub fn keep<T: Value>(out: &mut [T], values: &[T], mask: Bits<'_>) -> usize {
    debug_assert_eq!(values.len(), mask.len());
    debug_assert_eq!(out.len(), portable::count_ones(mask));
    #[cfg(vortex_bits_native)]
    if let (Some(kernels), Some(laid)) = (kernels().filter(|_| !is_word(mask)), Laid::of::<T>()) {
        macro_rules! by {
            ($name:ident) => {
                native!(@call kernels.$name, [] cast_mut out, slice values, start mask)
            };
        }
        return match laid {
            // Written by tools/write-lists from tools/families/filter.txt.
            Laid::One => by!(filter_values_u8),
            Laid::Two => by!(filter_values_u16),
            Laid::Four => by!(filter_values_u32),
            Laid::Eight => by!(filter_values_u64),
            Laid::Sixteen => by!(filter_values_u128),
            // To here.
        };
    }
    portable::keep(out, values, mask)
}

/// There is one value per bit of the mask. Returns the number of selected values, which are then in
/// front.
#[inline]
pub fn retain<T: Value>(values: &mut [T], mask: Bits<'_>) -> usize {
    debug_assert_eq!(values.len(), mask.len());
    #[cfg(vortex_bits_native)]
    if let (Some(kernels), Some(laid)) = (kernels().filter(|_| !is_word(mask)), Laid::of::<T>()) {
        macro_rules! by {
            ($name:ident) => {
                native!(@call kernels.$name, [] cast_mut values, start mask)
            };
        }
        return match laid {
            // Written by tools/write-lists from tools/families/retain.txt.
            Laid::One => by!(retain_values_u8),
            Laid::Two => by!(retain_values_u16),
            Laid::Four => by!(retain_values_u32),
            Laid::Eight => by!(retain_values_u64),
            Laid::Sixteen => by!(retain_values_u128),
            // To here.
        };
    }
    portable::retain(values, mask)
}

/// There is one item per bit of the mask, and one value per set bit.
#[inline]
pub fn scatter<T: Value>(out: &mut [T], values: &[T], mask: Bits<'_>) {
    debug_assert_eq!(out.len(), mask.len());
    debug_assert_eq!(values.len(), portable::count_ones(mask));
    #[cfg(vortex_bits_native)]
    if let (Some(kernels), Some(laid)) = (kernels().filter(|_| !is_word(mask)), Laid::of::<T>()) {
        macro_rules! by {
            ($name:ident) => {
                native!(@call kernels.$name, [] cast_mut out, slice values, start mask)
            };
        }
        let written: usize = match laid {
            // Written by tools/write-lists from tools/families/scatter.txt.
            Laid::One => by!(scatter_values_u8),
            Laid::Two => by!(scatter_values_u16),
            Laid::Four => by!(scatter_values_u32),
            Laid::Eight => by!(scatter_values_u64),
            Laid::Sixteen => by!(scatter_values_u128),
            // To here.
        };
        debug_assert_eq!(written, values.len());
        return;
    }
    portable::scatter(out, values, mask);
}
