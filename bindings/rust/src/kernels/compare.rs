//! Compares values, into bits.

use crate::compare::{Compare, Comparison};
use crate::portable;
use crate::written::Written;

#[cfg(vortex_bits_native)]
use crate::level::kernels;

/// There is one value per bit.
#[inline]
pub fn compare<T: Compare>(out: &mut Written<'_>, values: &[T], op: Comparison, number: T) {
    debug_assert_eq!(out.len(), values.len());
    #[cfg(vortex_bits_native)]
    if let Some((function, number)) = kernels().and_then(|kernels| number.with_number(kernels)) {
        let op = op as u8;
        return native!(@call function, [] start_mut out, slice values, value op, value number);
    }
    portable::compare(out, values, op, number);
}

/// There is one value and one other per bit.
#[inline]
pub fn compare_with<T: Compare>(out: &mut Written<'_>, values: &[T], op: Comparison, others: &[T]) {
    debug_assert!(out.len() == values.len() && others.len() == values.len());
    #[cfg(vortex_bits_native)]
    if let Some(function) = kernels().and_then(T::with_others) {
        let op = op as u8;
        return native!(@call function, [] start_mut out, slice values, value op, slice others);
    }
    portable::compare_with(out, values, op, others);
}
