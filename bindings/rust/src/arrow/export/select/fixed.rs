//! Selects rows of bits and of fixed-width values.

use super::memory::zeroed;
use super::rows::{Rows, Run};
use super::with_each;
use crate::arrow::array::Array;
use crate::arrow::error::ArrowError;
use crate::arrow::field::Field;
use crate::arrow::primitive::Primitive;
use crate::bytes::AlignedBytes;
use crate::{Bits, BitsMut, Validity, Value, kernels, values};

/// Returns the validity of the rows and the number of nulls; None if all are valid.
pub(super) fn validity<'a>(
    field: &Field,
    of: &'a [Array],
    rows: Rows<'_>,
) -> Result<Option<(AlignedBytes, usize)>, ArrowError> {
    // A column that allows no null gets null rows only below a null parent: any values will do.
    let has_nulls = rows.has_nulls() && field.is_nullable();
    let bits = |one: &'a Array| one.validity().map(Validity::bits);
    with_each(of, bits, |bits| {
        if !has_nulls && bits.iter().all(Option::is_none) {
            return Ok(None);
        }
        let kept = kept_bits(field, bits, rows, !has_nulls)?;
        let nulls = Bits::new(&kept, 0, rows.len()).count_zeros();
        Ok((nulls > 0).then_some((kept, nulls)))
    })
}

/// Selects the rows of truth values.
pub(super) fn bits(
    field: &Field,
    of: &[Array],
    rows: Rows<'_>,
) -> Result<AlignedBytes, ArrowError> {
    let kept = |bits: &[Option<Bits<'_>>]| kept_bits(field, bits, rows, false);
    with_each(of, |one| one.bits().map(Some), kept)
}

/// Selects rows of bits. Rows of an array without bits are true, and null rows are `of_null`.
fn kept_bits(
    field: &Field,
    of: &[Option<Bits<'_>>],
    rows: Rows<'_>,
    of_null: bool,
) -> Result<AlignedBytes, ArrowError> {
    let len = rows.len();
    let mut bytes = zeroed(field, len.div_ceil(8), 1)?;
    let mut out = BitsMut::new(&mut bytes, 0, len);
    match (rows, of) {
        (Rows::Mask(mask, _), [Some(bits)]) => {
            assert!(bits.len() == mask.len());
            kernels::filter(&mut out.written(), *bits, mask);
        }
        (Rows::Places(places, valid), [Some(bits)]) if !of_null || !rows.has_nulls() => {
            bits.take_valid_into(places, valid, out);
        }
        _ => rows.for_each(
            |before,
             Run {
                 of: one,
                 start,
                 len,
             }| {
                let mut out = out.slice(before..before + len);
                match one.map(|one| of[one]) {
                    Some(Some(bits)) => out.copy_from(bits.slice(start..start + len)),
                    Some(None) => out.fill(true),
                    None => out.fill(of_null),
                }
            },
        ),
    }
    Ok(bytes)
}

/// Selects rows of the arrays' own values of `width` bytes, or of their views.
pub(super) fn own_values(
    field: &Field,
    width: usize,
    of: &[Array],
    rows: Rows<'_>,
) -> Result<AlignedBytes, ArrowError> {
    let kept = |bytes: &[&[u8]]| values(field, width, bytes, rows);
    with_each(of, |one| Ok(one.value_bytes()), kept)
}

/// Selects rows of values of `width` bytes. Null rows are 0.
pub(super) fn values(
    field: &Field,
    width: usize,
    of: &[&[u8]],
    rows: Rows<'_>,
) -> Result<AlignedBytes, ArrowError> {
    let mut out = zeroed(field, rows.len(), width)?;
    let is_written = match (width, of) {
        (1, [one]) => by_kernel::<u8>(one, rows, &mut out),
        (2, [one]) => by_kernel::<u16>(one, rows, &mut out),
        (4, [one]) => by_kernel::<u32>(one, rows, &mut out),
        (8, [one]) => by_kernel::<u64>(one, rows, &mut out),
        (16, [one]) => by_kernel::<[u64; 2]>(one, rows, &mut out),
        _ => false,
    };
    if !is_written {
        rows.for_each(
            |before,
             Run {
                 of: one,
                 start,
                 len,
             }| {
                if let Some(one) = one {
                    let values = &of[one][start * width..][..len * width];
                    out[before * width..][..len * width].copy_from_slice(values);
                }
            },
        );
    }
    Ok(out)
}

/// Writes the values of one array with a kernel of this crate, and returns true. Returns false, and
/// writes nothing, if the values aren't aligned or there is no such kernel.
fn by_kernel<T: Primitive + Value>(bytes: &[u8], rows: Rows<'_>, out: &mut [u8]) -> bool {
    // SAFETY: any bytes are a value of such a type.
    let (aligned, written) = unsafe { (bytes.align_to::<T>(), out.align_to_mut::<T>()) };
    let (([], of, []), ([], out, [])) = (aligned, written) else {
        return false;
    };
    match rows {
        // The set bits were counted once for all columns.
        Rows::Mask(mask, kept) => {
            assert!((of.len(), out.len()) == (mask.len(), kept));
            kernels::keep(out, of, mask);
        }
        Rows::Places(places, valid) => values::take_valid_into(of, places, valid, out),
        Rows::Runs(..) => return false,
    }
    true
}
