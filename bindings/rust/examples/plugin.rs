//! A library for programs in any language that have Arrow arrays by the C data interface, such as
//! Python by ctypes: `bindings/gdal/batches` calls it between GDAL's arrays and numpy's.
//!
//!     cargo build --release --features arrow --example plugin
//!
//! Each function takes over an array with its schema, and writes another array with its schema.
//! Both inputs are left released. It returns 0; or 22 (EINVAL) on an error, such as an index out of
//! bounds or a struct that isn't as the interface requires. On an error it writes nothing.

use std::ffi::c_int;
use std::slice;

use vortex_bits::arrow::{Array, ArrowArray, ArrowError, ArrowSchema, Export};
use vortex_bits::{Bitmap, Bits, Comparison, values};

const EINVAL: c_int = 22;

/// An array and its schema.
#[derive(Clone, Copy)]
#[repr(C)]
pub struct Pair {
    /// The array.
    pub array: *mut ArrowArray,
    /// Its schema.
    pub schema: *mut ArrowSchema,
}

/// # Safety
///
/// Both pairs point to structs: those of `given` are as the interface requires, and those of `out`
/// may be written.
unsafe fn answer(
    given: Pair,
    out: Pair,
    call: impl FnOnce(Array) -> Result<Export, ArrowError>,
) -> c_int {
    // SAFETY: as for this function.
    let taken = unsafe { Array::from_raw(given.array, given.schema) };
    match taken.and_then(call) {
        Ok(made) => {
            let (array, schema) = made.into_raw();
            // SAFETY: as for this function.
            unsafe { (out.array.write(array), out.schema.write(schema)) };
            0
        }
        Err(error) => {
            eprintln!("{error}");
            EINVAL
        }
    }
}

/// Returns `count` items. If there are none, the pointer may be null, as callers in C expect.
///
/// # Safety
///
/// `first` points to `count` items, or `count` is 0.
unsafe fn items<'a, T>(first: *const T, count: usize) -> &'a [T] {
    if count == 0 {
        return &[];
    }
    // SAFETY: as for this function.
    unsafe { slice::from_raw_parts(first, count) }
}

/// Writes the rows whose bit of the mask is set.
///
/// # Safety
///
/// As for [`answer`]; the mask has a bit for each row.
#[unsafe(no_mangle)]
pub unsafe extern "C" fn plugin_filter(given: Pair, out: Pair, mask: *const u8) -> c_int {
    let filter = |rows: Array| {
        // SAFETY: as for this function.
        let mask = unsafe { items(mask, rows.len().div_ceil(8)) };
        rows.filter(Bits::new(mask, 0, rows.len()))
    };
    // SAFETY: as for this function.
    unsafe { answer(given, out, filter) }
}

/// Writes the rows at indices; a negative index gives a null row.
///
/// # Safety
///
/// As for [`answer`]; `indices` points to `count` indices, or `count` is 0.
#[unsafe(no_mangle)]
pub unsafe extern "C" fn plugin_take(
    given: Pair,
    out: Pair,
    indices: *const i64,
    count: usize,
) -> c_int {
    // SAFETY: as for this function.
    let indices = unsafe { items(indices, count) };
    let valid = values::compare(indices, Comparison::GreaterOrEqual, 0);
    // SAFETY: as for this function.
    unsafe { answer(given, out, |rows| rows.take_valid(indices, valid)) }
}

/// Writes a copy of `count` rows from `first` on, which has no offset.
///
/// # Safety
///
/// As for [`answer`].
#[unsafe(no_mangle)]
pub unsafe extern "C" fn plugin_slice(given: Pair, out: Pair, first: usize, count: usize) -> c_int {
    let part = |rows: Array| {
        let end = first.saturating_add(count);
        let rows = rows.try_slice(first..end)?;
        Export::concat(rows.field(), slice::from_ref(&rows))
    };
    // SAFETY: as for this function.
    unsafe { answer(given, out, part) }
}

/// Writes the same rows without a copy.
///
/// # Safety
///
/// As for [`answer`].
#[unsafe(no_mangle)]
pub unsafe extern "C" fn plugin_forward(given: Pair, out: Pair) -> c_int {
    // SAFETY: as for this function.
    unsafe { answer(given, out, Array::try_into_export) }
}

/// Writes the same rows. Copies truth values, signed numbers of 16 to 64 bits, floats, days, times
/// and texts of the formats that GDAL has into memory of this library. Passes on all other columns,
/// and those with a dictionary, without a copy.
///
/// # Safety
///
/// As for [`answer`].
#[unsafe(no_mangle)]
pub unsafe extern "C" fn plugin_rebuild(given: Pair, out: Pair) -> c_int {
    let rebuild = |rows: Array| {
        let columns = rows.columns()?.map(|column| rebuilt(&column));
        let columns = columns.collect::<Result<Vec<_>, _>>()?;
        Export::structs(rows.len(), columns, valid(&rows)?).with_field(rows.field())
    };
    // SAFETY: as for this function.
    unsafe { answer(given, out, rebuild) }
}

/// Returns a copy of the validity; None if there are no bits.
fn valid(rows: &Array) -> Result<Option<Bitmap>, ArrowError> {
    Ok(rows.validity()?.bits().map(Bitmap::from))
}

fn rebuilt(column: &Array) -> Result<Export, ArrowError> {
    let made = match column.field().format() {
        _ if column.dictionary().is_some() => return column.clone().try_into_export(),
        "b" => Export::bits(Bitmap::from(column.bits()?), valid(column)?),
        "s" => Export::values(column.values::<i16>()?.to_vec(), valid(column)?),
        "i" | "tdD" | "ttm" => Export::values(column.values::<i32>()?.to_vec(), valid(column)?),
        "l" | "tsm:" => Export::values(column.values::<i64>()?.to_vec(), valid(column)?),
        "f" => Export::values(column.values::<f32>()?.to_vec(), valid(column)?),
        "g" => Export::values(column.values::<f64>()?.to_vec(), valid(column)?),
        "u" => {
            let texts = column.texts()?;
            let text = |row: &[u8]| String::from_utf8_lossy(row).into_owned();
            Export::texts_or_nulls(texts.iter().map(|row| row.map(text))).narrow()?
        }
        _ => return column.clone().try_into_export(),
    };
    made.with_field(column.field())
}
