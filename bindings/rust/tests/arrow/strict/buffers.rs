//! The buffers of an array. Each byte that a consumer may read is read.
use std::hint::black_box;
use std::slice;

use super::format::{Sign, Type};
use super::{Checked, holds};
use crate::plain::bit;
use crate::raw;

/// The buffers of an array. `end` is its offset plus its length.
pub struct Buffers<'a> {
    array: &'a raw::Array,
    pub end: usize,
}

impl<'a> Buffers<'a> {
    pub fn new(array: &'a raw::Array, end: usize) -> Self {
        Buffers { array, end }
    }

    /// Reads and returns the first `size` bytes of a buffer. It may be null if `size` is 0.
    pub fn bytes(&self, place: usize, size: usize) -> Checked<&'a [u8]> {
        // SAFETY: there are as many buffers as the type has.
        let pointer = unsafe { *self.array.buffers.add(place) };
        if size == 0 {
            return Ok(&[]);
        }
        holds(!pointer.is_null(), || format!("buffer {place} is null"))?;
        // SAFETY: the checker is there to see whether that is so.
        let bytes: &[u8] = unsafe { slice::from_raw_parts(pointer.cast(), size) };
        black_box(bytes.iter().fold(0u8, |all, byte| all ^ byte));
        Ok(bytes)
    }

    /// Which items are valid; None where the buffer is null and all are.
    pub fn validity(&self) -> Checked<Option<&'a [u8]>> {
        // SAFETY: there is a buffer at least.
        if unsafe { *self.array.buffers }.is_null() {
            return Ok(None);
        }
        self.bytes(0, self.end.div_ceil(8)).map(Some)
    }

    /// The signed numbers of a buffer, of so many bytes each.
    pub fn numbers(&self, place: usize, width: usize, len: usize) -> Checked<Vec<i64>> {
        let bytes = self.bytes(place, len * width)?;
        Ok(bytes.chunks_exact(width).map(signed).collect())
    }

    /// The data buffers of views. The last buffer has their lengths.
    pub fn of_views(&self) -> Checked<Vec<&'a [u8]>> {
        let all = usize::try_from(self.array.n_buffers).unwrap();
        let sizes = self.numbers(all - 1, 8, all - 3)?;
        let buffer = |(place, size): (usize, &i64)| {
            let size = usize::try_from(*size).map_err(|_| format!("a buffer of {size} bytes"))?;
            self.bytes(2 + place, size)
        };
        sizes.iter().enumerate().map(buffer).collect()
    }
}

fn signed(bytes: &[u8]) -> i64 {
    match bytes.len() {
        1 => i8::from_ne_bytes(bytes.try_into().unwrap()).into(),
        2 => i16::from_ne_bytes(bytes.try_into().unwrap()).into(),
        4 => i32::from_ne_bytes(bytes.try_into().unwrap()).into(),
        _ => i64::from_ne_bytes(bytes.try_into().unwrap()),
    }
}

/// The index of each item.
pub fn indices(bytes: &[u8], width: usize, sign: Sign) -> Vec<i128> {
    let number = |bytes: &[u8]| match sign {
        Sign::Signed => signed(bytes).into(),
        Sign::Unsigned => {
            let number: i128 = signed(bytes).into();
            if number < 0 {
                number + (1 << (8 * width))
            } else {
                number
            }
        }
    };
    bytes.chunks_exact(width).map(number).collect()
}

/// Whether an item is valid.
pub fn is_valid(validity: Option<&[u8]>, place: usize) -> bool {
    validity.is_none_or(|bits| bit(bits, place))
}

/// Tests that offsets don't decrease and aren't negative. Returns the last one, or 0 without any.
pub fn ascending(offsets: &[i64]) -> Checked<usize> {
    let mut last = 0;
    for (place, &offset) in offsets.iter().enumerate() {
        holds(offset >= last, || {
            format!("offset {place} is {offset} behind {last}")
        })?;
        last = offset;
    }
    usize::try_from(last).map_err(|_| "an offset".into())
}

/// What a view shows.
pub fn viewed<'a>(view: &'a [u8], buffers: &[&'a [u8]]) -> Checked<&'a [u8]> {
    let number = |at: usize| i32::from_ne_bytes(view[at..at + 4].try_into().unwrap());
    let wrong = || format!("a view {view:?}");
    let len = usize::try_from(number(0)).map_err(|_| wrong())?;
    if len <= 12 {
        holds(view[4 + len..].iter().all(|it| *it == 0), wrong)?;
        return Ok(&view[4..4 + len]);
    }
    let [buffer, start] = [8, 12].map(|at| usize::try_from(number(at)));
    let (buffer, start) = (buffer.map_err(|_| wrong())?, start.map_err(|_| wrong())?);
    let shown = buffers
        .get(buffer)
        .and_then(|it| it.get(start..start + len))
        .ok_or_else(wrong)?;
    holds(shown[..4] == view[4..8], wrong)?;
    Ok(shown)
}

/// The bytes of an item in the second buffer.
pub fn width(of: &Type) -> usize {
    match of {
        Type::Fixed(width, _) | Type::ListView(width) => *width,
        Type::Views(_) => 16,
        _ => 0,
    }
}
