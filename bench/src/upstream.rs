//! The calls of vortex-buffer. Each is a separate function, so that none gains by being inlined
//! into the loop that measures it.

use std::cell::Cell;
use std::hint::black_box;

use vortex_buffer::{
    Alignment, BitBuffer, BitBufferMut, BitBufferView, Buffer, BufferMut, ByteBuffer,
};

use crate::input::Window;

fn view<'a>(w: Window<'a>) -> BitBufferView<'a> {
    BitBufferView::new_with_offset(w.bytes, w.len, w.offset)
}

/// A set over a copy of the window's bytes.
pub fn set(w: Window) -> BitBuffer {
    BitBuffer::new_with_offset(ByteBuffer::copy_from(w.bytes), w.len, w.offset)
}

#[inline(never)]
pub fn count_ones(w: Window) -> usize {
    view(w).true_count()
}

#[inline(never)]
pub fn bit_select(w: Window, n: usize) -> usize {
    view(w).select(n).unwrap_or(usize::MAX)
}

#[inline(never)]
pub fn bit_select_unset(set: &BitBuffer, n: usize) -> usize {
    set.select_unset(n).unwrap_or(usize::MAX)
}

#[inline(never)]
pub fn set_indices(w: Window) -> usize {
    let mut sum = 0usize;
    for place in view(w).set_indices() {
        sum = sum.wrapping_add(place);
    }
    sum
}

#[inline(never)]
pub fn set_slices(w: Window) -> usize {
    let mut sum = 0usize;
    for (start, end) in view(w).set_slices() {
        sum = sum.wrapping_add(start ^ end);
    }
    sum
}

#[inline(never)]
pub fn iter(w: Window) -> usize {
    let mut sum = 0usize;
    for bit in view(w).iter() {
        sum += bit as usize;
    }
    sum
}

#[inline(never)]
pub fn iter_fold(w: Window) -> usize {
    view(w).iter().fold(0, |sum, bit| sum + bit as usize)
}

#[inline(never)]
pub fn chunks(w: Window) -> usize {
    let mut sum = 0u64;
    for word in view(w).chunks().iter() {
        sum = sum.wrapping_add(word);
    }
    sum as usize
}

#[inline(never)]
pub fn iter_padded(w: Window) -> usize {
    let mut sum = 0u64;
    for word in view(w).chunks().iter_padded() {
        sum = sum.wrapping_add(word);
    }
    sum as usize
}

#[inline(never)]
pub fn iter_padded_fold(w: Window) -> usize {
    view(w).chunks().iter_padded().fold(0, u64::wrapping_add) as usize
}

#[inline(never)]
pub fn last_set_index(set: &BitBuffer) -> usize {
    set.last_set_index().unwrap_or(set.len())
}

/// The last true bit before an index, by a slice.
#[inline(never)]
pub fn previous_set(set: &BitBuffer, before: usize) -> usize {
    set.slice(..before).last_set_index().unwrap_or(usize::MAX)
}

#[inline(never)]
pub fn value(w: Window, places: &[usize]) -> usize {
    let view = view(w);
    places
        .iter()
        .fold(0, |sum, &place| sum + view.value(place) as usize)
}

#[inline(never)]
pub fn eq(left: Window, right: Window) -> usize {
    (view(left) == view(right)) as usize
}

/// Uses a result, so that the compiler has to make it, and drops it.
#[inline(never)]
fn used(set: BitBuffer) -> usize {
    black_box(&set).len()
}

/// An operator by reference: 0 `&`, 1 `|`, 2 `^`, else `bitand_not`.
pub fn operator(number: usize) -> fn(&BitBuffer, &BitBuffer) -> usize {
    match number {
        0 => |left, right| used(left & right),
        1 => |left, right| used(left | right),
        2 => |left, right| used(left ^ right),
        _ => |left, right| used(left.bitand_not(right)),
    }
}

/// Replaces the set in a cell by the one that `make` returns for it. Returns the new length.
fn replaced(cell: &Cell<Option<BitBuffer>>, make: impl Fn(BitBuffer) -> BitBuffer) -> usize {
    let made = make(cell.take().expect("a set was put back"));
    let len = made.len();
    cell.set(Some(made));
    len
}

/// An operator with the owned left set in a cell, in place: numbered as in [`operator`].
pub fn operator_owned(number: usize) -> fn(&Cell<Option<BitBuffer>>, &BitBuffer) -> usize {
    match number {
        0 => |left, right| replaced(left, |set| set & right),
        1 => |left, right| replaced(left, |set| set | right),
        2 => |left, right| replaced(left, |set| set ^ right),
        _ => |left, right| replaced(left, |set| set.into_bitand_not(right)),
    }
}

#[inline(never)]
pub fn slice(set: &BitBuffer, start: usize) -> usize {
    used(set.slice(start..set.len()))
}

#[inline(never)]
pub fn clone(set: &BitBuffer) -> usize {
    used(set.clone())
}

#[inline(never)]
pub fn not(set: &BitBuffer) -> usize {
    used(!set)
}

#[inline(never)]
pub fn sliced(set: &BitBuffer) -> usize {
    used(set.sliced())
}

#[inline(never)]
pub fn not_owned(set: &Cell<Option<BitBuffer>>) -> usize {
    replaced(set, |set| !set)
}

#[inline(never)]
pub fn for_each_set_index(set: &BitBuffer) -> usize {
    let mut sum = 0usize;
    set.for_each_set_index(|place| sum = sum.wrapping_add(place));
    sum
}

#[inline(never)]
pub fn for_each_unset_index(set: &BitBuffer) -> usize {
    let mut sum = 0usize;
    set.for_each_unset_index(|place| sum = sum.wrapping_add(place));
    sum
}

#[inline(never)]
pub fn iter_bits(set: &BitBuffer) -> usize {
    let mut sum = 0usize;
    set.iter_bits(|place, bit| sum = sum.wrapping_add(if bit { place } else { 0 }));
    sum
}

#[inline(never)]
pub fn map_cmp(set: &BitBuffer) -> usize {
    used(set.map_cmp(|place, bit| bit != (place % 2 == 0)))
}

#[inline(never)]
pub fn freeze_try_into_mut(set: &Cell<Option<BitBufferMut>>) -> usize {
    let frozen = set.take().expect("a set was put back").freeze();
    let made = frozen.try_into_mut().expect("the set has one owner");
    let len = made.len();
    set.set(Some(made));
    len
}

#[inline(never)]
pub fn fill_range(set: &mut BitBufferMut, start: usize, value: bool) -> usize {
    let end = set.len();
    set.fill_range(start, end, value);
    end
}

#[inline(never)]
pub fn set_to(set: &mut BitBufferMut, places: &[usize]) -> usize {
    for &place in places {
        set.set_to(place, true);
    }
    set.len()
}

#[inline(never)]
pub fn collect_bool(values: &[u32], limit: u32) -> usize {
    used(BitBuffer::collect_bool(values.len(), |i| values[i] < limit))
}

#[inline(never)]
pub fn collect_bool_multiversioned(values: &[u32], limit: u32) -> usize {
    used(BitBuffer::collect_bool_multiversioned(values.len(), |i| {
        values[i] < limit
    }))
}

#[inline(never)]
pub fn from_bools(bools: &[bool]) -> usize {
    used(BitBuffer::from(bools))
}

#[inline(never)]
pub fn from_truthy(bytes: &[u8]) -> usize {
    black_box(&BitBufferMut::from(bytes)).len()
}

#[inline(never)]
pub fn from_iter(bytes: &[u8]) -> usize {
    used(bytes.iter().map(|&byte| byte != 0).collect())
}

#[inline(never)]
pub fn from_indices(len: usize, places: &[usize]) -> usize {
    used(BitBuffer::from_indices(len, places.iter().copied()))
}

#[inline(never)]
pub fn new_set(len: usize) -> usize {
    black_box(&BitBufferMut::new_set(len)).len()
}

#[inline(never)]
pub fn new_unset(len: usize) -> usize {
    black_box(&BitBufferMut::new_unset(len)).len()
}

#[inline(never)]
pub fn append(bytes: &[u8], room: usize) -> usize {
    let mut set = BitBufferMut::with_capacity(room);
    for &byte in bytes {
        set.append(byte != 0);
    }
    black_box(&set).len()
}

#[inline(never)]
pub fn append_n(before: usize, n: usize) -> usize {
    let mut set = BitBufferMut::empty();
    set.append_n(false, before);
    set.append_n(true, n);
    black_box(&set).len()
}

#[inline(never)]
pub fn append_buffer(grown: &mut BitBufferMut, set: &BitBuffer, before: usize) -> usize {
    grown.truncate(before);
    grown.append_buffer(set);
    grown.len()
}

/// Appends a set built from the truth values, since upstream has no call that appends these.
#[inline(never)]
pub fn append_bools(grown: &mut BitBufferMut, bools: &[bool], before: usize) -> usize {
    grown.truncate(before);
    grown.append_buffer(&BitBuffer::from(bools));
    grown.len()
}

/// The same with the items of an iterator.
#[inline(never)]
pub fn extend(grown: &mut BitBufferMut, bytes: &[u8], before: usize) -> usize {
    grown.truncate(before);
    grown.append_buffer(&bytes.iter().map(|&byte| byte != 0).collect());
    grown.len()
}

/// Bits taken by indices of a type that upstream takes.
macro_rules! take {
    ($($name:ident: $index:ty),*) => {$(
        #[inline(never)]
        pub fn $name(
            bits: &[u8],
            len: usize,
            indices: &[$index],
            validity: Option<&[u8]>,
        ) -> usize {
            let validity = validity.map(|bytes| BitBufferView::new(bytes, indices.len()));
            used(vortex_buffer::take_bits(BitBufferView::new(bits, len), indices, validity))
        }
    )*};
}

take!(take_u32: u32, take_u64: u64, take_i64: i64, take_u128: u128);

#[inline(never)]
pub fn buffer_copy_from(items: &[u32]) -> usize {
    black_box(&Buffer::<u32>::copy_from(items)).len()
}

/// Reads items by a cast of an aligned copy of the bytes.
#[inline(never)]
pub fn buffer_read_from(bytes: &[u8]) -> usize {
    let bytes = ByteBuffer::copy_from_aligned(bytes, Alignment::of::<u32>());
    black_box(&Buffer::<u32>::from_byte_buffer(bytes)).len()
}

#[inline(never)]
pub fn buffer_from_iter(n: u32) -> usize {
    black_box(&Buffer::<u32>::from_iter(0..n)).len()
}

#[inline(never)]
pub fn buffer_push(items: &[u32]) -> usize {
    let mut buffer = BufferMut::<u32>::empty();
    for &item in items {
        buffer.push(item);
    }
    black_box(&buffer).len()
}

#[inline(never)]
pub fn buffer_slice(buffer: &Buffer<u32>, start: usize) -> usize {
    black_box(&buffer.slice(start..buffer.len())).len()
}

/// Filters values by the runs of a mask, as an engine over upstream does.
#[inline(never)]
pub fn filtered(values: &Buffer<u32>, mask: &BitBuffer) -> usize {
    let mut kept = BufferMut::<u32>::with_capacity(mask.true_count());
    for (start, end) in mask.set_slices() {
        kept.extend_from_slice(&values[start..end]);
    }
    black_box(&kept.freeze()).len()
}

/// Appends a bit for each index that a mask selects.
#[inline(never)]
pub fn filter_bits(bits: &BitBuffer, mask: &BitBuffer) -> usize {
    let mut kept = BitBufferMut::with_capacity(mask.true_count());
    for place in mask.set_indices() {
        kept.append(bits.value(place));
    }
    used(kept.freeze())
}

/// Sets the bit at each index that a mask selects if the bit deposited there is true. Returns the
/// number of selected indices.
#[inline(never)]
pub fn deposit(bits: &BitBuffer, mask: &BitBuffer) -> usize {
    let (mut made, mut at) = (BitBufferMut::new_unset(mask.len()), 0);
    for place in mask.set_indices() {
        if bits.value(at) {
            made.set(place);
        }
        at += 1;
    }
    used(made.freeze());
    at
}
