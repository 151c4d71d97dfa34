//! Errors that are put into arrays. The buffers stay as long as the numbers say, since the reader
//! has to trust the producer in that.
use std::ptr;

use super::{Maker, Rows, Tree};
use crate::raw::Array;

impl Maker {
    /// Offsets that go back, are negative or far away.
    pub(super) fn wrong_offsets(&mut self, ends: &mut [i64], width: usize) {
        let most = if width == 4 {
            i64::from(i32::MAX)
        } else {
            i64::MAX
        };
        let least = if width == 4 {
            i64::from(i32::MIN)
        } else {
            i64::MIN
        };
        while self.lies() {
            let place = self.below(ends.len());
            ends[place] = self.one_of(&[-1, 0, 1, 7, 100, 4000, least, most, most - 1]);
        }
    }

    /// Ids and offsets of unions, most of which name no child or no item.
    pub(super) fn wrong_items(&mut self, types: &mut [i64], offsets: &mut [i64]) {
        while self.lies() && !types.is_empty() {
            let row = self.below(types.len());
            types[row] = self.one_of(&[-128, -1, 1, 4, 126]);
            let row = self.below(types.len());
            offsets[row] = self.one_of(&[-1, 3, 70, i64::from(i32::MIN), i64::from(i32::MAX)]);
        }
    }

    /// Views of bytes that aren't there.
    pub(super) fn wrong_views(&mut self, views: &mut [u8], rows: &Rows) {
        while self.lies() && rows.end > 0 {
            let row = self.below(rows.end);
            let at = 16 * row + self.one_of(&[0, 4, 8, 12]);
            let number = self.one_of(&[-1, 0, 1, 3, 12, 13, 500, i32::MIN, i32::MAX]);
            views[at..at + 4].copy_from_slice(&number.to_ne_bytes());
        }
    }
}

/// Spoils a number or a pointer of one array of a tree, or the format. Some trees stay valid.
pub fn spoil(maker: &mut Maker, (array, schema): &mut Tree) {
    let mut all = Vec::new();
    collect(&raw mut *array, &mut all);
    let chosen = all[maker.below(all.len())];
    // SAFETY: it is one of the tree, and its release reads nothing that is spoiled.
    let array = unsafe { &mut *chosen };
    let number = maker.one_of(&[i64::MIN, -7, -1]);
    match maker.below(9) {
        0 => array.length = number,
        1 => array.offset = number,
        2 => (array.length, array.offset) = (i64::MAX, i64::MAX),
        3 => array.null_count = maker.one_of(&[i64::MIN, -2, array.length + 1, i64::MAX]),
        4 => array.n_children = maker.one_of(&[-1, array.n_children + 1, i64::MAX]),
        5 => array.n_buffers = maker.one_of(&[-1, 1 << 50, i64::MAX]),
        6 => array.children = ptr::null_mut(),
        7 if array.n_buffers > 0 => {
            let place = maker.below(usize::try_from(array.n_buffers).unwrap());
            // SAFETY: there are more than `place` buffers.
            unsafe { *array.buffers.add(place) = ptr::null() };
        }
        _ => schema.format = maker.one_of(&FORMATS).as_ptr(),
    }
}

/// Formats that no type has.
const FORMATS: [&std::ffi::CStr; 5] = [c"", c"+x", c"+w:-1", c"+us:1,1", c"?"];

/// The arrays of a tree, the outermost one first.
pub(super) fn collect(array: *const Array, found: &mut Vec<*mut Array>) {
    found.push(array.cast_mut());
    // SAFETY: the array is as the interface asks for.
    unsafe {
        for place in 0..usize::try_from((*array).n_children).unwrap() {
            collect(*(*array).children.add(place), found);
        }
        if !(*array).dictionary.is_null() {
            collect((*array).dictionary, found);
        }
    }
}
