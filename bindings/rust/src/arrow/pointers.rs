//! Pointers to the buffers of an array.

use alloc::vec::Vec;
use core::ffi::c_void;
use core::ops::{Deref, DerefMut};
use core::ptr;

/// The number of pointers that need no allocation. Only arrays of views have more.
const FEW: usize = 3;

/// Pointers to buffers.
#[derive(Clone)]
pub(super) enum Pointers {
    /// The first `len` of them.
    Few([*const c_void; FEW], usize),
    Many(Vec<*const c_void>),
}

impl Pointers {
    /// Returns `len` pointers; None if memory runs out.
    pub(super) fn try_from_fn(
        len: usize,
        pointer: impl FnMut(usize) -> *const c_void,
    ) -> Option<Pointers> {
        let pointers = (0..len).map(pointer);
        if len <= FEW {
            return Some(pointers.collect());
        }
        let mut all = Vec::new();
        all.try_reserve_exact(len).ok()?;
        all.extend(pointers);
        Some(Pointers::Many(all))
    }

    #[inline]
    pub(super) fn push(&mut self, next: *const c_void) {
        match self {
            Pointers::Few(few, len) if *len < FEW => {
                few[*len] = next;
                *len += 1;
            }
            Pointers::Few(few, _) => {
                *self = Pointers::Many(few.iter().copied().chain([next]).collect());
            }
            Pointers::Many(all) => all.push(next),
        }
    }
}

impl Default for Pointers {
    #[inline]
    fn default() -> Pointers {
        Pointers::Few([ptr::null(); FEW], 0)
    }
}

impl FromIterator<*const c_void> for Pointers {
    #[inline]
    fn from_iter<I: IntoIterator<Item = *const c_void>>(pointers: I) -> Pointers {
        let mut all = Pointers::default();
        for next in pointers {
            all.push(next);
        }
        all
    }
}

impl Deref for Pointers {
    type Target = [*const c_void];

    #[inline]
    fn deref(&self) -> &[*const c_void] {
        match self {
            Pointers::Few(few, len) => &few[..*len],
            Pointers::Many(all) => all,
        }
    }
}

impl DerefMut for Pointers {
    fn deref_mut(&mut self) -> &mut [*const c_void] {
        match self {
            Pointers::Few(few, len) => &mut few[..*len],
            Pointers::Many(all) => all,
        }
    }
}
