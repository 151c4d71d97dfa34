//! The number of items that an iterator hasn't reached.

use number::{Number, load, store};

/// A number that a shared reference can write. Threads can share it.
#[cfg(target_has_atomic = "ptr")]
mod number {
    use core::sync::atomic::{AtomicUsize, Ordering};

    pub type Number = AtomicUsize;

    #[inline]
    pub fn load(number: &Number) -> usize {
        number.load(Ordering::Relaxed)
    }

    #[inline]
    pub fn store(number: &Number, value: usize) {
        number.store(value, Ordering::Relaxed);
    }
}

/// The same for targets that may have no such atomic number. Threads can't share it there.
#[cfg(not(target_has_atomic = "ptr"))]
mod number {
    use core::cell::Cell;

    pub type Number = Cell<usize>;

    #[inline]
    pub fn load(number: &Number) -> usize {
        number.get()
    }

    #[inline]
    pub fn store(number: &Number, value: usize) {
        number.set(value);
    }
}

/// A number of items, once it was counted. `skip`, `zip` and `enumerate` request it for each item
/// that they return from the end, so it is kept, and each block that an end reaches is subtracted.
pub struct Counted(Number);

/// The value of a number that wasn't counted, or can't be kept.
const UNKNOWN: usize = usize::MAX;

impl Counted {
    #[inline]
    pub fn new() -> Self {
        Counted(Number::new(UNKNOWN))
    }

    /// Returns the number. Calls `count` if no earlier call has.
    #[inline]
    pub fn get(&self, count: impl FnOnce() -> usize) -> usize {
        match load(&self.0) {
            UNKNOWN => {
                let counted = count();
                store(&self.0, counted);
                counted
            }
            known => known,
        }
    }

    /// Subtracts items that an end of the iterator has reached. Calls `items` for their number if
    /// all items were counted.
    #[inline]
    pub fn subtract(&mut self, items: impl FnOnce() -> usize) {
        let number = self.0.get_mut();
        if *number != UNKNOWN {
            *number -= items();
        }
    }
}

impl Clone for Counted {
    #[inline]
    fn clone(&self) -> Self {
        Counted(Number::new(load(&self.0)))
    }
}
