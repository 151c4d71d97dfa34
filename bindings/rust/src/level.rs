//! The code that the processor can run, and the code that calls run.

#[cfg(vortex_bits_native)]
use core::sync::atomic::{AtomicU8, Ordering};

#[cfg(vortex_bits_native)]
use crate::native::{Kernels, V2, V3};

/// The code that runs in a call. Results don't depend on it, except for those that a call says are
/// arbitrary or meaningless.
#[derive(Clone, Copy, Debug, PartialEq, Eq, PartialOrd, Ord, Hash)]
#[non_exhaustive]
pub enum Level {
    /// Rust of this crate, on any target. It is tested against loops over single bits, and not
    /// proved.
    Portable,
    /// Proved code for x86-64-v2: SSE4.2 and `popcnt`.
    V2,
    /// Proved code for x86-64-v3: AVX2 and BMI2.
    V3,
}

/// All levels, the lowest first.
#[cfg(any(vortex_bits_native, feature = "levels"))]
const LEVELS: [Level; 3] = [Level::Portable, Level::V2, Level::V3];

/// The level, if the build fixes it: no archive is linked, or the compiler's target has v3, such as
/// with `-C target-cpu=x86-64-v3`. Calls then go straight to its functions.
const FIXED: Option<Level> = if cfg!(not(vortex_bits_native)) {
    Some(Level::Portable)
} else if cfg!(all(
    not(feature = "levels"),
    target_feature = "sse4.2",
    target_feature = "ssse3",
    target_feature = "popcnt",
    target_feature = "cmpxchg16b",
    target_feature = "avx2",
    target_feature = "bmi1",
    target_feature = "bmi2",
    target_feature = "f16c",
    target_feature = "fma",
    target_feature = "lzcnt",
    target_feature = "movbe",
)) {
    Some(Level::V3)
} else {
    None
};

#[cfg(all(
    feature = "proved",
    not(feature = "std"),
    vortex_bits_native,
    not(all(
        target_feature = "sse4.2",
        target_feature = "ssse3",
        target_feature = "popcnt",
        target_feature = "cmpxchg16b",
    ))
))]
compile_error!(
    "feature `proved`: without `std` the processor isn't tested, and only what the compiler was \
     told counts: `-C target-cpu=x86-64-v2` or a higher one"
);

/// The level that calls use, as its index plus 1; 0 before the first call chooses it. Without
/// archives there is one level, and some targets have no such atomic numbers.
#[cfg(vortex_bits_native)]
static CURRENT: AtomicU8 = AtomicU8::new(0);

/// Tests whether the processor has each feature. The test is at run time with `std`, and at compile
/// time without it.
#[cfg(vortex_bits_native)]
macro_rules! has {
    ($($feature:tt),*) => {{
        #[cfg(feature = "std")]
        let has = $(std::arch::is_x86_feature_detected!($feature))&&*;
        #[cfg(not(feature = "std"))]
        let has = cfg!(all($(target_feature = $feature),*));
        has
    }};
}

impl Level {
    /// Returns the level that calls use. It is the highest level whose code is linked and that the
    /// processor has, unless `make_current` set another. The build links the archives of both
    /// levels or none: if one is missing, the level is [`Level::Portable`]. Without the feature
    /// `std` the compiler's target counts as the processor.
    #[inline]
    #[must_use]
    pub fn current() -> Level {
        FIXED.unwrap_or_else(chosen)
    }

    /// Returns whether the code of the level is linked, and the processor has the level. Without
    /// the feature `std` the compiler's target counts as the processor.
    #[must_use]
    pub fn is_available(self) -> bool {
        match self {
            Level::Portable => true,
            #[cfg(vortex_bits_native)]
            Level::V2 => has_v2(),
            #[cfg(vortex_bits_native)]
            Level::V3 => has_v2() && has_v3(),
            #[cfg(not(vortex_bits_native))]
            Level::V2 | Level::V3 => false,
        }
    }

    /// Makes all calls on all threads use the code of this level from now on, for measurements and
    /// tests. Returns true if the level is available. Otherwise it returns false and changes
    /// nothing.
    #[cfg(feature = "levels")]
    #[must_use]
    pub fn make_current(self) -> bool {
        let available = self.is_available();
        #[cfg(vortex_bits_native)]
        if available {
            CURRENT.store(self.stored(), Ordering::Relaxed);
        }
        available
    }

    /// Returns the available levels, the lowest first.
    #[cfg(feature = "levels")]
    pub fn available() -> impl Iterator<Item = Level> {
        LEVELS.into_iter().filter(|level| level.is_available())
    }

    #[cfg(vortex_bits_native)]
    fn stored(self) -> u8 {
        self as u8 + 1
    }
}

/// Returns the C functions of the current level; None if Rust runs instead.
#[cfg(vortex_bits_native)]
#[inline]
pub(crate) fn kernels() -> Option<&'static Kernels> {
    match Level::current() {
        Level::Portable => None,
        Level::V2 => Some(&V2),
        Level::V3 => Some(&V3),
    }
}

#[cfg(not(vortex_bits_native))]
fn chosen() -> Level {
    Level::Portable
}

#[cfg(vortex_bits_native)]
#[inline]
fn chosen() -> Level {
    match CURRENT.load(Ordering::Relaxed) {
        0 => choose(),
        place => LEVELS[usize::from(place) - 1],
    }
}

#[cfg(vortex_bits_native)]
#[cold]
#[inline(never)]
fn choose() -> Level {
    let mut levels = LEVELS.into_iter();
    let best = levels
        .rfind(|level| level.is_available())
        .unwrap_or(Level::Portable);
    // If another thread has made a level current in the meantime, that one stays.
    match CURRENT.compare_exchange(0, best.stored(), Ordering::Relaxed, Ordering::Relaxed) {
        Ok(_) => best,
        Err(place) => LEVELS[usize::from(place) - 1],
    }
}

#[cfg(vortex_bits_native)]
fn has_v2() -> bool {
    has!("sse4.2", "ssse3", "popcnt", "cmpxchg16b")
}

#[cfg(vortex_bits_native)]
fn has_v3() -> bool {
    has!("avx2", "bmi1", "bmi2", "f16c", "fma", "lzcnt", "movbe")
}
