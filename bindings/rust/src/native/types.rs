//! The results of C functions, with C's layout, and the functions that sum by group.

/// The index of a bit. `index` has a meaning only if `found` is true.
#[repr(C)]
#[derive(Clone, Copy)]
pub struct Place {
    found: bool,
    index: usize,
}

impl From<Place> for Option<usize> {
    #[inline]
    fn from(place: Place) -> Option<usize> {
        place.found.then_some(place.index)
    }
}

/// The result of a take. `position` is the first one whose index is out of range; it has a meaning
/// only if `out_of_range` is true.
#[repr(C)]
#[derive(Clone, Copy)]
pub struct Taken {
    out_of_range: bool,
    position: usize,
}

impl From<Taken> for Option<usize> {
    #[inline]
    fn from(taken: Taken) -> Option<usize> {
        taken.out_of_range.then_some(taken.position)
    }
}

/// A value of 16 bytes, or an unsigned sum: `low + high * 2^64`.
#[repr(C)]
pub struct Wide {
    low: u64,
    high: u64,
}

impl From<Wide> for u128 {
    #[inline]
    fn from(wide: Wide) -> u128 {
        u128::from(wide.high) << 64 | u128::from(wide.low)
    }
}

/// A signed sum: `low + high * 2^64`.
#[repr(C)]
pub struct SignedWide {
    low: u64,
    high: i64,
}

impl From<SignedWide> for i128 {
    #[inline]
    fn from(wide: SignedWide) -> i128 {
        i128::from(wide.high) << 64 | i128::from(wide.low)
    }
}

/// A value, or none: `value` is meaningful only if `has_value` is true.
#[repr(C)]
pub struct Optional<T> {
    has_value: bool,
    value: T,
}

impl<T> From<Optional<T>> for Option<T> {
    #[inline]
    fn from(optional: Optional<T>) -> Option<T> {
        optional.has_value.then_some(optional.value)
    }
}

/// A call that sums values of the type `V` by codes of the type `C`.
pub type GroupSum<S, C, V> = unsafe extern "C" fn(
    *mut S,
    usize,
    *const C,
    usize,
    *const V,
    usize,
    bool,
    *const u8,
    usize,
    usize,
) -> Taken;

/// These calls for codes of one, two and four bytes.
pub struct GroupSums<S, V> {
    pub one_byte: GroupSum<S, u8, V>,
    pub two_bytes: GroupSum<S, u16, V>,
    pub four_bytes: GroupSum<S, u32, V>,
}

/// Applies an operator to a window and another one of the same length.
pub type Combine = unsafe extern "C" fn(*mut u8, usize, usize, *const u8, usize, usize, usize);

/// Returns the number of bits that an operator sets, for two windows of one length.
pub type CountCombined =
    unsafe extern "C" fn(*const u8, usize, usize, *const u8, usize, usize, usize) -> usize;

/// Writes the result of an operator on two windows to a third one of the same length.
pub type CombineInto = unsafe extern "C" fn(
    *mut u8,
    usize,
    usize,
    *const u8,
    usize,
    usize,
    *const u8,
    usize,
    usize,
    usize,
);
