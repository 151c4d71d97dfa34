//! Types of values.

/// A type of values that can be filtered and taken: integers of any width, floats, `bool`, `char`,
/// and arrays of these, such as `[u64; 4]` for Arrow's 256-bit decimals. The C functions process
/// types of 1, 2, 4 or 8 bytes with the alignment of an integer of that size, and types of 16 bytes
/// with at least that of a `u64`. Plain Rust processes the others.
#[diagnostic::on_unimplemented(
    message = "values of `{Self}` are neither filtered nor taken",
    label = "values are whole numbers, floats, or arrays of these",
    note = "select those of another type by index: `mask.set_indices().map(|row| &values[row])`"
)]
pub trait Value: sealed::Value {}

pub(crate) mod sealed {
    /// The parts that a type of values provides.
    pub trait Value: Copy {
        /// The value at a null position: all bytes are 0.
        const ZERO: Self;
    }
}

macro_rules! values {
    ($($value:ty, $zero:expr;)*) => {$(
        impl Value for $value {}

        impl sealed::Value for $value {
            const ZERO: $value = $zero;
        }
    )*};
}

values! {
    // Written by tools/write-lists from tools/families/filter.txt.
    u8, 0;
    u16, 0;
    u32, 0;
    u64, 0;
    u128, 0;
    usize, 0;
    i8, 0;
    i16, 0;
    i32, 0;
    i64, 0;
    i128, 0;
    isize, 0;
    f32, 0.0;
    f64, 0.0;
    // To here.
    bool, false;
    char, '\0';
}

impl<V: Value, const N: usize> Value for [V; N] {}

impl<V: Value, const N: usize> sealed::Value for [V; N] {
    const ZERO: [V; N] = [V::ZERO; N];
}

/// The layout of a value, as the C functions see it.
#[cfg(vortex_bits_native)]
#[derive(Clone, Copy)]
pub(crate) enum Laid {
    One,
    Two,
    Four,
    Eight,
    Sixteen,
}

#[cfg(vortex_bits_native)]
impl Laid {
    /// Returns the layout of values of this type; None if the C functions don't process it.
    pub(crate) const fn of<T>() -> Option<Laid> {
        match (size_of::<T>(), align_of::<T>()) {
            (1, _) => Some(Laid::One),
            (2, 2..) => Some(Laid::Two),
            (4, 4..) => Some(Laid::Four),
            (8, 8..) => Some(Laid::Eight),
            (16, 8..) => Some(Laid::Sixteen),
            _ => None,
        }
    }
}
