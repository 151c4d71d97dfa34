//! Calls the C functions.

/// Returns the result of the level's C function, if the level has one. The words before the
/// arguments are:
///
/// - `window bits`: the bytes, their number, the offset and the length;
/// - `start bits`: the same without the length, which is that of another window;
/// - `start_mut written`: the same for a writable window. The function sees only the bytes that
///   have a bit of the window;
/// - `slice items`: items with the layout of the function's type, and their number; `slice_mut` for
///   items that it writes, and `cast_mut` for items of another type with the same layout;
/// - `value n`: the number itself.
///
/// The requirements of each function ([`crate::native`]) hold: a [`Bits`] and a [`Written`] are in
/// bounds of their bytes and end at a `usize`, references may be read and written, a `&mut`
/// overlaps nothing, and the current level is one that the processor has. Each function here
/// documents its other requirements. Its callers have tested them, and debug builds assert them.
#[cfg(vortex_bits_native)]
macro_rules! native {
    ($name:ident: $($args:tt)*) => {
        if let Some(kernels) = kernels() {
            return native!(@call kernels.$name, [] $($args)*);
        }
    };
    // SAFETY: see the macro's documentation.
    (@call $function:expr, [$($done:expr,)*]) => { unsafe { ($function)($($done),*) }.into() };
    (@call $function:expr, [$($done:expr,)*] window $bits:expr $(, $($rest:tt)*)?) => {
        native!(@call $function, [$($done,)* $bits.bytes().as_ptr(), $bits.bytes().len(),
            $bits.offset(), $bits.len(),] $($($rest)*)?)
    };
    (@call $function:expr, [$($done:expr,)*] start $bits:expr $(, $($rest:tt)*)?) => {
        native!(@call $function, [$($done,)* $bits.bytes().as_ptr(), $bits.bytes().len(),
            $bits.offset(),] $($($rest)*)?)
    };
    (@call $function:expr, [$($done:expr,)*] start_mut $written:expr $(, $($rest:tt)*)?) => {{
        let (offset, bytes) = ($written.offset(), $written.bytes_mut());
        native!(@call $function, [$($done,)* bytes.as_mut_ptr(), bytes.len(), offset,]
            $($($rest)*)?)
    }};
    (@call $function:expr, [$($done:expr,)*] slice $items:expr $(, $($rest:tt)*)?) => {
        native!(@call $function, [$($done,)* $items.as_ptr().cast(), $items.len(),]
            $($($rest)*)?)
    };
    (@call $function:expr, [$($done:expr,)*] slice_mut $items:expr $(, $($rest:tt)*)?) => {
        native!(@call $function, [$($done,)* $items.as_mut_ptr(), $items.len(),] $($($rest)*)?)
    };
    (@call $function:expr, [$($done:expr,)*] cast_mut $items:expr $(, $($rest:tt)*)?) => {
        native!(@call $function, [$($done,)* $items.as_mut_ptr().cast(), $items.len(),]
            $($($rest)*)?)
    };
    (@call $function:expr, [$($done:expr,)*] value $value:expr $(, $($rest:tt)*)?) => {
        native!(@call $function, [$($done,)* $value,] $($($rest)*)?)
    };
}

/// Does nothing: there is no C function.
#[cfg(not(vortex_bits_native))]
macro_rules! native {
    ($($call:tt)*) => {};
}
