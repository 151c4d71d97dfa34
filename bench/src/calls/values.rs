//! The C functions over columns of values, filters and comparisons among them, and those that move
//! bits by a mask or by indices.

use std::ffi::c_void;

use super::{Bytes, Place};

unsafe extern "C" {
    pub fn vb_filter_values(
        out: *mut c_void,
        out_count: usize,
        values: *const c_void,
        values_count: usize,
        value_size: usize,
        mask: Bytes,
        mask_size: usize,
        m: usize,
    ) -> usize;
    /// Returns the first valid position whose index is out of range, if there is one.
    pub fn vb_take_values(
        out: *mut c_void,
        out_count: usize,
        values: *const c_void,
        values_count: usize,
        value_size: usize,
        indices: *const c_void,
        indices_count: usize,
        index_size: usize,
        all_valid: bool,
        validity: Bytes,
        validity_size: usize,
        v: usize,
    ) -> Place;
    pub fn vb_take_bits_u32(
        out: *mut u8,
        out_size: usize,
        o: usize,
        bytes: Bytes,
        size: usize,
        offset: usize,
        len: usize,
        indices: *const u32,
        indices_count: usize,
        all_valid: bool,
        validity: Bytes,
        validity_size: usize,
        v: usize,
    ) -> Place;
    pub fn vb_deposit_bits(
        out: *mut u8,
        out_size: usize,
        o: usize,
        bytes: Bytes,
        size: usize,
        offset: usize,
        mask: Bytes,
        mask_size: usize,
        m: usize,
        len: usize,
    );
}

/// A filter by a mask: the output and its capacity, the values and their number, the mask's bytes
/// and their number, and its first bit.
pub type Filter<T> =
    unsafe extern "C" fn(*mut T, usize, *const T, usize, Bytes, usize, usize) -> usize;

macro_rules! filters {
    ($($name:ident: $value:ty;)*) => {
        unsafe extern "C" {
            $(pub fn $name(
                out: *mut $value,
                out_count: usize,
                values: *const $value,
                values_count: usize,
                mask: Bytes,
                mask_size: usize,
                m: usize,
            ) -> usize;)*
        }
    };
}

filters! {
    vb_filter_values_u8: u8;
    vb_filter_values_u16: u16;
    vb_filter_values_u32: u32;
    vb_filter_values_u64: u64;
}

/// A comparison of values with a number.
pub type Compare<T> = unsafe extern "C" fn(*mut u8, usize, usize, *const T, usize, u8, T);

macro_rules! compares {
    ($($name:ident: $value:ty;)*) => {
        unsafe extern "C" {
            $(pub fn $name(
                out: *mut u8,
                out_size: usize,
                o: usize,
                values: *const $value,
                values_count: usize,
                op: u8,
                number: $value,
            );)*
        }
    };
}

compares! {
    vb_compare_u32: u32;
    vb_compare_i32: i32;
    vb_compare_i64: i64;
    vb_compare_f32: f32;
    vb_compare_f64: f64;
}

/// A comparison of values with others.
pub type CompareWith<T> =
    unsafe extern "C" fn(*mut u8, usize, usize, *const T, usize, u8, *const T, usize);

macro_rules! compares_with {
    ($($name:ident: $value:ty;)*) => {
        unsafe extern "C" {
            $(pub fn $name(
                out: *mut u8,
                out_size: usize,
                o: usize,
                values: *const $value,
                values_count: usize,
                op: u8,
                others: *const $value,
                others_count: usize,
            );)*
        }
    };
}

compares_with! {
    vb_compare_with_u32: u32;
    vb_compare_with_i64: i64;
}

/// A number of 128 bits, as two.
#[repr(C)]
pub struct Wide {
    pub low: u64,
    pub high: i64,
}

/// A value, or none.
#[repr(C)]
pub struct Optional<T> {
    pub has_value: bool,
    pub value: T,
}

/// An aggregate of the values that a mask selects: the values and their number, the mask's bytes
/// and their number, and its first bit.
pub type Masked<T, A> = unsafe extern "C" fn(*const T, usize, Bytes, usize, usize) -> A;

macro_rules! masked {
    ($($name:ident: $value:ty => $answer:ty;)*) => {
        unsafe extern "C" {
            $(pub fn $name(
                values: *const $value,
                values_count: usize,
                mask: Bytes,
                mask_size: usize,
                m: usize,
            ) -> $answer;)*
        }
    };
}

masked! {
    vb_masked_sum_i32: i32 => Wide;
    vb_masked_sum_i64: i64 => Wide;
    vb_masked_wrapping_sum_i64: i64 => i64;
    vb_masked_min_i32: i32 => Optional<i32>;
}

unsafe extern "C" {
    pub fn vb_group_counts_u32(
        counts: *mut u64,
        counts_count: usize,
        codes: *const u32,
        codes_count: usize,
        all_selected: bool,
        mask: Bytes,
        mask_size: usize,
        m: usize,
    ) -> Place;
    pub fn vb_group_sums_i64_u32(
        sums: *mut i64,
        sums_count: usize,
        codes: *const u32,
        codes_count: usize,
        values: *const i64,
        values_count: usize,
        all_selected: bool,
        mask: Bytes,
        mask_size: usize,
        m: usize,
    ) -> Place;
}
