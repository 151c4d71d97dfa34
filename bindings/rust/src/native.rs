//! The C functions of the archives, with a table for each processor level.
//!
//! # Safety
//!
//! The caller of each function promises:
//!
//! - Each pointer is followed by the number of items that it leads to, and isn't null. The items
//!   may be read, or written if the pointer is `*mut`. No one else writes them during the call.
//! - Windows are in bounds of their bytes, and end at a `usize`.
//! - Windows of takes and packs have one bit per item. The output of a filter has one bit or item
//!   per selected one. The output of a take has an item per index. There is a bit of validity per
//!   index, unless all are valid. A deposit has one bit per set bit of its mask. The mask of an
//!   aggregate has one bit per value. There is one value, and one bit of the mask, per code.
//! - A comparison is a number below 6, and there is one other per value.
//! - A table has one entry per block of 512 bits of the window, with any contents.
//! - The processor has the level.
//!
//! A function changes only the windows and the items that its documentation says it writes.

mod types;

use crate::kernels::Run;

pub use types::{
    Combine, CombineInto, CountCombined, GroupSums, Optional, Place, SignedWide, Taken, Wide,
};

/// Compares values of this type with a number. The parameters are `out`, the values, the comparison
/// and the number.
pub type CompareNumber<T> = unsafe extern "C" fn(*mut u8, usize, usize, *const T, usize, u8, T);

/// Compares values with others, one per value.
pub type CompareOthers<T> =
    unsafe extern "C" fn(*mut u8, usize, usize, *const T, usize, u8, *const T, usize);

/// A call on values and their mask, which returns a result for the values whose bit is true.
pub type Masked<T, R> = unsafe extern "C" fn(*const T, usize, *const u8, usize, usize) -> R;

// Written by tools/write-lists from tools/families/masked_sums.txt.
pub type OptionalU8 = Optional<u8>;
pub type OptionalU16 = Optional<u16>;
pub type OptionalU32 = Optional<u32>;
pub type OptionalU64 = Optional<u64>;
pub type OptionalI8 = Optional<i8>;
pub type OptionalI16 = Optional<i16>;
pub type OptionalI32 = Optional<i32>;
pub type OptionalI64 = Optional<i64>;
// To here.

macro_rules! kernels {
    (@level $table:ident $level:literal
        $($name:ident($($arg:ident: $kind:ty),*) $(-> $result:ty)?;)*) => {
        pub static $table: Kernels = {
            unsafe extern "C" {
                $(
                    #[link_name = concat!(
                        "vb_",
                        env!("CARGO_PKG_VERSION_MAJOR"),
                        "_",
                        env!("CARGO_PKG_VERSION_MINOR"),
                        $level,
                        stringify!($name)
                    )]
                    fn $name($($arg: $kind),*) $(-> $result)?;
                )*
                #[link_name = concat!(
                    "vb_",
                    env!("CARGO_PKG_VERSION_MAJOR"),
                    "_",
                    env!("CARGO_PKG_VERSION_MINOR"),
                    $level,
                    "digest_",
                    digest!()
                )]
                safe static sources: u8;
            }
            Kernels { $($name,)* sources: &sources }
        };
    };
    ($($name:ident($($arg:ident: $kind:ty),*) $(-> $result:ty)?;)*) => {
        /// The functions of one level.
        pub struct Kernels {
            $(pub $name: unsafe extern "C" fn($($arg: $kind),*) $(-> $result)?,)*
            /// A symbol that only an archive of this crate's own sources has. The linker finds it
            /// in no other archive.
            #[expect(dead_code, reason = "it is there to be linked")]
            sources: &'static u8,
        }

        kernels!(@level V2 "_v2_" $($name($($arg: $kind),*) $(-> $result)?;)*);
        kernels!(@level V3 "_v3_" $($name($($arg: $kind),*) $(-> $result)?;)*);
    };
}

kernels! {
    count_ones(bytes: *const u8, size: usize, offset: usize, len: usize) -> usize;
    and_count(left: *const u8, left_size: usize, left_offset: usize, right: *const u8,
        right_size: usize, right_offset: usize, len: usize) -> usize;
    or_count(left: *const u8, left_size: usize, left_offset: usize, right: *const u8,
        right_size: usize, right_offset: usize, len: usize) -> usize;
    xor_count(left: *const u8, left_size: usize, left_offset: usize, right: *const u8,
        right_size: usize, right_offset: usize, len: usize) -> usize;
    and_not_count(left: *const u8, left_size: usize, left_offset: usize, right: *const u8,
        right_size: usize, right_offset: usize, len: usize) -> usize;
    select(bytes: *const u8, size: usize, offset: usize, len: usize, n: usize) -> Place;
    select_unset(bytes: *const u8, size: usize, offset: usize, len: usize, n: usize) -> Place;
    last_set(bytes: *const u8, size: usize, offset: usize, len: usize) -> Place;
    next_set(bytes: *const u8, size: usize, offset: usize, len: usize, from: usize) -> Place;
    next_unset(bytes: *const u8, size: usize, offset: usize, len: usize, from: usize) -> Place;
    previous_set(bytes: *const u8, size: usize, offset: usize, len: usize, before: usize) -> Place;
    previous_unset(bytes: *const u8, size: usize, offset: usize, len: usize,
        before: usize) -> Place;
    any_set(bytes: *const u8, size: usize, offset: usize, len: usize) -> bool;
    all_set(bytes: *const u8, size: usize, offset: usize, len: usize) -> bool;
    equal_bits(left: *const u8, left_size: usize, left_offset: usize, right: *const u8,
        right_size: usize, right_offset: usize, len: usize) -> bool;
    is_disjoint(left: *const u8, left_size: usize, left_offset: usize, right: *const u8,
        right_size: usize, right_offset: usize, len: usize) -> bool;
    is_subset(left: *const u8, left_size: usize, left_offset: usize, right: *const u8,
        right_size: usize, right_offset: usize, len: usize) -> bool;
    set_indices(out: *mut usize, out_count: usize, bytes: *const u8, size: usize, offset: usize,
        len: usize) -> usize;
    set_indices_u32(out: *mut u32, out_count: usize, bytes: *const u8, size: usize, offset: usize,
        len: usize) -> usize;
    set_slices(out: *mut Run, out_count: usize, bytes: *const u8, size: usize, offset: usize,
        len: usize) -> usize;
    fill_bits(bytes: *mut u8, size: usize, offset: usize, len: usize, value: bool);
    negate_bits(bytes: *mut u8, size: usize, offset: usize, len: usize);
    copy_bits(dst: *mut u8, dst_size: usize, dst_offset: usize, src: *const u8, src_size: usize,
        src_offset: usize, len: usize);
    move_bits(bytes: *mut u8, size: usize, offset: usize, from: usize, len: usize);
    and_bits(dst: *mut u8, dst_size: usize, dst_offset: usize, src: *const u8, src_size: usize,
        src_offset: usize, len: usize);
    or_bits(dst: *mut u8, dst_size: usize, dst_offset: usize, src: *const u8, src_size: usize,
        src_offset: usize, len: usize);
    xor_bits(dst: *mut u8, dst_size: usize, dst_offset: usize, src: *const u8, src_size: usize,
        src_offset: usize, len: usize);
    and_not_bits(dst: *mut u8, dst_size: usize, dst_offset: usize, src: *const u8, src_size: usize,
        src_offset: usize, len: usize);
    masked_sum_u8(values: *const u8, values_count: usize, mask: *const u8, mask_size: usize,
        mask_offset: usize) -> Wide;
    masked_sum_u16(values: *const u16, values_count: usize, mask: *const u8, mask_size: usize,
        mask_offset: usize) -> Wide;
    masked_sum_u32(values: *const u32, values_count: usize, mask: *const u8, mask_size: usize,
        mask_offset: usize) -> Wide;
    masked_sum_u64(values: *const u64, values_count: usize, mask: *const u8, mask_size: usize,
        mask_offset: usize) -> Wide;
    masked_sum_i8(values: *const i8, values_count: usize, mask: *const u8, mask_size: usize,
        mask_offset: usize) -> SignedWide;
    masked_sum_i16(values: *const i16, values_count: usize, mask: *const u8, mask_size: usize,
        mask_offset: usize) -> SignedWide;
    masked_sum_i32(values: *const i32, values_count: usize, mask: *const u8, mask_size: usize,
        mask_offset: usize) -> SignedWide;
    masked_sum_i64(values: *const i64, values_count: usize, mask: *const u8, mask_size: usize,
        mask_offset: usize) -> SignedWide;
    masked_checked_sum_u8(values: *const u8, values_count: usize, mask: *const u8, mask_size: usize,
        mask_offset: usize) -> OptionalU8;
    masked_checked_sum_u16(values: *const u16, values_count: usize, mask: *const u8,
        mask_size: usize, mask_offset: usize) -> OptionalU16;
    masked_checked_sum_u32(values: *const u32, values_count: usize, mask: *const u8,
        mask_size: usize, mask_offset: usize) -> OptionalU32;
    masked_checked_sum_u64(values: *const u64, values_count: usize, mask: *const u8,
        mask_size: usize, mask_offset: usize) -> OptionalU64;
    masked_checked_sum_i8(values: *const i8, values_count: usize, mask: *const u8, mask_size: usize,
        mask_offset: usize) -> OptionalI8;
    masked_checked_sum_i16(values: *const i16, values_count: usize, mask: *const u8,
        mask_size: usize, mask_offset: usize) -> OptionalI16;
    masked_checked_sum_i32(values: *const i32, values_count: usize, mask: *const u8,
        mask_size: usize, mask_offset: usize) -> OptionalI32;
    masked_checked_sum_i64(values: *const i64, values_count: usize, mask: *const u8,
        mask_size: usize, mask_offset: usize) -> OptionalI64;
    masked_wrapping_sum_u8(values: *const u8, values_count: usize, mask: *const u8,
        mask_size: usize, mask_offset: usize) -> u8;
    masked_wrapping_sum_u16(values: *const u16, values_count: usize, mask: *const u8,
        mask_size: usize, mask_offset: usize) -> u16;
    masked_wrapping_sum_u32(values: *const u32, values_count: usize, mask: *const u8,
        mask_size: usize, mask_offset: usize) -> u32;
    masked_wrapping_sum_u64(values: *const u64, values_count: usize, mask: *const u8,
        mask_size: usize, mask_offset: usize) -> u64;
    masked_wrapping_sum_i8(values: *const i8, values_count: usize, mask: *const u8,
        mask_size: usize, mask_offset: usize) -> i8;
    masked_wrapping_sum_i16(values: *const i16, values_count: usize, mask: *const u8,
        mask_size: usize, mask_offset: usize) -> i16;
    masked_wrapping_sum_i32(values: *const i32, values_count: usize, mask: *const u8,
        mask_size: usize, mask_offset: usize) -> i32;
    masked_wrapping_sum_i64(values: *const i64, values_count: usize, mask: *const u8,
        mask_size: usize, mask_offset: usize) -> i64;
    masked_min_u8(values: *const u8, values_count: usize, mask: *const u8, mask_size: usize,
        mask_offset: usize) -> OptionalU8;
    masked_min_u16(values: *const u16, values_count: usize, mask: *const u8, mask_size: usize,
        mask_offset: usize) -> OptionalU16;
    masked_min_u32(values: *const u32, values_count: usize, mask: *const u8, mask_size: usize,
        mask_offset: usize) -> OptionalU32;
    masked_min_u64(values: *const u64, values_count: usize, mask: *const u8, mask_size: usize,
        mask_offset: usize) -> OptionalU64;
    masked_min_i8(values: *const i8, values_count: usize, mask: *const u8, mask_size: usize,
        mask_offset: usize) -> OptionalI8;
    masked_min_i16(values: *const i16, values_count: usize, mask: *const u8, mask_size: usize,
        mask_offset: usize) -> OptionalI16;
    masked_min_i32(values: *const i32, values_count: usize, mask: *const u8, mask_size: usize,
        mask_offset: usize) -> OptionalI32;
    masked_min_i64(values: *const i64, values_count: usize, mask: *const u8, mask_size: usize,
        mask_offset: usize) -> OptionalI64;
    masked_max_u8(values: *const u8, values_count: usize, mask: *const u8, mask_size: usize,
        mask_offset: usize) -> OptionalU8;
    masked_max_u16(values: *const u16, values_count: usize, mask: *const u8, mask_size: usize,
        mask_offset: usize) -> OptionalU16;
    masked_max_u32(values: *const u32, values_count: usize, mask: *const u8, mask_size: usize,
        mask_offset: usize) -> OptionalU32;
    masked_max_u64(values: *const u64, values_count: usize, mask: *const u8, mask_size: usize,
        mask_offset: usize) -> OptionalU64;
    masked_max_i8(values: *const i8, values_count: usize, mask: *const u8, mask_size: usize,
        mask_offset: usize) -> OptionalI8;
    masked_max_i16(values: *const i16, values_count: usize, mask: *const u8, mask_size: usize,
        mask_offset: usize) -> OptionalI16;
    masked_max_i32(values: *const i32, values_count: usize, mask: *const u8, mask_size: usize,
        mask_offset: usize) -> OptionalI32;
    masked_max_i64(values: *const i64, values_count: usize, mask: *const u8, mask_size: usize,
        mask_offset: usize) -> OptionalI64;
    masked_sum_f32(values: *const f32, values_count: usize, mask: *const u8, mask_size: usize,
        mask_offset: usize) -> f32;
    masked_sum_f64(values: *const f64, values_count: usize, mask: *const u8, mask_size: usize,
        mask_offset: usize) -> f64;
    group_counts_u8(counts: *mut u64, counts_count: usize, codes: *const u8, codes_count: usize,
        all_selected: bool, mask: *const u8, mask_size: usize, mask_offset: usize) -> Taken;
    group_counts_u16(counts: *mut u64, counts_count: usize, codes: *const u16, codes_count: usize,
        all_selected: bool, mask: *const u8, mask_size: usize, mask_offset: usize) -> Taken;
    group_counts_u32(counts: *mut u64, counts_count: usize, codes: *const u32, codes_count: usize,
        all_selected: bool, mask: *const u8, mask_size: usize, mask_offset: usize) -> Taken;
    group_sums_u8_u8(sums: *mut u64, sums_count: usize, codes: *const u8, codes_count: usize,
        values: *const u8, values_count: usize, all_selected: bool, mask: *const u8,
        mask_size: usize, mask_offset: usize) -> Taken;
    group_sums_u16_u8(sums: *mut u64, sums_count: usize, codes: *const u8, codes_count: usize,
        values: *const u16, values_count: usize, all_selected: bool, mask: *const u8,
        mask_size: usize, mask_offset: usize) -> Taken;
    group_sums_u32_u8(sums: *mut u64, sums_count: usize, codes: *const u8, codes_count: usize,
        values: *const u32, values_count: usize, all_selected: bool, mask: *const u8,
        mask_size: usize, mask_offset: usize) -> Taken;
    group_sums_u64_u8(sums: *mut u64, sums_count: usize, codes: *const u8, codes_count: usize,
        values: *const u64, values_count: usize, all_selected: bool, mask: *const u8,
        mask_size: usize, mask_offset: usize) -> Taken;
    group_sums_i8_u8(sums: *mut i64, sums_count: usize, codes: *const u8, codes_count: usize,
        values: *const i8, values_count: usize, all_selected: bool, mask: *const u8,
        mask_size: usize, mask_offset: usize) -> Taken;
    group_sums_i16_u8(sums: *mut i64, sums_count: usize, codes: *const u8, codes_count: usize,
        values: *const i16, values_count: usize, all_selected: bool, mask: *const u8,
        mask_size: usize, mask_offset: usize) -> Taken;
    group_sums_i32_u8(sums: *mut i64, sums_count: usize, codes: *const u8, codes_count: usize,
        values: *const i32, values_count: usize, all_selected: bool, mask: *const u8,
        mask_size: usize, mask_offset: usize) -> Taken;
    group_sums_i64_u8(sums: *mut i64, sums_count: usize, codes: *const u8, codes_count: usize,
        values: *const i64, values_count: usize, all_selected: bool, mask: *const u8,
        mask_size: usize, mask_offset: usize) -> Taken;
    group_sums_u8_u16(sums: *mut u64, sums_count: usize, codes: *const u16, codes_count: usize,
        values: *const u8, values_count: usize, all_selected: bool, mask: *const u8,
        mask_size: usize, mask_offset: usize) -> Taken;
    group_sums_u16_u16(sums: *mut u64, sums_count: usize, codes: *const u16, codes_count: usize,
        values: *const u16, values_count: usize, all_selected: bool, mask: *const u8,
        mask_size: usize, mask_offset: usize) -> Taken;
    group_sums_u32_u16(sums: *mut u64, sums_count: usize, codes: *const u16, codes_count: usize,
        values: *const u32, values_count: usize, all_selected: bool, mask: *const u8,
        mask_size: usize, mask_offset: usize) -> Taken;
    group_sums_u64_u16(sums: *mut u64, sums_count: usize, codes: *const u16, codes_count: usize,
        values: *const u64, values_count: usize, all_selected: bool, mask: *const u8,
        mask_size: usize, mask_offset: usize) -> Taken;
    group_sums_i8_u16(sums: *mut i64, sums_count: usize, codes: *const u16, codes_count: usize,
        values: *const i8, values_count: usize, all_selected: bool, mask: *const u8,
        mask_size: usize, mask_offset: usize) -> Taken;
    group_sums_i16_u16(sums: *mut i64, sums_count: usize, codes: *const u16, codes_count: usize,
        values: *const i16, values_count: usize, all_selected: bool, mask: *const u8,
        mask_size: usize, mask_offset: usize) -> Taken;
    group_sums_i32_u16(sums: *mut i64, sums_count: usize, codes: *const u16, codes_count: usize,
        values: *const i32, values_count: usize, all_selected: bool, mask: *const u8,
        mask_size: usize, mask_offset: usize) -> Taken;
    group_sums_i64_u16(sums: *mut i64, sums_count: usize, codes: *const u16, codes_count: usize,
        values: *const i64, values_count: usize, all_selected: bool, mask: *const u8,
        mask_size: usize, mask_offset: usize) -> Taken;
    group_sums_u8_u32(sums: *mut u64, sums_count: usize, codes: *const u32, codes_count: usize,
        values: *const u8, values_count: usize, all_selected: bool, mask: *const u8,
        mask_size: usize, mask_offset: usize) -> Taken;
    group_sums_u16_u32(sums: *mut u64, sums_count: usize, codes: *const u32, codes_count: usize,
        values: *const u16, values_count: usize, all_selected: bool, mask: *const u8,
        mask_size: usize, mask_offset: usize) -> Taken;
    group_sums_u32_u32(sums: *mut u64, sums_count: usize, codes: *const u32, codes_count: usize,
        values: *const u32, values_count: usize, all_selected: bool, mask: *const u8,
        mask_size: usize, mask_offset: usize) -> Taken;
    group_sums_u64_u32(sums: *mut u64, sums_count: usize, codes: *const u32, codes_count: usize,
        values: *const u64, values_count: usize, all_selected: bool, mask: *const u8,
        mask_size: usize, mask_offset: usize) -> Taken;
    group_sums_i8_u32(sums: *mut i64, sums_count: usize, codes: *const u32, codes_count: usize,
        values: *const i8, values_count: usize, all_selected: bool, mask: *const u8,
        mask_size: usize, mask_offset: usize) -> Taken;
    group_sums_i16_u32(sums: *mut i64, sums_count: usize, codes: *const u32, codes_count: usize,
        values: *const i16, values_count: usize, all_selected: bool, mask: *const u8,
        mask_size: usize, mask_offset: usize) -> Taken;
    group_sums_i32_u32(sums: *mut i64, sums_count: usize, codes: *const u32, codes_count: usize,
        values: *const i32, values_count: usize, all_selected: bool, mask: *const u8,
        mask_size: usize, mask_offset: usize) -> Taken;
    group_sums_i64_u32(sums: *mut i64, sums_count: usize, codes: *const u32, codes_count: usize,
        values: *const i64, values_count: usize, all_selected: bool, mask: *const u8,
        mask_size: usize, mask_offset: usize) -> Taken;
    compare_u8(out: *mut u8, out_size: usize, out_offset: usize, values: *const u8,
        values_count: usize, op: u8, number: u8);
    compare_u16(out: *mut u8, out_size: usize, out_offset: usize, values: *const u16,
        values_count: usize, op: u8, number: u16);
    compare_u32(out: *mut u8, out_size: usize, out_offset: usize, values: *const u32,
        values_count: usize, op: u8, number: u32);
    compare_u64(out: *mut u8, out_size: usize, out_offset: usize, values: *const u64,
        values_count: usize, op: u8, number: u64);
    compare_i8(out: *mut u8, out_size: usize, out_offset: usize, values: *const i8,
        values_count: usize, op: u8, number: i8);
    compare_i16(out: *mut u8, out_size: usize, out_offset: usize, values: *const i16,
        values_count: usize, op: u8, number: i16);
    compare_i32(out: *mut u8, out_size: usize, out_offset: usize, values: *const i32,
        values_count: usize, op: u8, number: i32);
    compare_i64(out: *mut u8, out_size: usize, out_offset: usize, values: *const i64,
        values_count: usize, op: u8, number: i64);
    compare_f32(out: *mut u8, out_size: usize, out_offset: usize, values: *const f32,
        values_count: usize, op: u8, number: f32);
    compare_f64(out: *mut u8, out_size: usize, out_offset: usize, values: *const f64,
        values_count: usize, op: u8, number: f64);
    compare_with_u8(out: *mut u8, out_size: usize, out_offset: usize, values: *const u8,
        values_count: usize, op: u8, others: *const u8, others_count: usize);
    compare_with_u16(out: *mut u8, out_size: usize, out_offset: usize, values: *const u16,
        values_count: usize, op: u8, others: *const u16, others_count: usize);
    compare_with_u32(out: *mut u8, out_size: usize, out_offset: usize, values: *const u32,
        values_count: usize, op: u8, others: *const u32, others_count: usize);
    compare_with_u64(out: *mut u8, out_size: usize, out_offset: usize, values: *const u64,
        values_count: usize, op: u8, others: *const u64, others_count: usize);
    compare_with_i8(out: *mut u8, out_size: usize, out_offset: usize, values: *const i8,
        values_count: usize, op: u8, others: *const i8, others_count: usize);
    compare_with_i16(out: *mut u8, out_size: usize, out_offset: usize, values: *const i16,
        values_count: usize, op: u8, others: *const i16, others_count: usize);
    compare_with_i32(out: *mut u8, out_size: usize, out_offset: usize, values: *const i32,
        values_count: usize, op: u8, others: *const i32, others_count: usize);
    compare_with_i64(out: *mut u8, out_size: usize, out_offset: usize, values: *const i64,
        values_count: usize, op: u8, others: *const i64, others_count: usize);
    compare_with_f32(out: *mut u8, out_size: usize, out_offset: usize, values: *const f32,
        values_count: usize, op: u8, others: *const f32, others_count: usize);
    compare_with_f64(out: *mut u8, out_size: usize, out_offset: usize, values: *const f64,
        values_count: usize, op: u8, others: *const f64, others_count: usize);
    and_into(out: *mut u8, out_size: usize, out_offset: usize, left: *const u8, left_size: usize,
        left_offset: usize, right: *const u8, right_size: usize, right_offset: usize, len: usize);
    or_into(out: *mut u8, out_size: usize, out_offset: usize, left: *const u8, left_size: usize,
        left_offset: usize, right: *const u8, right_size: usize, right_offset: usize, len: usize);
    xor_into(out: *mut u8, out_size: usize, out_offset: usize, left: *const u8, left_size: usize,
        left_offset: usize, right: *const u8, right_size: usize, right_offset: usize, len: usize);
    and_not_into(out: *mut u8, out_size: usize, out_offset: usize, left: *const u8,
        left_size: usize, left_offset: usize, right: *const u8, right_size: usize,
        right_offset: usize, len: usize);
    pack_truthy(out: *mut u8, out_size: usize, out_offset: usize, truthy: *const u8,
        truthy_count: usize);
    unpack_bytes(out: *mut u8, out_count: usize, bytes: *const u8, size: usize, offset: usize,
        len: usize);
    take_bits_u8(out: *mut u8, out_size: usize, out_offset: usize, bytes: *const u8, size: usize,
        offset: usize, len: usize, indices: *const u8, indices_count: usize, all_valid: bool,
        validity: *const u8, validity_size: usize, validity_offset: usize) -> Taken;
    take_bits_u16(out: *mut u8, out_size: usize, out_offset: usize, bytes: *const u8, size: usize,
        offset: usize, len: usize, indices: *const u16, indices_count: usize, all_valid: bool,
        validity: *const u8, validity_size: usize, validity_offset: usize) -> Taken;
    take_bits_u32(out: *mut u8, out_size: usize, out_offset: usize, bytes: *const u8, size: usize,
        offset: usize, len: usize, indices: *const u32, indices_count: usize, all_valid: bool,
        validity: *const u8, validity_size: usize, validity_offset: usize) -> Taken;
    take_bits_u64(out: *mut u8, out_size: usize, out_offset: usize, bytes: *const u8, size: usize,
        offset: usize, len: usize, indices: *const u64, indices_count: usize, all_valid: bool,
        validity: *const u8, validity_size: usize, validity_offset: usize) -> Taken;
    filter_bits(out: *mut u8, out_size: usize, out_offset: usize, bytes: *const u8, size: usize,
        offset: usize, mask: *const u8, mask_size: usize, mask_offset: usize, len: usize) -> usize;
    deposit_bits(out: *mut u8, out_size: usize, out_offset: usize, bytes: *const u8, size: usize,
        offset: usize, mask: *const u8, mask_size: usize, mask_offset: usize, len: usize);
    and_kleene(trues: *mut u8, trues_size: usize, trues_offset: usize, valid: *mut u8,
        valid_size: usize, valid_offset: usize, left: *const u8, left_size: usize,
        left_offset: usize, left_all_valid: bool, left_validity: *const u8,
        left_validity_size: usize, left_validity_offset: usize, right: *const u8, right_size: usize,
        right_offset: usize, right_all_valid: bool, right_validity: *const u8,
        right_validity_size: usize, right_validity_offset: usize, len: usize);
    or_kleene(trues: *mut u8, trues_size: usize, trues_offset: usize, valid: *mut u8,
        valid_size: usize, valid_offset: usize, left: *const u8, left_size: usize,
        left_offset: usize, left_all_valid: bool, left_validity: *const u8,
        left_validity_size: usize, left_validity_offset: usize, right: *const u8, right_size: usize,
        right_offset: usize, right_all_valid: bool, right_validity: *const u8,
        right_validity_size: usize, right_validity_offset: usize, len: usize);
    block_counts(table: *mut usize, table_count: usize, bytes: *const u8, size: usize,
        offset: usize, len: usize) -> usize;
    rank(bytes: *const u8, size: usize, offset: usize, len: usize, table: *const usize,
        table_count: usize, index: usize) -> usize;
    ranked_select(bytes: *const u8, size: usize, offset: usize, len: usize, table: *const usize,
        table_count: usize, n: usize) -> Place;
    ranked_select_unset(bytes: *const u8, size: usize, offset: usize, len: usize,
        table: *const usize, table_count: usize, n: usize) -> Place;
    filter_values_u8(out: *mut u8, out_count: usize, values: *const u8, values_count: usize,
        mask: *const u8, mask_size: usize, mask_offset: usize) -> usize;
    filter_values_u16(out: *mut u16, out_count: usize, values: *const u16, values_count: usize,
        mask: *const u8, mask_size: usize, mask_offset: usize) -> usize;
    filter_values_u32(out: *mut u32, out_count: usize, values: *const u32, values_count: usize,
        mask: *const u8, mask_size: usize, mask_offset: usize) -> usize;
    filter_values_u64(out: *mut u64, out_count: usize, values: *const u64, values_count: usize,
        mask: *const u8, mask_size: usize, mask_offset: usize) -> usize;
    filter_values_u128(out: *mut Wide, out_count: usize, values: *const Wide, values_count: usize,
        mask: *const u8, mask_size: usize, mask_offset: usize) -> usize;
    retain_values_u8(values: *mut u8, values_count: usize, mask: *const u8, mask_size: usize,
        mask_offset: usize) -> usize;
    retain_values_u16(values: *mut u16, values_count: usize, mask: *const u8, mask_size: usize,
        mask_offset: usize) -> usize;
    retain_values_u32(values: *mut u32, values_count: usize, mask: *const u8, mask_size: usize,
        mask_offset: usize) -> usize;
    retain_values_u64(values: *mut u64, values_count: usize, mask: *const u8, mask_size: usize,
        mask_offset: usize) -> usize;
    retain_values_u128(values: *mut Wide, values_count: usize, mask: *const u8, mask_size: usize,
        mask_offset: usize) -> usize;
    scatter_values_u8(out: *mut u8, out_count: usize, values: *const u8, values_count: usize,
        mask: *const u8, mask_size: usize, mask_offset: usize) -> usize;
    scatter_values_u16(out: *mut u16, out_count: usize, values: *const u16, values_count: usize,
        mask: *const u8, mask_size: usize, mask_offset: usize) -> usize;
    scatter_values_u32(out: *mut u32, out_count: usize, values: *const u32, values_count: usize,
        mask: *const u8, mask_size: usize, mask_offset: usize) -> usize;
    scatter_values_u64(out: *mut u64, out_count: usize, values: *const u64, values_count: usize,
        mask: *const u8, mask_size: usize, mask_offset: usize) -> usize;
    scatter_values_u128(out: *mut Wide, out_count: usize, values: *const Wide, values_count: usize,
        mask: *const u8, mask_size: usize, mask_offset: usize) -> usize;
    take_values_u8_u8(out: *mut u8, out_count: usize, values: *const u8, values_count: usize,
        indices: *const u8, indices_count: usize, all_valid: bool, validity: *const u8,
        validity_size: usize, validity_offset: usize) -> Taken;
    take_values_u16_u8(out: *mut u16, out_count: usize, values: *const u16, values_count: usize,
        indices: *const u8, indices_count: usize, all_valid: bool, validity: *const u8,
        validity_size: usize, validity_offset: usize) -> Taken;
    take_values_u32_u8(out: *mut u32, out_count: usize, values: *const u32, values_count: usize,
        indices: *const u8, indices_count: usize, all_valid: bool, validity: *const u8,
        validity_size: usize, validity_offset: usize) -> Taken;
    take_values_u64_u8(out: *mut u64, out_count: usize, values: *const u64, values_count: usize,
        indices: *const u8, indices_count: usize, all_valid: bool, validity: *const u8,
        validity_size: usize, validity_offset: usize) -> Taken;
    take_values_u128_u8(out: *mut Wide, out_count: usize, values: *const Wide, values_count: usize,
        indices: *const u8, indices_count: usize, all_valid: bool, validity: *const u8,
        validity_size: usize, validity_offset: usize) -> Taken;
    take_values_u8_u16(out: *mut u8, out_count: usize, values: *const u8, values_count: usize,
        indices: *const u16, indices_count: usize, all_valid: bool, validity: *const u8,
        validity_size: usize, validity_offset: usize) -> Taken;
    take_values_u16_u16(out: *mut u16, out_count: usize, values: *const u16, values_count: usize,
        indices: *const u16, indices_count: usize, all_valid: bool, validity: *const u8,
        validity_size: usize, validity_offset: usize) -> Taken;
    take_values_u32_u16(out: *mut u32, out_count: usize, values: *const u32, values_count: usize,
        indices: *const u16, indices_count: usize, all_valid: bool, validity: *const u8,
        validity_size: usize, validity_offset: usize) -> Taken;
    take_values_u64_u16(out: *mut u64, out_count: usize, values: *const u64, values_count: usize,
        indices: *const u16, indices_count: usize, all_valid: bool, validity: *const u8,
        validity_size: usize, validity_offset: usize) -> Taken;
    take_values_u128_u16(out: *mut Wide, out_count: usize, values: *const Wide, values_count: usize,
        indices: *const u16, indices_count: usize, all_valid: bool, validity: *const u8,
        validity_size: usize, validity_offset: usize) -> Taken;
    take_values_u8_u32(out: *mut u8, out_count: usize, values: *const u8, values_count: usize,
        indices: *const u32, indices_count: usize, all_valid: bool, validity: *const u8,
        validity_size: usize, validity_offset: usize) -> Taken;
    take_values_u16_u32(out: *mut u16, out_count: usize, values: *const u16, values_count: usize,
        indices: *const u32, indices_count: usize, all_valid: bool, validity: *const u8,
        validity_size: usize, validity_offset: usize) -> Taken;
    take_values_u32_u32(out: *mut u32, out_count: usize, values: *const u32, values_count: usize,
        indices: *const u32, indices_count: usize, all_valid: bool, validity: *const u8,
        validity_size: usize, validity_offset: usize) -> Taken;
    take_values_u64_u32(out: *mut u64, out_count: usize, values: *const u64, values_count: usize,
        indices: *const u32, indices_count: usize, all_valid: bool, validity: *const u8,
        validity_size: usize, validity_offset: usize) -> Taken;
    take_values_u128_u32(out: *mut Wide, out_count: usize, values: *const Wide, values_count: usize,
        indices: *const u32, indices_count: usize, all_valid: bool, validity: *const u8,
        validity_size: usize, validity_offset: usize) -> Taken;
    take_values_u8_u64(out: *mut u8, out_count: usize, values: *const u8, values_count: usize,
        indices: *const u64, indices_count: usize, all_valid: bool, validity: *const u8,
        validity_size: usize, validity_offset: usize) -> Taken;
    take_values_u16_u64(out: *mut u16, out_count: usize, values: *const u16, values_count: usize,
        indices: *const u64, indices_count: usize, all_valid: bool, validity: *const u8,
        validity_size: usize, validity_offset: usize) -> Taken;
    take_values_u32_u64(out: *mut u32, out_count: usize, values: *const u32, values_count: usize,
        indices: *const u64, indices_count: usize, all_valid: bool, validity: *const u8,
        validity_size: usize, validity_offset: usize) -> Taken;
    take_values_u64_u64(out: *mut u64, out_count: usize, values: *const u64, values_count: usize,
        indices: *const u64, indices_count: usize, all_valid: bool, validity: *const u8,
        validity_size: usize, validity_offset: usize) -> Taken;
    take_values_u128_u64(out: *mut Wide, out_count: usize, values: *const Wide, values_count: usize,
        indices: *const u64, indices_count: usize, all_valid: bool, validity: *const u8,
        validity_size: usize, validity_offset: usize) -> Taken;
}
