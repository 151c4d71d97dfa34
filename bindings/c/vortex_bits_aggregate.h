/*
 * Sum, minimum and maximum of values that a mask selects; counts and sums by group. vortex_bits.h
 * includes this file; its first comment states what the caller must ensure for every call.
 *
 * In calls with a mask, value or code k is selected if bit `mask_offset + k` of `mask` is set; the
 * mask must have one bit for each. Such a call processes 64 at a time, skips them if none is
 * selected, and doesn't look at single bits if all are.
 */
#ifndef VORTEX_BITS_AGGREGATE_H
#define VORTEX_BITS_AGGREGATE_H

#include "vortex_bits.h"

#ifdef __cplusplus
extern "C" {
#endif

/*
 * A signed number of 128 bits: low + high * 2^64. If `high` is 0, the number is `low`; if `high` is
 * negative, so is the number. As an __int128, with __extension__ for -Wpedantic:
 *
 *     const vb_i128 it = {UINT64_MAX, -1};
 *     assert(__extension__ (__int128)((unsigned __int128)it.high << 64 | it.low) == -1);
 */
typedef struct {
    uint64_t low;
    int64_t high;
} vb_i128;

/* A value, or none: `value` is meaningful only if `has_value` is true. */
/* Written by tools/write-lists from tools/families/masked_sums.txt. */
typedef struct { bool has_value; uint8_t value; } vb_optional_u8;
typedef struct { bool has_value; uint16_t value; } vb_optional_u16;
typedef struct { bool has_value; uint32_t value; } vb_optional_u32;
typedef struct { bool has_value; uint64_t value; } vb_optional_u64;
typedef struct { bool has_value; int8_t value; } vb_optional_i8;
typedef struct { bool has_value; int16_t value; } vb_optional_i16;
typedef struct { bool has_value; int32_t value; } vb_optional_i32;
typedef struct { bool has_value; int64_t value; } vb_optional_i64;
typedef struct { bool has_value; float value; } vb_optional_f32;
typedef struct { bool has_value; double value; } vb_optional_f64;
/* To here. */

/*
 * Returns the exact sum of the selected values, 0 if there are none. It can't overflow.
 *
 *     const int32_t prices[] = {2000000000, -5, 2000000000, 7};
 *     const uint8_t mask[] = {0x05};
 *     vb_i128 sum = vb_masked_sum_i32(prices, 4, mask, 1, 0);
 *     assert(sum.low == 4000000000 && sum.high == 0);
 *     assert(vb_masked_sum_i32(prices + 1, 1, mask, 1, 0).high == -1);    // low is 2^64 - 5
 *     assert(!vb_try_masked_sum_i32(prices, 4, mask, 1, 5, &sum));    // the mask ends too soon
 */
/* Written by tools/write-lists from tools/families/masked_sums.txt. */
vb_u128 vb_masked_sum_u8(const uint8_t *values, size_t values_count, const uint8_t *mask,
        size_t mask_size, size_t mask_offset);
VB_CHECKED bool vb_try_masked_sum_u8(const uint8_t *values, size_t values_count,
        const uint8_t *mask, size_t mask_size, size_t mask_offset, vb_u128 *sum);
vb_u128 vb_masked_sum_u16(const uint16_t *values, size_t values_count, const uint8_t *mask,
        size_t mask_size, size_t mask_offset);
VB_CHECKED bool vb_try_masked_sum_u16(const uint16_t *values, size_t values_count,
        const uint8_t *mask, size_t mask_size, size_t mask_offset, vb_u128 *sum);
vb_u128 vb_masked_sum_u32(const uint32_t *values, size_t values_count, const uint8_t *mask,
        size_t mask_size, size_t mask_offset);
VB_CHECKED bool vb_try_masked_sum_u32(const uint32_t *values, size_t values_count,
        const uint8_t *mask, size_t mask_size, size_t mask_offset, vb_u128 *sum);
vb_u128 vb_masked_sum_u64(const uint64_t *values, size_t values_count, const uint8_t *mask,
        size_t mask_size, size_t mask_offset);
VB_CHECKED bool vb_try_masked_sum_u64(const uint64_t *values, size_t values_count,
        const uint8_t *mask, size_t mask_size, size_t mask_offset, vb_u128 *sum);
vb_i128 vb_masked_sum_i8(const int8_t *values, size_t values_count, const uint8_t *mask,
        size_t mask_size, size_t mask_offset);
VB_CHECKED bool vb_try_masked_sum_i8(const int8_t *values, size_t values_count, const uint8_t *mask,
        size_t mask_size, size_t mask_offset, vb_i128 *sum);
vb_i128 vb_masked_sum_i16(const int16_t *values, size_t values_count, const uint8_t *mask,
        size_t mask_size, size_t mask_offset);
VB_CHECKED bool vb_try_masked_sum_i16(const int16_t *values, size_t values_count,
        const uint8_t *mask, size_t mask_size, size_t mask_offset, vb_i128 *sum);
vb_i128 vb_masked_sum_i32(const int32_t *values, size_t values_count, const uint8_t *mask,
        size_t mask_size, size_t mask_offset);
VB_CHECKED bool vb_try_masked_sum_i32(const int32_t *values, size_t values_count,
        const uint8_t *mask, size_t mask_size, size_t mask_offset, vb_i128 *sum);
vb_i128 vb_masked_sum_i64(const int64_t *values, size_t values_count, const uint8_t *mask,
        size_t mask_size, size_t mask_offset);
VB_CHECKED bool vb_try_masked_sum_i64(const int64_t *values, size_t values_count,
        const uint8_t *mask, size_t mask_size, size_t mask_offset, vb_i128 *sum);
/* To here. */

/*
 * Returns the sum of the selected values, or no value if it is out of the range of their type. A
 * partial sum may be out of that range.
 *
 *     const uint8_t counts[] = {200, 50, 6};
 *     const uint8_t mask[] = {0x07};
 *     assert(vb_masked_checked_sum_u8(counts, 2, mask, 1, 0).value == 250);
 *     assert(!vb_masked_checked_sum_u8(counts, 3, mask, 1, 0).has_value);
 */
/* Written by tools/write-lists from tools/families/masked_sums.txt. */
vb_optional_u8 vb_masked_checked_sum_u8(const uint8_t *values, size_t values_count,
        const uint8_t *mask, size_t mask_size, size_t mask_offset);
VB_CHECKED bool vb_try_masked_checked_sum_u8(const uint8_t *values, size_t values_count,
        const uint8_t *mask, size_t mask_size, size_t mask_offset, vb_optional_u8 *sum);
vb_optional_u16 vb_masked_checked_sum_u16(const uint16_t *values, size_t values_count,
        const uint8_t *mask, size_t mask_size, size_t mask_offset);
VB_CHECKED bool vb_try_masked_checked_sum_u16(const uint16_t *values, size_t values_count,
        const uint8_t *mask, size_t mask_size, size_t mask_offset, vb_optional_u16 *sum);
vb_optional_u32 vb_masked_checked_sum_u32(const uint32_t *values, size_t values_count,
        const uint8_t *mask, size_t mask_size, size_t mask_offset);
VB_CHECKED bool vb_try_masked_checked_sum_u32(const uint32_t *values, size_t values_count,
        const uint8_t *mask, size_t mask_size, size_t mask_offset, vb_optional_u32 *sum);
vb_optional_u64 vb_masked_checked_sum_u64(const uint64_t *values, size_t values_count,
        const uint8_t *mask, size_t mask_size, size_t mask_offset);
VB_CHECKED bool vb_try_masked_checked_sum_u64(const uint64_t *values, size_t values_count,
        const uint8_t *mask, size_t mask_size, size_t mask_offset, vb_optional_u64 *sum);
vb_optional_i8 vb_masked_checked_sum_i8(const int8_t *values, size_t values_count,
        const uint8_t *mask, size_t mask_size, size_t mask_offset);
VB_CHECKED bool vb_try_masked_checked_sum_i8(const int8_t *values, size_t values_count,
        const uint8_t *mask, size_t mask_size, size_t mask_offset, vb_optional_i8 *sum);
vb_optional_i16 vb_masked_checked_sum_i16(const int16_t *values, size_t values_count,
        const uint8_t *mask, size_t mask_size, size_t mask_offset);
VB_CHECKED bool vb_try_masked_checked_sum_i16(const int16_t *values, size_t values_count,
        const uint8_t *mask, size_t mask_size, size_t mask_offset, vb_optional_i16 *sum);
vb_optional_i32 vb_masked_checked_sum_i32(const int32_t *values, size_t values_count,
        const uint8_t *mask, size_t mask_size, size_t mask_offset);
VB_CHECKED bool vb_try_masked_checked_sum_i32(const int32_t *values, size_t values_count,
        const uint8_t *mask, size_t mask_size, size_t mask_offset, vb_optional_i32 *sum);
vb_optional_i64 vb_masked_checked_sum_i64(const int64_t *values, size_t values_count,
        const uint8_t *mask, size_t mask_size, size_t mask_offset);
VB_CHECKED bool vb_try_masked_checked_sum_i64(const int64_t *values, size_t values_count,
        const uint8_t *mask, size_t mask_size, size_t mask_offset, vb_optional_i64 *sum);
/* To here. */

/*
 * Returns the sum of the selected values, wrapped around at the end of their type.
 *
 *     const uint8_t counts[] = {200, 50, 10};
 *     const uint8_t mask[] = {0x07};
 *     assert(vb_masked_wrapping_sum_u8(counts, 3, mask, 1, 0) == 4);
 */
/* Written by tools/write-lists from tools/families/masked_sums.txt. */
uint8_t vb_masked_wrapping_sum_u8(const uint8_t *values, size_t values_count, const uint8_t *mask,
        size_t mask_size, size_t mask_offset);
VB_CHECKED bool vb_try_masked_wrapping_sum_u8(const uint8_t *values, size_t values_count,
        const uint8_t *mask, size_t mask_size, size_t mask_offset, uint8_t *sum);
uint16_t vb_masked_wrapping_sum_u16(const uint16_t *values, size_t values_count,
        const uint8_t *mask, size_t mask_size, size_t mask_offset);
VB_CHECKED bool vb_try_masked_wrapping_sum_u16(const uint16_t *values, size_t values_count,
        const uint8_t *mask, size_t mask_size, size_t mask_offset, uint16_t *sum);
uint32_t vb_masked_wrapping_sum_u32(const uint32_t *values, size_t values_count,
        const uint8_t *mask, size_t mask_size, size_t mask_offset);
VB_CHECKED bool vb_try_masked_wrapping_sum_u32(const uint32_t *values, size_t values_count,
        const uint8_t *mask, size_t mask_size, size_t mask_offset, uint32_t *sum);
uint64_t vb_masked_wrapping_sum_u64(const uint64_t *values, size_t values_count,
        const uint8_t *mask, size_t mask_size, size_t mask_offset);
VB_CHECKED bool vb_try_masked_wrapping_sum_u64(const uint64_t *values, size_t values_count,
        const uint8_t *mask, size_t mask_size, size_t mask_offset, uint64_t *sum);
int8_t vb_masked_wrapping_sum_i8(const int8_t *values, size_t values_count, const uint8_t *mask,
        size_t mask_size, size_t mask_offset);
VB_CHECKED bool vb_try_masked_wrapping_sum_i8(const int8_t *values, size_t values_count,
        const uint8_t *mask, size_t mask_size, size_t mask_offset, int8_t *sum);
int16_t vb_masked_wrapping_sum_i16(const int16_t *values, size_t values_count, const uint8_t *mask,
        size_t mask_size, size_t mask_offset);
VB_CHECKED bool vb_try_masked_wrapping_sum_i16(const int16_t *values, size_t values_count,
        const uint8_t *mask, size_t mask_size, size_t mask_offset, int16_t *sum);
int32_t vb_masked_wrapping_sum_i32(const int32_t *values, size_t values_count, const uint8_t *mask,
        size_t mask_size, size_t mask_offset);
VB_CHECKED bool vb_try_masked_wrapping_sum_i32(const int32_t *values, size_t values_count,
        const uint8_t *mask, size_t mask_size, size_t mask_offset, int32_t *sum);
int64_t vb_masked_wrapping_sum_i64(const int64_t *values, size_t values_count, const uint8_t *mask,
        size_t mask_size, size_t mask_offset);
VB_CHECKED bool vb_try_masked_wrapping_sum_i64(const int64_t *values, size_t values_count,
        const uint8_t *mask, size_t mask_size, size_t mask_offset, int64_t *sum);
/* To here. */

/*
 * Returns the minimum or the maximum of the selected values, or no value if none is selected.
 *
 *     const int16_t degrees[] = {-40, 21, 3, 18};
 *     const uint8_t mask[] = {0x0E};
 *     assert(vb_masked_min_i16(degrees, 4, mask, 1, 0).value == 3);
 *     assert(vb_masked_max_i16(degrees, 4, mask, 1, 0).value == 21);
 *     assert(!vb_masked_max_i16(degrees, 1, mask, 1, 0).has_value);
 */
/* Written by tools/write-lists from tools/families/masked_extremes.txt. */
vb_optional_u8 vb_masked_min_u8(const uint8_t *values, size_t values_count, const uint8_t *mask,
        size_t mask_size, size_t mask_offset);
VB_CHECKED bool vb_try_masked_min_u8(const uint8_t *values, size_t values_count,
        const uint8_t *mask, size_t mask_size, size_t mask_offset, vb_optional_u8 *least);
vb_optional_u16 vb_masked_min_u16(const uint16_t *values, size_t values_count, const uint8_t *mask,
        size_t mask_size, size_t mask_offset);
VB_CHECKED bool vb_try_masked_min_u16(const uint16_t *values, size_t values_count,
        const uint8_t *mask, size_t mask_size, size_t mask_offset, vb_optional_u16 *least);
vb_optional_u32 vb_masked_min_u32(const uint32_t *values, size_t values_count, const uint8_t *mask,
        size_t mask_size, size_t mask_offset);
VB_CHECKED bool vb_try_masked_min_u32(const uint32_t *values, size_t values_count,
        const uint8_t *mask, size_t mask_size, size_t mask_offset, vb_optional_u32 *least);
vb_optional_u64 vb_masked_min_u64(const uint64_t *values, size_t values_count, const uint8_t *mask,
        size_t mask_size, size_t mask_offset);
VB_CHECKED bool vb_try_masked_min_u64(const uint64_t *values, size_t values_count,
        const uint8_t *mask, size_t mask_size, size_t mask_offset, vb_optional_u64 *least);
vb_optional_i8 vb_masked_min_i8(const int8_t *values, size_t values_count, const uint8_t *mask,
        size_t mask_size, size_t mask_offset);
VB_CHECKED bool vb_try_masked_min_i8(const int8_t *values, size_t values_count, const uint8_t *mask,
        size_t mask_size, size_t mask_offset, vb_optional_i8 *least);
vb_optional_i16 vb_masked_min_i16(const int16_t *values, size_t values_count, const uint8_t *mask,
        size_t mask_size, size_t mask_offset);
VB_CHECKED bool vb_try_masked_min_i16(const int16_t *values, size_t values_count,
        const uint8_t *mask, size_t mask_size, size_t mask_offset, vb_optional_i16 *least);
vb_optional_i32 vb_masked_min_i32(const int32_t *values, size_t values_count, const uint8_t *mask,
        size_t mask_size, size_t mask_offset);
VB_CHECKED bool vb_try_masked_min_i32(const int32_t *values, size_t values_count,
        const uint8_t *mask, size_t mask_size, size_t mask_offset, vb_optional_i32 *least);
vb_optional_i64 vb_masked_min_i64(const int64_t *values, size_t values_count, const uint8_t *mask,
        size_t mask_size, size_t mask_offset);
VB_CHECKED bool vb_try_masked_min_i64(const int64_t *values, size_t values_count,
        const uint8_t *mask, size_t mask_size, size_t mask_offset, vb_optional_i64 *least);
vb_optional_u8 vb_masked_max_u8(const uint8_t *values, size_t values_count, const uint8_t *mask,
        size_t mask_size, size_t mask_offset);
VB_CHECKED bool vb_try_masked_max_u8(const uint8_t *values, size_t values_count,
        const uint8_t *mask, size_t mask_size, size_t mask_offset, vb_optional_u8 *greatest);
vb_optional_u16 vb_masked_max_u16(const uint16_t *values, size_t values_count, const uint8_t *mask,
        size_t mask_size, size_t mask_offset);
VB_CHECKED bool vb_try_masked_max_u16(const uint16_t *values, size_t values_count,
        const uint8_t *mask, size_t mask_size, size_t mask_offset, vb_optional_u16 *greatest);
vb_optional_u32 vb_masked_max_u32(const uint32_t *values, size_t values_count, const uint8_t *mask,
        size_t mask_size, size_t mask_offset);
VB_CHECKED bool vb_try_masked_max_u32(const uint32_t *values, size_t values_count,
        const uint8_t *mask, size_t mask_size, size_t mask_offset, vb_optional_u32 *greatest);
vb_optional_u64 vb_masked_max_u64(const uint64_t *values, size_t values_count, const uint8_t *mask,
        size_t mask_size, size_t mask_offset);
VB_CHECKED bool vb_try_masked_max_u64(const uint64_t *values, size_t values_count,
        const uint8_t *mask, size_t mask_size, size_t mask_offset, vb_optional_u64 *greatest);
vb_optional_i8 vb_masked_max_i8(const int8_t *values, size_t values_count, const uint8_t *mask,
        size_t mask_size, size_t mask_offset);
VB_CHECKED bool vb_try_masked_max_i8(const int8_t *values, size_t values_count, const uint8_t *mask,
        size_t mask_size, size_t mask_offset, vb_optional_i8 *greatest);
vb_optional_i16 vb_masked_max_i16(const int16_t *values, size_t values_count, const uint8_t *mask,
        size_t mask_size, size_t mask_offset);
VB_CHECKED bool vb_try_masked_max_i16(const int16_t *values, size_t values_count,
        const uint8_t *mask, size_t mask_size, size_t mask_offset, vb_optional_i16 *greatest);
vb_optional_i32 vb_masked_max_i32(const int32_t *values, size_t values_count, const uint8_t *mask,
        size_t mask_size, size_t mask_offset);
VB_CHECKED bool vb_try_masked_max_i32(const int32_t *values, size_t values_count,
        const uint8_t *mask, size_t mask_size, size_t mask_offset, vb_optional_i32 *greatest);
vb_optional_i64 vb_masked_max_i64(const int64_t *values, size_t values_count, const uint8_t *mask,
        size_t mask_size, size_t mask_offset);
VB_CHECKED bool vb_try_masked_max_i64(const int64_t *values, size_t values_count,
        const uint8_t *mask, size_t mask_size, size_t mask_offset, vb_optional_i64 *greatest);
/* To here. */

/*
 * Returns the sum of the selected floats, 0.0 if there are none. It starts from 0.0 and adds one
 * float after the other, in the order of the rows, each rounded as IEEE 754 says: the result is
 * that of a plain loop, bit for bit, unless it is NaN. The sums of several batches, added, may
 * differ from that of one loop over all.
 *
 *     const double weights[] = {1e16, 7.0, 1.0, -1e16};
 *     const uint8_t mask[] = {0x0D};
 *     assert(vb_masked_sum_f64(weights, 4, mask, 1, 0) == 0.0);
 */
/* Written by tools/write-lists from tools/families/masked_floats.txt. */
float vb_masked_sum_f32(const float *values, size_t values_count, const uint8_t *mask,
        size_t mask_size, size_t mask_offset);
VB_CHECKED bool vb_try_masked_sum_f32(const float *values, size_t values_count, const uint8_t *mask,
        size_t mask_size, size_t mask_offset, float *sum);
double vb_masked_sum_f64(const double *values, size_t values_count, const uint8_t *mask,
        size_t mask_size, size_t mask_offset);
VB_CHECKED bool vb_try_masked_sum_f64(const double *values, size_t values_count,
        const uint8_t *mask, size_t mask_size, size_t mask_offset, double *sum);
/* To here. */

/*
 * Returns the minimum or the maximum of the selected floats, or no value if none of them is a
 * number. Skips NaN; -0.0 is less than 0.0.
 *
 *     const float weights[] = {0.5f, -7.0f, NAN, -0.5f};
 *     const uint8_t mask[] = {0x0D};
 *     assert(vb_masked_min_f32(weights, 4, mask, 1, 0).value == -0.5f);
 *     assert(!vb_masked_max_f32(weights + 2, 1, mask, 1, 0).has_value);
 */
/* Written by tools/write-lists from tools/families/masked_floats.txt. */
vb_optional_f32 vb_masked_min_f32(const float *values, size_t values_count, const uint8_t *mask,
        size_t mask_size, size_t mask_offset);
VB_CHECKED bool vb_try_masked_min_f32(const float *values, size_t values_count, const uint8_t *mask,
        size_t mask_size, size_t mask_offset, vb_optional_f32 *least);
vb_optional_f64 vb_masked_min_f64(const double *values, size_t values_count, const uint8_t *mask,
        size_t mask_size, size_t mask_offset);
VB_CHECKED bool vb_try_masked_min_f64(const double *values, size_t values_count,
        const uint8_t *mask, size_t mask_size, size_t mask_offset, vb_optional_f64 *least);
vb_optional_f32 vb_masked_max_f32(const float *values, size_t values_count, const uint8_t *mask,
        size_t mask_size, size_t mask_offset);
VB_CHECKED bool vb_try_masked_max_f32(const float *values, size_t values_count, const uint8_t *mask,
        size_t mask_size, size_t mask_offset, vb_optional_f32 *greatest);
vb_optional_f64 vb_masked_max_f64(const double *values, size_t values_count, const uint8_t *mask,
        size_t mask_size, size_t mask_offset);
VB_CHECKED bool vb_try_masked_max_f64(const double *values, size_t values_count,
        const uint8_t *mask, size_t mask_size, size_t mask_offset, vb_optional_f64 *greatest);
/* To here. */

/*
 * Counts by group: row k has the code `codes[k]`, the index of its count, as in a dictionary array.
 * Adds to each count the number of selected rows with its code, modulo 2^64. If `all_selected` is
 * true, each row is selected, and the mask may be a null pointer of size 0. Else row k is selected
 * if bit `mask_offset + k` of `mask` is set; the codes of other rows may be any number.
 *
 * Returns the first selected row whose code isn't below `counts_count`, as `position`; the counts
 * are then unchanged. Signed codes may be passed as unsigned ones of that width, if there are at
 * most 2^7, 2^15 or 2^31 counts: a negative code is then out of range.
 *
 *     uint64_t sizes[3] = {0, 10, 0};
 *     const uint8_t codes[] = {2, 1, 2, 99, 0}, mask[] = {0x17};
 *     vb_taken past = vb_group_counts_u8(sizes, 3, codes, 5, false, mask, 1, 0);
 *     assert(!past.out_of_range && sizes[0] == 1 && sizes[1] == 11 && sizes[2] == 2);
 *     past = vb_group_counts_u8(sizes, 3, codes, 5, true, NULL, 0, 0);
 *     assert(past.out_of_range && past.position == 3 && sizes[2] == 2);
 */
/* Written by tools/write-lists from tools/families/groups.txt. */
VB_CHECKED vb_taken vb_group_counts_u8(uint64_t *counts, size_t counts_count, const uint8_t *codes,
        size_t codes_count, bool all_selected, const uint8_t *mask, size_t mask_size,
        size_t mask_offset);
VB_CHECKED bool vb_try_group_counts_u8(uint64_t *counts, size_t counts_count, const uint8_t *codes,
        size_t codes_count, bool all_selected, const uint8_t *mask, size_t mask_size,
        size_t mask_offset, vb_taken *past);
VB_CHECKED vb_taken vb_group_counts_u16(uint64_t *counts, size_t counts_count,
        const uint16_t *codes, size_t codes_count, bool all_selected, const uint8_t *mask,
        size_t mask_size, size_t mask_offset);
VB_CHECKED bool vb_try_group_counts_u16(uint64_t *counts, size_t counts_count,
        const uint16_t *codes, size_t codes_count, bool all_selected, const uint8_t *mask,
        size_t mask_size, size_t mask_offset, vb_taken *past);
VB_CHECKED vb_taken vb_group_counts_u32(uint64_t *counts, size_t counts_count,
        const uint32_t *codes, size_t codes_count, bool all_selected, const uint8_t *mask,
        size_t mask_size, size_t mask_offset);
VB_CHECKED bool vb_try_group_counts_u32(uint64_t *counts, size_t counts_count,
        const uint32_t *codes, size_t codes_count, bool all_selected, const uint8_t *mask,
        size_t mask_size, size_t mask_offset, vb_taken *past);
/* To here. */

/*
 * Adds each selected value to the sum at the index that is the code of its row. Sums have 64 bits,
 * and wrap around. `values_count` must equal `codes_count`; the checked form tests it too. Rows,
 * codes, the mask and the result are as above; if a row is returned, the sums are unchanged.
 *
 *     int64_t totals[2] = {0, 1000};
 *     const uint32_t groups[] = {1, 0, 1};
 *     const int16_t amounts[] = {5, -3, 20};
 *     vb_taken none = vb_group_sums_i16_u32(totals, 2, groups, 3, amounts, 3, true, NULL, 0, 0);
 *     assert(!none.out_of_range && totals[0] == -3 && totals[1] == 1025);
 */
/* Written by tools/write-lists from tools/families/groups.txt. */
VB_CHECKED vb_taken vb_group_sums_u8_u8(uint64_t *sums, size_t sums_count, const uint8_t *codes,
        size_t codes_count, const uint8_t *values, size_t values_count, bool all_selected,
        const uint8_t *mask, size_t mask_size, size_t mask_offset);
VB_CHECKED bool vb_try_group_sums_u8_u8(uint64_t *sums, size_t sums_count, const uint8_t *codes,
        size_t codes_count, const uint8_t *values, size_t values_count, bool all_selected,
        const uint8_t *mask, size_t mask_size, size_t mask_offset, vb_taken *past);
VB_CHECKED vb_taken vb_group_sums_u16_u8(uint64_t *sums, size_t sums_count, const uint8_t *codes,
        size_t codes_count, const uint16_t *values, size_t values_count, bool all_selected,
        const uint8_t *mask, size_t mask_size, size_t mask_offset);
VB_CHECKED bool vb_try_group_sums_u16_u8(uint64_t *sums, size_t sums_count, const uint8_t *codes,
        size_t codes_count, const uint16_t *values, size_t values_count, bool all_selected,
        const uint8_t *mask, size_t mask_size, size_t mask_offset, vb_taken *past);
VB_CHECKED vb_taken vb_group_sums_u32_u8(uint64_t *sums, size_t sums_count, const uint8_t *codes,
        size_t codes_count, const uint32_t *values, size_t values_count, bool all_selected,
        const uint8_t *mask, size_t mask_size, size_t mask_offset);
VB_CHECKED bool vb_try_group_sums_u32_u8(uint64_t *sums, size_t sums_count, const uint8_t *codes,
        size_t codes_count, const uint32_t *values, size_t values_count, bool all_selected,
        const uint8_t *mask, size_t mask_size, size_t mask_offset, vb_taken *past);
VB_CHECKED vb_taken vb_group_sums_u64_u8(uint64_t *sums, size_t sums_count, const uint8_t *codes,
        size_t codes_count, const uint64_t *values, size_t values_count, bool all_selected,
        const uint8_t *mask, size_t mask_size, size_t mask_offset);
VB_CHECKED bool vb_try_group_sums_u64_u8(uint64_t *sums, size_t sums_count, const uint8_t *codes,
        size_t codes_count, const uint64_t *values, size_t values_count, bool all_selected,
        const uint8_t *mask, size_t mask_size, size_t mask_offset, vb_taken *past);
VB_CHECKED vb_taken vb_group_sums_i8_u8(int64_t *sums, size_t sums_count, const uint8_t *codes,
        size_t codes_count, const int8_t *values, size_t values_count, bool all_selected,
        const uint8_t *mask, size_t mask_size, size_t mask_offset);
VB_CHECKED bool vb_try_group_sums_i8_u8(int64_t *sums, size_t sums_count, const uint8_t *codes,
        size_t codes_count, const int8_t *values, size_t values_count, bool all_selected,
        const uint8_t *mask, size_t mask_size, size_t mask_offset, vb_taken *past);
VB_CHECKED vb_taken vb_group_sums_i16_u8(int64_t *sums, size_t sums_count, const uint8_t *codes,
        size_t codes_count, const int16_t *values, size_t values_count, bool all_selected,
        const uint8_t *mask, size_t mask_size, size_t mask_offset);
VB_CHECKED bool vb_try_group_sums_i16_u8(int64_t *sums, size_t sums_count, const uint8_t *codes,
        size_t codes_count, const int16_t *values, size_t values_count, bool all_selected,
        const uint8_t *mask, size_t mask_size, size_t mask_offset, vb_taken *past);
VB_CHECKED vb_taken vb_group_sums_i32_u8(int64_t *sums, size_t sums_count, const uint8_t *codes,
        size_t codes_count, const int32_t *values, size_t values_count, bool all_selected,
        const uint8_t *mask, size_t mask_size, size_t mask_offset);
VB_CHECKED bool vb_try_group_sums_i32_u8(int64_t *sums, size_t sums_count, const uint8_t *codes,
        size_t codes_count, const int32_t *values, size_t values_count, bool all_selected,
        const uint8_t *mask, size_t mask_size, size_t mask_offset, vb_taken *past);
VB_CHECKED vb_taken vb_group_sums_i64_u8(int64_t *sums, size_t sums_count, const uint8_t *codes,
        size_t codes_count, const int64_t *values, size_t values_count, bool all_selected,
        const uint8_t *mask, size_t mask_size, size_t mask_offset);
VB_CHECKED bool vb_try_group_sums_i64_u8(int64_t *sums, size_t sums_count, const uint8_t *codes,
        size_t codes_count, const int64_t *values, size_t values_count, bool all_selected,
        const uint8_t *mask, size_t mask_size, size_t mask_offset, vb_taken *past);
VB_CHECKED vb_taken vb_group_sums_u8_u16(uint64_t *sums, size_t sums_count, const uint16_t *codes,
        size_t codes_count, const uint8_t *values, size_t values_count, bool all_selected,
        const uint8_t *mask, size_t mask_size, size_t mask_offset);
VB_CHECKED bool vb_try_group_sums_u8_u16(uint64_t *sums, size_t sums_count, const uint16_t *codes,
        size_t codes_count, const uint8_t *values, size_t values_count, bool all_selected,
        const uint8_t *mask, size_t mask_size, size_t mask_offset, vb_taken *past);
VB_CHECKED vb_taken vb_group_sums_u16_u16(uint64_t *sums, size_t sums_count, const uint16_t *codes,
        size_t codes_count, const uint16_t *values, size_t values_count, bool all_selected,
        const uint8_t *mask, size_t mask_size, size_t mask_offset);
VB_CHECKED bool vb_try_group_sums_u16_u16(uint64_t *sums, size_t sums_count, const uint16_t *codes,
        size_t codes_count, const uint16_t *values, size_t values_count, bool all_selected,
        const uint8_t *mask, size_t mask_size, size_t mask_offset, vb_taken *past);
VB_CHECKED vb_taken vb_group_sums_u32_u16(uint64_t *sums, size_t sums_count, const uint16_t *codes,
        size_t codes_count, const uint32_t *values, size_t values_count, bool all_selected,
        const uint8_t *mask, size_t mask_size, size_t mask_offset);
VB_CHECKED bool vb_try_group_sums_u32_u16(uint64_t *sums, size_t sums_count, const uint16_t *codes,
        size_t codes_count, const uint32_t *values, size_t values_count, bool all_selected,
        const uint8_t *mask, size_t mask_size, size_t mask_offset, vb_taken *past);
VB_CHECKED vb_taken vb_group_sums_u64_u16(uint64_t *sums, size_t sums_count, const uint16_t *codes,
        size_t codes_count, const uint64_t *values, size_t values_count, bool all_selected,
        const uint8_t *mask, size_t mask_size, size_t mask_offset);
VB_CHECKED bool vb_try_group_sums_u64_u16(uint64_t *sums, size_t sums_count, const uint16_t *codes,
        size_t codes_count, const uint64_t *values, size_t values_count, bool all_selected,
        const uint8_t *mask, size_t mask_size, size_t mask_offset, vb_taken *past);
VB_CHECKED vb_taken vb_group_sums_i8_u16(int64_t *sums, size_t sums_count, const uint16_t *codes,
        size_t codes_count, const int8_t *values, size_t values_count, bool all_selected,
        const uint8_t *mask, size_t mask_size, size_t mask_offset);
VB_CHECKED bool vb_try_group_sums_i8_u16(int64_t *sums, size_t sums_count, const uint16_t *codes,
        size_t codes_count, const int8_t *values, size_t values_count, bool all_selected,
        const uint8_t *mask, size_t mask_size, size_t mask_offset, vb_taken *past);
VB_CHECKED vb_taken vb_group_sums_i16_u16(int64_t *sums, size_t sums_count, const uint16_t *codes,
        size_t codes_count, const int16_t *values, size_t values_count, bool all_selected,
        const uint8_t *mask, size_t mask_size, size_t mask_offset);
VB_CHECKED bool vb_try_group_sums_i16_u16(int64_t *sums, size_t sums_count, const uint16_t *codes,
        size_t codes_count, const int16_t *values, size_t values_count, bool all_selected,
        const uint8_t *mask, size_t mask_size, size_t mask_offset, vb_taken *past);
VB_CHECKED vb_taken vb_group_sums_i32_u16(int64_t *sums, size_t sums_count, const uint16_t *codes,
        size_t codes_count, const int32_t *values, size_t values_count, bool all_selected,
        const uint8_t *mask, size_t mask_size, size_t mask_offset);
VB_CHECKED bool vb_try_group_sums_i32_u16(int64_t *sums, size_t sums_count, const uint16_t *codes,
        size_t codes_count, const int32_t *values, size_t values_count, bool all_selected,
        const uint8_t *mask, size_t mask_size, size_t mask_offset, vb_taken *past);
VB_CHECKED vb_taken vb_group_sums_i64_u16(int64_t *sums, size_t sums_count, const uint16_t *codes,
        size_t codes_count, const int64_t *values, size_t values_count, bool all_selected,
        const uint8_t *mask, size_t mask_size, size_t mask_offset);
VB_CHECKED bool vb_try_group_sums_i64_u16(int64_t *sums, size_t sums_count, const uint16_t *codes,
        size_t codes_count, const int64_t *values, size_t values_count, bool all_selected,
        const uint8_t *mask, size_t mask_size, size_t mask_offset, vb_taken *past);
VB_CHECKED vb_taken vb_group_sums_u8_u32(uint64_t *sums, size_t sums_count, const uint32_t *codes,
        size_t codes_count, const uint8_t *values, size_t values_count, bool all_selected,
        const uint8_t *mask, size_t mask_size, size_t mask_offset);
VB_CHECKED bool vb_try_group_sums_u8_u32(uint64_t *sums, size_t sums_count, const uint32_t *codes,
        size_t codes_count, const uint8_t *values, size_t values_count, bool all_selected,
        const uint8_t *mask, size_t mask_size, size_t mask_offset, vb_taken *past);
VB_CHECKED vb_taken vb_group_sums_u16_u32(uint64_t *sums, size_t sums_count, const uint32_t *codes,
        size_t codes_count, const uint16_t *values, size_t values_count, bool all_selected,
        const uint8_t *mask, size_t mask_size, size_t mask_offset);
VB_CHECKED bool vb_try_group_sums_u16_u32(uint64_t *sums, size_t sums_count, const uint32_t *codes,
        size_t codes_count, const uint16_t *values, size_t values_count, bool all_selected,
        const uint8_t *mask, size_t mask_size, size_t mask_offset, vb_taken *past);
VB_CHECKED vb_taken vb_group_sums_u32_u32(uint64_t *sums, size_t sums_count, const uint32_t *codes,
        size_t codes_count, const uint32_t *values, size_t values_count, bool all_selected,
        const uint8_t *mask, size_t mask_size, size_t mask_offset);
VB_CHECKED bool vb_try_group_sums_u32_u32(uint64_t *sums, size_t sums_count, const uint32_t *codes,
        size_t codes_count, const uint32_t *values, size_t values_count, bool all_selected,
        const uint8_t *mask, size_t mask_size, size_t mask_offset, vb_taken *past);
VB_CHECKED vb_taken vb_group_sums_u64_u32(uint64_t *sums, size_t sums_count, const uint32_t *codes,
        size_t codes_count, const uint64_t *values, size_t values_count, bool all_selected,
        const uint8_t *mask, size_t mask_size, size_t mask_offset);
VB_CHECKED bool vb_try_group_sums_u64_u32(uint64_t *sums, size_t sums_count, const uint32_t *codes,
        size_t codes_count, const uint64_t *values, size_t values_count, bool all_selected,
        const uint8_t *mask, size_t mask_size, size_t mask_offset, vb_taken *past);
VB_CHECKED vb_taken vb_group_sums_i8_u32(int64_t *sums, size_t sums_count, const uint32_t *codes,
        size_t codes_count, const int8_t *values, size_t values_count, bool all_selected,
        const uint8_t *mask, size_t mask_size, size_t mask_offset);
VB_CHECKED bool vb_try_group_sums_i8_u32(int64_t *sums, size_t sums_count, const uint32_t *codes,
        size_t codes_count, const int8_t *values, size_t values_count, bool all_selected,
        const uint8_t *mask, size_t mask_size, size_t mask_offset, vb_taken *past);
VB_CHECKED vb_taken vb_group_sums_i16_u32(int64_t *sums, size_t sums_count, const uint32_t *codes,
        size_t codes_count, const int16_t *values, size_t values_count, bool all_selected,
        const uint8_t *mask, size_t mask_size, size_t mask_offset);
VB_CHECKED bool vb_try_group_sums_i16_u32(int64_t *sums, size_t sums_count, const uint32_t *codes,
        size_t codes_count, const int16_t *values, size_t values_count, bool all_selected,
        const uint8_t *mask, size_t mask_size, size_t mask_offset, vb_taken *past);
VB_CHECKED vb_taken vb_group_sums_i32_u32(int64_t *sums, size_t sums_count, const uint32_t *codes,
        size_t codes_count, const int32_t *values, size_t values_count, bool all_selected,
        const uint8_t *mask, size_t mask_size, size_t mask_offset);
VB_CHECKED bool vb_try_group_sums_i32_u32(int64_t *sums, size_t sums_count, const uint32_t *codes,
        size_t codes_count, const int32_t *values, size_t values_count, bool all_selected,
        const uint8_t *mask, size_t mask_size, size_t mask_offset, vb_taken *past);
VB_CHECKED vb_taken vb_group_sums_i64_u32(int64_t *sums, size_t sums_count, const uint32_t *codes,
        size_t codes_count, const int64_t *values, size_t values_count, bool all_selected,
        const uint8_t *mask, size_t mask_size, size_t mask_offset);
VB_CHECKED bool vb_try_group_sums_i64_u32(int64_t *sums, size_t sums_count, const uint32_t *codes,
        size_t codes_count, const int64_t *values, size_t values_count, bool all_selected,
        const uint8_t *mask, size_t mask_size, size_t mask_offset, vb_taken *past);
/* To here. */

#ifdef __cplusplus
}
#endif

#endif
