/*
 * Comparisons of whole numbers and of floats, into bits. vortex_bits.h includes this file; its
 * first comment states what the caller must ensure for every call.
 */
#ifndef VORTEX_BITS_COMPARE_H
#define VORTEX_BITS_COMPARE_H

#include "vortex_bits.h"

#ifdef __cplusplus
extern "C" {
#endif

/*
 * The type of the enumeration below in C++, so that any byte can be cast to it. It is the type that
 * compilers choose in C, so that a struct with an enumeration is the same in both.
 */
#if defined(__cplusplus) && __cplusplus >= 201103L
#define VB_OF_BYTES : unsigned int
#else
#define VB_OF_BYTES
#endif

/*
 * The comparison of a value with another one: the `op` of the calls below, which is less than 6.
 * With another number a plain form crashes with SIGILL (illegal instruction), and a checked form
 * returns false. C converts `op` to a byte before the call: 258 becomes 2, which is VB_LESS.
 *
 *     const uint8_t values[] = {7};
 *     uint8_t out[] = {0};
 *     assert(!vb_try_compare_u8(out, 1, 0, values, 1, VB_GREATER_OR_EQUAL + 1, 7));
 */
enum vb_comparison VB_OF_BYTES {
    VB_EQUAL,
    VB_NOT_EQUAL,
    VB_LESS,
    VB_LESS_OR_EQUAL,
    VB_GREATER,
    VB_GREATER_OR_EQUAL
};
#undef VB_OF_BYTES

/*
 * Writes to bit `out_offset + k` of `out`, for each k below `values_count`, whether value k
 * compares with `number` by `op`. Every other bit of `out` is unchanged. Processes 64 values at a
 * time by vectors, or 8 if they are whole numbers of 64 bits. Floats compare as by C's operators
 * and IEEE 754: with a NaN on either side or on both only VB_NOT_EQUAL holds, and 0.0 equals -0.0.
 * C converts `number` to the type of the values before the call: 2.5 becomes 2 for whole numbers;
 * by default gcc doesn't warn (-Wfloat-conversion does). compare of vortex_bits.hpp is exact.
 *
 *     const double prices[] = {1.5, NAN, 0.25};
 *     uint8_t cheap[] = {0};
 *     vb_compare_f64(cheap, 1, 0, prices, 3, VB_LESS, 2.0);
 *     assert(cheap[0] == 0x05);
 */
/* Written by tools/write-lists from tools/families/compare.txt. */
void vb_compare_u8(uint8_t *out, size_t out_size, size_t out_offset, const uint8_t *values,
        size_t values_count, uint8_t op, uint8_t number);
VB_CHECKED bool vb_try_compare_u8(uint8_t *out, size_t out_size, size_t out_offset,
        const uint8_t *values, size_t values_count, uint8_t op, uint8_t number);
void vb_compare_u16(uint8_t *out, size_t out_size, size_t out_offset, const uint16_t *values,
        size_t values_count, uint8_t op, uint16_t number);
VB_CHECKED bool vb_try_compare_u16(uint8_t *out, size_t out_size, size_t out_offset,
        const uint16_t *values, size_t values_count, uint8_t op, uint16_t number);
void vb_compare_u32(uint8_t *out, size_t out_size, size_t out_offset, const uint32_t *values,
        size_t values_count, uint8_t op, uint32_t number);
VB_CHECKED bool vb_try_compare_u32(uint8_t *out, size_t out_size, size_t out_offset,
        const uint32_t *values, size_t values_count, uint8_t op, uint32_t number);
void vb_compare_u64(uint8_t *out, size_t out_size, size_t out_offset, const uint64_t *values,
        size_t values_count, uint8_t op, uint64_t number);
VB_CHECKED bool vb_try_compare_u64(uint8_t *out, size_t out_size, size_t out_offset,
        const uint64_t *values, size_t values_count, uint8_t op, uint64_t number);
void vb_compare_i8(uint8_t *out, size_t out_size, size_t out_offset, const int8_t *values,
        size_t values_count, uint8_t op, int8_t number);
VB_CHECKED bool vb_try_compare_i8(uint8_t *out, size_t out_size, size_t out_offset,
        const int8_t *values, size_t values_count, uint8_t op, int8_t number);
void vb_compare_i16(uint8_t *out, size_t out_size, size_t out_offset, const int16_t *values,
        size_t values_count, uint8_t op, int16_t number);
VB_CHECKED bool vb_try_compare_i16(uint8_t *out, size_t out_size, size_t out_offset,
        const int16_t *values, size_t values_count, uint8_t op, int16_t number);
void vb_compare_i32(uint8_t *out, size_t out_size, size_t out_offset, const int32_t *values,
        size_t values_count, uint8_t op, int32_t number);
VB_CHECKED bool vb_try_compare_i32(uint8_t *out, size_t out_size, size_t out_offset,
        const int32_t *values, size_t values_count, uint8_t op, int32_t number);
void vb_compare_i64(uint8_t *out, size_t out_size, size_t out_offset, const int64_t *values,
        size_t values_count, uint8_t op, int64_t number);
VB_CHECKED bool vb_try_compare_i64(uint8_t *out, size_t out_size, size_t out_offset,
        const int64_t *values, size_t values_count, uint8_t op, int64_t number);
void vb_compare_f32(uint8_t *out, size_t out_size, size_t out_offset, const float *values,
        size_t values_count, uint8_t op, float number);
VB_CHECKED bool vb_try_compare_f32(uint8_t *out, size_t out_size, size_t out_offset,
        const float *values, size_t values_count, uint8_t op, float number);
void vb_compare_f64(uint8_t *out, size_t out_size, size_t out_offset, const double *values,
        size_t values_count, uint8_t op, double number);
VB_CHECKED bool vb_try_compare_f64(uint8_t *out, size_t out_size, size_t out_offset,
        const double *values, size_t values_count, uint8_t op, double number);
/* To here. */

/*
 * Does the same with value k of `others`; `others_count` must equal `values_count`.
 *
 *     const int32_t ages[] = {19, 64, 7}, limits[] = {20, 64, 7};
 *     uint8_t below[] = {0};
 *     vb_compare_with_i32(below, 1, 0, ages, 3, VB_LESS, limits, 3);
 *     assert(below[0] == 0x01);
 */
/* Written by tools/write-lists from tools/families/compare.txt. */
void vb_compare_with_u8(uint8_t *out, size_t out_size, size_t out_offset, const uint8_t *values,
        size_t values_count, uint8_t op, const uint8_t *others, size_t others_count);
VB_CHECKED bool vb_try_compare_with_u8(uint8_t *out, size_t out_size, size_t out_offset,
        const uint8_t *values, size_t values_count, uint8_t op, const uint8_t *others,
        size_t others_count);
void vb_compare_with_u16(uint8_t *out, size_t out_size, size_t out_offset, const uint16_t *values,
        size_t values_count, uint8_t op, const uint16_t *others, size_t others_count);
VB_CHECKED bool vb_try_compare_with_u16(uint8_t *out, size_t out_size, size_t out_offset,
        const uint16_t *values, size_t values_count, uint8_t op, const uint16_t *others,
        size_t others_count);
void vb_compare_with_u32(uint8_t *out, size_t out_size, size_t out_offset, const uint32_t *values,
        size_t values_count, uint8_t op, const uint32_t *others, size_t others_count);
VB_CHECKED bool vb_try_compare_with_u32(uint8_t *out, size_t out_size, size_t out_offset,
        const uint32_t *values, size_t values_count, uint8_t op, const uint32_t *others,
        size_t others_count);
void vb_compare_with_u64(uint8_t *out, size_t out_size, size_t out_offset, const uint64_t *values,
        size_t values_count, uint8_t op, const uint64_t *others, size_t others_count);
VB_CHECKED bool vb_try_compare_with_u64(uint8_t *out, size_t out_size, size_t out_offset,
        const uint64_t *values, size_t values_count, uint8_t op, const uint64_t *others,
        size_t others_count);
void vb_compare_with_i8(uint8_t *out, size_t out_size, size_t out_offset, const int8_t *values,
        size_t values_count, uint8_t op, const int8_t *others, size_t others_count);
VB_CHECKED bool vb_try_compare_with_i8(uint8_t *out, size_t out_size, size_t out_offset,
        const int8_t *values, size_t values_count, uint8_t op, const int8_t *others,
        size_t others_count);
void vb_compare_with_i16(uint8_t *out, size_t out_size, size_t out_offset, const int16_t *values,
        size_t values_count, uint8_t op, const int16_t *others, size_t others_count);
VB_CHECKED bool vb_try_compare_with_i16(uint8_t *out, size_t out_size, size_t out_offset,
        const int16_t *values, size_t values_count, uint8_t op, const int16_t *others,
        size_t others_count);
void vb_compare_with_i32(uint8_t *out, size_t out_size, size_t out_offset, const int32_t *values,
        size_t values_count, uint8_t op, const int32_t *others, size_t others_count);
VB_CHECKED bool vb_try_compare_with_i32(uint8_t *out, size_t out_size, size_t out_offset,
        const int32_t *values, size_t values_count, uint8_t op, const int32_t *others,
        size_t others_count);
void vb_compare_with_i64(uint8_t *out, size_t out_size, size_t out_offset, const int64_t *values,
        size_t values_count, uint8_t op, const int64_t *others, size_t others_count);
VB_CHECKED bool vb_try_compare_with_i64(uint8_t *out, size_t out_size, size_t out_offset,
        const int64_t *values, size_t values_count, uint8_t op, const int64_t *others,
        size_t others_count);
void vb_compare_with_f32(uint8_t *out, size_t out_size, size_t out_offset, const float *values,
        size_t values_count, uint8_t op, const float *others, size_t others_count);
VB_CHECKED bool vb_try_compare_with_f32(uint8_t *out, size_t out_size, size_t out_offset,
        const float *values, size_t values_count, uint8_t op, const float *others,
        size_t others_count);
void vb_compare_with_f64(uint8_t *out, size_t out_size, size_t out_offset, const double *values,
        size_t values_count, uint8_t op, const double *others, size_t others_count);
VB_CHECKED bool vb_try_compare_with_f64(uint8_t *out, size_t out_size, size_t out_offset,
        const double *values, size_t values_count, uint8_t op, const double *others,
        size_t others_count);
/* To here. */

#ifdef __cplusplus
}
#endif

#endif
