/*
 * Values of 1, 2, 4, 8 or 16 bytes, selected by a mask, also in place, or by indices, or scattered
 * by a mask. vortex_bits.h includes this file; its first comment states what the caller must ensure
 * for every call.
 */
#ifndef VORTEX_BITS_VALUES_H
#define VORTEX_BITS_VALUES_H

#include "vortex_bits.h"

#ifdef __cplusplus
extern "C" {
#endif

/*
 * Writes the values whose bit of `mask`, from bit `mask_offset` on, is true, in order, to the front
 * of `out`, and returns their number (`written`). `out_count`, the capacity of `out`, must be at
 * least that; the checked form tests it too. The items after them are unchanged. Processes 64
 * values at a time. Values are copied as they are: for those of another type of the same size and
 * alignment, cast both pointers, or call vb_filter_values.
 *
 *     uint32_t kept[2];
 *     const uint32_t values[] = {5, 6, 7};
 *     const uint8_t mask[] = {0x05};
 *     assert(vb_filter_values_u32(kept, 2, values, 3, mask, 1, 0) == 2 && kept[1] == 7);
 */
/* Written by tools/write-lists from tools/families/filter.txt. */
size_t vb_filter_values_u8(uint8_t *out, size_t out_count, const uint8_t *values,
        size_t values_count, const uint8_t *mask, size_t mask_size, size_t mask_offset);
VB_CHECKED bool vb_try_filter_values_u8(uint8_t *out, size_t out_count, const uint8_t *values,
        size_t values_count, const uint8_t *mask, size_t mask_size, size_t mask_offset,
        size_t *written);
size_t vb_filter_values_u16(uint16_t *out, size_t out_count, const uint16_t *values,
        size_t values_count, const uint8_t *mask, size_t mask_size, size_t mask_offset);
VB_CHECKED bool vb_try_filter_values_u16(uint16_t *out, size_t out_count, const uint16_t *values,
        size_t values_count, const uint8_t *mask, size_t mask_size, size_t mask_offset,
        size_t *written);
size_t vb_filter_values_u32(uint32_t *out, size_t out_count, const uint32_t *values,
        size_t values_count, const uint8_t *mask, size_t mask_size, size_t mask_offset);
VB_CHECKED bool vb_try_filter_values_u32(uint32_t *out, size_t out_count, const uint32_t *values,
        size_t values_count, const uint8_t *mask, size_t mask_size, size_t mask_offset,
        size_t *written);
size_t vb_filter_values_u64(uint64_t *out, size_t out_count, const uint64_t *values,
        size_t values_count, const uint8_t *mask, size_t mask_size, size_t mask_offset);
VB_CHECKED bool vb_try_filter_values_u64(uint64_t *out, size_t out_count, const uint64_t *values,
        size_t values_count, const uint8_t *mask, size_t mask_size, size_t mask_offset,
        size_t *written);
size_t vb_filter_values_u128(vb_u128 *out, size_t out_count, const vb_u128 *values,
        size_t values_count, const uint8_t *mask, size_t mask_size, size_t mask_offset);
VB_CHECKED bool vb_try_filter_values_u128(vb_u128 *out, size_t out_count, const vb_u128 *values,
        size_t values_count, const uint8_t *mask, size_t mask_size, size_t mask_offset,
        size_t *written);
/* To here. */

/*
 * Does the same for values of any type, signed ones, floats and structs too, by their size: 1, 2,
 * 4, 8 or 16 bytes. They must have the alignment of an integer of that size; values of 16 bytes
 * need alignment 8. With another size the plain form crashes with SIGILL (illegal instruction). The
 * checked form returns false for such a size, and for a pointer that isn't aligned so.
 *
 *     const double prices[] = {0.5, 1.5, 2.5, 3.5};
 *     const uint8_t mask[] = {0x0B};
 *     double kept[3];
 *     assert(vb_filter_values(kept, 3, prices, 4, sizeof *prices, mask, 1, 0) == 3);
 *     assert(kept[2] == 3.5);
 */
size_t vb_filter_values(void *out, size_t out_count, const void *values, size_t values_count,
        size_t value_size, const uint8_t *mask, size_t mask_size, size_t mask_offset);
VB_CHECKED bool vb_try_filter_values(void *out, size_t out_count, const void *values,
        size_t values_count, size_t value_size, const uint8_t *mask, size_t mask_size,
        size_t mask_offset, size_t *written);

/*
 * Filters in place: moves the values whose bit of `mask`, from bit `mask_offset` on, is true, in
 * order, to the front of `values`, and returns their number (`written`). The values from that index
 * on are unchanged. Processes 64 values at a time.
 *
 *     uint32_t values[] = {5, 6, 7};
 *     const uint8_t mask[] = {0x06};
 *     assert(vb_retain_values_u32(values, 3, mask, 1, 0) == 2);
 *     assert(values[0] == 6 && values[1] == 7 && values[2] == 7);
 */
/* Written by tools/write-lists from tools/families/retain.txt. */
size_t vb_retain_values_u8(uint8_t *values, size_t values_count, const uint8_t *mask,
        size_t mask_size, size_t mask_offset);
VB_CHECKED bool vb_try_retain_values_u8(uint8_t *values, size_t values_count, const uint8_t *mask,
        size_t mask_size, size_t mask_offset, size_t *written);
size_t vb_retain_values_u16(uint16_t *values, size_t values_count, const uint8_t *mask,
        size_t mask_size, size_t mask_offset);
VB_CHECKED bool vb_try_retain_values_u16(uint16_t *values, size_t values_count, const uint8_t *mask,
        size_t mask_size, size_t mask_offset, size_t *written);
size_t vb_retain_values_u32(uint32_t *values, size_t values_count, const uint8_t *mask,
        size_t mask_size, size_t mask_offset);
VB_CHECKED bool vb_try_retain_values_u32(uint32_t *values, size_t values_count, const uint8_t *mask,
        size_t mask_size, size_t mask_offset, size_t *written);
size_t vb_retain_values_u64(uint64_t *values, size_t values_count, const uint8_t *mask,
        size_t mask_size, size_t mask_offset);
VB_CHECKED bool vb_try_retain_values_u64(uint64_t *values, size_t values_count, const uint8_t *mask,
        size_t mask_size, size_t mask_offset, size_t *written);
size_t vb_retain_values_u128(vb_u128 *values, size_t values_count, const uint8_t *mask,
        size_t mask_size, size_t mask_offset);
VB_CHECKED bool vb_try_retain_values_u128(vb_u128 *values, size_t values_count, const uint8_t *mask,
        size_t mask_size, size_t mask_offset, size_t *written);
/* To here. */

/*
 * Does the same for values of any type, by their size, as vb_filter_values does.
 *
 *     float prices[] = {0.5f, 1.5f, 2.5f};
 *     const uint8_t mask[] = {0x06};
 *     assert(vb_retain_values(prices, 3, sizeof *prices, mask, 1, 0) == 2 && prices[0] == 1.5f);
 */
size_t vb_retain_values(void *values, size_t values_count, size_t value_size, const uint8_t *mask,
        size_t mask_size, size_t mask_offset);
VB_CHECKED bool vb_try_retain_values(void *values, size_t values_count, size_t value_size,
        const uint8_t *mask, size_t mask_size, size_t mask_offset, size_t *written);

/*
 * Undoes vb_filter_values (scatters): writes the values, in order, over those items of `out` whose
 * bit of `mask`, from bit `mask_offset` on, is set, and returns their number (`written`). The mask
 * has `out_count` bits. `values_count` must be at least the number of set bits; the checked form
 * tests it too. Values after those are ignored, and the other items of `out` are unchanged.
 * Processes 64 items at a time.
 *
 *     uint32_t column[] = {1, 2, 3};
 *     const uint32_t values[] = {5, 7};
 *     const uint8_t mask[] = {0x05};
 *     assert(vb_scatter_values_u32(column, 3, values, 2, mask, 1, 0) == 2);
 *     assert(column[0] == 5 && column[1] == 2 && column[2] == 7);
 */
/* Written by tools/write-lists from tools/families/scatter.txt. */
size_t vb_scatter_values_u8(uint8_t *out, size_t out_count, const uint8_t *values,
        size_t values_count, const uint8_t *mask, size_t mask_size, size_t mask_offset);
VB_CHECKED bool vb_try_scatter_values_u8(uint8_t *out, size_t out_count, const uint8_t *values,
        size_t values_count, const uint8_t *mask, size_t mask_size, size_t mask_offset,
        size_t *written);
size_t vb_scatter_values_u16(uint16_t *out, size_t out_count, const uint16_t *values,
        size_t values_count, const uint8_t *mask, size_t mask_size, size_t mask_offset);
VB_CHECKED bool vb_try_scatter_values_u16(uint16_t *out, size_t out_count, const uint16_t *values,
        size_t values_count, const uint8_t *mask, size_t mask_size, size_t mask_offset,
        size_t *written);
size_t vb_scatter_values_u32(uint32_t *out, size_t out_count, const uint32_t *values,
        size_t values_count, const uint8_t *mask, size_t mask_size, size_t mask_offset);
VB_CHECKED bool vb_try_scatter_values_u32(uint32_t *out, size_t out_count, const uint32_t *values,
        size_t values_count, const uint8_t *mask, size_t mask_size, size_t mask_offset,
        size_t *written);
size_t vb_scatter_values_u64(uint64_t *out, size_t out_count, const uint64_t *values,
        size_t values_count, const uint8_t *mask, size_t mask_size, size_t mask_offset);
VB_CHECKED bool vb_try_scatter_values_u64(uint64_t *out, size_t out_count, const uint64_t *values,
        size_t values_count, const uint8_t *mask, size_t mask_size, size_t mask_offset,
        size_t *written);
size_t vb_scatter_values_u128(vb_u128 *out, size_t out_count, const vb_u128 *values,
        size_t values_count, const uint8_t *mask, size_t mask_size, size_t mask_offset);
VB_CHECKED bool vb_try_scatter_values_u128(vb_u128 *out, size_t out_count, const vb_u128 *values,
        size_t values_count, const uint8_t *mask, size_t mask_size, size_t mask_offset,
        size_t *written);
/* To here. */

/*
 * Does the same for values of any type, by their size, as vb_filter_values does.
 *
 *     double column[] = {0.5, 1.5, 2.5, 3.5};
 *     const double values[] = {8.5, 9.5};
 *     const uint8_t mask[] = {0x0A};
 *     assert(vb_scatter_values(column, 4, values, 2, sizeof *values, mask, 1, 0) == 2);
 *     assert(column[1] == 8.5 && column[2] == 2.5 && column[3] == 9.5);
 */
size_t vb_scatter_values(void *out, size_t out_count, const void *values, size_t values_count,
        size_t value_size, const uint8_t *mask, size_t mask_size, size_t mask_offset);
VB_CHECKED bool vb_try_scatter_values(void *out, size_t out_count, const void *values,
        size_t values_count, size_t value_size, const uint8_t *mask, size_t mask_size,
        size_t mask_offset, size_t *written);

/*
 * Takes (gathers) values: writes the values at the indices to the front of `out`, one each.
 * `out_count`, the capacity of `out`, must be at least the number of indices. If `all_valid` is
 * true, each position counts, and the validity may be a null pointer of size 0. Else a position
 * counts if its bit of `validity`, from bit `validity_offset` on, is true; the others get 0, and
 * their indices are ignored. Returns the first position that counts and whose index is out of range
 * (not below `values_count`), if there is one; the checked form writes it to `taken`. If a position
 * is returned, the items of `out` for all indices are unspecified. Later items are unchanged.
 *
 * vb_take_values_u64_u32 takes values of 64 bits at indices of 32. For values of another type of
 * the size, cast the pointers, or call vb_take_values. Signed indices can be cast too, if
 * `values_count` is at most the number of indices that the type can represent: a negative index is
 * then out of range. If there are more values, pass that number as their count: 2^31 for int32_t.
 *
 *     uint64_t out[2];
 *     const uint64_t values[] = {5, 6, 7};
 *     const uint32_t indices[] = {2, 0};
 *     vb_taken taken = vb_take_values_u64_u32(out, 2, values, 3, indices, 2, true, NULL, 0, 0);
 *     assert(!taken.out_of_range && out[0] == 7 && out[1] == 5);
 */
/* Written by tools/write-lists from tools/families/take_values.txt. */
VB_CHECKED vb_taken vb_take_values_u8_u8(uint8_t *out, size_t out_count, const uint8_t *values,
        size_t values_count, const uint8_t *indices, size_t indices_count, bool all_valid,
        const uint8_t *validity, size_t validity_size, size_t validity_offset);
VB_CHECKED bool vb_try_take_values_u8_u8(uint8_t *out, size_t out_count, const uint8_t *values,
        size_t values_count, const uint8_t *indices, size_t indices_count, bool all_valid,
        const uint8_t *validity, size_t validity_size, size_t validity_offset, vb_taken *taken);
VB_CHECKED vb_taken vb_take_values_u16_u8(uint16_t *out, size_t out_count, const uint16_t *values,
        size_t values_count, const uint8_t *indices, size_t indices_count, bool all_valid,
        const uint8_t *validity, size_t validity_size, size_t validity_offset);
VB_CHECKED bool vb_try_take_values_u16_u8(uint16_t *out, size_t out_count, const uint16_t *values,
        size_t values_count, const uint8_t *indices, size_t indices_count, bool all_valid,
        const uint8_t *validity, size_t validity_size, size_t validity_offset, vb_taken *taken);
VB_CHECKED vb_taken vb_take_values_u32_u8(uint32_t *out, size_t out_count, const uint32_t *values,
        size_t values_count, const uint8_t *indices, size_t indices_count, bool all_valid,
        const uint8_t *validity, size_t validity_size, size_t validity_offset);
VB_CHECKED bool vb_try_take_values_u32_u8(uint32_t *out, size_t out_count, const uint32_t *values,
        size_t values_count, const uint8_t *indices, size_t indices_count, bool all_valid,
        const uint8_t *validity, size_t validity_size, size_t validity_offset, vb_taken *taken);
VB_CHECKED vb_taken vb_take_values_u64_u8(uint64_t *out, size_t out_count, const uint64_t *values,
        size_t values_count, const uint8_t *indices, size_t indices_count, bool all_valid,
        const uint8_t *validity, size_t validity_size, size_t validity_offset);
VB_CHECKED bool vb_try_take_values_u64_u8(uint64_t *out, size_t out_count, const uint64_t *values,
        size_t values_count, const uint8_t *indices, size_t indices_count, bool all_valid,
        const uint8_t *validity, size_t validity_size, size_t validity_offset, vb_taken *taken);
VB_CHECKED vb_taken vb_take_values_u128_u8(vb_u128 *out, size_t out_count, const vb_u128 *values,
        size_t values_count, const uint8_t *indices, size_t indices_count, bool all_valid,
        const uint8_t *validity, size_t validity_size, size_t validity_offset);
VB_CHECKED bool vb_try_take_values_u128_u8(vb_u128 *out, size_t out_count, const vb_u128 *values,
        size_t values_count, const uint8_t *indices, size_t indices_count, bool all_valid,
        const uint8_t *validity, size_t validity_size, size_t validity_offset, vb_taken *taken);
VB_CHECKED vb_taken vb_take_values_u8_u16(uint8_t *out, size_t out_count, const uint8_t *values,
        size_t values_count, const uint16_t *indices, size_t indices_count, bool all_valid,
        const uint8_t *validity, size_t validity_size, size_t validity_offset);
VB_CHECKED bool vb_try_take_values_u8_u16(uint8_t *out, size_t out_count, const uint8_t *values,
        size_t values_count, const uint16_t *indices, size_t indices_count, bool all_valid,
        const uint8_t *validity, size_t validity_size, size_t validity_offset, vb_taken *taken);
VB_CHECKED vb_taken vb_take_values_u16_u16(uint16_t *out, size_t out_count, const uint16_t *values,
        size_t values_count, const uint16_t *indices, size_t indices_count, bool all_valid,
        const uint8_t *validity, size_t validity_size, size_t validity_offset);
VB_CHECKED bool vb_try_take_values_u16_u16(uint16_t *out, size_t out_count, const uint16_t *values,
        size_t values_count, const uint16_t *indices, size_t indices_count, bool all_valid,
        const uint8_t *validity, size_t validity_size, size_t validity_offset, vb_taken *taken);
VB_CHECKED vb_taken vb_take_values_u32_u16(uint32_t *out, size_t out_count, const uint32_t *values,
        size_t values_count, const uint16_t *indices, size_t indices_count, bool all_valid,
        const uint8_t *validity, size_t validity_size, size_t validity_offset);
VB_CHECKED bool vb_try_take_values_u32_u16(uint32_t *out, size_t out_count, const uint32_t *values,
        size_t values_count, const uint16_t *indices, size_t indices_count, bool all_valid,
        const uint8_t *validity, size_t validity_size, size_t validity_offset, vb_taken *taken);
VB_CHECKED vb_taken vb_take_values_u64_u16(uint64_t *out, size_t out_count, const uint64_t *values,
        size_t values_count, const uint16_t *indices, size_t indices_count, bool all_valid,
        const uint8_t *validity, size_t validity_size, size_t validity_offset);
VB_CHECKED bool vb_try_take_values_u64_u16(uint64_t *out, size_t out_count, const uint64_t *values,
        size_t values_count, const uint16_t *indices, size_t indices_count, bool all_valid,
        const uint8_t *validity, size_t validity_size, size_t validity_offset, vb_taken *taken);
VB_CHECKED vb_taken vb_take_values_u128_u16(vb_u128 *out, size_t out_count, const vb_u128 *values,
        size_t values_count, const uint16_t *indices, size_t indices_count, bool all_valid,
        const uint8_t *validity, size_t validity_size, size_t validity_offset);
VB_CHECKED bool vb_try_take_values_u128_u16(vb_u128 *out, size_t out_count, const vb_u128 *values,
        size_t values_count, const uint16_t *indices, size_t indices_count, bool all_valid,
        const uint8_t *validity, size_t validity_size, size_t validity_offset, vb_taken *taken);
VB_CHECKED vb_taken vb_take_values_u8_u32(uint8_t *out, size_t out_count, const uint8_t *values,
        size_t values_count, const uint32_t *indices, size_t indices_count, bool all_valid,
        const uint8_t *validity, size_t validity_size, size_t validity_offset);
VB_CHECKED bool vb_try_take_values_u8_u32(uint8_t *out, size_t out_count, const uint8_t *values,
        size_t values_count, const uint32_t *indices, size_t indices_count, bool all_valid,
        const uint8_t *validity, size_t validity_size, size_t validity_offset, vb_taken *taken);
VB_CHECKED vb_taken vb_take_values_u16_u32(uint16_t *out, size_t out_count, const uint16_t *values,
        size_t values_count, const uint32_t *indices, size_t indices_count, bool all_valid,
        const uint8_t *validity, size_t validity_size, size_t validity_offset);
VB_CHECKED bool vb_try_take_values_u16_u32(uint16_t *out, size_t out_count, const uint16_t *values,
        size_t values_count, const uint32_t *indices, size_t indices_count, bool all_valid,
        const uint8_t *validity, size_t validity_size, size_t validity_offset, vb_taken *taken);
VB_CHECKED vb_taken vb_take_values_u32_u32(uint32_t *out, size_t out_count, const uint32_t *values,
        size_t values_count, const uint32_t *indices, size_t indices_count, bool all_valid,
        const uint8_t *validity, size_t validity_size, size_t validity_offset);
VB_CHECKED bool vb_try_take_values_u32_u32(uint32_t *out, size_t out_count, const uint32_t *values,
        size_t values_count, const uint32_t *indices, size_t indices_count, bool all_valid,
        const uint8_t *validity, size_t validity_size, size_t validity_offset, vb_taken *taken);
VB_CHECKED vb_taken vb_take_values_u64_u32(uint64_t *out, size_t out_count, const uint64_t *values,
        size_t values_count, const uint32_t *indices, size_t indices_count, bool all_valid,
        const uint8_t *validity, size_t validity_size, size_t validity_offset);
VB_CHECKED bool vb_try_take_values_u64_u32(uint64_t *out, size_t out_count, const uint64_t *values,
        size_t values_count, const uint32_t *indices, size_t indices_count, bool all_valid,
        const uint8_t *validity, size_t validity_size, size_t validity_offset, vb_taken *taken);
VB_CHECKED vb_taken vb_take_values_u128_u32(vb_u128 *out, size_t out_count, const vb_u128 *values,
        size_t values_count, const uint32_t *indices, size_t indices_count, bool all_valid,
        const uint8_t *validity, size_t validity_size, size_t validity_offset);
VB_CHECKED bool vb_try_take_values_u128_u32(vb_u128 *out, size_t out_count, const vb_u128 *values,
        size_t values_count, const uint32_t *indices, size_t indices_count, bool all_valid,
        const uint8_t *validity, size_t validity_size, size_t validity_offset, vb_taken *taken);
VB_CHECKED vb_taken vb_take_values_u8_u64(uint8_t *out, size_t out_count, const uint8_t *values,
        size_t values_count, const uint64_t *indices, size_t indices_count, bool all_valid,
        const uint8_t *validity, size_t validity_size, size_t validity_offset);
VB_CHECKED bool vb_try_take_values_u8_u64(uint8_t *out, size_t out_count, const uint8_t *values,
        size_t values_count, const uint64_t *indices, size_t indices_count, bool all_valid,
        const uint8_t *validity, size_t validity_size, size_t validity_offset, vb_taken *taken);
VB_CHECKED vb_taken vb_take_values_u16_u64(uint16_t *out, size_t out_count, const uint16_t *values,
        size_t values_count, const uint64_t *indices, size_t indices_count, bool all_valid,
        const uint8_t *validity, size_t validity_size, size_t validity_offset);
VB_CHECKED bool vb_try_take_values_u16_u64(uint16_t *out, size_t out_count, const uint16_t *values,
        size_t values_count, const uint64_t *indices, size_t indices_count, bool all_valid,
        const uint8_t *validity, size_t validity_size, size_t validity_offset, vb_taken *taken);
VB_CHECKED vb_taken vb_take_values_u32_u64(uint32_t *out, size_t out_count, const uint32_t *values,
        size_t values_count, const uint64_t *indices, size_t indices_count, bool all_valid,
        const uint8_t *validity, size_t validity_size, size_t validity_offset);
VB_CHECKED bool vb_try_take_values_u32_u64(uint32_t *out, size_t out_count, const uint32_t *values,
        size_t values_count, const uint64_t *indices, size_t indices_count, bool all_valid,
        const uint8_t *validity, size_t validity_size, size_t validity_offset, vb_taken *taken);
VB_CHECKED vb_taken vb_take_values_u64_u64(uint64_t *out, size_t out_count, const uint64_t *values,
        size_t values_count, const uint64_t *indices, size_t indices_count, bool all_valid,
        const uint8_t *validity, size_t validity_size, size_t validity_offset);
VB_CHECKED bool vb_try_take_values_u64_u64(uint64_t *out, size_t out_count, const uint64_t *values,
        size_t values_count, const uint64_t *indices, size_t indices_count, bool all_valid,
        const uint8_t *validity, size_t validity_size, size_t validity_offset, vb_taken *taken);
VB_CHECKED vb_taken vb_take_values_u128_u64(vb_u128 *out, size_t out_count, const vb_u128 *values,
        size_t values_count, const uint64_t *indices, size_t indices_count, bool all_valid,
        const uint8_t *validity, size_t validity_size, size_t validity_offset);
VB_CHECKED bool vb_try_take_values_u128_u64(vb_u128 *out, size_t out_count, const vb_u128 *values,
        size_t values_count, const uint64_t *indices, size_t indices_count, bool all_valid,
        const uint8_t *validity, size_t validity_size, size_t validity_offset, vb_taken *taken);
/* To here. */

/*
 * Does the same for values of any type, by their size, as vb_filter_values, and by that of an
 * index: 1, 2, 4 or 8 bytes. With another size the plain form writes nothing and returns position
 * 0, even if there are no indices. The checked form returns false for such a size, and for a
 * pointer that isn't aligned so.
 *
 *     const float prices[] = {0.5f, 1.5f, 2.5f};
 *     const int32_t rows[] = {2, 0};
 *     float out[2];
 *     vb_taken taken = vb_take_values(out, 2, prices, 3, sizeof *prices, rows, 2, sizeof *rows,
 *         true, NULL, 0, 0);
 *     assert(!taken.out_of_range && out[0] == 2.5f);
 */
VB_CHECKED vb_taken vb_take_values(void *out, size_t out_count, const void *values,
        size_t values_count, size_t value_size, const void *indices, size_t indices_count,
        size_t index_size, bool all_valid, const uint8_t *validity, size_t validity_size,
        size_t validity_offset);
VB_CHECKED bool vb_try_take_values(void *out, size_t out_count, const void *values,
        size_t values_count, size_t value_size, const void *indices, size_t indices_count,
        size_t index_size, bool all_valid, const uint8_t *validity, size_t validity_size,
        size_t validity_offset, vb_taken *taken);

#ifdef __cplusplus
}
#endif

#endif
