/*
 * Bits built from other bits: two windows or validities combined into a third one, packed truth
 * values, bits at indices (take, gather), bits that a mask selects (filter) and their inverse
 * (deposit), and `and` and `or` of truth values that may be null. Also bits unpacked to bools and
 * bytes. vortex_bits.h includes this file; its first comment states what the caller must ensure for
 * every call.
 *
 * The calls write to any window of `out` and leave its other bits unchanged, so the results of
 * batches can be written one after the other. Those that end in _padded write whole bytes, and
 * those that unpack write bools or bytes.
 */
#ifndef VORTEX_BITS_GATHER_H
#define VORTEX_BITS_GATHER_H

#include "vortex_bits.h"

#ifdef __cplusplus
extern "C" {
#endif

/*
 * Sets bit `out_offset + k` of `out`, for each k below `len`, to true if bit `left_offset + k` of
 * `left` and bit `right_offset + k` of `right` are true, else to false. `left` and `right` may
 * overlap.
 *
 *     uint8_t out[] = {0xFF};
 *     const uint8_t left[] = {0x0C}, right[] = {0x0A};
 *     vb_and_into(out, 1, 2, left, 1, 0, right, 1, 0, 4);
 *     assert(out[0] == 0xE3);
 */
void vb_and_into(uint8_t *out, size_t out_size, size_t out_offset, const uint8_t *left,
        size_t left_size, size_t left_offset, const uint8_t *right, size_t right_size,
        size_t right_offset, size_t len);
VB_CHECKED bool vb_try_and_into(uint8_t *out, size_t out_size, size_t out_offset,
        const uint8_t *left, size_t left_size, size_t left_offset, const uint8_t *right,
        size_t right_size, size_t right_offset, size_t len);

/*
 * Does the same for `or`: true if one of the two bits is true, or both are.
 *
 *     uint8_t out[] = {0};
 *     const uint8_t left[] = {0x0C}, right[] = {0x0A};
 *     vb_or_into(out, 1, 0, left, 1, 0, right, 1, 0, 4);
 *     assert(out[0] == 0x0E);
 */
void vb_or_into(uint8_t *out, size_t out_size, size_t out_offset, const uint8_t *left,
        size_t left_size, size_t left_offset, const uint8_t *right, size_t right_size,
        size_t right_offset, size_t len);
VB_CHECKED bool vb_try_or_into(uint8_t *out, size_t out_size, size_t out_offset,
        const uint8_t *left, size_t left_size, size_t left_offset, const uint8_t *right,
        size_t right_size, size_t right_offset, size_t len);

/*
 * Does the same for `xor`: true if one of the two bits is true, and not both.
 *
 *     uint8_t out[] = {0};
 *     const uint8_t left[] = {0x0C}, right[] = {0x0A};
 *     vb_xor_into(out, 1, 0, left, 1, 0, right, 1, 0, 4);
 *     assert(out[0] == 0x06);
 */
void vb_xor_into(uint8_t *out, size_t out_size, size_t out_offset, const uint8_t *left,
        size_t left_size, size_t left_offset, const uint8_t *right, size_t right_size,
        size_t right_offset, size_t len);
VB_CHECKED bool vb_try_xor_into(uint8_t *out, size_t out_size, size_t out_offset,
        const uint8_t *left, size_t left_size, size_t left_offset, const uint8_t *right,
        size_t right_size, size_t right_offset, size_t len);

/*
 * Does the same for `and_not`: true if the bit of `left` is true and that of `right` is false.
 *
 *     uint8_t out[] = {0};
 *     const uint8_t left[] = {0x0C}, right[] = {0x0A};
 *     vb_and_not_into(out, 1, 0, left, 1, 0, right, 1, 0, 4);
 *     assert(out[0] == 0x04);
 */
void vb_and_not_into(uint8_t *out, size_t out_size, size_t out_offset, const uint8_t *left,
        size_t left_size, size_t left_offset, const uint8_t *right, size_t right_size,
        size_t right_offset, size_t len);
VB_CHECKED bool vb_try_and_not_into(uint8_t *out, size_t out_size, size_t out_offset,
        const uint8_t *left, size_t left_size, size_t left_offset, const uint8_t *right,
        size_t right_size, size_t right_offset, size_t len);

/*
 * Sets bit `out_offset + k` of `out`, for each k below `len`, to whether row k is valid in both of
 * two columns: to `and` of bit `left_offset + k` of `left` and bit `right_offset + k` of `right`. A
 * null pointer of size 0 is a missing validity: each row is valid in that column, and its offset is
 * ignored. So with one validity that may be missing, and NULL, 0, 0 for the other one, this also
 * makes a mask for any other call.
 *
 *     uint8_t out[] = {0};
 *     const uint8_t valid[] = {0xEC};
 *     vb_and_validities(out, 1, 0, valid, 1, 2, NULL, 0, 0, 4);
 *     assert(out[0] == 0x0B);
 *     vb_and_validities(out, 1, 0, NULL, 0, 0, NULL, 0, 0, 4);
 *     assert(out[0] == 0x0F);
 *     assert(!vb_try_and_validities(out, 1, 0, NULL, 1, 0, valid, 1, 2, 4));
 */
void vb_and_validities(uint8_t *out, size_t out_size, size_t out_offset, const uint8_t *left,
        size_t left_size, size_t left_offset, const uint8_t *right, size_t right_size,
        size_t right_offset, size_t len);
VB_CHECKED bool vb_try_and_validities(uint8_t *out, size_t out_size, size_t out_offset,
        const uint8_t *left, size_t left_size, size_t left_offset, const uint8_t *right,
        size_t right_size, size_t right_offset, size_t len);

/*
 * Sets each of the `len` bits of `dst` from bit `dst_offset` on to false if its row isn't valid:
 * does vb_and_bits with a validity. A missing validity changes nothing.
 *
 *     uint8_t mask[] = {0x06};
 *     const uint8_t valid[] = {0xEC};
 *     vb_and_validity(mask, 1, 0, valid, 1, 2, 4);
 *     vb_and_validity(mask, 1, 0, NULL, 0, 0, 4);
 *     assert(mask[0] == 0x02);
 */
void vb_and_validity(uint8_t *dst, size_t dst_size, size_t dst_offset, const uint8_t *validity,
        size_t validity_size, size_t validity_offset, size_t len);
VB_CHECKED bool vb_try_and_validity(uint8_t *dst, size_t dst_size, size_t dst_offset,
        const uint8_t *validity, size_t validity_size, size_t validity_offset, size_t len);

/*
 * Returns the number of rows that are valid in both of two columns (`valid`). Each validity may be
 * missing: if one is NULL, 0, 0, this is the number of valid rows of the other column.
 *
 *     const uint8_t valid[] = {0xEC};
 *     assert(vb_count_valid(valid, 1, 2, NULL, 0, 0, 4) == 3);
 *     assert(vb_count_valid(NULL, 0, 0, NULL, 0, 0, 4) == 4);
 */
size_t vb_count_valid(const uint8_t *left, size_t left_size, size_t left_offset,
        const uint8_t *right, size_t right_size, size_t right_offset, size_t len);
VB_CHECKED bool vb_try_count_valid(const uint8_t *left, size_t left_size, size_t left_offset,
        const uint8_t *right, size_t right_size, size_t right_offset, size_t len, size_t *valid);

/*
 * Packs truth values into the bits of `out` from bit `out_offset` on, one bit per value. The bits
 * must be in `out`; every other bit is unchanged. Processes 64 values at a time, by vectors. A
 * `bool` is a byte 0 or 1, as the compiler makes it: another one, written through a pointer, counts
 * as true.
 *
 *     uint8_t out[] = {0xFF};
 *     vb_pack_bools(out, 1, 3, (const bool[]){true, false, true}, 3);
 *     assert(out[0] == 0xEF);
 */
void vb_pack_bools(uint8_t *out, size_t out_size, size_t out_offset, const bool *bools,
        size_t bools_count);
VB_CHECKED bool vb_try_pack_bools(uint8_t *out, size_t out_size, size_t out_offset,
        const bool *bools, size_t bools_count);

/*
 * Does the same for bytes, each of which is true if it is not 0.
 *
 *     uint8_t out[] = {0xFF};
 *     const uint8_t truthy[] = {7, 0, 255};
 *     vb_pack_truthy(out, 1, 3, truthy, 3);
 *     assert(out[0] == 0xEF);
 */
void vb_pack_truthy(uint8_t *out, size_t out_size, size_t out_offset, const uint8_t *truthy,
        size_t truthy_count);
VB_CHECKED bool vb_try_pack_truthy(uint8_t *out, size_t out_size, size_t out_offset,
        const uint8_t *truthy, size_t truthy_count);

/*
 * Does the same into the first bytes of `out`, eight values into each; `out` must have a bit for
 * each value, which the checked form tests. The remaining bits of the last byte written are false,
 * and later bytes are unchanged.
 *
 *     uint8_t out[] = {0xFF};
 *     const uint8_t truthy[] = {7, 0, 255};
 *     vb_pack_truthy_padded(out, 1, truthy, 3);
 *     assert(out[0] == 0x05);
 *     vb_pack_bools_padded(out, 1, (const bool[]){false, true}, 2);
 *     assert(out[0] == 0x02);
 */
void vb_pack_bools_padded(uint8_t *out, size_t out_size, const bool *bools, size_t bools_count);
VB_CHECKED bool vb_try_pack_bools_padded(uint8_t *out, size_t out_size, const bool *bools,
        size_t bools_count);
void vb_pack_truthy_padded(uint8_t *out, size_t out_size, const uint8_t *truthy,
        size_t truthy_count);
VB_CHECKED bool vb_try_pack_truthy_padded(uint8_t *out, size_t out_size, const uint8_t *truthy,
        size_t truthy_count);

/*
 * Unpacks bits: writes each bit of the window, as a `bool` or as a byte 0 or 1, to the front of
 * `out`. `out_count`, the capacity of `out`, must be at least `len`; the checked form tests it too.
 * Items of `out` after the first `len` are unchanged. Processes 64 bits at a time, by vectors.
 *
 *     const uint8_t rows[] = {0xE8};
 *     bool bools[4];
 *     uint8_t bytes[4];
 *     vb_unpack_bools(bools, 4, rows, 1, 3, 4);
 *     vb_unpack_bytes(bytes, 4, rows, 1, 3, 4);
 *     assert(bools[0] && !bools[1] && bools[2] && bools[3] && bytes[1] == 0 && bytes[3] == 1);
 */
void vb_unpack_bools(bool *out, size_t out_count, const uint8_t *bytes, size_t size, size_t offset,
        size_t len);
VB_CHECKED bool vb_try_unpack_bools(bool *out, size_t out_count, const uint8_t *bytes, size_t size,
        size_t offset, size_t len);
void vb_unpack_bytes(uint8_t *out, size_t out_count, const uint8_t *bytes, size_t size,
        size_t offset, size_t len);
VB_CHECKED bool vb_try_unpack_bytes(uint8_t *out, size_t out_count, const uint8_t *bytes,
        size_t size, size_t offset, size_t len);

/*
 * Takes (gathers) bits: writes the bits of the window at the indices to the bits of `out` from bit
 * `out_offset` on, one for each index. If `all_valid` is true, each position counts, and the
 * validity may be a null pointer of size 0. Else a position counts if its bit of `validity`, from
 * bit `validity_offset` on, is true; the others get false, and their indices are ignored. Returns
 * the first position that counts and whose index is out of range (not below `len`), if there is
 * one; the checked form writes it to `taken`. Every other bit of `out` is unchanged. If a position
 * is returned, the bits of `out` for all indices are unspecified. Processes 64 indices at a time,
 * or single indices if the window has 2^32 - 9 bits or more.
 *
 * With the codes of rows as indices into a selection of keys, one call is a whole semi-join.
 *
 * Signed indices can be cast, if `len` is at most the number of indices that the type can
 * represent, as in vortex_bits_values.h.
 *
 *     uint8_t out[] = {0xFF};
 *     const uint8_t bits[] = {0x12}, indices[] = {4, 0, 1};
 *     vb_taken taken = vb_take_bits_u8(out, 1, 4, bits, 1, 0, 5, indices, 3, true, NULL, 0, 0);
 *     assert(!taken.out_of_range && out[0] == 0xDF);
 *     taken = vb_take_bits_u8(out, 1, 4, bits, 1, 0, 4, indices, 3, true, NULL, 0, 0);
 *     assert(taken.out_of_range && taken.position == 0);    // index 4 of four bits
 */
/* Written by tools/write-lists from tools/families/take_bits.txt. */
VB_CHECKED vb_taken vb_take_bits_u8(uint8_t *out, size_t out_size, size_t out_offset,
        const uint8_t *bytes, size_t size, size_t offset, size_t len, const uint8_t *indices,
        size_t indices_count, bool all_valid, const uint8_t *validity, size_t validity_size,
        size_t validity_offset);
VB_CHECKED bool vb_try_take_bits_u8(uint8_t *out, size_t out_size, size_t out_offset,
        const uint8_t *bytes, size_t size, size_t offset, size_t len, const uint8_t *indices,
        size_t indices_count, bool all_valid, const uint8_t *validity, size_t validity_size,
        size_t validity_offset, vb_taken *taken);
VB_CHECKED vb_taken vb_take_bits_u16(uint8_t *out, size_t out_size, size_t out_offset,
        const uint8_t *bytes, size_t size, size_t offset, size_t len, const uint16_t *indices,
        size_t indices_count, bool all_valid, const uint8_t *validity, size_t validity_size,
        size_t validity_offset);
VB_CHECKED bool vb_try_take_bits_u16(uint8_t *out, size_t out_size, size_t out_offset,
        const uint8_t *bytes, size_t size, size_t offset, size_t len, const uint16_t *indices,
        size_t indices_count, bool all_valid, const uint8_t *validity, size_t validity_size,
        size_t validity_offset, vb_taken *taken);
VB_CHECKED vb_taken vb_take_bits_u32(uint8_t *out, size_t out_size, size_t out_offset,
        const uint8_t *bytes, size_t size, size_t offset, size_t len, const uint32_t *indices,
        size_t indices_count, bool all_valid, const uint8_t *validity, size_t validity_size,
        size_t validity_offset);
VB_CHECKED bool vb_try_take_bits_u32(uint8_t *out, size_t out_size, size_t out_offset,
        const uint8_t *bytes, size_t size, size_t offset, size_t len, const uint32_t *indices,
        size_t indices_count, bool all_valid, const uint8_t *validity, size_t validity_size,
        size_t validity_offset, vb_taken *taken);
VB_CHECKED vb_taken vb_take_bits_u64(uint8_t *out, size_t out_size, size_t out_offset,
        const uint8_t *bytes, size_t size, size_t offset, size_t len, const uint64_t *indices,
        size_t indices_count, bool all_valid, const uint8_t *validity, size_t validity_size,
        size_t validity_offset);
VB_CHECKED bool vb_try_take_bits_u64(uint8_t *out, size_t out_size, size_t out_offset,
        const uint8_t *bytes, size_t size, size_t offset, size_t len, const uint64_t *indices,
        size_t indices_count, bool all_valid, const uint8_t *validity, size_t validity_size,
        size_t validity_offset, vb_taken *taken);
/* To here. */

/*
 * Filters bits: writes the bits that the mask selects to the bits of `out` from bit `out_offset`
 * on, in order. One of the `len` bits of `bytes` from bit `offset` on is selected if its bit of
 * `mask`, from bit `mask_offset` on, is true. The bits to write must be in `out`; the checked form
 * tests that too. Returns their number (`written`). Every other bit of `out` is unchanged.
 * Processes 64 bits at a time.
 *
 *     uint8_t out[] = {0xFF};
 *     const uint8_t bits[] = {0x76}, mask[] = {0x4B};
 *     assert(vb_filter_bits(out, 1, 3, bits, 1, 0, mask, 1, 0, 7) == 4 && out[0] == 0xD7);
 */
size_t vb_filter_bits(uint8_t *out, size_t out_size, size_t out_offset, const uint8_t *bytes,
        size_t size, size_t offset, const uint8_t *mask, size_t mask_size, size_t mask_offset,
        size_t len);
VB_CHECKED bool vb_try_filter_bits(uint8_t *out, size_t out_size, size_t out_offset,
        const uint8_t *bytes, size_t size, size_t offset, const uint8_t *mask, size_t mask_size,
        size_t mask_offset, size_t len, size_t *written);

/*
 * Does the same with a validity that may be missing: if it is, writes true for each row that the
 * mask selects.
 *
 *     uint8_t out[] = {0xC0};
 *     const uint8_t mask[] = {0x4B};
 *     assert(vb_filter_validity(out, 1, 2, NULL, 0, 0, mask, 1, 0, 7) == 4 && out[0] == 0xFC);
 */
size_t vb_filter_validity(uint8_t *out, size_t out_size, size_t out_offset, const uint8_t *validity,
        size_t validity_size, size_t validity_offset, const uint8_t *mask, size_t mask_size,
        size_t mask_offset, size_t len);
VB_CHECKED bool vb_try_filter_validity(uint8_t *out, size_t out_size, size_t out_offset,
        const uint8_t *validity, size_t validity_size, size_t validity_offset, const uint8_t *mask,
        size_t mask_size, size_t mask_offset, size_t len, size_t *written);

/*
 * Deposits bits, the inverse of vb_filter_bits for the bits that the mask selects: writes `len`
 * bits to `out` from bit `out_offset` on. They are the bits of `bytes` from bit `offset` on, in
 * order, where the bit of `mask` from bit `mask_offset` on is true, and false elsewhere. `bytes`
 * must have a bit for each set bit of the mask, which the checked form counts. Every other bit of
 * `out` is unchanged.
 *
 *     uint8_t out[] = {0};
 *     const uint8_t bits[] = {0x0A}, mask[] = {0x4B};
 *     vb_deposit_bits(out, 1, 0, bits, 1, 0, mask, 1, 0, 7);
 *     assert(out[0] == 0x42);
 */
void vb_deposit_bits(uint8_t *out, size_t out_size, size_t out_offset, const uint8_t *bytes,
        size_t size, size_t offset, const uint8_t *mask, size_t mask_size, size_t mask_offset,
        size_t len);
VB_CHECKED bool vb_try_deposit_bits(uint8_t *out, size_t out_size, size_t out_offset,
        const uint8_t *bytes, size_t size, size_t offset, const uint8_t *mask, size_t mask_size,
        size_t mask_offset, size_t len);

/*
 * Writes `left and right`, or `left or right`, of `len` truth values that may be null, by
 * three-valued logic, Kleene's, as in SQL: `and` is false if one of the two is false, and `or` is
 * true if one is true, even if the other one is null. Else the result is null if one of the two is
 * null. The bits of `trues` from bit `trues_offset` on say which results are true (false at nulls);
 * those of `valid` from bit `valid_offset` on say which are not null. Every other bit of both is
 * unchanged.
 *
 * The values are the bits of `left` from bit `left_offset` on, and of `right` from `right_offset`
 * on. If `left_all_valid` is true, none of `left` is null, and its validity may be a null pointer
 * of size 0. Else a value is null if its bit of `left_validity`, from bit `left_validity_offset`
 * on, is false, whatever the value is. The same holds for the right side. `not` needs no separate
 * call: negate the values by vb_negate_bits, and keep the validity. The negated values may be true
 * at nulls: before they select rows, combine them with the validity by vb_and_bits.
 *
 *     // True, true, false and null, with true, false, true and false.
 *     uint8_t trues[] = {0}, valid[] = {0};
 *     const uint8_t left[] = {0x03}, left_valid[] = {0x07}, right[] = {0x05};
 *     vb_and_kleene(trues, 1, 0, valid, 1, 0, left, 1, 0, false, left_valid, 1, 0, right, 1, 0,
 *         true, NULL, 0, 0, 4);
 *     assert(trues[0] == 0x01 && valid[0] == 0x0F);
 *     vb_or_kleene(trues, 1, 0, valid, 1, 0, left, 1, 0, false, left_valid, 1, 0, right, 1, 0,
 *         true, NULL, 0, 0, 4);
 *     assert(trues[0] == 0x07 && valid[0] == 0x07);
 */
/* Written by tools/write-lists from tools/families/kleene.txt. */
void vb_and_kleene(uint8_t *trues, size_t trues_size, size_t trues_offset, uint8_t *valid,
        size_t valid_size, size_t valid_offset, const uint8_t *left, size_t left_size,
        size_t left_offset, bool left_all_valid, const uint8_t *left_validity,
        size_t left_validity_size, size_t left_validity_offset, const uint8_t *right,
        size_t right_size, size_t right_offset, bool right_all_valid, const uint8_t *right_validity,
        size_t right_validity_size, size_t right_validity_offset, size_t len);
VB_CHECKED bool vb_try_and_kleene(uint8_t *trues, size_t trues_size, size_t trues_offset,
        uint8_t *valid, size_t valid_size, size_t valid_offset, const uint8_t *left,
        size_t left_size, size_t left_offset, bool left_all_valid, const uint8_t *left_validity,
        size_t left_validity_size, size_t left_validity_offset, const uint8_t *right,
        size_t right_size, size_t right_offset, bool right_all_valid, const uint8_t *right_validity,
        size_t right_validity_size, size_t right_validity_offset, size_t len);
void vb_or_kleene(uint8_t *trues, size_t trues_size, size_t trues_offset, uint8_t *valid,
        size_t valid_size, size_t valid_offset, const uint8_t *left, size_t left_size,
        size_t left_offset, bool left_all_valid, const uint8_t *left_validity,
        size_t left_validity_size, size_t left_validity_offset, const uint8_t *right,
        size_t right_size, size_t right_offset, bool right_all_valid, const uint8_t *right_validity,
        size_t right_validity_size, size_t right_validity_offset, size_t len);
VB_CHECKED bool vb_try_or_kleene(uint8_t *trues, size_t trues_size, size_t trues_offset,
        uint8_t *valid, size_t valid_size, size_t valid_offset, const uint8_t *left,
        size_t left_size, size_t left_offset, bool left_all_valid, const uint8_t *left_validity,
        size_t left_validity_size, size_t left_validity_offset, const uint8_t *right,
        size_t right_size, size_t right_offset, bool right_all_valid, const uint8_t *right_validity,
        size_t right_validity_size, size_t right_validity_offset, size_t len);
/* To here. */

#ifdef __cplusplus
}
#endif

#endif
