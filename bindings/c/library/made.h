/*
 * The functions of vortex_bits.h that no level has. Each selects one of several functions, by the
 * size of a value or of an index or by which validities are missing, or passes bools as bytes, or
 * narrows the output of another function.
 */
#ifndef VORTEX_BITS_MADE_H
#define VORTEX_BITS_MADE_H

/*
 * Writes the runs of a window with indices of 32 bits, up to 64 runs at a time. Each search begins
 * at the end of the last run.
 */
size_t vb_set_slices_u32(vb_run_u32 *out, size_t out_count, const uint8_t *bytes, size_t size,
    size_t offset, size_t len)
{
    vb_run runs[64];
    const size_t all = sizeof runs / sizeof *runs;
    size_t written = 0, at = 0, most, found;
    do {
        most = out_count - written < all ? out_count - written : all;
        found = vb_set_slices(runs, most, bytes, size, offset + at, len - at);
        for (size_t k = 0; k < found; k++) {
            out[written + k].start = (uint32_t)(at + runs[k].start);
            out[written + k].end = (uint32_t)(at + runs[k].end);
        }
        written += found;
        at += found != 0 ? runs[found - 1].end : 0;
    } while (found == all && written < out_count);
    return written;
}

bool vb_try_set_slices_u32(vb_run_u32 *out, size_t out_count, const uint8_t *bytes, size_t size,
    size_t offset, size_t len, size_t *written)
{
    if (!MAY_HAVE(out, out_count) || !MAY_HAVE(bytes, size) || !fits(bytes, size, offset, len)
            || len > UINT32_MAX) {
        return false;
    }
    *written = vb_set_slices_u32(out, out_count, bytes, size, offset, len);
    return true;
}

/* Packs bools as bytes: a bool that is neither 0 nor 1 then changes no bit but its own. */
void vb_pack_bools(uint8_t *out, size_t out_size, size_t out_offset, const bool *bools,
    size_t bools_count)
{
    vb_pack_truthy(out, out_size, out_offset, (const uint8_t *)bools, bools_count);
}

bool vb_try_pack_bools(uint8_t *out, size_t out_size, size_t out_offset, const bool *bools,
    size_t bools_count)
{
    return vb_try_pack_truthy(out, out_size, out_offset, (const uint8_t *)bools, bools_count);
}

/* Bits are unpacked to bytes 0 and 1, which bools are too. */
void vb_unpack_bools(bool *out, size_t out_count, const uint8_t *bytes, size_t size, size_t offset,
    size_t len)
{
    vb_unpack_bytes((uint8_t *)out, out_count, bytes, size, offset, len);
}

bool vb_try_unpack_bools(bool *out, size_t out_count, const uint8_t *bytes, size_t size,
    size_t offset, size_t len)
{
    return vb_try_unpack_bytes((uint8_t *)out, out_count, bytes, size, offset, len);
}

/*
 * Returns whether a validity is missing: a null pointer of size 0. A null pointer of another size
 * is an error, which the called function rejects.
 */
static bool is_missing(const uint8_t *validity, size_t validity_size)
{
    return validity == NULL && validity_size == 0;
}

void vb_and_validities(uint8_t *out, size_t out_size, size_t out_offset, const uint8_t *left,
    size_t left_size, size_t left_offset, const uint8_t *right, size_t right_size,
    size_t right_offset, size_t len)
{
    if (!is_missing(left, left_size) && !is_missing(right, right_size)) {
        vb_and_into(out, out_size, out_offset, left, left_size, left_offset, right, right_size,
            right_offset, len);
    } else if (!is_missing(left, left_size)) {
        vb_copy_bits(out, out_size, out_offset, left, left_size, left_offset, len);
    } else if (!is_missing(right, right_size)) {
        vb_copy_bits(out, out_size, out_offset, right, right_size, right_offset, len);
    } else {
        vb_fill_bits(out, out_size, out_offset, len, true);
    }
}

bool vb_try_and_validities(uint8_t *out, size_t out_size, size_t out_offset, const uint8_t *left,
    size_t left_size, size_t left_offset, const uint8_t *right, size_t right_size,
    size_t right_offset, size_t len)
{
    if (!is_missing(left, left_size) && !is_missing(right, right_size)) {
        return vb_try_and_into(out, out_size, out_offset, left, left_size, left_offset, right,
            right_size, right_offset, len);
    }
    if (!is_missing(left, left_size)) {
        return vb_try_copy_bits(out, out_size, out_offset, left, left_size, left_offset, len);
    }
    if (!is_missing(right, right_size)) {
        return vb_try_copy_bits(out, out_size, out_offset, right, right_size, right_offset, len);
    }
    return vb_try_fill_bits(out, out_size, out_offset, len, true);
}

void vb_and_validity(uint8_t *dst, size_t dst_size, size_t dst_offset, const uint8_t *validity,
    size_t validity_size, size_t validity_offset, size_t len)
{
    if (!is_missing(validity, validity_size)) {
        vb_and_bits(dst, dst_size, dst_offset, validity, validity_size, validity_offset, len);
    }
}

/*
 * If the validity is missing, tests only the window of `dst`, by `fits`, which reads no bits.
 */
bool vb_try_and_validity(uint8_t *dst, size_t dst_size, size_t dst_offset, const uint8_t *validity,
    size_t validity_size, size_t validity_offset, size_t len)
{
    if (!is_missing(validity, validity_size)) {
        return vb_try_and_bits(dst, dst_size, dst_offset, validity, validity_size, validity_offset,
            len);
    }
    return MAY_HAVE(dst, dst_size) && fits(dst, dst_size, dst_offset, len);
}

size_t vb_count_valid(const uint8_t *left, size_t left_size, size_t left_offset,
    const uint8_t *right, size_t right_size, size_t right_offset, size_t len)
{
    if (!is_missing(left, left_size) && !is_missing(right, right_size)) {
        return vb_and_count(left, left_size, left_offset, right, right_size, right_offset, len);
    }
    if (!is_missing(left, left_size)) {
        return vb_count_ones(left, left_size, left_offset, len);
    }
    if (!is_missing(right, right_size)) {
        return vb_count_ones(right, right_size, right_offset, len);
    }
    return len;
}

bool vb_try_count_valid(const uint8_t *left, size_t left_size, size_t left_offset,
    const uint8_t *right, size_t right_size, size_t right_offset, size_t len, size_t *valid)
{
    if (!is_missing(left, left_size) && !is_missing(right, right_size)) {
        return vb_try_and_count(left, left_size, left_offset, right, right_size, right_offset, len,
            valid);
    }
    if (!is_missing(left, left_size)) {
        return vb_try_count_ones(left, left_size, left_offset, len, valid);
    }
    if (!is_missing(right, right_size)) {
        return vb_try_count_ones(right, right_size, right_offset, len, valid);
    }
    *valid = len;
    return true;
}

size_t vb_filter_validity(uint8_t *out, size_t out_size, size_t out_offset, const uint8_t *validity,
    size_t validity_size, size_t validity_offset, const uint8_t *mask, size_t mask_size,
    size_t mask_offset, size_t len)
{
    if (!is_missing(validity, validity_size)) {
        return vb_filter_bits(out, out_size, out_offset, validity, validity_size, validity_offset,
            mask, mask_size, mask_offset, len);
    }
    const size_t selected = vb_count_ones(mask, mask_size, mask_offset, len);
    vb_fill_bits(out, out_size, out_offset, selected, true);
    return selected;
}

bool vb_try_filter_validity(uint8_t *out, size_t out_size, size_t out_offset,
    const uint8_t *validity, size_t validity_size, size_t validity_offset, const uint8_t *mask,
    size_t mask_size, size_t mask_offset, size_t len, size_t *written)
{
    if (!is_missing(validity, validity_size)) {
        return vb_try_filter_bits(out, out_size, out_offset, validity, validity_size,
            validity_offset, mask, mask_size, mask_offset, len, written);
    }
    size_t selected;
    if (!vb_try_count_ones(mask, mask_size, mask_offset, len, &selected)
            || !vb_try_fill_bits(out, out_size, out_offset, selected, true)) {
        return false;
    }
    *written = selected;
    return true;
}

/* Returns whether there are functions for items of `size` bytes, and the items are aligned for
 * them. */
static bool is_laid(const void *items, size_t size, size_t most)
{
    const bool is_power = size != 0 && (size & (size - 1)) == 0;
    return is_power && size <= most && ((uintptr_t)items & (size - 1) & 7) == 0;
}

/* Written by tools/write-lists from tools/families/filter.txt. */
/* Each size of values, with the name and the type of these. */
#define EACH_VALUE(WIDTH)                                                                         \
    WIDTH(1, u8, uint8_t)                                                                         \
    WIDTH(2, u16, uint16_t)                                                                       \
    WIDTH(4, u32, uint32_t)                                                                       \
    WIDTH(8, u64, uint64_t)                                                                       \
    WIDTH(16, u128, vb_u128)
/* To here. */

/* Returns the result of the function for values of one size. */
#define OF_VALUES(name, V, ...)                                                                   \
    vb_##name((V *)out, out_count, (const V *)values, values_count, __VA_ARGS__)

size_t vb_filter_values(void *out, size_t out_count, const void *values, size_t values_count,
    size_t value_size, const uint8_t *mask, size_t mask_size, size_t mask_offset)
{
    switch (value_size) {
#define WIDTH(size, name, V)                                                                      \
    case size:                                                                                    \
        return OF_VALUES(filter_values_##name, V, mask, mask_size, mask_offset);
        EACH_VALUE(WIDTH)
#undef WIDTH
    default:
        __builtin_trap();
    }
}

bool vb_try_filter_values(void *out, size_t out_count, const void *values, size_t values_count,
    size_t value_size, const uint8_t *mask, size_t mask_size, size_t mask_offset, size_t *written)
{
    if (!is_laid(out, value_size, 16) || !is_laid(values, value_size, 16)) {
        return false;
    }
    switch (value_size) {
#define WIDTH(size, name, V)                                                                      \
    case size:                                                                                    \
        return OF_VALUES(try_filter_values_##name, V, mask, mask_size, mask_offset, written);
        EACH_VALUE(WIDTH)
#undef WIDTH
    default:
        return false;
    }
}

size_t vb_retain_values(void *values, size_t values_count, size_t value_size, const uint8_t *mask,
    size_t mask_size, size_t mask_offset)
{
    switch (value_size) {
#define WIDTH(size, name, V)                                                                      \
    case size:                                                                                    \
        return vb_retain_values_##name((V *)values, values_count, mask, mask_size, mask_offset);
        EACH_VALUE(WIDTH)
#undef WIDTH
    default:
        __builtin_trap();
    }
}

bool vb_try_retain_values(void *values, size_t values_count, size_t value_size,
    const uint8_t *mask, size_t mask_size, size_t mask_offset, size_t *written)
{
    if (!is_laid(values, value_size, 16)) {
        return false;
    }
    switch (value_size) {
#define WIDTH(size, name, V)                                                                      \
    case size:                                                                                    \
        return vb_try_retain_values_##name((V *)values, values_count, mask, mask_size,            \
            mask_offset, written);
        EACH_VALUE(WIDTH)
#undef WIDTH
    default:
        return false;
    }
}

size_t vb_scatter_values(void *out, size_t out_count, const void *values, size_t values_count,
    size_t value_size, const uint8_t *mask, size_t mask_size, size_t mask_offset)
{
    switch (value_size) {
#define WIDTH(size, name, V)                                                                      \
    case size:                                                                                    \
        return OF_VALUES(scatter_values_##name, V, mask, mask_size, mask_offset);
        EACH_VALUE(WIDTH)
#undef WIDTH
    default:
        __builtin_trap();
    }
}

bool vb_try_scatter_values(void *out, size_t out_count, const void *values, size_t values_count,
    size_t value_size, const uint8_t *mask, size_t mask_size, size_t mask_offset, size_t *written)
{
    if (!is_laid(out, value_size, 16) || !is_laid(values, value_size, 16)) {
        return false;
    }
    switch (value_size) {
#define WIDTH(size, name, V)                                                                      \
    case size:                                                                                    \
        return OF_VALUES(try_scatter_values_##name, V, mask, mask_size, mask_offset, written);
        EACH_VALUE(WIDTH)
#undef WIDTH
    default:
        return false;
    }
}

/* Encodes the sizes of a value and of an index as one number. The function returns 0 if a size is
 * too large. */
#define PAIR(value_size, index_size) (16 * (value_size) + (index_size))
static size_t pair(size_t value_size, size_t index_size)
{
    return value_size <= 16 && index_size <= 8 ? PAIR(value_size, index_size) : 0;
}

/* Written by tools/write-lists from tools/families/take_values.txt. */
/* Each size of values, and of indices, with their names and types. */
#define EACH_PAIR(WIDTH)                                                                          \
    WIDTH(1, u8, uint8_t, 1, u8, uint8_t)                                                         \
    WIDTH(2, u16, uint16_t, 1, u8, uint8_t)                                                       \
    WIDTH(4, u32, uint32_t, 1, u8, uint8_t)                                                       \
    WIDTH(8, u64, uint64_t, 1, u8, uint8_t)                                                       \
    WIDTH(16, u128, vb_u128, 1, u8, uint8_t)                                                      \
    WIDTH(1, u8, uint8_t, 2, u16, uint16_t)                                                       \
    WIDTH(2, u16, uint16_t, 2, u16, uint16_t)                                                     \
    WIDTH(4, u32, uint32_t, 2, u16, uint16_t)                                                     \
    WIDTH(8, u64, uint64_t, 2, u16, uint16_t)                                                     \
    WIDTH(16, u128, vb_u128, 2, u16, uint16_t)                                                    \
    WIDTH(1, u8, uint8_t, 4, u32, uint32_t)                                                       \
    WIDTH(2, u16, uint16_t, 4, u32, uint32_t)                                                     \
    WIDTH(4, u32, uint32_t, 4, u32, uint32_t)                                                     \
    WIDTH(8, u64, uint64_t, 4, u32, uint32_t)                                                     \
    WIDTH(16, u128, vb_u128, 4, u32, uint32_t)                                                    \
    WIDTH(1, u8, uint8_t, 8, u64, uint64_t)                                                       \
    WIDTH(2, u16, uint16_t, 8, u64, uint64_t)                                                     \
    WIDTH(4, u32, uint32_t, 8, u64, uint64_t)                                                     \
    WIDTH(8, u64, uint64_t, 8, u64, uint64_t)                                                     \
    WIDTH(16, u128, vb_u128, 8, u64, uint64_t)
/* To here. */

vb_taken vb_take_values(void *out, size_t out_count, const void *values, size_t values_count,
    size_t value_size, const void *indices, size_t indices_count, size_t index_size, bool all_valid,
    const uint8_t *validity, size_t validity_size, size_t validity_offset)
{
    switch (pair(value_size, index_size)) {
#define WIDTH(size, name, V, wide, index, I)                                                      \
    case PAIR(size, wide):                                                                        \
        return OF_VALUES(take_values_##name##_##index, V, (const I *)indices, indices_count,      \
            all_valid, validity, validity_size, validity_offset);
        EACH_PAIR(WIDTH)
#undef WIDTH
    default:
        return (vb_taken){true, 0};
    }
}

bool vb_try_take_values(void *out, size_t out_count, const void *values, size_t values_count,
    size_t value_size, const void *indices, size_t indices_count, size_t index_size, bool all_valid,
    const uint8_t *validity, size_t validity_size, size_t validity_offset, vb_taken *taken)
{
    if (!is_laid(out, value_size, 16) || !is_laid(values, value_size, 16)
            || !is_laid(indices, index_size, 8)) {
        return false;
    }
    switch (pair(value_size, index_size)) {
#define WIDTH(size, name, V, wide, index, I)                                                      \
    case PAIR(size, wide):                                                                        \
        return OF_VALUES(try_take_values_##name##_##index, V, (const I *)indices, indices_count,  \
            all_valid, validity, validity_size, validity_offset, taken);
        EACH_PAIR(WIDTH)
#undef WIDTH
    default:
        return false;
    }
}

#endif
