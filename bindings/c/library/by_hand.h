/*
 * The functions of vortex_bits.h that do more than call the function of a level.
 *
 * The walks process a window page by page if the output may be too small. The functions of a level
 * skip four words of zeros at once. These words may be on two pages of memory, so a call could read
 * past the page of the last item that fits in the output.
 */
#ifndef VORTEX_BITS_BY_HAND_H
#define VORTEX_BITS_BY_HAND_H

/* The size of a page of memory in bytes, or of a part of a page. */
enum { PAGE = 4096 };

/* Returns how many of the `len` bits from bit `start` on are before the end of its page. */
static size_t in_page(const uint8_t *bytes, size_t start, size_t len)
{
    const size_t left = 8 * (PAGE - (uintptr_t)(bytes + start / 8) % PAGE) - start % 8;
    return left < len ? left : len;
}

/* Returns the number of bytes that have the bits before bit `end`. */
static size_t bytes_of(size_t end)
{
    return end / 8 + (end % 8 != 0);
}

/* Returns whether the window is in bounds: a checked search from its end tests that, and reads no
 * bit. */
static bool fits(const uint8_t *bytes, size_t size, size_t offset, size_t len)
{
    vb_place place;
    return CALL(try_next_set)(ANY(bytes, size), offset, len, len, &place);
}

/* Writes the indices of a window page by page, by the function `find` of a level. */
#define PLACES(find, type)                                                                        \
    (void)size;                                                                                   \
    if (out_count >= len) {                                                                       \
        const size_t end = bytes_of(offset + len);                                                \
        return CALL(find)(ANY(out, out_count), ANY(bytes, end), offset, len);                     \
    }                                                                                             \
    size_t written = 0;                                                                           \
    for (size_t at = 0, n; at < len && written < out_count; at += n) {                            \
        const size_t start = offset + at;                                                         \
        n = in_page(bytes, start, len - at);                                                      \
        const size_t found = CALL(find)(out + written, out_count - written, bytes,                \
            bytes_of(start + n), start, n);                                                       \
        for (size_t k = 0; at != 0 && k < found; k++) {                                           \
            out[written + k] += (type)at;                                                         \
        }                                                                                         \
        written += found;                                                                         \
    }                                                                                             \
    return written;

size_t vb_set_indices(size_t *out, size_t out_count, const uint8_t *bytes, size_t size,
    size_t offset, size_t len)
{
    PLACES(set_indices, size_t)
}

size_t vb_set_indices_u32(uint32_t *out, size_t out_count, const uint8_t *bytes, size_t size,
    size_t offset, size_t len)
{
    PLACES(set_indices_u32, uint32_t)
}

bool vb_try_set_indices(size_t *out, size_t out_count, const uint8_t *bytes, size_t size,
    size_t offset, size_t len, size_t *written)
{
    if (!MAY_HAVE(out, out_count) || !MAY_HAVE(bytes, size) || !fits(bytes, size, offset, len)) {
        return false;
    }
    *written = vb_set_indices(out, out_count, bytes, size, offset, len);
    return true;
}

bool vb_try_set_indices_u32(uint32_t *out, size_t out_count, const uint8_t *bytes, size_t size,
    size_t offset, size_t len, size_t *written)
{
    if (!MAY_HAVE(out, out_count) || !MAY_HAVE(bytes, size) || !fits(bytes, size, offset, len)
            || len > (size_t)UINT32_MAX + 1) {
        return false;
    }
    *written = vb_set_indices_u32(out, out_count, bytes, size, offset, len);
    return true;
}

/* Returns the end of a run of set bits that contains index `at` of a window or ends there. */
static size_t run_end(const uint8_t *bytes, size_t offset, size_t at, size_t len)
{
    for (size_t n; at < len; at += n) {
        const size_t start = offset + at;
        n = in_page(bytes, start, len - at);
        const vb_place behind = CALL(select_unset)(bytes, bytes_of(start + n), start, n, 0);
        if (behind.found) {
            return at + behind.index;
        }
    }
    return len;
}

size_t vb_set_slices(vb_run *out, size_t out_count, const uint8_t *bytes, size_t size,
    size_t offset, size_t len)
{
    (void)size;
    /* A window of len bits has at most this number of runs. */
    if (out_count >= len - len / 2) {
        const size_t end = bytes_of(offset + len);
        return CALL(set_slices)(ANY(out, out_count), ANY(bytes, end), offset, len);
    }
    size_t written = 0, at = 0;
    while (at < len && written < out_count) {
        const size_t start = offset + at, n = in_page(bytes, start, len - at);
        const size_t found = CALL(set_slices)(out + written, out_count - written, bytes,
            bytes_of(start + n), start, n);
        for (size_t k = 0; at != 0 && k < found; k++) {
            out[written + k].start += at;
            out[written + k].end += at;
        }
        written += found;
        at += n;
        if (found != 0 && out[written - 1].end == at) {
            at = run_end(bytes, offset, at, len);
            out[written - 1].end = at;
        }
    }
    return written;
}

bool vb_try_set_slices(vb_run *out, size_t out_count, const uint8_t *bytes, size_t size,
    size_t offset, size_t len, size_t *written)
{
    if (!MAY_HAVE(out, out_count) || !MAY_HAVE(bytes, size) || !fits(bytes, size, offset, len)) {
        return false;
    }
    *written = vb_set_slices(out, out_count, bytes, size, offset, len);
    return true;
}

/* Packs bools as bytes: a bool that is neither 0 nor 1 then changes no bit but its own. */
void vb_pack_bools_padded(uint8_t *out, size_t out_size, const bool *bools, size_t bools_count)
{
    vb_pack_truthy_padded(out, out_size, (const uint8_t *)bools, bools_count);
}

bool vb_try_pack_bools_padded(uint8_t *out, size_t out_size, const bool *bools, size_t bools_count)
{
    return vb_try_pack_truthy_padded(out, out_size, (const uint8_t *)bools, bools_count);
}

#endif
