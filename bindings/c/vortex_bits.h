/*
 * Functions over windows of bits in the caller's bytes, proved to meet their definitions: count,
 * search, compare, fill, copy, combine, pack, unpack, take (gather), filter, scatter, walk, rank.
 *
 *     cc -O2 app.c -I DIST/include DIST/lib/libvortex_bits.a
 *     cc -O2 app.c $(pkg-config --cflags --libs vortex_bits-static)
 *     cc -O2 app.c $(pkg-config --cflags --libs vortex_bits) -Wl,-rpath,DIST/lib
 *
 * DIST is an unpacked release. The last command links the shared library. In a checkout this file
 * is in bindings/c, and `bindings/build x86-64-v2 x86-64-v3` writes the libraries to bindings/out.
 * This file includes vortex_bits_gather.h (bits built from other bits), vortex_bits_ranks.h (ranks
 * over a table of counts), vortex_bits_values.h, vortex_bits_compare.h and vortex_bits_aggregate.h
 * (values). vortex_bits.hpp has C++ classes.
 *
 * libvortex_bits.a and libvortex_bits.so have code for x86-64-v2 and for x86-64-v3, and run the
 * higher one that the processor has. libvortex_bits_x86-64-v2.a and libvortex_bits_x86-64-v3.a have
 * one of them. A processor without the level raises SIGILL (illegal instruction); vb_has_level
 * reports whether it has it. The archives' symbols are hidden: a shared library linked with one
 * exports none.
 *
 * Bit i of some bytes is bit i % 8 of byte i / 8, least significant first. A window is the `len`
 * bits starting at bit `offset`. No result depends on a bit outside the windows that a call names,
 * and no such bit changes, except by calls that end in _padded. Lengths, offsets and indices of
 * bits are in bits; indices of values, and codes, count items. A number whose name ends in `size`
 * is in bytes, and one whose name ends in `count` is in items.
 *
 * A call may load any of the `size` bytes that it is given to read. In a window that it writes, it
 * loads and stores only the bytes that have a bit of the window; the other bits of the first and
 * the last byte are stored unchanged. It stores only the items that it returns, such as values,
 * indices and runs, whatever the capacity. A take that finds a bad index may store items for all
 * indices, and a call by group that finds a bad code stores totals again as they were. Any thread
 * may call any function. Two threads may write windows of one bitmap at once if these share no
 * byte, such as the first 1,000 bits and the next 1,000.
 *
 * For every call, the caller must ensure: each pointer points to the number of items that the next
 * argument gives, and may be null if that is 0; if a vb_try_ function has a pointer to a result,
 * its last argument, that is not null; the output overlaps no other argument (no function tests
 * that, not even those with `try`); during the call nothing else accesses the bytes that it stores,
 * and nothing writes the bytes and items that it reads. For a call without `try` also: each window
 * ends in its bytes, its end, offset + len, is at most SIZE_MAX, and the conditions in its own
 * comment hold, such as capacities.
 *
 * A vb_try_ function, the checked form of the plain one before it, requires only what every call
 * requires. It tests sizes, offsets, lengths and capacities, and that no pointer is null unless its
 * number is 0. So it detects a failed malloc. If a test fails, it returns false and leaves
 * everything unchanged. An index of a take or a code of a group that is out of range is not such a
 * failure: these calls report the first one in the vb_taken that they return; their vb_try_ forms
 * write it to their last pointer. No function allocates memory or keeps a pointer.
 *
 * For an Arrow array, `offset` is the array's plus those of the structs that it is a column of, and
 * `size` is (offset + len + 7) / 8; its values begin at `values + offset`, or, if they are bits, at
 * bit `offset`. A missing validity, a null pointer, means that all are valid: takes, vb_and_kleene
 * and vb_or_kleene have an argument for it. In place of a window, vb_and_validity,
 * vb_and_validities, vb_count_valid and vb_filter_validity accept NULL, 0, 0 for it; other
 * functions don't. A macro can write the three arguments of a window:
 *
 *     struct { const uint8_t *bytes; size_t size, offset; } a = {(const uint8_t[]){0xE8}, 1, 3};
 *     #define WINDOW(it) (it).bytes, (it).size, (it).offset
 *     assert(vb_and_count(WINDOW(a), WINDOW(a), 5) == 4);
 *
 * The functions of each level are proved. The code in front of them is written by hand, and tested:
 *
 * - It selects the level, and replaces a null pointer to no items by one that the proved functions
 *   accept. Checked forms reject other null pointers.
 * - Plain forms crash with SIGILL at an `op` or a size of values that doesn't exist, except
 *   vb_take_values, which reports position 0.
 * - vb_set_indices, vb_set_indices_u32, vb_set_slices and their checked forms, if `out` may be too
 *   small, process one page of memory after the other, and join runs that cross page ends.
 *   vb_set_slices_u32 narrows the indices of runs.
 * - Bools are packed and unpacked as bytes.
 * - vb_filter_values, vb_retain_values, vb_scatter_values and vb_take_values choose a function by
 *   the sizes, and the functions of validities choose one by which validities are missing.
 *
 * The C++ classes are also written by hand, and tested.
 */
#ifndef VORTEX_BITS_H
#define VORTEX_BITS_H

#include <stdbool.h>
#include <stddef.h>
#include <stdint.h>

/*
 * The version of this file as text, as numbers, and as one number, which is larger in each later
 * version:
 *
 *     #if VORTEX_BITS_VERSION_NUMBER < 910001
 *     #error "this program needs vortex_bits 0.91.0-r1 or later"
 *     #endif
 */
#define VORTEX_BITS_VERSION "0.91.0-r1"
#define VORTEX_BITS_VERSION_MAJOR 0
#define VORTEX_BITS_VERSION_MINOR 91
#define VORTEX_BITS_VERSION_PATCH 0
#define VORTEX_BITS_VERSION_REVISION 1
#define VORTEX_BITS_VERSION_NUMBER                                                                \
    (VORTEX_BITS_VERSION_MAJOR * 10000000 + VORTEX_BITS_VERSION_MINOR * 10000                     \
        + VORTEX_BITS_VERSION_PATCH * 100 + VORTEX_BITS_VERSION_REVISION)

/*
 * Makes compilers that can do so warn if the result of a checked form, a take or a call by group is
 * ignored.
 */
#if defined(__GNUC__)
#define VB_CHECKED __attribute__((warn_unused_result))
#else
#define VB_CHECKED
#endif

#ifdef __cplusplus
extern "C" {
#endif

/* The index of a bit; `index` is meaningful only if `found` is true. */
typedef struct {
    bool found;
    size_t index;
} vb_place;

/* A run of set bits: the index of its first bit, and the index after its last one. */
typedef struct {
    size_t start;
    size_t end;
} vb_run;

/* The same with indices of 32 bits. */
typedef struct {
    uint32_t start;
    uint32_t end;
} vb_run_u32;

/*
 * The result of a take or of a call by group: whether an index at a valid position, or a code of a
 * selected row, is out of range. `position` is that of the first one, and is meaningful only if
 * `out_of_range` is true.
 */
typedef struct {
    bool out_of_range;
    size_t position;
} vb_taken;

/* A value of 16 bytes, or an unsigned number of 128 bits: low + high * 2^64. */
typedef struct {
    uint64_t low;
    uint64_t high;
} vb_u128;

/*
 * Returns the bit at `offset`, which must be in the bytes.
 *
 *     const uint8_t rows[] = {0xE8, 0x06};
 *     bool bit;
 *     assert(vb_get_bit(rows, 2, 3) && vb_try_get_bit(rows, 2, 4, &bit) && !bit);
 *     assert(!vb_try_get_bit(rows, 2, 16, &bit));
 */
bool vb_get_bit(const uint8_t *bytes, size_t size, size_t offset);
VB_CHECKED bool vb_try_get_bit(const uint8_t *bytes, size_t size, size_t offset, bool *bit);

/*
 * Returns the number of set bits in the window. Reads the bytes once, 64 at a time.
 *
 *     const uint8_t rows[] = {0xE8, 0x06};
 *     size_t ones;
 *     assert(vb_count_ones(rows, 2, 3, 10) == 6);
 *     assert(!vb_try_count_ones(rows, 2, 3, 14, &ones));    // it ends after the bytes
 */
size_t vb_count_ones(const uint8_t *bytes, size_t size, size_t offset, size_t len);
VB_CHECKED bool vb_try_count_ones(const uint8_t *bytes, size_t size, size_t offset, size_t len,
        size_t *ones);

/*
 * Returns the number of bits that are set in both windows (and), in at least one (or), in exactly
 * one (xor), or in the left one alone (and_not). Reads each window once, and writes nothing.
 *
 *     const uint8_t left[] = {0x0C}, right[] = {0x0A};
 *     assert(vb_and_count(left, 1, 0, right, 1, 0, 4) == 1);
 *     assert(vb_or_count(left, 1, 0, right, 1, 0, 4) == 3);
 *     assert(vb_xor_count(left, 1, 0, right, 1, 0, 4) == 2);
 *     assert(vb_and_not_count(left, 1, 0, right, 1, 0, 4) == 1);
 */
/* Written by tools/write-lists from tools/families/operators.txt. */
size_t vb_and_count(const uint8_t *left, size_t left_size, size_t left_offset, const uint8_t *right,
        size_t right_size, size_t right_offset, size_t len);
VB_CHECKED bool vb_try_and_count(const uint8_t *left, size_t left_size, size_t left_offset,
        const uint8_t *right, size_t right_size, size_t right_offset, size_t len, size_t *ones);
size_t vb_or_count(const uint8_t *left, size_t left_size, size_t left_offset, const uint8_t *right,
        size_t right_size, size_t right_offset, size_t len);
VB_CHECKED bool vb_try_or_count(const uint8_t *left, size_t left_size, size_t left_offset,
        const uint8_t *right, size_t right_size, size_t right_offset, size_t len, size_t *ones);
size_t vb_xor_count(const uint8_t *left, size_t left_size, size_t left_offset, const uint8_t *right,
        size_t right_size, size_t right_offset, size_t len);
VB_CHECKED bool vb_try_xor_count(const uint8_t *left, size_t left_size, size_t left_offset,
        const uint8_t *right, size_t right_size, size_t right_offset, size_t len, size_t *ones);
size_t vb_and_not_count(const uint8_t *left, size_t left_size, size_t left_offset,
        const uint8_t *right, size_t right_size, size_t right_offset, size_t len);
VB_CHECKED bool vb_try_and_not_count(const uint8_t *left, size_t left_size, size_t left_offset,
        const uint8_t *right, size_t right_size, size_t right_offset, size_t len, size_t *ones);
/* To here. */

/*
 * Returns the index within the window of its n-th set bit, counted from 0; finds none if at most n
 * bits are set. Counts from the front, 64 bytes at a time, up to the bytes that have it; in a
 * window of more than 4,096 bytes it may also count bytes after these.
 *
 *     const uint8_t rows[] = {0xE8, 0x06};
 *     const vb_place third = vb_select(rows, 2, 3, 10, 2);
 *     assert(third.found && third.index == 3);
 */
vb_place vb_select(const uint8_t *bytes, size_t size, size_t offset, size_t len, size_t n);
VB_CHECKED bool vb_try_select(const uint8_t *bytes, size_t size, size_t offset, size_t len,
        size_t n, vb_place *place);

/*
 * Returns the index of the n-th unset bit, in the same way.
 *
 *     const uint8_t rows[] = {0xE8, 0x06};
 *     assert(vb_select_unset(rows, 2, 3, 10, 0).index == 1);
 */
vb_place vb_select_unset(const uint8_t *bytes, size_t size, size_t offset, size_t len, size_t n);
VB_CHECKED bool vb_try_select_unset(const uint8_t *bytes, size_t size, size_t offset, size_t len,
        size_t n, vb_place *place);

/*
 * Returns the index within the window of its last set bit; finds none if all bits are unset. Reads
 * the last word, and then words before it, eight at once.
 *
 *     const uint8_t rows[] = {0xE8, 0x06};
 *     assert(vb_last_set(rows, 2, 3, 10).index == 7);
 */
vb_place vb_last_set(const uint8_t *bytes, size_t size, size_t offset, size_t len);
VB_CHECKED bool vb_try_last_set(const uint8_t *bytes, size_t size, size_t offset, size_t len,
        vb_place *place);

/*
 * Returns the index within the window of its first set (or unset) bit at or after index `from`;
 * finds none if there is none, or if `from` is at least `len`. Reads a word, then the next one, and
 * then four words at a time, up to those that have the bit.
 *
 *     const uint8_t rows[] = {0xE8, 0x06};
 *     assert(vb_next_set(rows, 2, 3, 10, 5).index == 6);
 *     assert(vb_next_unset(rows, 2, 3, 10, 2).index == 5);
 */
/* Written by tools/write-lists from tools/families/questions.txt. */
vb_place vb_next_set(const uint8_t *bytes, size_t size, size_t offset, size_t len, size_t from);
VB_CHECKED bool vb_try_next_set(const uint8_t *bytes, size_t size, size_t offset, size_t len,
        size_t from, vb_place *place);
vb_place vb_next_unset(const uint8_t *bytes, size_t size, size_t offset, size_t len, size_t from);
VB_CHECKED bool vb_try_next_unset(const uint8_t *bytes, size_t size, size_t offset, size_t len,
        size_t from, vb_place *place);
/* To here. */

/*
 * Returns the index within the window of its last set (or unset) bit before index `before`; finds
 * none if there is none. A `before` of at least `len` searches all bits. Reads the word before that
 * index, and then words towards the front, eight at once.
 *
 *     const uint8_t rows[] = {0xE8, 0x06};
 *     assert(vb_previous_set(rows, 2, 3, 10, 6).index == 4);
 *     assert(vb_previous_unset(rows, 2, 3, 10, 5).index == 1);
 */
/* Written by tools/write-lists from tools/families/questions.txt. */
vb_place vb_previous_set(const uint8_t *bytes, size_t size, size_t offset, size_t len,
        size_t before);
VB_CHECKED bool vb_try_previous_set(const uint8_t *bytes, size_t size, size_t offset, size_t len,
        size_t before, vb_place *place);
vb_place vb_previous_unset(const uint8_t *bytes, size_t size, size_t offset, size_t len,
        size_t before);
VB_CHECKED bool vb_try_previous_unset(const uint8_t *bytes, size_t size, size_t offset, size_t len,
        size_t before, vb_place *place);
/* To here. */

/*
 * Returns whether any bit is set (false for no bits), or whether all are set (true for no bits).
 * Reads the first eight bytes, the last eight, then the words between, up to those that decide.
 *
 *     const uint8_t rows[] = {0xE8, 0x06};
 *     assert(vb_any_set(rows, 2, 3, 10) && vb_all_set(rows, 2, 5, 3));
 */
/* Written by tools/write-lists from tools/families/questions.txt. */
bool vb_any_set(const uint8_t *bytes, size_t size, size_t offset, size_t len);
VB_CHECKED bool vb_try_any_set(const uint8_t *bytes, size_t size, size_t offset, size_t len,
        bool *any);
bool vb_all_set(const uint8_t *bytes, size_t size, size_t offset, size_t len);
VB_CHECKED bool vb_try_all_set(const uint8_t *bytes, size_t size, size_t offset, size_t len,
        bool *all);
/* To here. */

/*
 * Returns whether the `len` bits of `left` from bit `left_offset` on equal those of `right` from
 * bit `right_offset` on. Compares blocks of at most 512 bytes, up to the one with the first
 * difference.
 *
 *     const uint8_t rows[] = {0xE8, 0x06};
 *     assert(vb_equal_bits(rows, 2, 5, rows, 2, 9, 2));
 */
bool vb_equal_bits(const uint8_t *left, size_t left_size, size_t left_offset, const uint8_t *right,
        size_t right_size, size_t right_offset, size_t len);
VB_CHECKED bool vb_try_equal_bits(const uint8_t *left, size_t left_size, size_t left_offset,
        const uint8_t *right, size_t right_size, size_t right_offset, size_t len, bool *equal);

/* Written by tools/write-lists from tools/families/questions.txt. */
/*
 * Returns whether no bit is set in both windows, or whether each set bit of the left one is set in
 * the right one; both hold for no bits. Reads up to the first word that decides.
 *
 *     const uint8_t left[] = {0x0C}, right[] = {0x0E};
 *     assert(vb_is_subset(left, 1, 0, right, 1, 0, 4));
 *     assert(vb_is_disjoint(left, 1, 0, right, 1, 4, 4));
 */
bool vb_is_disjoint(const uint8_t *left, size_t left_size, size_t left_offset, const uint8_t *right,
        size_t right_size, size_t right_offset, size_t len);
VB_CHECKED bool vb_try_is_disjoint(const uint8_t *left, size_t left_size, size_t left_offset,
        const uint8_t *right, size_t right_size, size_t right_offset, size_t len, bool *disjoint);
bool vb_is_subset(const uint8_t *left, size_t left_size, size_t left_offset, const uint8_t *right,
        size_t right_size, size_t right_offset, size_t len);
VB_CHECKED bool vb_try_is_subset(const uint8_t *left, size_t left_size, size_t left_offset,
        const uint8_t *right, size_t right_size, size_t right_offset, size_t len, bool *subset);
/* To here. */

/*
 * Writes the indices of the set bits, in ascending order, to the front of `out`, up to its
 * capacity, and returns the number written (`written`). Reads no page of memory after the window's
 * last one or, if it fills `out`, after the page of the bit whose index it writes last. It is
 * faster if there is capacity for each bit.
 *
 *     const uint8_t rows[] = {0xE8, 0x06};
 *     size_t places[4];
 *     assert(vb_set_indices(places, 4, rows, 2, 3, 10) == 4 && places[3] == 4);
 */
size_t vb_set_indices(size_t *out, size_t out_count, const uint8_t *bytes, size_t size,
        size_t offset, size_t len);
VB_CHECKED bool vb_try_set_indices(size_t *out, size_t out_count, const uint8_t *bytes, size_t size,
        size_t offset, size_t len, size_t *written);

/*
 * Does the same with indices of 32 bits, for a window of at most 2^32 bits: `len` must be at most
 * that, and the checked form returns false for a longer one.
 *
 *     const uint8_t rows[] = {0xE8, 0x06};
 *     uint32_t places[4];
 *     assert(vb_set_indices_u32(places, 4, rows, 2, 3, 10) == 4 && places[3] == 4);
 */
size_t vb_set_indices_u32(uint32_t *out, size_t out_count, const uint8_t *bytes, size_t size,
        size_t offset, size_t len);
VB_CHECKED bool vb_try_set_indices_u32(uint32_t *out, size_t out_count, const uint8_t *bytes,
        size_t size, size_t offset, size_t len, size_t *written);

/*
 * Writes the runs of set bits, from front to end, each as long as possible, to the front of `out`,
 * up to its capacity, and returns the number written (`written`). Reads no page of memory after the
 * window's last one or, if it fills `out`, after the page of the bit after the last written run.
 *
 *     const uint8_t rows[] = {0xE8, 0x06};
 *     vb_run runs[4];
 *     assert(vb_set_slices(runs, 4, rows, 2, 3, 10) == 3);
 *     assert(runs[1].start == 2 && runs[1].end == 5);
 */
size_t vb_set_slices(vb_run *out, size_t out_count, const uint8_t *bytes, size_t size,
        size_t offset, size_t len);
VB_CHECKED bool vb_try_set_slices(vb_run *out, size_t out_count, const uint8_t *bytes, size_t size,
        size_t offset, size_t len, size_t *written);

/*
 * Does the same with indices of 32 bits, for a window of fewer than 2^32 bits: the checked form
 * returns false for a longer one. Narrows the runs of vb_set_slices, 64 at a time.
 *
 *     const uint8_t rows[] = {0xE8, 0x06};
 *     vb_run_u32 runs[4];
 *     assert(vb_set_slices_u32(runs, 4, rows, 2, 3, 10) == 3 && runs[1].end == 5);
 */
size_t vb_set_slices_u32(vb_run_u32 *out, size_t out_count, const uint8_t *bytes, size_t size,
        size_t offset, size_t len);
VB_CHECKED bool vb_try_set_slices_u32(vb_run_u32 *out, size_t out_count, const uint8_t *bytes,
        size_t size, size_t offset, size_t len, size_t *written);

/*
 * Sets each bit of the window to `value`. Fills whole bytes as a block. To set one bit, pass its
 * offset and the length 1.
 *
 *     uint8_t rows[] = {0x00, 0xFF};
 *     vb_fill_bits(rows, 2, 3, 2, true);
 *     assert(rows[0] == 0x18 && rows[1] == 0xFF);
 */
void vb_fill_bits(uint8_t *bytes, size_t size, size_t offset, size_t len, bool value);
VB_CHECKED bool vb_try_fill_bits(uint8_t *bytes, size_t size, size_t offset, size_t len,
        bool value);

/*
 * Negates each bit of the window, 32 bytes at a time.
 *
 *     uint8_t rows[] = {0x0F};
 *     vb_negate_bits(rows, 1, 2, 4);
 *     assert(rows[0] == 0x33);
 */
void vb_negate_bits(uint8_t *bytes, size_t size, size_t offset, size_t len);
VB_CHECKED bool vb_try_negate_bits(uint8_t *bytes, size_t size, size_t offset, size_t len);

/*
 * Copies the `len` bits of `src` from bit `src_offset` on to the bits of `dst` from bit
 * `dst_offset` on, word by word at any two offsets. The bytes of the two must not overlap, even if
 * their windows don't; vb_move_bits copies within the same bytes.
 *
 *     uint8_t rows[] = {0x00};
 *     const uint8_t more[] = {0x1B};
 *     vb_copy_bits(rows, 1, 3, more, 1, 1, 4);
 *     assert(rows[0] == 0x68);
 */
void vb_copy_bits(uint8_t *dst, size_t dst_size, size_t dst_offset, const uint8_t *src,
        size_t src_size, size_t src_offset, size_t len);
VB_CHECKED bool vb_try_copy_bits(uint8_t *dst, size_t dst_size, size_t dst_offset,
        const uint8_t *src, size_t src_size, size_t src_offset, size_t len);

/*
 * Copies bit `from + k` of the bytes to bit `offset + k`, for each k below `len`, as memmove does:
 * the windows may overlap. The arguments are in the order of memmove: to, from, length; copy_within
 * of C++ has from, length, to. Processes 4,096 bits at a time. Loads only bytes with a bit of one
 * of the windows.
 *
 *     uint8_t rows[] = {0x68};
 *     vb_move_bits(rows, 1, 1, 3, 5);
 *     assert(rows[0] == 0x5A);
 */
void vb_move_bits(uint8_t *bytes, size_t size, size_t offset, size_t from, size_t len);
VB_CHECKED bool vb_try_move_bits(uint8_t *bytes, size_t size, size_t offset, size_t from,
        size_t len);

/*
 * Sets bit `dst_offset + k` of `dst`, for each k below `len`, to true if it and bit
 * `src_offset + k` of `src` are true, else to false. Works word by word at any two offsets.
 *
 *     uint8_t dst[] = {0xFC};
 *     const uint8_t src[] = {0x0A};
 *     vb_and_bits(dst, 1, 0, src, 1, 0, 4);
 *     assert(dst[0] == 0xF8);
 */
void vb_and_bits(uint8_t *dst, size_t dst_size, size_t dst_offset, const uint8_t *src,
        size_t src_size, size_t src_offset, size_t len);
VB_CHECKED bool vb_try_and_bits(uint8_t *dst, size_t dst_size, size_t dst_offset,
        const uint8_t *src, size_t src_size, size_t src_offset, size_t len);

/*
 * Does the same for `or`: true if one of the two bits is true, or both are.
 *
 *     uint8_t dst[] = {0x0C};
 *     const uint8_t src[] = {0x0A};
 *     vb_or_bits(dst, 1, 0, src, 1, 0, 4);
 *     assert(dst[0] == 0x0E);
 */
void vb_or_bits(uint8_t *dst, size_t dst_size, size_t dst_offset, const uint8_t *src,
        size_t src_size, size_t src_offset, size_t len);
VB_CHECKED bool vb_try_or_bits(uint8_t *dst, size_t dst_size, size_t dst_offset, const uint8_t *src,
        size_t src_size, size_t src_offset, size_t len);

/*
 * Does the same for `xor`: true if one of the two bits is true, and not both.
 *
 *     uint8_t dst[] = {0x0C};
 *     const uint8_t src[] = {0x0A};
 *     vb_xor_bits(dst, 1, 0, src, 1, 0, 4);
 *     assert(dst[0] == 0x06);
 */
void vb_xor_bits(uint8_t *dst, size_t dst_size, size_t dst_offset, const uint8_t *src,
        size_t src_size, size_t src_offset, size_t len);
VB_CHECKED bool vb_try_xor_bits(uint8_t *dst, size_t dst_size, size_t dst_offset,
        const uint8_t *src, size_t src_size, size_t src_offset, size_t len);

/*
 * Does the same for `and_not`: true if the bit of `dst` is true and that of `src` is false.
 *
 *     uint8_t dst[] = {0xFC};
 *     const uint8_t src[] = {0x0A};
 *     vb_and_not_bits(dst, 1, 0, src, 1, 0, 4);
 *     assert(dst[0] == 0xF4);
 */
void vb_and_not_bits(uint8_t *dst, size_t dst_size, size_t dst_offset, const uint8_t *src,
        size_t src_size, size_t src_offset, size_t len);
VB_CHECKED bool vb_try_and_not_bits(uint8_t *dst, size_t dst_size, size_t dst_offset,
        const uint8_t *src, size_t src_size, size_t src_offset, size_t len);

/*
 * Returns the processor level that calls use: "x86-64-v2", say.
 *
 *     assert(vb_has_level() && strncmp(vb_level(), "x86-64-v", 8) == 0);
 */
const char *vb_level(void);

/* Returns whether the processor has that level. */
bool vb_has_level(void);

#ifdef __cplusplus
}
#endif

#include "vortex_bits_aggregate.h"
#include "vortex_bits_compare.h"
#include "vortex_bits_gather.h"
#include "vortex_bits_ranks.h"
#include "vortex_bits_values.h"

#endif
