/*
 * Ranks and selects over a table of counts. vortex_bits.h includes this file; its first comment
 * states what the caller must ensure for every call.
 */
#ifndef VORTEX_BITS_RANKS_H
#define VORTEX_BITS_RANKS_H

#include "vortex_bits.h"

#ifdef __cplusplus
extern "C" {
#endif

/*
 * Writes a table that the caller keeps for ranks. It has ceil(len / 512) entries: for each block of
 * 512 bits of the window, the number of set bits before it. Writes these to the front of `table`,
 * up to its capacity, and returns the number written (`written`). Counts the bits once.
 *
 *     uint8_t rows[128];
 *     memset(rows, 0x11, sizeof rows);
 *     size_t table[2];
 *     assert(vb_block_counts(table, 2, rows, 128, 0, 1024) == 2 && table[1] == 128);
 */
size_t vb_block_counts(size_t *table, size_t table_count, const uint8_t *bytes, size_t size,
        size_t offset, size_t len);
VB_CHECKED bool vb_try_block_counts(size_t *table, size_t table_count, const uint8_t *bytes,
        size_t size, size_t offset, size_t len, size_t *written);

/*
 * Returns the number of set bits among the first `index` bits of the window. `index` must be at
 * most `len`; the checked form tests it too. Reads one entry of the table and the bits of one
 * block. Here and below `table_count` must be exactly ceil(len / 512), even if the array is longer;
 * the checked forms test that. They cannot test that vb_block_counts wrote the entries: with others
 * the result is meaningless, but harmless.
 *
 *     uint8_t rows[128];
 *     memset(rows, 0x11, sizeof rows);
 *     const size_t table[2] = {0, 128};    // of vb_block_counts
 *     assert(vb_rank(rows, 128, 0, 1024, table, 2, 601) == 151);
 */
size_t vb_rank(const uint8_t *bytes, size_t size, size_t offset, size_t len, const size_t *table,
        size_t table_count, size_t index);
VB_CHECKED bool vb_try_rank(const uint8_t *bytes, size_t size, size_t offset, size_t len,
        const size_t *table, size_t table_count, size_t index, size_t *rank);

/*
 * Returns the index of the n-th set bit of the window, or of its n-th unset bit, by binary search
 * of the table and a search of one block; finds none if at most n bits are set, or unset.
 *
 *     uint8_t rows[128];
 *     memset(rows, 0x11, sizeof rows);
 *     const size_t table[2] = {0, 128};
 *     assert(vb_ranked_select(rows, 128, 0, 1024, table, 2, 151).index == 604);
 *     assert(vb_ranked_select_unset(rows, 128, 0, 1024, table, 2, 3).index == 5);
 */
vb_place vb_ranked_select(const uint8_t *bytes, size_t size, size_t offset, size_t len,
        const size_t *table, size_t table_count, size_t n);
VB_CHECKED bool vb_try_ranked_select(const uint8_t *bytes, size_t size, size_t offset, size_t len,
        const size_t *table, size_t table_count, size_t n, vb_place *place);
vb_place vb_ranked_select_unset(const uint8_t *bytes, size_t size, size_t offset, size_t len,
        const size_t *table, size_t table_count, size_t n);
VB_CHECKED bool vb_try_ranked_select_unset(const uint8_t *bytes, size_t size, size_t offset,
        size_t len, const size_t *table, size_t table_count, size_t n, vb_place *place);

#ifdef __cplusplus
}
#endif

#endif
