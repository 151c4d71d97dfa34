/*
 * Calls the C functions whose cost is promised. `tools/growth --c` counts this program's steps.
 *
 *     growth ROW SIZE CALLS
 *
 * It makes inputs of SIZE bits or items once, calls the function of the row CALLS times, and prints
 * one number, made from the calls' results and outputs. Without arguments it prints the rows.
 */
#include <stdio.h>
#include <stdlib.h>
#include <string.h>

#include "vortex_bits.h"
#include "vortex_bits_aggregate.h"
#include "vortex_bits_compare.h"
#include "vortex_bits_gather.h"
#include "vortex_bits_ranks.h"
#include "vortex_bits_values.h"

/* The offsets of the windows that are read, and of those that are written. */
#define LEFT 3
#define RIGHT 6
#define OUT 5
/* The distance of the start of a search from the window's start, or from its end, in bits. */
#define NEAR 77

/* Inputs: bits at random, none and all set, values, and indices below the size. */
static uint8_t *mixed, *other, *zeros, *ones, *indices_u8;
static uint16_t *indices_u16;
static uint32_t *indices_u32;
static uint64_t *indices_u64;
static vb_u128 *values, *others;
static bool *bools;
static size_t *table, table_count;
/* The outputs of the calls. */
static uint8_t *out, *valid;
static vb_u128 *written;
static size_t *places;
static vb_run *runs;
/* The bytes of each window. */
static size_t size;

#define WINDOW(bytes, offset) bytes, size, offset
#define NULLS false, WINDOW(other, RIGHT)

/* A row has the name of its function without `vb_`; in rows `far_..` the call reads all bits. */
#define ROW(name, call)                                                                           \
    static size_t row_##name(size_t n)                                                            \
    {                                                                                             \
        (void)n;                                                                                  \
        return (size_t)(call);                                                                    \
    }
#define WRITE(name, call)                                                                         \
    static size_t row_##name(size_t n)                                                            \
    {                                                                                             \
        call;                                                                                     \
        return out[n / 16];                                                                       \
    }
#define PAIR(name) ROW(name, vb_##name(WINDOW(mixed, LEFT), WINDOW(other, RIGHT), n))
#define NEXT(name) ROW(name, vb_##name(WINDOW(mixed, LEFT), n, NEAR).index)
#define PREVIOUS(name) ROW(name, vb_##name(WINDOW(mixed, LEFT), n, n - NEAR).index)
#define SELECT(name) ROW(name, vb_##name(WINDOW(mixed, LEFT), n, n / 4).index)
#define RANKED(name) ROW(name, vb_##name(WINDOW(mixed, LEFT), n, table, table_count, n / 4).index)
#define IN_PLACE(name) WRITE(name, vb_##name(WINDOW(out, OUT), WINDOW(mixed, LEFT), n))
#define INTO(name)                                                                                \
    WRITE(name, vb_##name(WINDOW(out, OUT), WINDOW(mixed, LEFT), WINDOW(other, RIGHT), n))
#define UNPACK(name, type)                                                                        \
    static size_t row_##name(size_t n)                                                            \
    {                                                                                             \
        vb_##name((type *)written, n, WINDOW(mixed, LEFT), n);                                    \
        return ((const uint8_t *)written)[n / 2];                                                 \
    }
#define KLEENE(name)                                                                              \
    WRITE(name, vb_##name(WINDOW(out, OUT), WINDOW(valid, OUT), WINDOW(mixed, LEFT), NULLS,       \
        WINDOW(other, RIGHT), false, WINDOW(mixed, 1), n))
#define COMPARE(name, type)                                                                       \
    WRITE(compare_##name,                                                                         \
        vb_compare_##name(WINDOW(out, OUT), (const type *)values, n, VB_LESS, (type)77))          \
    WRITE(compare_with_##name, vb_compare_with_##name(WINDOW(out, OUT), (const type *)values, n,  \
        VB_LESS, (const type *)others, n))
#define FILTER(name, type)                                                                        \
    ROW(filter_values_##name, vb_filter_values_##name((type *)written, n, (const type *)values,   \
        n, WINDOW(mixed, LEFT)))
#define RETAIN(name, type)                                                                        \
    ROW(retain_values_##name, vb_retain_values_##name((type *)written, n, WINDOW(mixed, LEFT)))
#define AGGREGATE(name, type)                                                                     \
    ROW(masked_sum_##name, vb_masked_sum_##name((const type *)values, n, WINDOW(mixed, LEFT)).low) \
    ROW(masked_checked_sum_##name,                                                                \
        vb_masked_checked_sum_##name((const type *)values, n, WINDOW(mixed, LEFT)).has_value)     \
    ROW(masked_wrapping_sum_##name,                                                               \
        vb_masked_wrapping_sum_##name((const type *)values, n, WINDOW(mixed, LEFT)))              \
    ROW(masked_min_##name,                                                                        \
        vb_masked_min_##name((const type *)values, n, WINDOW(mixed, LEFT)).value)                 \
    ROW(masked_max_##name,                                                                        \
        vb_masked_max_##name((const type *)values, n, WINDOW(mixed, LEFT)).value)
#define AGGREGATE_FLOATS(name, type)                                                              \
    ROW(masked_sum_##name,                                                                        \
        vb_masked_sum_##name((const type *)values, n, WINDOW(mixed, LEFT)) > 0)                   \
    ROW(masked_min_##name,                                                                        \
        vb_masked_min_##name((const type *)values, n, WINDOW(mixed, LEFT)).has_value)             \
    ROW(masked_max_##name,                                                                        \
        vb_masked_max_##name((const type *)values, n, WINDOW(mixed, LEFT)).has_value)
#define GROUP_SUMS(name, type, sum, at)                                                           \
    ROW(group_sums_##name##_##at, vb_group_sums_##name##_##at((sum *)written, n, indices_##at, n, \
        (const type *)values, n, false, WINDOW(mixed, LEFT)).position)
#define GROUP(at)                                                                                 \
    ROW(group_counts_##at, vb_group_counts_##at((uint64_t *)written, n, indices_##at, n, false,   \
        WINDOW(mixed, LEFT)).position)                                                            \
    GROUP_SUMS(u8, uint8_t, uint64_t, at)                                                         \
    GROUP_SUMS(u16, uint16_t, uint64_t, at)                                                       \
    GROUP_SUMS(u32, uint32_t, uint64_t, at)                                                       \
    GROUP_SUMS(u64, uint64_t, uint64_t, at)                                                       \
    GROUP_SUMS(i8, int8_t, int64_t, at)                                                           \
    GROUP_SUMS(i16, int16_t, int64_t, at)                                                         \
    GROUP_SUMS(i32, int32_t, int64_t, at)                                                         \
    GROUP_SUMS(i64, int64_t, int64_t, at)
#define SCATTER(name, type)                                                                       \
    ROW(scatter_values_##name, vb_scatter_values_##name((type *)written, n, (const type *)values, \
        n, WINDOW(mixed, LEFT)))
#define TAKE_VALUES(name, type, at)                                                               \
    ROW(take_values_##name##_##at, vb_take_values_##name##_##at((type *)written, n,               \
        (const type *)values, n, indices_##at, n, NULLS).position)
#define TAKE(at)                                                                                  \
    ROW(take_bits_##at, vb_take_bits_##at(WINDOW(out, OUT), WINDOW(mixed, LEFT), n, indices_##at, \
        n, NULLS).position)                                                                       \
    TAKE_VALUES(u8, uint8_t, at)                                                                  \
    TAKE_VALUES(u16, uint16_t, at)                                                                \
    TAKE_VALUES(u32, uint32_t, at)                                                                \
    TAKE_VALUES(u64, uint64_t, at)                                                                \
    TAKE_VALUES(u128, vb_u128, at)

ROW(get_bit, vb_get_bit(mixed, size, LEFT + n / 2))
ROW(count_ones, vb_count_ones(WINDOW(mixed, LEFT), n))
PAIR(and_count)
PAIR(or_count)
PAIR(xor_count)
PAIR(and_not_count)
SELECT(select)
SELECT(select_unset)
ROW(last_set, vb_last_set(WINDOW(mixed, LEFT), n).index)
NEXT(next_set)
NEXT(next_unset)
PREVIOUS(previous_set)
PREVIOUS(previous_unset)
ROW(any_set, vb_any_set(WINDOW(mixed, LEFT), n))
ROW(all_set, vb_all_set(WINDOW(mixed, LEFT), n))
PAIR(equal_bits)
/* Written by tools/write-lists from tools/families/questions.txt. */
PAIR(is_disjoint)
PAIR(is_subset)
/* To here. */
ROW(far_last_set, vb_last_set(WINDOW(zeros, LEFT), n).index)
ROW(far_next_set, vb_next_set(WINDOW(zeros, LEFT), n, 0).index)
ROW(far_next_unset, vb_next_unset(WINDOW(ones, LEFT), n, 0).index)
ROW(far_previous_set, vb_previous_set(WINDOW(zeros, LEFT), n, n).index)
ROW(far_previous_unset, vb_previous_unset(WINDOW(ones, LEFT), n, n).index)
ROW(far_any_set, vb_any_set(WINDOW(zeros, LEFT), n))
ROW(far_all_set, vb_all_set(WINDOW(ones, LEFT), n))
ROW(far_equal_bits, vb_equal_bits(WINDOW(mixed, LEFT), WINDOW(mixed, LEFT), n))
ROW(far_is_disjoint, vb_is_disjoint(WINDOW(mixed, LEFT), WINDOW(zeros, RIGHT), n))
ROW(far_is_subset, vb_is_subset(WINDOW(mixed, LEFT), WINDOW(ones, RIGHT), n))
ROW(set_indices, vb_set_indices(places, n, WINDOW(mixed, LEFT), n))
ROW(set_indices_u32, vb_set_indices_u32((uint32_t *)written, n, WINDOW(mixed, LEFT), n))
ROW(set_slices, vb_set_slices(runs, n, WINDOW(mixed, LEFT), n))
ROW(set_slices_u32, vb_set_slices_u32((vb_run_u32 *)written, n, WINDOW(mixed, LEFT), n))
WRITE(fill_bits, vb_fill_bits(WINDOW(out, OUT), n, true))
WRITE(negate_bits, vb_negate_bits(WINDOW(out, OUT), n))
IN_PLACE(copy_bits)
WRITE(move_bits, vb_move_bits(WINDOW(out, OUT), LEFT, n))
IN_PLACE(and_bits)
IN_PLACE(or_bits)
IN_PLACE(xor_bits)
IN_PLACE(and_not_bits)
INTO(and_into)
INTO(or_into)
INTO(xor_into)
INTO(and_not_into)
INTO(and_validities)
IN_PLACE(and_validity)
PAIR(count_valid)
WRITE(pack_bools, vb_pack_bools(WINDOW(out, OUT), bools, n))
WRITE(pack_truthy, vb_pack_truthy(WINDOW(out, OUT), indices_u8, n))
WRITE(pack_bools_padded, vb_pack_bools_padded(out, size, bools, n))
WRITE(pack_truthy_padded, vb_pack_truthy_padded(out, size, indices_u8, n))
UNPACK(unpack_bools, bool)
UNPACK(unpack_bytes, uint8_t)
ROW(filter_bits, vb_filter_bits(WINDOW(out, OUT), WINDOW(mixed, LEFT), WINDOW(other, RIGHT), n))
ROW(filter_validity,
    vb_filter_validity(WINDOW(out, OUT), WINDOW(mixed, LEFT), WINDOW(other, RIGHT), n))
INTO(deposit_bits)
KLEENE(and_kleene)
KLEENE(or_kleene)
COMPARE(u8, uint8_t)
COMPARE(u16, uint16_t)
COMPARE(u32, uint32_t)
COMPARE(u64, uint64_t)
COMPARE(i8, int8_t)
COMPARE(i16, int16_t)
COMPARE(i32, int32_t)
COMPARE(i64, int64_t)
COMPARE(f32, float)
COMPARE(f64, double)
FILTER(u8, uint8_t)
FILTER(u16, uint16_t)
FILTER(u32, uint32_t)
FILTER(u64, uint64_t)
FILTER(u128, vb_u128)
RETAIN(u8, uint8_t)
RETAIN(u16, uint16_t)
RETAIN(u32, uint32_t)
RETAIN(u64, uint64_t)
RETAIN(u128, vb_u128)
ROW(retain_values, vb_retain_values(written, n, 4, WINDOW(mixed, LEFT)))
ROW(filter_values, vb_filter_values(written, n, values, n, 4, WINDOW(mixed, LEFT)))
AGGREGATE(u8, uint8_t)
AGGREGATE(u16, uint16_t)
AGGREGATE(u32, uint32_t)
AGGREGATE(u64, uint64_t)
AGGREGATE(i8, int8_t)
AGGREGATE(i16, int16_t)
AGGREGATE(i32, int32_t)
AGGREGATE(i64, int64_t)
AGGREGATE_FLOATS(f32, float)
AGGREGATE_FLOATS(f64, double)
GROUP(u8)
GROUP(u16)
GROUP(u32)
SCATTER(u8, uint8_t)
SCATTER(u16, uint16_t)
SCATTER(u32, uint32_t)
SCATTER(u64, uint64_t)
SCATTER(u128, vb_u128)
ROW(scatter_values, vb_scatter_values(written, n, values, n, 4, WINDOW(mixed, LEFT)))
TAKE(u8)
TAKE(u16)
TAKE(u32)
TAKE(u64)
ROW(take_values,
    vb_take_values(written, n, values, n, 4, indices_u32, n, 4, NULLS).position)
ROW(block_counts, vb_block_counts(places, n, WINDOW(mixed, LEFT), n))
ROW(rank, vb_rank(WINDOW(mixed, LEFT), n, table, table_count, n / 2 + 1))
RANKED(ranked_select)
RANKED(ranked_select_unset)

typedef struct {
    const char *name;
    size_t (*call)(size_t n);
} row;

#define OF(name) {#name, row_##name},
#define OF_COMPARE(name) OF(compare_##name) OF(compare_with_##name)
#define OF_AGGREGATE(name)                                                                        \
    OF(masked_sum_##name) OF(masked_checked_sum_##name) OF(masked_wrapping_sum_##name)            \
    OF(masked_min_##name) OF(masked_max_##name)
#define OF_AGGREGATE_FLOATS(name)                                                                 \
    OF(masked_sum_##name) OF(masked_min_##name) OF(masked_max_##name)
#define OF_GROUP(at)                                                                              \
    OF(group_counts_##at) OF(group_sums_u8_##at) OF(group_sums_u16_##at) OF(group_sums_u32_##at)  \
    OF(group_sums_u64_##at) OF(group_sums_i8_##at) OF(group_sums_i16_##at)                        \
    OF(group_sums_i32_##at) OF(group_sums_i64_##at)
#define OF_TAKE(at)                                                                               \
    OF(take_bits_##at) OF(take_values_u8_##at) OF(take_values_u16_##at) OF(take_values_u32_##at)  \
    OF(take_values_u64_##at) OF(take_values_u128_##at)

static const row rows[] = {
    OF(get_bit) OF(count_ones) OF(and_count) OF(or_count) OF(xor_count) OF(and_not_count)
    OF(select) OF(select_unset) OF(last_set) OF(next_set) OF(next_unset) OF(previous_set)
    OF(previous_unset) OF(any_set) OF(all_set) OF(equal_bits)
    /* Written by tools/write-lists from tools/families/questions.txt. */
    OF(is_disjoint)
    OF(is_subset)
    /* To here. */
    OF(far_last_set) OF(far_next_set) OF(far_next_unset) OF(far_previous_set)
    OF(far_previous_unset) OF(far_any_set) OF(far_all_set) OF(far_equal_bits)
    OF(far_is_disjoint) OF(far_is_subset) OF(set_indices) OF(set_indices_u32) OF(set_slices)
    OF(set_slices_u32)
    OF(fill_bits) OF(negate_bits) OF(copy_bits) OF(move_bits) OF(and_bits) OF(or_bits) OF(xor_bits)
    OF(and_not_bits) OF(and_into) OF(or_into) OF(xor_into) OF(and_not_into)
    OF(and_validities) OF(and_validity) OF(count_valid) OF(filter_validity) OF(pack_bools)
    OF(pack_truthy) OF(pack_bools_padded) OF(pack_truthy_padded) OF(unpack_bools)
    OF(unpack_bytes) OF(filter_bits) OF(deposit_bits) OF(and_kleene) OF(or_kleene) OF_COMPARE(u8)
    OF_COMPARE(u16) OF_COMPARE(u32) OF_COMPARE(u64) OF_COMPARE(i8) OF_COMPARE(i16)
    OF_COMPARE(i32) OF_COMPARE(i64) OF_COMPARE(f32) OF_COMPARE(f64)
    OF(filter_values_u8) OF(filter_values_u16) OF(filter_values_u32) OF(filter_values_u64)
    OF(filter_values_u128) OF(filter_values) OF(retain_values_u8) OF(retain_values_u16)
    OF(retain_values_u32) OF(retain_values_u64) OF(retain_values_u128) OF(retain_values)
    OF(scatter_values_u8) OF(scatter_values_u16)
    OF(scatter_values_u32) OF(scatter_values_u64) OF(scatter_values_u128) OF(scatter_values)
    OF_AGGREGATE(u8) OF_AGGREGATE(u16) OF_AGGREGATE(u32) OF_AGGREGATE(u64) OF_AGGREGATE(i8)
    OF_AGGREGATE(i16) OF_AGGREGATE(i32) OF_AGGREGATE(i64) OF_AGGREGATE_FLOATS(f32)
    OF_AGGREGATE_FLOATS(f64) OF_GROUP(u8) OF_GROUP(u16) OF_GROUP(u32) OF_TAKE(u8) OF_TAKE(u16)
    OF_TAKE(u32) OF_TAKE(u64) OF(take_values) OF(block_counts) OF(rank) OF(ranked_select)
    OF(ranked_select_unset)
};
#define ROWS (sizeof rows / sizeof *rows)

/* The next number at random, by xorshift. */
static uint64_t next(void)
{
    static uint64_t state = 88172645463325252;
    state ^= state << 13;
    state ^= state >> 7;
    state ^= state << 17;
    return state;
}

static void *room(size_t bytes)
{
    void *made = calloc(1, bytes);
    if (made == NULL) {
        fputs("growth: out of memory\n", stderr);
        exit(1);
    }
    return made;
}

/* Returns `bytes` random bytes. */
static void *random_bytes(size_t bytes)
{
    uint8_t *made = room(bytes);
    for (size_t k = 0; k < bytes; k++) {
        made[k] = (uint8_t)next();
    }
    return made;
}

/* Indices below n that their type can hold. */
static void make_indices(size_t n)
{
    indices_u8 = room(n);
    indices_u16 = room(2 * n);
    indices_u32 = room(4 * n);
    indices_u64 = room(8 * n);
    for (size_t k = 0; k < n; k++) {
        uint64_t at = next() % n;
        indices_u64[k] = at;
        indices_u32[k] = (uint32_t)at;
        indices_u16[k] = (uint16_t)at;
        indices_u8[k] = (uint8_t)at;
        bools[k] = at % 2 == 1;
    }
}

static void make_inputs(size_t n)
{
    size = (n + 7 + 7) / 8;
    mixed = random_bytes(size);
    other = random_bytes(size);
    zeros = room(size);
    ones = memset(room(size), 0xFF, size);
    out = random_bytes(size);
    valid = random_bytes(size);
    values = random_bytes(16 * n);
    others = random_bytes(16 * n);
    written = room(16 * n);
    places = room(sizeof *places * n);
    runs = room(sizeof *runs * n);
    bools = room(n);
    make_indices(n);
    table = room(sizeof *table * (n / 512 + 1));
    table_count = vb_block_counts(table, n / 512 + 1, WINDOW(mixed, LEFT), n);
}

static const row *row_of(const char *name)
{
    for (size_t k = 0; k < ROWS; k++) {
        if (strcmp(rows[k].name, name) == 0) {
            return &rows[k];
        }
    }
    return NULL;
}

int main(int count, char **words)
{
    if (count == 1) {
        for (size_t k = 0; k < ROWS; k++) {
            puts(rows[k].name);
        }
        return 0;
    }
    const row *chosen = count == 4 ? row_of(words[1]) : NULL;
    if (chosen == NULL) {
        fputs("usage: growth ROW SIZE CALLS\n", stderr);
        return 2;
    }
    size_t n = strtoull(words[2], NULL, 10), calls = strtoull(words[3], NULL, 10), sum = 0;
    make_inputs(n);
    for (size_t k = 0; k < calls; k++) {
        sum = 31 * sum + chosen->call(n);
    }
    printf("%zu\n", sum);
    return 0;
}
