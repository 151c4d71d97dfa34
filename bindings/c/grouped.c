/*
 * Compares the counts and sums by group of vortex_bits_aggregate.h with a loop over single bits:
 * for every type of codes and of values, under random masks and without one, with rows that have no
 * group. It compiles as C and as C++.
 */
#include "tests.h"
#include "vortex_bits.h"

#include <string.h>

enum { ROWS = 300, BYTES = 48, GROUPS = 200, ROUNDS = 2000 };

/* The rows of a call: codes, most of them of a group, values, and a mask, which may be ignored. */
static uint64_t codes[ROWS], values[ROWS];
static uint8_t mask[BYTES];
static size_t rows, offset, groups;
static bool all_selected;

static void make_rows(void)
{
    rows = random_below(ROWS + 1);
    offset = random_below(10);
    groups = 1 + random_below(GROUPS);
    all_selected = random_below(4) == 0;
    randomize_bytes(mask, BYTES);
    const bool is_bad = random_below(3) == 0;
    for (size_t i = 0; i < rows; i++) {
        codes[i] = random_below(is_bad && random_below(50) == 0 ? 256 : groups);
        values[i] = random_below(SIZE_MAX);
    }
}

/* Returns the first selected row without a group; the number of rows if there is none. */
static size_t first_past(void)
{
    for (size_t i = 0; i < rows; i++) {
        if ((all_selected || bit(mask, offset + i)) && codes[i] >= groups) {
            return i;
        }
    }
    return rows;
}

static bool is_answer(vb_taken it)
{
    const size_t past = first_past();
    return past == rows ? !it.out_of_range : it.out_of_range && it.position == past;
}

/* Adds to each total what `added` has for the rows of its group; nothing if a row has no group. */
static void add_rows(uint64_t *totals, const uint64_t *added)
{
    if (first_past() < rows) {
        return;
    }
    for (size_t i = 0; i < rows; i++) {
        if (all_selected || bit(mask, offset + i)) {
            totals[codes[i]] += added == NULL ? 1 : added[i];
        }
    }
}

/* Compares the calls for codes and values of two types, and their checked forms, with the loop. */
#define SUMS(T, type, sum, C, code)                                                               \
    static void sums_##T##_##C(void)                                                              \
    {                                                                                             \
        static type terms[ROWS];                                                                  \
        static code own[ROWS];                                                                    \
        static sum got[GROUPS], too[GROUPS];                                                      \
        static uint64_t wanted[GROUPS], added[ROWS];                                              \
        make_rows();                                                                              \
        for (size_t i = 0; i < rows; i++) {                                                       \
            own[i] = (code)codes[i];                                                              \
            terms[i] = (type)values[i];                                                           \
            added[i] = (uint64_t)(sum)terms[i];                                                   \
        }                                                                                         \
        for (size_t g = 0; g < GROUPS; g++) {                                                     \
            wanted[g] = random_below(SIZE_MAX);                                                   \
            got[g] = too[g] = (sum)wanted[g];                                                     \
        }                                                                                         \
        add_rows(wanted, added);                                                                  \
        check(is_answer(vb_group_sums_##T##_##C(got, groups, own, rows, terms, rows, all_selected, \
            mask, BYTES, offset)), "what vb_group_sums_" #T "_" #C " answers");                   \
        check(memcmp(got, wanted, sizeof got) == 0, "vb_group_sums_" #T "_" #C);                  \
        vb_taken past = {false, 7};                                                               \
        check(!vb_try_group_sums_##T##_##C(too, groups, own, rows, terms, rows + 1, all_selected,  \
                mask, BYTES, offset, &past)                                                       \
                && !vb_try_group_sums_##T##_##C(too, groups, own, rows, terms, rows, false, mask,  \
                    BYTES, 8 * BYTES + 1 - rows, &past) && past.position == 7,                    \
            "a value or a bit too few or too many, " #T " by " #C);                               \
        check(vb_try_group_sums_##T##_##C(too, groups, own, rows, terms, rows, all_selected,      \
                mask, BYTES, offset, &past) && is_answer(past)                                    \
                && memcmp(too, wanted, sizeof too) == 0, "the checked form of " #T " by " #C);    \
    }

#define COUNTS(C, code)                                                                           \
    static void counts_##C(void)                                                                  \
    {                                                                                             \
        static code own[ROWS];                                                                    \
        static uint64_t wanted[GROUPS], got[GROUPS], too[GROUPS];                                 \
        make_rows();                                                                              \
        for (size_t i = 0; i < rows; i++) {                                                       \
            own[i] = (code)codes[i];                                                              \
        }                                                                                         \
        for (size_t g = 0; g < GROUPS; g++) {                                                     \
            wanted[g] = got[g] = too[g] = UINT64_MAX - random_below(3);                           \
        }                                                                                         \
        add_rows(wanted, NULL);                                                                   \
        check(is_answer(vb_group_counts_##C(got, groups, own, rows, all_selected, mask, BYTES,    \
            offset)), "what vb_group_counts_" #C " answers");                                     \
        check(memcmp(got, wanted, sizeof got) == 0, "vb_group_counts_" #C);                       \
        vb_taken past = {false, 7};                                                               \
        check(!vb_try_group_counts_##C(too, groups, own, rows, false, mask, BYTES,                \
                8 * BYTES + 1 - rows, &past) && past.position == 7, "too few bits for " #C);      \
        check(vb_try_group_counts_##C(too, groups, own, rows, all_selected, mask, BYTES, offset,  \
                &past) && is_answer(past) && memcmp(too, wanted, sizeof too) == 0,                \
            "the checked form of counts by " #C);                                                 \
    }

#define BY(X, C, code)                                                                            \
    X(u8, uint8_t, uint64_t, C, code) X(u16, uint16_t, uint64_t, C, code)                         \
    X(u32, uint32_t, uint64_t, C, code) X(u64, uint64_t, uint64_t, C, code)                       \
    X(i8, int8_t, int64_t, C, code) X(i16, int16_t, int64_t, C, code)                             \
    X(i32, int32_t, int64_t, C, code) X(i64, int64_t, int64_t, C, code)

COUNTS(u8, uint8_t)
COUNTS(u16, uint16_t)
COUNTS(u32, uint32_t)
BY(SUMS, u8, uint8_t)
BY(SUMS, u16, uint16_t)
BY(SUMS, u32, uint32_t)

#define RUN(T, type, sum, C, code) sums_##T##_##C();

int main(void)
{
    for (int round = 0; round < ROUNDS; round++) {
        counts_u8();
        counts_u16();
        counts_u32();
        BY(RUN, u8, uint8_t)
        BY(RUN, u16, uint16_t)
        BY(RUN, u32, uint32_t)
    }
    return failures == 0 ? 0 : 1;
}
