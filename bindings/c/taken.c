/*
 * Compares the takes (gathers) of vortex_bits.h with a loop over positions: each function over
 * random values, indices and validities, in some rounds with an index out of range at a random
 * position, and each checked form with numbers past every limit. It is C and C++ alike.
 */
#include "tests.h"
#include "vortex_bits.h"

#include <string.h>

enum { VALUES = 100, POSITIONS = 200, BYTES = POSITIONS / 8 + 2, ROUNDS = 300 };

static uint8_t validity[BYTES];

/* Writes value i, of `size` bytes, whose bytes differ from each other. */
static void make(void *value, size_t size, size_t i)
{
    for (size_t k = 0; k < size; k++) {
        ((uint8_t *)value)[k] = (uint8_t)(7 * i + 31 * k + 1);
    }
}

/* Compares the outputs of vb_take_values_V_I and its checked form with a loop. */
#define TAKES(V, value_t, I, index_t)                                                             \
    static void takes_##V##_##I(void)                                                             \
    {                                                                                             \
        static value_t values[VALUES], wanted[POSITIONS + 1], got[2][POSITIONS + 1];              \
        static index_t indices[POSITIONS];                                                        \
        const size_t n = random_below(POSITIONS + 1), count = 1 + random_below(VALUES);           \
        const size_t v = random_below(9), bad = random_below(4 * (n + 1));                        \
        const bool all = random_below(3) == 0;                                                    \
        size_t past = n;                                                                          \
        for (size_t i = 0; i < VALUES; i++) {                                                     \
            make(&values[i], sizeof values[i], i);                                                \
        }                                                                                         \
        for (size_t i = 0; i < n; i++) {                                                          \
            indices[i] = (index_t)(i == bad ? (uint64_t)count : (uint64_t)random_below(count));   \
        }                                                                                         \
        memset(wanted, 0xA5, sizeof wanted);                                                      \
        memcpy(got[0], wanted, sizeof wanted);                                                    \
        memcpy(got[1], wanted, sizeof wanted);                                                    \
        for (size_t i = 0; i < n && past == n; i++) {                                             \
            memset(&wanted[i], 0, sizeof wanted[i]);                                              \
            if (all || bit(validity, v + i)) {                                                    \
                if (indices[i] >= count) {                                                        \
                    past = i;                                                                     \
                } else {                                                                          \
                    wanted[i] = values[indices[i]];                                               \
                }                                                                                 \
            }                                                                                     \
        }                                                                                         \
        const uint8_t *valid = all ? NULL : validity;                                             \
        vb_taken takes[2];                                                                        \
        takes[0] = vb_take_values_##V##_##I(got[0], n, values, count, indices, n, all, valid,     \
            all ? 0 : BYTES, v);                                                                  \
        check(vb_try_take_values_##V##_##I(got[1], n, values, count, indices, n, all, valid,      \
            all ? 0 : BYTES, v, &takes[1]), "vb_try_take_values_" #V "_" #I);                     \
        for (size_t k = 0; k < 2; k++) {                                                          \
            check(takes[k].out_of_range == (past < n) && (past == n || takes[k].position == past),\
                "the position that vb_take_values_" #V "_" #I " returns");                        \
            check(memcmp(got[k] + (past < n ? n : 0), wanted + (past < n ? n : 0),                \
                (past < n ? POSITIONS + 1 - n : POSITIONS + 1) * sizeof(value_t)) == 0,           \
                "what vb_take_values_" #V "_" #I " writes");                                      \
        }                                                                                         \
        vb_taken kept = {true, 77};                                                               \
        memcpy(got[0], got[1], sizeof wanted);                                                    \
        check(!vb_try_take_values_##V##_##I(got[1], 2, values, count, indices, 3, true, NULL, 0,  \
            0, &kept), "no space for " #V);                                                       \
        check(!vb_try_take_values_##V##_##I(got[1], 9, values, count, indices, 9, false,          \
            validity, 1, 0, &kept), "too few bits of a validity for " #V);                        \
        check(!vb_try_take_values_##V##_##I(got[1], 9, values, count, indices, 9, false,          \
            validity, BYTES, SIZE_MAX - 8, &kept), "a validity past every index");                \
        check(kept.out_of_range && kept.position == 77                                            \
            && memcmp(got[0], got[1], sizeof wanted) == 0, "what a refusal leaves");              \
    }

#define ALL(X)                                                                                    \
    X(u8, uint8_t, u8, uint8_t) X(u16, uint16_t, u8, uint8_t) X(u32, uint32_t, u8, uint8_t)       \
    X(u64, uint64_t, u8, uint8_t) X(u128, vb_u128, u8, uint8_t)                                   \
    X(u8, uint8_t, u16, uint16_t) X(u16, uint16_t, u16, uint16_t)                                 \
    X(u32, uint32_t, u16, uint16_t) X(u64, uint64_t, u16, uint16_t)                               \
    X(u128, vb_u128, u16, uint16_t)                                                               \
    X(u8, uint8_t, u32, uint32_t) X(u16, uint16_t, u32, uint32_t)                                 \
    X(u32, uint32_t, u32, uint32_t) X(u64, uint64_t, u32, uint32_t)                               \
    X(u128, vb_u128, u32, uint32_t)                                                               \
    X(u8, uint8_t, u64, uint64_t) X(u16, uint16_t, u64, uint64_t)                                 \
    X(u32, uint32_t, u64, uint64_t) X(u64, uint64_t, u64, uint64_t)                               \
    X(u128, vb_u128, u64, uint64_t)

ALL(TAKES)

#define RUN(V, value_t, I, index_t) takes_##V##_##I();

int main(void)
{
    for (int round = 0; round < ROUNDS; round++) {
        randomize_bytes(validity, BYTES);
        ALL(RUN)
    }
    return failures == 0 ? 0 : 1;
}
