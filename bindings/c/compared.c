/*
 * Compares the comparisons of vortex_bits.h with a loop over values: each function and each
 * comparison, into random windows, and each checked form with numbers past every limit. Integers
 * are random ones near an end or the middle of their type. Floats include NaN, both infinities and
 * both zeros, and are also compared by their bits. It is C and C++ alike.
 */
#include "tests.h"
#include "vortex_bits.h"

#include <math.h>
#include <string.h>

enum { VALUES = 300, BYTES = VALUES / 8 + 3, ROUNDS = 200, COMPARISONS = 6 };

/* Returns a random value of an integer type. */
#define WHOLE(T, value)                                                                           \
    static value value_##T(void)                                                                  \
    {                                                                                             \
        const size_t kind = random_below(4);                                                      \
        const uint64_t middle = (uint64_t)1 << (8 * sizeof(value) - 1);                           \
        const uint64_t near = kind == 0 ? 0 : kind == 1 ? middle : random_below(4);               \
        return (value)(near - random_below(3));                                                   \
    }

/* Returns a random value of a float type, in some calls one of random bits. */
#define FLOAT(T, value)                                                                           \
    static value value_##T(void)                                                                  \
    {                                                                                             \
        static const value some[] = {(value)NAN, -(value)NAN, (value)INFINITY, -(value)INFINITY,  \
            0, -(value)0.0, 1, -1, (value)1.5};                                                   \
        const size_t kind = random_below(16);                                                     \
        value any = kind < sizeof some / sizeof *some ? some[kind] : (value)random_below(3);      \
        if (kind == 15) {                                                                         \
            const uint64_t bits = (uint64_t)random_below(SIZE_MAX);                               \
            memcpy(&any, &bits, sizeof any);                                                      \
        }                                                                                         \
        return any;                                                                               \
    }

/* Compares the outputs of vb_compare_T, vb_compare_with_T and their checked forms with a loop. */
#define COMPARES(T, value)                                                                        \
    static bool holds_##T(uint8_t op, value a, value b)                                           \
    {                                                                                             \
        return op == VB_EQUAL ? a == b : op == VB_NOT_EQUAL ? a != b : op == VB_LESS ? a < b      \
            : op == VB_LESS_OR_EQUAL ? a <= b : op == VB_GREATER ? a > b : a >= b;                \
    }                                                                                             \
                                                                                                  \
    static void compares_##T(void)                                                                \
    {                                                                                             \
        static value values[VALUES], others[VALUES];                                              \
        uint8_t wanted[2][BYTES], got[4][BYTES];                                                  \
        const size_t n = random_below(VALUES + 1), o = random_below(10);                          \
        const uint8_t op = (uint8_t)random_below(COMPARISONS);                                    \
        const value number = value_##T();                                                         \
        memset(wanted, 0x5A, sizeof wanted);                                                      \
        memset(got, 0x5A, sizeof got);                                                            \
        for (size_t i = 0; i < n; i++) {                                                          \
            values[i] = value_##T();                                                              \
            others[i] = value_##T();                                                              \
            put(wanted[0], o + i, holds_##T(op, values[i], number));                              \
            put(wanted[1], o + i, holds_##T(op, values[i], others[i]));                           \
        }                                                                                         \
        vb_compare_##T(got[0], BYTES, o, values, n, op, number);                                  \
        vb_compare_with_##T(got[1], BYTES, o, values, n, op, others, n);                          \
        check(vb_try_compare_##T(got[2], BYTES, o, values, n, op, number), "vb_try_compare_" #T); \
        check(vb_try_compare_with_##T(got[3], BYTES, o, values, n, op, others, n),                \
            "vb_try_compare_with_" #T);                                                           \
        for (size_t k = 0; k < 4; k++) {                                                          \
            check(memcmp(got[k], wanted[k % 2], BYTES) == 0,                                      \
                "what a comparison of " #T " writes");                                            \
        }                                                                                         \
        check(!vb_try_compare_##T(got[2], BYTES, o, values, n, COMPARISONS, number)               \
                && !vb_try_compare_##T(got[2], BYTES, 8 * BYTES + 1 - n, values, n, op, number)   \
                && !vb_try_compare_with_##T(got[3], BYTES, o, values, n, 255, others, n)          \
                && !vb_try_compare_with_##T(got[3], BYTES, o, values, n, op, others, n + 1)       \
                && !vb_try_compare_with_##T(got[3], BYTES, SIZE_MAX, values, n, op, others, n),   \
            "a bad number of a comparison of " #T);                                               \
        check(memcmp(got[2], wanted[0], BYTES) == 0 && memcmp(got[3], wanted[1], BYTES) == 0,     \
            "what a refusal leaves");                                                             \
    }

/*
 * Compares comparisons of floats with comparisons of their bits: each float of a list with each,
 * including both zeros, subnormals, and NaNs of both signs (signalling, quiet and with a payload).
 * The floats come only from loads, so that no operation quiets a NaN. Calls by value may do so.
 */
#define BY_BITS(T, value, form, SIGN, INFINITE, UNIT)                                             \
    static bool holds_by_bits_##T(uint8_t op, form a, form b)                                     \
    {                                                                                             \
        const int64_t left = (int64_t)(a & (SIGN - 1)), right = (int64_t)(b & (SIGN - 1));        \
        if (left > (int64_t)INFINITE || right > (int64_t)INFINITE) {                              \
            return op == VB_NOT_EQUAL;                                                            \
        }                                                                                         \
        return holds_i64(op, a & SIGN ? -left : left, b & SIGN ? -right : right);                 \
    }                                                                                             \
                                                                                                  \
    static void compares_bits_##T(void)                                                           \
    {                                                                                             \
        static const form bits[] = {0, 1, UNIT - 1, UNIT, SIGN / 4, SIGN / 4 + 1, INFINITE - 1,   \
            INFINITE, INFINITE + 1, INFINITE + UNIT / 2 - 1, INFINITE + UNIT / 2,                 \
            INFINITE + UNIT / 2 + 5, SIGN - 1};                                                   \
        enum { HALF = sizeof bits / sizeof *bits, KINDS = 2 * HALF, PAIRS = KINDS * KINDS };      \
        static form left[PAIRS], right[PAIRS];                                                    \
        static value values[PAIRS], others[PAIRS];                                                \
        uint8_t wanted[PAIRS / 8 + 2], got[PAIRS / 8 + 2];                                        \
        for (size_t i = 0; i < PAIRS; i++) {                                                      \
            left[i] = bits[i % HALF] + (i / HALF % 2 == 0 ? 0 : SIGN);                            \
            right[i] = bits[i / KINDS % HALF] + (i / KINDS < HALF ? 0 : SIGN);                    \
        }                                                                                         \
        memcpy(values, left, sizeof values);                                                      \
        memcpy(others, right, sizeof others);                                                     \
        for (uint8_t op = 0; op < COMPARISONS; op++) {                                            \
            memset(wanted, 0x5A, sizeof wanted);                                                  \
            memset(got, 0x5A, sizeof got);                                                        \
            for (size_t i = 0; i < PAIRS; i++) {                                                  \
                put(wanted, 3 + i, holds_by_bits_##T(op, left[i], right[i]));                     \
            }                                                                                     \
            vb_compare_with_##T(got, sizeof got, 3, values, PAIRS, op, others, PAIRS);            \
            check(memcmp(got, wanted, sizeof got) == 0, "floats of any bits, " #T);               \
            for (size_t k = 0; k < KINDS; k++) {                                                  \
                vb_compare_##T(got, sizeof got, 3 + k * KINDS, values, KINDS, op,                 \
                    others[k * KINDS]);                                                           \
            }                                                                                     \
            check(memcmp(got, wanted, sizeof got) == 0, "a float of any bits, " #T);              \
        }                                                                                         \
    }

#define NUMBERS(X)                                                                                \
    X(u8, uint8_t) X(u16, uint16_t) X(u32, uint32_t) X(u64, uint64_t) X(i8, int8_t)               \
    X(i16, int16_t) X(i32, int32_t) X(i64, int64_t)
#define FLOATS(X) X(f32, float) X(f64, double)
#define ALL(X) NUMBERS(X) FLOATS(X)

NUMBERS(WHOLE)
FLOATS(FLOAT)
ALL(COMPARES)
BY_BITS(f32, float, uint32_t, 0x80000000u, 0x7F800000u, 0x00800000u)
BY_BITS(f64, double, uint64_t, 0x8000000000000000u, 0x7FF0000000000000u, 0x0010000000000000u)

#define RUN(T, value) compares_##T();

int main(void)
{
    for (int round = 0; round < ROUNDS; round++) {
        ALL(RUN)
    }
    compares_bits_f32();
    compares_bits_f64();
    check(sizeof(enum vb_comparison) == sizeof(unsigned int), "the enumeration of C and of C++");
    return failures == 0 ? 0 : 1;
}
