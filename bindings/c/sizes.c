/*
 * Compares the functions by size of vortex_bits_values.h with those for values of a type, over
 * random masks and indices, and tests the checked forms with unknown sizes and alignments. It is C
 * and C++ alike.
 */
#include "tests.h"
#include "vortex_bits.h"

#include <string.h>

enum { VALUES = 200, BYTES = VALUES / 8 + 2, ROUNDS = 200 };

static uint8_t mask[BYTES];

static void randomize(void *items, size_t size)
{
    for (size_t i = 0; i < size; i++) {
        ((uint8_t *)items)[i] = (uint8_t)random_below(256);
    }
}

static bool same_taken(vb_taken a, vb_taken b)
{
    return a.out_of_range == b.out_of_range && (!a.out_of_range || a.position == b.position);
}

#define FILTERS(V, value_t)                                                                       \
    static void filters_##V(void)                                                                 \
    {                                                                                             \
        static value_t values[VALUES], got[3][VALUES];                                            \
        const size_t n = random_below(VALUES + 1), m = random_below(9), size = sizeof(value_t);   \
        randomize(values, sizeof values);                                                         \
        memset(got, 0xA5, sizeof got);                                                            \
        size_t written = 77;                                                                      \
        const size_t kept = vb_filter_values_##V(got[0], VALUES, values, n, mask, BYTES, m);      \
        check(vb_filter_values(got[1], VALUES, values, n, size, mask, BYTES, m) == kept           \
                && vb_try_filter_values(got[2], VALUES, values, n, size, mask, BYTES, m,          \
                    &written) && written == kept, "how many a filter of " #V " keeps");           \
        check(memcmp(got[0], got[1], sizeof got[0]) == 0                                          \
                && memcmp(got[0], got[2], sizeof got[0]) == 0, "what a filter of " #V " keeps");  \
    }

#define SCATTERS(V, value_t)                                                                      \
    static void scatters_##V(void)                                                                \
    {                                                                                             \
        static value_t values[VALUES], got[3][VALUES];                                            \
        const size_t n = random_below(VALUES + 1), m = random_below(9), size = sizeof(value_t);   \
        randomize(values, sizeof values);                                                         \
        memset(got, 0xA5, sizeof got);                                                            \
        size_t written = 77;                                                                      \
        const size_t kept = vb_scatter_values_##V(got[0], n, values, VALUES, mask, BYTES, m);     \
        check(vb_scatter_values(got[1], n, values, VALUES, size, mask, BYTES, m) == kept          \
                && vb_try_scatter_values(got[2], n, values, VALUES, size, mask, BYTES, m,         \
                    &written) && written == kept, "how many a scatter of " #V " writes");         \
        check(memcmp(got[0], got[1], sizeof got[0]) == 0                                          \
                && memcmp(got[0], got[2], sizeof got[0]) == 0,                                    \
            "what a scatter of " #V " writes");                                                   \
    }

#define RETAINS(V, value_t)                                                                       \
    static void retains_##V(void)                                                                 \
    {                                                                                             \
        static value_t got[3][VALUES];                                                            \
        const size_t n = random_below(VALUES + 1), m = random_below(9), size = sizeof(value_t);   \
        randomize(got[0], sizeof got[0]);                                                         \
        memcpy(got[1], got[0], sizeof got[0]);                                                    \
        memcpy(got[2], got[0], sizeof got[0]);                                                    \
        size_t written = 77;                                                                      \
        const size_t kept = vb_retain_values_##V(got[0], n, mask, BYTES, m);                      \
        check(vb_retain_values(got[1], n, size, mask, BYTES, m) == kept                           \
                && vb_try_retain_values(got[2], n, size, mask, BYTES, m, &written)                \
                && written == kept, "how many a filter of " #V " in place keeps");                \
        check(memcmp(got[0], got[1], sizeof got[0]) == 0                                          \
                && memcmp(got[0], got[2], sizeof got[0]) == 0,                                    \
            "what a filter of " #V " in place keeps");                                            \
    }

#define TAKES(V, value_t, I, index_t)                                                             \
    static void takes_##V##_##I(void)                                                             \
    {                                                                                             \
        static value_t values[VALUES], got[3][VALUES];                                            \
        static index_t indices[VALUES];                                                           \
        const size_t n = random_below(VALUES + 1), v = random_below(9), size = sizeof(value_t);   \
        const bool all = random_below(2) == 0;                                                    \
        randomize(values, sizeof values);                                                         \
        memset(got, 0xA5, sizeof got);                                                            \
        for (size_t i = 0; i < n; i++) {                                                          \
            indices[i] = (index_t)random_below(VALUES + (random_below(400) == 0));                \
        }                                                                                         \
        vb_taken past = {true, 77};                                                               \
        const vb_taken wanted = vb_take_values_##V##_##I(got[0], VALUES, values, VALUES, indices, \
            n, all, mask, BYTES, v);                                                              \
        check(same_taken(vb_take_values(got[1], VALUES, values, VALUES, size, indices, n,         \
                sizeof(index_t), all, mask, BYTES, v), wanted)                                    \
                && vb_try_take_values(got[2], VALUES, values, VALUES, size, indices, n,           \
                    sizeof(index_t), all, mask, BYTES, v, &past) && same_taken(past, wanted),     \
            "the position that a take of " #V " by " #I " returns");                              \
        check(memcmp(got[0], got[1], sizeof got[0]) == 0                                          \
                && memcmp(got[0], got[2], sizeof got[0]) == 0,                                    \
            "what a take of " #V " by " #I " writes");                                            \
    }

#define EACH(X) X(u8, uint8_t) X(u16, uint16_t) X(u32, uint32_t) X(u64, uint64_t) X(u128, vb_u128)
#define BY(V, value_t)                                                                            \
    TAKES(V, value_t, u8, uint8_t) TAKES(V, value_t, u16, uint16_t)                               \
    TAKES(V, value_t, u32, uint32_t) TAKES(V, value_t, u64, uint64_t)

EACH(FILTERS)
EACH(SCATTERS)
EACH(RETAINS)
EACH(BY)

#define RUN(V, value_t)                                                                           \
    filters_##V();                                                                                \
    scatters_##V();                                                                               \
    retains_##V();                                                                                \
    takes_##V##_u8();                                                                             \
    takes_##V##_u16();                                                                            \
    takes_##V##_u32();                                                                            \
    takes_##V##_u64();

/* Sizes that no function is for, and items that are less aligned than those of a type. */
static void refusals(void)
{
    static vb_u128 values[9], out[9];
    static uint64_t indices[9];
    size_t written = 77;
    vb_taken past = {true, 77};
    for (size_t size = 0; size <= 40; size++) {
        const bool known = size == 1 || size == 2 || size == 4 || size == 8 || size == 16;
        check(vb_try_filter_values(out, 4, values, 4, size, mask, BYTES, 0, &written) == known
                && vb_try_scatter_values(out, 4, values, 4, size, mask, BYTES, 0, &written) == known
                && vb_try_retain_values(values, 4, size, mask, BYTES, 0, &written) == known
                && vb_try_take_values(out, 4, values, 4, size, indices, 4, 8, true, NULL, 0, 0,
                    &past) == known, "a size of values");
        check(vb_try_take_values(out, 4, values, 4, 8, indices, 4, size, true, NULL, 0, 0, &past)
                == (known && size < 16), "a size of indices");
    }
    written = 77;
    past.position = 77;
    memset(out, 0x5A, sizeof out);
    const uint8_t *odd = (const uint8_t *)values + 4;
    check(!vb_try_filter_values(out, 4, odd, 4, 8, mask, BYTES, 0, &written)
            && !vb_try_filter_values((uint8_t *)out + 1, 4, values, 4, 2, mask, BYTES, 0, &written)
            && !vb_try_scatter_values(out, 4, odd, 4, 8, mask, BYTES, 0, &written)
            && !vb_try_scatter_values((uint8_t *)out + 1, 4, values, 4, 2, mask, BYTES, 0, &written)
            && !vb_try_retain_values((uint8_t *)out + 4, 2, 8, mask, BYTES, 0, &written)
            && !vb_try_take_values(out, 4, odd, 4, 16, indices, 4, 8, true, NULL, 0, 0, &past)
            && !vb_try_take_values(out, 4, values, 4, 8, odd, 4, 8, true, NULL, 0, 0, &past),
        "items that aren't aligned");
    check(written == 77 && past.position == 77 && ((const uint8_t *)out)[0] == 0x5A
            && memcmp(out, (const uint8_t *)out + 1, sizeof out - 1) == 0,
        "what a refused call left");
    check(vb_try_filter_values(out, 4, odd, 4, 4, mask, BYTES, 0, &written), "words of 32 bits");
}

int main(void)
{
    for (int round = 0; round < ROUNDS; round++) {
        randomize(mask, sizeof mask);
        EACH(RUN)
    }
    refusals();
    return failures == 0 ? 0 : 1;
}
