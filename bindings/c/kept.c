/*
 * Compares the filters, deposits and combined counts of vortex_bits.h with a loop over single bits,
 * over random windows, and each checked form with numbers past every limit. It is C and C++ alike.
 */
#include "tests.h"
#include "vortex_bits.h"

#include <string.h>

enum { BYTES = 96, BITS = 8 * BYTES, ROUNDS = 5000 };

/* Returns a number for index i. Its low bytes are the values of each width. */
static uint64_t number_at(size_t i)
{
    return (i + 1) * 0x9E3779B97F4A7C15u;
}

/* The counts of an operator over two windows. Bit 2 * left + right of `table` is its result. */
static const struct {
    size_t (*plain)(const uint8_t *, size_t, size_t, const uint8_t *, size_t, size_t, size_t);
    bool (*checked)(const uint8_t *, size_t, size_t, const uint8_t *, size_t, size_t, size_t,
        size_t *);
    unsigned table;
} counts[] = {
    {vb_and_count, vb_try_and_count, 0x8},
    {vb_or_count, vb_try_or_count, 0xE},
    {vb_xor_count, vb_try_xor_count, 0x6},
    {vb_and_not_count, vb_try_and_not_count, 0x4},
};
enum { COUNTS = sizeof counts / sizeof counts[0] };

static void combined_counts(const uint8_t *left, size_t l, const uint8_t *right, size_t r,
    size_t len)
{
    for (size_t c = 0; c < COUNTS; c++) {
        size_t ones = 0, checked = 0;
        for (size_t i = 0; i < len; i++) {
            const unsigned both = 2u * bit(left, l + i) + bit(right, r + i);
            ones += counts[c].table >> both & 1;
        }
        check(counts[c].plain(left, BYTES, l, right, BYTES, r, len) == ones, "a combined count");
        check(counts[c].checked(left, BYTES, l, right, BYTES, r, len, &checked) && checked == ones,
            "a combined count, checked");
        check(!counts[c].checked(left, BYTES, BITS + 1 - len, right, BYTES, r, len, &checked)
                && !counts[c].checked(left, BYTES, l, right, 0, r, BITS, &checked)
                && checked == ones, "a bad window of a combined count");
    }
}

/* The index, at or after `from`, of the first bits that an operator makes true, or len. */
static size_t first_of(unsigned table, const uint8_t *left, size_t l, const uint8_t *right,
    size_t r, size_t len, size_t from)
{
    size_t at = from < len ? from : len;
    while (at < len && (table >> (2u * bit(left, l + at) + bit(right, r + at)) & 1) == 0) {
        at++;
    }
    return at;
}

/* Written by tools/write-lists from tools/families/questions.txt. */
static void is_disjoint(const uint8_t *left, size_t l, const uint8_t *right, size_t r, size_t len)
{
    const size_t first = first_of(0x8, left, l, right, r, len, 0);
    bool checked = first != len;
    check(vb_is_disjoint(left, BYTES, l, right, BYTES, r, len) == (first == len), "vb_is_disjoint");
    check(vb_try_is_disjoint(left, BYTES, l, right, BYTES, r, len, &checked)
            && checked == (first == len), "vb_try_is_disjoint");
    check(!vb_try_is_disjoint(left, BYTES, BITS + 1 - len, right, BYTES, r, len, &checked)
            && !vb_try_is_disjoint(left, BYTES, l, right, BYTES, SIZE_MAX, len + 1, &checked)
            && checked == (first == len), "a bad window of vb_try_is_disjoint");
}

static void is_subset(const uint8_t *left, size_t l, const uint8_t *right, size_t r, size_t len)
{
    const size_t first = first_of(0x4, left, l, right, r, len, 0);
    bool checked = first != len;
    check(vb_is_subset(left, BYTES, l, right, BYTES, r, len) == (first == len), "vb_is_subset");
    check(vb_try_is_subset(left, BYTES, l, right, BYTES, r, len, &checked)
            && checked == (first == len), "vb_try_is_subset");
    check(!vb_try_is_subset(left, BYTES, BITS + 1 - len, right, BYTES, r, len, &checked)
            && !vb_try_is_subset(left, BYTES, l, right, BYTES, SIZE_MAX, len + 1, &checked)
            && checked == (first == len), "a bad window of vb_try_is_subset");
}

static void questions(const uint8_t *left, size_t l, const uint8_t *right, size_t r, size_t len)
{
    is_disjoint(left, l, right, r, len);
    is_disjoint(left, l, left, l, len);
    is_disjoint(left, l, right, r, 0);
    is_subset(left, l, right, r, len);
    is_subset(left, l, left, l, len);
    is_subset(left, l, right, r, 0);
}
/* To here. */

/*
 * Deposits bits at the set bits of a mask, into a window, and checks that other bits are unchanged.
 */
static void deposits(const uint8_t *bytes, size_t v, const uint8_t *mask, size_t m, size_t len,
    size_t ones)
{
    uint8_t wanted[BYTES], got[2][BYTES];
    const size_t o = random_below(BITS - len + 1);
    memset(wanted, 0x3C, BYTES);
    memset(got, 0x3C, sizeof got);
    for (size_t i = 0, n = 0; i < len; i++) {
        const bool here = bit(mask, m + i);
        put(wanted, o + i, here && bit(bytes, v + n));
        n += here;
    }
    vb_deposit_bits(got[0], BYTES, o, bytes, BYTES, v, mask, BYTES, m, len);
    check(vb_try_deposit_bits(got[1], BYTES, o, bytes, BYTES, v, mask, BYTES, m, len),
        "the checked deposit");
    check(memcmp(got[0], wanted, BYTES) == 0 && memcmp(got[1], wanted, BYTES) == 0,
        "bits that are deposited");
    check(ones == 0 || !vb_try_deposit_bits(got[1], BYTES, o, bytes, (v + ones - 1) / 8, v, mask,
            BYTES, m, len), "a deposit of too few bits");
    check(memcmp(got[1], wanted, BYTES) == 0, "what a refusal leaves");
}

/* Returns the truth value of a row of a column; 2 if it is null. */
static unsigned truth(const uint8_t *values, size_t v, const uint8_t *validity, size_t w, size_t i)
{
    return validity == NULL || bit(validity, w + i) ? bit(values, v + i) : 2u;
}

/*
 * Three-valued logic: the calls of `and` and of `or`, and their results for two rows: 0, 1, or 2
 * for null.
 */
static const struct {
    void (*plain)(uint8_t *, size_t, size_t, uint8_t *, size_t, size_t, const uint8_t *, size_t,
        size_t, bool, const uint8_t *, size_t, size_t, const uint8_t *, size_t, size_t, bool,
        const uint8_t *, size_t, size_t, size_t);
    bool (*checked)(uint8_t *, size_t, size_t, uint8_t *, size_t, size_t, const uint8_t *, size_t,
        size_t, bool, const uint8_t *, size_t, size_t, const uint8_t *, size_t, size_t, bool,
        const uint8_t *, size_t, size_t, size_t);
    unsigned table[3][3];
} logics[] = {
    {vb_and_kleene, vb_try_and_kleene, {{0, 0, 0}, {0, 1, 2}, {0, 2, 2}}},
    {vb_or_kleene, vb_try_or_kleene, {{0, 1, 2}, {1, 1, 1}, {2, 1, 2}}},
};

/*
 * Writes three-valued logic into windows, and checks that other bits are unchanged. A null pointer
 * is a missing validity.
 */
static void three_valued(const uint8_t *left, size_t l, const uint8_t *left_valid,
    const uint8_t *right, size_t r, const uint8_t *right_valid, size_t len)
{
    const size_t size = BYTES;
    const size_t sizes[] = {left_valid == NULL ? 0 : size, right_valid == NULL ? 0 : size};
    const bool all[] = {left_valid == NULL, right_valid == NULL};
    const size_t t = random_below(BITS - len + 1), v = random_below(BITS - len + 1);
    for (size_t c = 0; c < sizeof logics / sizeof logics[0]; c++) {
        uint8_t wanted[2][BYTES], got[2][BYTES], checked[2][BYTES];
        memset(wanted, 0x3C, sizeof wanted);
        memset(got, 0x3C, sizeof got);
        memset(checked, 0x3C, sizeof checked);
        for (size_t i = 0; i < len; i++) {
            const unsigned row = logics[c].table[truth(left, l, left_valid, r, i)]
                [truth(right, r, right_valid, l, i)];
            put(wanted[0], t + i, row == 1);
            put(wanted[1], v + i, row != 2);
        }
        logics[c].plain(got[0], BYTES, t, got[1], BYTES, v, left, BYTES, l, all[0], left_valid,
            sizes[0], r, right, BYTES, r, all[1], right_valid, sizes[1], l, len);
        check(memcmp(got, wanted, sizeof wanted) == 0, "three-valued logic");
        check(logics[c].checked(checked[0], BYTES, t, checked[1], BYTES, v, left, BYTES, l, all[0],
                left_valid, sizes[0], r, right, BYTES, r, all[1], right_valid, sizes[1], l, len)
                && memcmp(checked, wanted, sizeof wanted) == 0, "three-valued logic, checked");
        const size_t past = BITS + 1 - len;
        const bool done = logics[c].checked(checked[0], BYTES, past, checked[1], BYTES, v, left,
                BYTES, l, all[0], left_valid, sizes[0], r, right, BYTES, r, all[1], right_valid,
                sizes[1], l, len)
            || logics[c].checked(checked[0], BYTES, t, checked[1], BYTES, past, left, BYTES, l,
                all[0], left_valid, sizes[0], r, right, BYTES, r, all[1], right_valid, sizes[1], l,
                len)
            || logics[c].checked(checked[0], BYTES, t, checked[1], BYTES, v, left, BYTES, l, false,
                left, BYTES, past, right, BYTES, r, all[1], right_valid, sizes[1], l, len)
            || logics[c].checked(checked[0], BYTES, t, checked[1], BYTES, v, left, BYTES, l, all[0],
                left_valid, sizes[0], r, right, BYTES, r, false, right, BYTES, SIZE_MAX, len + 1);
        check(!done && memcmp(checked, wanted, sizeof wanted) == 0, "a bad window of truth values");
    }
}

/*
 * Scatters values of a type over the items that a mask selects, and checks that the other items are
 * unchanged.
 */
#define SCATTERS(V, value_t)                                                                      \
    static void scatters_##V(const uint8_t *mask, size_t m, size_t len, size_t ones)              \
    {                                                                                             \
        static value_t values[BITS], got[2][BITS], wanted[BITS];                                  \
        size_t written = 77, n = 0;                                                               \
        memset(got, 0xA5, sizeof got);                                                            \
        memset(wanted, 0xA5, sizeof wanted);                                                      \
        for (size_t i = 0; i < len; i++) {                                                        \
            const uint64_t number = number_at(i);                                                 \
            memset(&values[i], (int)(number >> 56), sizeof(value_t));                             \
            memcpy(&values[i], &number, sizeof(value_t) < 8 ? sizeof(value_t) : 8);               \
        }                                                                                         \
        for (size_t i = 0; i < len; i++) {                                                        \
            if (bit(mask, m + i)) {                                                               \
                wanted[i] = values[n++];                                                          \
            }                                                                                     \
        }                                                                                         \
        const size_t room = ones + random_below(len - ones + 1);                                  \
        check(vb_scatter_values_##V(got[0], len, values, room, mask, BYTES, m) == ones,           \
            "how many values of " #V " are scattered");                                           \
        check(vb_try_scatter_values_##V(got[1], len, values, ones, mask, BYTES, m, &written)      \
                && written == ones, "how many of " #V " are scattered, checked");                 \
        check(memcmp(got[0], wanted, sizeof wanted) == 0                                          \
                && memcmp(got[1], wanted, sizeof wanted) == 0, "scattered values of " #V);        \
        check(ones == 0 || !vb_try_scatter_values_##V(got[1], len, values, ones - 1, mask, BYTES, \
                m, &written), "too few values of " #V);                                           \
        check(!vb_try_scatter_values_##V(got[1], len, values, len, mask, (m + len) / 8, m + 8,    \
                &written) && written == ones && memcmp(got[1], wanted, sizeof wanted) == 0,       \
            "a bad mask of " #V);                                                                 \
    }

SCATTERS(u8, uint8_t)
SCATTERS(u16, uint16_t)
SCATTERS(u32, uint32_t)
SCATTERS(u64, uint64_t)
SCATTERS(u128, vb_u128)

/* Filters values of a type in place, and checks that the values after them are unchanged. */
#define RETAINS(V, value_t)                                                                       \
    static void retains_##V(const uint8_t *mask, size_t m, size_t len, size_t ones)               \
    {                                                                                             \
        static value_t values[BITS], got[2][BITS], wanted[BITS];                                  \
        size_t written = 77, n = 0;                                                               \
        for (size_t i = 0; i < BITS; i++) {                                                       \
            const uint64_t number = number_at(i);                                                 \
            memset(&values[i], (int)(number >> 56), sizeof(value_t));                             \
            memcpy(&values[i], &number, sizeof(value_t) < 8 ? sizeof(value_t) : 8);               \
        }                                                                                         \
        memcpy(got[0], values, sizeof values);                                                    \
        memcpy(got[1], values, sizeof values);                                                    \
        memcpy(wanted, values, sizeof values);                                                    \
        for (size_t i = 0; i < len; i++) {                                                        \
            if (bit(mask, m + i)) {                                                               \
                wanted[n++] = values[i];                                                          \
            }                                                                                     \
        }                                                                                         \
        check(vb_retain_values_##V(got[0], len, mask, BYTES, m) == ones,                          \
            "how many values of " #V " stay");                                                    \
        check(vb_try_retain_values_##V(got[1], len, mask, BYTES, m, &written)                     \
                && written == ones, "how many of " #V " stay, checked");                          \
        check(memcmp(got[0], wanted, sizeof wanted) == 0                                          \
                && memcmp(got[1], wanted, sizeof wanted) == 0, "values of " #V " that stay");     \
        check(!vb_try_retain_values_##V(got[1], len, mask, (m + len) / 8, m + 8, &written)        \
                && written == ones && memcmp(got[1], wanted, sizeof wanted) == 0,                 \
            "a bad mask of " #V " in place");                                                     \
    }

RETAINS(u8, uint8_t)
RETAINS(u16, uint16_t)
RETAINS(u32, uint32_t)
RETAINS(u64, uint64_t)
RETAINS(u128, vb_u128)

/* Filters bits and values by a mask, and checks that the memory after them is unchanged. */
static void filters(const uint8_t *bytes, size_t v, const uint8_t *mask, size_t m, size_t len)
{
    static uint8_t u8[2][BITS], from8[BITS], kept[BYTES], got[2][BYTES];
    static uint16_t u16[2][BITS], from16[BITS];
    static uint32_t u32[2][BITS], from32[BITS];
    static uint64_t u64[2][BITS], from64[BITS];
    static vb_u128 u128[2][BITS], from128[BITS];
    size_t ones = 0, written[6] = {0};
    memset(kept, 0xA5, BYTES);
    memset(got, 0xA5, sizeof got);
    memset(u8, 0xA5, sizeof u8);
    memset(u16, 0xA5, sizeof u16);
    memset(u32, 0xA5, sizeof u32);
    memset(u64, 0xA5, sizeof u64);
    memset(u128, 0xA5, sizeof u128);
    for (size_t i = 0; i < len; i++) {
        const uint64_t number = number_at(i);
        from8[i] = (uint8_t)number;
        from16[i] = (uint16_t)number;
        from32[i] = (uint32_t)number;
        from64[i] = number;
        from128[i].low = number;
        from128[i].high = ~number;
        ones += bit(mask, m + i);
    }
    check(vb_filter_bits(got[0], BYTES, 0, bytes, BYTES, v, mask, BYTES, m, len) == ones,
        "vb_filter_bits");
    check(vb_filter_values_u8(u8[0], ones, from8, len, mask, BYTES, m) == ones,
        "vb_filter_values_u8");
    check(vb_filter_values_u16(u16[0], ones, from16, len, mask, BYTES, m) == ones,
        "vb_filter_values_u16");
    check(vb_filter_values_u32(u32[0], ones, from32, len, mask, BYTES, m) == ones,
        "vb_filter_values_u32");
    check(vb_filter_values_u64(u64[0], ones, from64, len, mask, BYTES, m) == ones,
        "vb_filter_values_u64");
    check(vb_filter_values_u128(u128[0], ones, from128, len, mask, BYTES, m) == ones,
        "vb_filter_values_u128");
    const bool all = vb_try_filter_bits(got[1], BYTES, 0, bytes, BYTES, v, mask, BYTES, m, len,
            &written[0])
        & vb_try_filter_values_u8(u8[1], BITS, from8, len, mask, BYTES, m, &written[1])
        & vb_try_filter_values_u16(u16[1], BITS, from16, len, mask, BYTES, m, &written[2])
        & vb_try_filter_values_u32(u32[1], BITS, from32, len, mask, BYTES, m, &written[3])
        & vb_try_filter_values_u64(u64[1], BITS, from64, len, mask, BYTES, m, &written[4])
        & vb_try_filter_values_u128(u128[1], BITS, from128, len, mask, BYTES, m, &written[5]);
    check(all, "the checked filters");
    for (size_t k = 0; k < 6; k++) {
        check(written[k] == ones, "how many the checked filters keep");
    }
    for (size_t i = 0, n = 0; i < len; i++) {
        if (bit(mask, m + i)) {
            put(kept, n, bit(bytes, v + i));
            for (size_t k = 0; k < 2; k++) {
                check(u8[k][n] == from8[i] && u16[k][n] == from16[i] && u32[k][n] == from32[i]
                        && u64[k][n] == from64[i] && u128[k][n].low == from128[i].low
                        && u128[k][n].high == from128[i].high, "a value that is kept");
            }
            n++;
        }
    }
    check(memcmp(got[0], kept, BYTES) == 0 && memcmp(got[1], kept, BYTES) == 0,
        "bits that are kept");
    deposits(bytes, v, mask, m, len, ones);
    scatters_u8(mask, m, len, ones);
    scatters_u16(mask, m, len, ones);
    scatters_u32(mask, m, len, ones);
    scatters_u64(mask, m, len, ones);
    scatters_u128(mask, m, len, ones);
    retains_u8(mask, m, len, ones);
    retains_u16(mask, m, len, ones);
    retains_u32(mask, m, len, ones);
    retains_u64(mask, m, len, ones);
    retains_u128(mask, m, len, ones);
    combined_counts(bytes, v, mask, m, len);
    questions(bytes, v, mask, m, len);
    three_valued(bytes, v, mask, mask, m, bytes, len);
    three_valued(bytes, v, NULL, mask, m, random_below(2) == 0 ? bytes : NULL, len);
    three_valued(bytes, v, mask, mask, m, NULL, len);
    for (size_t k = 0; k < 2 && ones < BITS; k++) {
        check(u8[k][ones] == 0xA5 && u16[k][ones] == 0xA5A5 && u32[k][ones] == 0xA5A5A5A5u
                && u64[k][ones] == 0xA5A5A5A5A5A5A5A5u
                && u128[k][ones].low == 0xA5A5A5A5A5A5A5A5u, "memory behind the selected values");
    }
}

/* Tests checked filters over a window that doesn't fit, and without space for their results. */
static void bad_filters(const uint8_t *bytes, size_t offset, size_t len)
{
    static const uint8_t ones[2] = {0xFF, 0xFF};
    static uint8_t u8[9];
    static uint16_t u16[9];
    static uint32_t u32[9];
    static uint64_t u64[9];
    static vb_u128 u128[9];
    uint8_t got[1] = {0x5A};
    size_t number = 77;
    check(!vb_try_deposit_bits(got, 1, 0, bytes, BYTES, 0, bytes, BYTES, offset, len)
            && !vb_try_deposit_bits(got, 1, offset, bytes, BYTES, 0, bytes, BYTES, 0, len),
        "a bad window of a deposit");
    check(!vb_try_filter_bits(got, 1, 0, bytes, BYTES, offset, bytes, BYTES, 0, len, &number),
        "a bad window of values");
    check(!vb_try_filter_bits(got, 1, 0, bytes, BYTES, 0, bytes, BYTES, offset, len, &number),
        "a bad mask");
    check(!vb_try_filter_bits(got, 1, 0, ones, 2, 7, ones, 2, 7, 9, &number), "no room");
    for (size_t m = 7; m < 9; m++) {
        const size_t room = m == 7 ? 8 : 9;
        check(!vb_try_filter_values_u8(u8, room, u8, 9, ones, 2, m, &number),
            "no space, or a bad mask");
        check(!vb_try_filter_values_u16(u16, room, u16, 9, ones, 2, m, &number),
            "no space, or a bad mask");
        check(!vb_try_filter_values_u32(u32, room, u32, 9, ones, 2, m, &number),
            "no space, or a bad mask");
        check(!vb_try_filter_values_u64(u64, room, u64, 9, ones, 2, m, &number),
            "no space, or a bad mask");
        check(!vb_try_filter_values_u128(u128, room, u128, 9, ones, 2, m, &number),
            "no space, or a bad mask");
    }
    check(got[0] == 0x5A && number == 77, "a refused filter left all as it was");
}

/* Windows of BYTES bytes that don't fit: past the end by a bit or by much, and past SIZE_MAX. */
static const size_t bad[][2] = {
    {0, BITS + 1}, {1, BITS}, {BITS, 1}, {BITS + 1, 0}, {SIZE_MAX, 1}, {1, SIZE_MAX},
    {SIZE_MAX - 7, 8}, {SIZE_MAX, 0}, {0, SIZE_MAX},
};

int main(void)
{
    uint8_t bytes[BYTES], mask[BYTES];
    for (int round = 0; round < ROUNDS; round++) {
        randomize_bytes(bytes, BYTES);
        randomize_bytes(mask, BYTES);
        const size_t len = random_below(BITS + 1);
        filters(bytes, random_below(BITS - len + 1), mask, random_below(BITS - len + 1), len);
    }
    for (size_t k = 0; k < sizeof bad / sizeof bad[0]; k++) {
        bad_filters(bytes, bad[k][0], bad[k][1]);
    }
    return failures == 0 ? 0 : 1;
}
