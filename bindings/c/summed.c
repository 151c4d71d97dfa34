/*
 * Compares the calls of vortex_bits_aggregate.h with a loop over single bits: for every type, under
 * random masks, with values at both ends of the type, and floats that are no numbers. It compiles
 * as C and as C++.
 */
#include "tests.h"
#include "vortex_bits.h"

#include <math.h>
#include <string.h>

enum { VALUES = 300, BYTES = 48, ROUNDS = 20000 };

/* A number of 128 bits, as two halves. */
typedef struct {
    uint64_t low, high;
} halves;

static void add(halves *sum, uint64_t number, bool is_negative)
{
    sum->low += number;
    sum->high += (is_negative ? UINT64_MAX : 0) + (sum->low < number);
}

/* Returns any number, or one near 0, near 2^64, or near an end of a signed type of `bits` bits. */
static uint64_t number_of(unsigned bits)
{
    const uint64_t any = random_below(SIZE_MAX), few = random_below(3);
    switch (random_below(4)) {
    case 0:
        return any;
    case 1:
        return few;
    case 2:
        return UINT64_MAX - few;
    default:
        return ((uint64_t)1 << (bits - 1)) + 1 - few;
    }
}

/* Compares the calls for values of a type, and their checked forms, with a loop. */
#define AGGREGATES(T, type, wide, is_signed)                                                      \
    static void add_##T(halves *sum, type v)                                                      \
    {                                                                                             \
        add(sum, (uint64_t)v, is_signed && (uint64_t)v >> 63 != 0);                               \
    }                                                                                             \
                                                                                                  \
    static bool is_##T(vb_optional_##T it, bool has_value, type v)                                \
    {                                                                                             \
        return it.has_value == has_value && (!has_value || it.value == v);                        \
    }                                                                                             \
                                                                                                  \
    static void aggregates_##T(void)                                                              \
    {                                                                                             \
        static type values[VALUES];                                                               \
        uint8_t mask[BYTES];                                                                      \
        const size_t n = random_below(VALUES + 1), o = random_below(10);                          \
        halves sum = {0, 0}, one = {0, 0};                                                        \
        type least = 0, greatest = 0;                                                             \
        bool is_any = false;                                                                      \
        randomize_bytes(mask, BYTES);                                                             \
        for (size_t i = 0; i < n; i++) {                                                          \
            const type v = values[i] = (type)number_of(8 * sizeof(type));                         \
            if (bit(mask, o + i)) {                                                               \
                add_##T(&sum, v);                                                                 \
                least = !is_any || v < least ? v : least;                                         \
                greatest = !is_any || v > greatest ? v : greatest;                                \
                is_any = true;                                                                    \
            }                                                                                     \
        }                                                                                         \
        /* The sum fits the type if it equals the value of its low bits. */                       \
        const type wrapped = (type)sum.low;                                                       \
        add_##T(&one, wrapped);                                                                   \
        const bool fits = one.low == sum.low && one.high == sum.high;                             \
                                                                                                  \
        const wide exact = vb_masked_sum_##T(values, n, mask, BYTES, o);                          \
        check(exact.low == sum.low && (uint64_t)exact.high == sum.high, "vb_masked_sum_" #T);     \
        check(is_##T(vb_masked_checked_sum_##T(values, n, mask, BYTES, o), fits, wrapped),        \
            "vb_masked_checked_sum_" #T);                                                         \
        check(vb_masked_wrapping_sum_##T(values, n, mask, BYTES, o) == wrapped,                   \
            "vb_masked_wrapping_sum_" #T);                                                        \
        check(is_##T(vb_masked_min_##T(values, n, mask, BYTES, o), is_any, least),                \
            "vb_masked_min_" #T);                                                                 \
        check(is_##T(vb_masked_max_##T(values, n, mask, BYTES, o), is_any, greatest),             \
            "vb_masked_max_" #T);                                                                 \
                                                                                                  \
        wide exact_too = {7, 7};                                                                  \
        vb_optional_##T sum_too = {false, 7}, least_too = {false, 7}, greatest_too = {false, 7};  \
        type wrapped_too = 7;                                                                     \
        const size_t past = 8 * BYTES + 1 - n;                                                    \
        check(!vb_try_masked_sum_##T(values, n, mask, BYTES, past, &exact_too)                    \
                && !vb_try_masked_checked_sum_##T(values, n, mask, BYTES, past, &sum_too)         \
                && !vb_try_masked_wrapping_sum_##T(values, n, mask, BYTES, SIZE_MAX - n / 2,      \
                    &wrapped_too)                                                                 \
                && !vb_try_masked_min_##T(values, n, mask, n / 8, n % 8 + 1, &least_too)          \
                && !vb_try_masked_max_##T(values, n, mask, BYTES, past, &greatest_too),           \
            "a mask that ends too soon, " #T);                                                    \
        check(exact_too.low == 7 && exact_too.high == 7 && sum_too.value == 7 && wrapped_too == 7 \
                && least_too.value == 7 && greatest_too.value == 7, "what a refusal leaves");     \
        check(vb_try_masked_sum_##T(values, n, mask, BYTES, o, &exact_too)                        \
                && exact_too.low == exact.low && exact_too.high == exact.high                     \
                && vb_try_masked_checked_sum_##T(values, n, mask, BYTES, o, &sum_too)             \
                && is_##T(sum_too, fits, wrapped)                                                 \
                && vb_try_masked_wrapping_sum_##T(values, n, mask, BYTES, o, &wrapped_too)        \
                && wrapped_too == wrapped                                                         \
                && vb_try_masked_min_##T(values, n, mask, BYTES, o, &least_too)                   \
                && is_##T(least_too, is_any, least)                                               \
                && vb_try_masked_max_##T(values, n, mask, BYTES, o, &greatest_too)                \
                && is_##T(greatest_too, is_any, greatest), "the checked forms of " #T);           \
    }

/* Whether a is less than b, with -0.0 less than 0.0. */
#define IS_BELOW(a, b) ((a) < (b) || ((a) == (b) && signbit(a) && !signbit(b)))

/* As AGGREGATES for a type of floats: numbers whose sums are rounded, zeros, infinities, NaN. */
#define FLOAT_AGGREGATES(T, type)                                                                 \
    static bool same_##T(type a, type b)                                                          \
    {                                                                                             \
        return (a == b && !signbit(a) == !signbit(b)) || (a != a && b != b);                      \
    }                                                                                             \
                                                                                                  \
    static bool is_##T(vb_optional_##T it, bool has_value, type v)                                \
    {                                                                                             \
        return it.has_value == has_value && (!has_value || same_##T(it.value, v));                \
    }                                                                                             \
                                                                                                  \
    static void aggregates_##T(void)                                                              \
    {                                                                                             \
        static const type few[] = {0, (type)-0.0, INFINITY, -INFINITY, NAN, 1, -1};               \
        static type values[VALUES];                                                               \
        uint8_t mask[BYTES];                                                                      \
        const size_t n = random_below(VALUES + 1), o = random_below(10);                          \
        const size_t kinds = random_below(8);                                                     \
        type sum = 0, least = 0, greatest = 0;                                                    \
        bool is_any = false;                                                                      \
        randomize_bytes(mask, BYTES);                                                             \
        for (size_t i = 0; i < n; i++) {                                                          \
            const bool is_few = random_below(8) < kinds;                                          \
            const type number = (type)(int64_t)random_below(SIZE_MAX) / (type)3;                  \
            const type v = values[i] = is_few ? few[random_below(7)] : number;                    \
            if (bit(mask, o + i)) {                                                               \
                sum += v;                                                                         \
                if (v == v) {                                                                     \
                    least = !is_any || IS_BELOW(v, least) ? v : least;                            \
                    greatest = !is_any || IS_BELOW(greatest, v) ? v : greatest;                   \
                    is_any = true;                                                                \
                }                                                                                 \
            }                                                                                     \
        }                                                                                         \
        check(same_##T(vb_masked_sum_##T(values, n, mask, BYTES, o), sum), "vb_masked_sum_" #T);  \
        check(is_##T(vb_masked_min_##T(values, n, mask, BYTES, o), is_any, least),                \
            "vb_masked_min_" #T);                                                                 \
        check(is_##T(vb_masked_max_##T(values, n, mask, BYTES, o), is_any, greatest),             \
            "vb_masked_max_" #T);                                                                 \
                                                                                                  \
        type sum_too = 7;                                                                         \
        vb_optional_##T least_too = {false, 7}, greatest_too = {false, 7};                        \
        const size_t past = 8 * BYTES + 1 - n;                                                    \
        check(!vb_try_masked_sum_##T(values, n, mask, BYTES, past, &sum_too)                      \
                && !vb_try_masked_min_##T(values, n, mask, n / 8, n % 8 + 1, &least_too)          \
                && !vb_try_masked_max_##T(values, n, mask, BYTES, SIZE_MAX - n / 2,               \
                    &greatest_too),                                                               \
            "a mask that ends too soon, " #T);                                                    \
        check(sum_too == 7 && least_too.value == 7 && greatest_too.value == 7,                    \
            "what a refusal leaves");                                                             \
        check(vb_try_masked_sum_##T(values, n, mask, BYTES, o, &sum_too)                          \
                && same_##T(sum_too, sum)                                                         \
                && vb_try_masked_min_##T(values, n, mask, BYTES, o, &least_too)                   \
                && is_##T(least_too, is_any, least)                                               \
                && vb_try_masked_max_##T(values, n, mask, BYTES, o, &greatest_too)                \
                && is_##T(greatest_too, is_any, greatest), "the checked forms of " #T);           \
    }

#define NUMBERS(X)                                                                                \
    X(u8, uint8_t, vb_u128, false) X(u16, uint16_t, vb_u128, false)                               \
    X(u32, uint32_t, vb_u128, false) X(u64, uint64_t, vb_u128, false)                             \
    X(i8, int8_t, vb_i128, true) X(i16, int16_t, vb_i128, true)                                   \
    X(i32, int32_t, vb_i128, true) X(i64, int64_t, vb_i128, true)

NUMBERS(AGGREGATES)
FLOAT_AGGREGATES(f32, float)
FLOAT_AGGREGATES(f64, double)

#define RUN(T, type, wide, is_signed) aggregates_##T();

int main(void)
{
    for (int round = 0; round < ROUNDS; round++) {
        NUMBERS(RUN)
        aggregates_f32();
        aggregates_f64();
    }
    return failures == 0 ? 0 : 1;
}
