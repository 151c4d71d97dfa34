/*
 * Tests unknown sizes of items and unknown comparisons: plain forms report them or stop the
 * program, as their headers say, and checked forms reject them. It is C and C++ alike.
 */
#ifndef _DEFAULT_SOURCE
#define _DEFAULT_SOURCE
#endif
#include "tests.h"
#include "vortex_bits.h"

#include <signal.h>
#include <string.h>
#include <sys/wait.h>
#include <unistd.h>

/* Items, and an output that no call below may change. */
static uint64_t values[8], others[8], out[8];
static const uint8_t mask[1] = {0xFF};

/*
 * Sizes that neither a value nor an index has, including some whose multiples wrap around to known
 * sizes.
 */
static const size_t SIZES[] = {0, 3, 5, 6, 7, 9, 12, 15, 17, 18, 20, 24, 31, 32, 33, 34, 48, 64,
    128, 255, 256, 257, SIZE_MAX / 16, SIZE_MAX / 16 + 1, SIZE_MAX / 16 + 2, SIZE_MAX / 2 + 1,
    SIZE_MAX - 15, SIZE_MAX - 14, SIZE_MAX};
enum { COUNT = sizeof SIZES / sizeof *SIZES };

/* Returns whether a call, in its own process, stops the program by an illegal instruction. */
static bool stops(void (*call)(size_t), size_t number)
{
    int status = 0;
    const pid_t child = fork();
    if (child == 0) {
        signal(SIGILL, SIG_DFL);
        call(number);
        _exit(0);
    }
    return child > 0 && waitpid(child, &status, 0) == child && WIFSIGNALED(status)
        && WTERMSIG(status) == SIGILL;
}

static bool is_unwritten(void)
{
    static const uint64_t none[8] = {0};
    return memcmp(out, none, sizeof out) == 0;
}

static void take(size_t value_size, size_t index_size)
{
    for (size_t count = 0; count <= 8; count += 8) {
        const vb_taken past = vb_take_values(out, 8, values, 8, value_size, others, count,
            index_size, true, NULL, 0, 0);
        check(past.out_of_range && past.position == 0, "a take of an unknown size");
        const vb_taken valid = vb_take_values(out, 8, values, 8, value_size, others, count,
            index_size, false, mask, 1, 0);
        check(valid.out_of_range && valid.position == 0, "a valid take of an unknown size");
        vb_taken kept = {true, 77};
        const bool taken = vb_try_take_values(out, 8, values, 8, value_size, others, count,
            index_size, true, NULL, 0, 0, &kept);
        check(!taken && kept.out_of_range && kept.position == 77,
            "a checked take of an unknown size");
    }
    check(is_unwritten(), "what a take of an unknown size writes");
}

static void filter_values(size_t value_size)
{
    (void)vb_filter_values(out, 8, values, 8, value_size, mask, 1, 0);
}

static void retain_values(size_t value_size)
{
    (void)vb_retain_values(out, 8, value_size, mask, 1, 0);
}

static void sizes(void)
{
    static const size_t known[] = {1, 2, 4, 8, 16};
    for (size_t k = 0; k < COUNT; k++) {
        const size_t size = SIZES[k];
        for (size_t j = 0; j < COUNT; j++) {
            take(size, SIZES[j]);
        }
        for (size_t j = 0; j < 5; j++) {
            take(size, known[j]);
            take(known[j], size);
            take(known[j], 16);
        }
        size_t written = 77;
        const bool kept =
            vb_try_filter_values(out, 8, values, 8, size, mask, 1, 0, &written);
        check(!kept && written == 77, "a checked filter of an unknown size");
        check(stops(filter_values, size), "a filter of an unknown size");
        const bool left = vb_try_retain_values(out, 8, size, mask, 1, 0, &written);
        check(!left && written == 77, "a checked filter in place of an unknown size");
        check(stops(retain_values, size), "a filter in place of an unknown size");
    }
    check(!stops(filter_values, 8) && !stops(retain_values, 8), "a filter of a known size");
    check(is_unwritten(), "what a filter of an unknown size writes");
}

/* The forms for a type, with a number and with others. */
#define TYPE(name, type)                                                                          \
    static void compare_##name(size_t op)                                                         \
    {                                                                                             \
        vb_compare_##name((uint8_t *)out, 1, 0, (const type *)values, 8, (uint8_t)op, (type)0);   \
    }                                                                                             \
    static void compare_with_##name(size_t op)                                                    \
    {                                                                                             \
        vb_compare_with_##name((uint8_t *)out, 1, 0, (const type *)values, 8, (uint8_t)op,        \
            (const type *)others, 8);                                                             \
    }                                                                                             \
    static bool try_##name(uint8_t op)                                                            \
    {                                                                                             \
        const bool one = vb_try_compare_##name((uint8_t *)out, 1, 0, (const type *)values, 8, op, \
            (type)0);                                                                             \
        return vb_try_compare_with_##name((uint8_t *)out, 1, 0, (const type *)values, 8, op,      \
            (const type *)others, 8) || one;                                                      \
    }
TYPE(u8, uint8_t)
TYPE(u16, uint16_t)
TYPE(u32, uint32_t)
TYPE(u64, uint64_t)
TYPE(i8, int8_t)
TYPE(i16, int16_t)
TYPE(i32, int32_t)
TYPE(i64, int64_t)
TYPE(f32, float)
TYPE(f64, double)

#define OF_TYPE(name) {compare_##name, compare_with_##name, try_##name}
static const struct {
    void (*number)(size_t);
    void (*others)(size_t);
    bool (*checked)(uint8_t);
} comparisons[] = {OF_TYPE(u8), OF_TYPE(u16), OF_TYPE(u32), OF_TYPE(u64), OF_TYPE(i8), OF_TYPE(i16),
    OF_TYPE(i32), OF_TYPE(i64), OF_TYPE(f32), OF_TYPE(f64)};

static void operators(void)
{
    static const uint8_t unknown[] = {6, 7, 8, 127, 128, 254, 255};
    for (size_t k = 0; k < sizeof comparisons / sizeof *comparisons; k++) {
        for (size_t j = 0; j < sizeof unknown; j++) {
            check(!comparisons[k].checked(unknown[j]), "a checked form of no comparison");
            check(stops(comparisons[k].number, unknown[j]), "no comparison with a number");
            check(stops(comparisons[k].others, unknown[j]), "no comparison with others");
        }
        check(is_unwritten(), "what no comparison writes");
        check(!stops(comparisons[k].number, VB_GREATER_OR_EQUAL), "the last comparison");
        check(!stops(comparisons[k].others, VB_EQUAL), "the first comparison");
    }
}

int main(void)
{
    sizes();
    operators();
    return failures == 0 ? 0 : 1;
}
