/*
 * Compares the searches for the nearest bits and the tests of all bits of vortex_bits.h with a loop
 * over single bits, over random windows, and each checked form with numbers past every limit. It is
 * C and C++ alike.
 */
#include "tests.h"
#include "vortex_bits.h"

#include <string.h>

enum { BYTES = 96, BITS = 8 * BYTES, ROUNDS = 20000 };

/*
 * Fills the bytes at random: few bits are set, few are unset, about half are set, or about a
 * quarter.
 */
static void randomize(uint8_t *bytes)
{
    const size_t kind = random_below(4);
    for (size_t i = 0; i < BYTES; i++) {
        const uint8_t some = (uint8_t)random_below(256);
        const uint8_t few = random_below(40) == 0 ? (uint8_t)(1u << random_below(8)) : 0;
        bytes[i] = kind == 0 ? few : kind == 1 ? (uint8_t)~few : kind == 2 ? some
            : (uint8_t)(some & random_below(256));
    }
}

typedef vb_place (*nearest)(const uint8_t *, size_t, size_t, size_t, size_t);
typedef bool (*try_nearest)(const uint8_t *, size_t, size_t, size_t, size_t, vb_place *);

static const struct {
    const char *name;
    nearest plain;
    try_nearest checked;
    bool forward;
    bool value;
} all[] = {
    {"vb_next_set", vb_next_set, vb_try_next_set, true, true},
    {"vb_next_unset", vb_next_unset, vb_try_next_unset, true, false},
    {"vb_previous_set", vb_previous_set, vb_try_previous_set, false, true},
    {"vb_previous_unset", vb_previous_unset, vb_try_previous_unset, false, false},
};
enum { ALL = sizeof all / sizeof all[0] };

/*
 * Returns the index of the bit that search k of `all` has to find: the nearest one of its value, at
 * or after index n, or before it; `len` if there is none.
 */
static size_t wanted(const uint8_t *bytes, size_t offset, size_t len, size_t k, size_t n)
{
    size_t at = n < len ? n : len;
    if (all[k].forward) {
        while (at < len && bit(bytes, offset + at) != all[k].value) {
            at++;
        }
        return at;
    }
    while (at > 0 && bit(bytes, offset + at - 1) != all[k].value) {
        at--;
    }
    return at > 0 ? at - 1 : len;
}

static bool is_place(vb_place place, size_t index, size_t len)
{
    return index == len ? !place.found : place.found && place.index == index;
}

static void places(const uint8_t *bytes, size_t offset, size_t len, size_t n)
{
    for (size_t k = 0; k < ALL; k++) {
        const size_t index = wanted(bytes, offset, len, k, n);
        vb_place place = {true, 77};
        check(is_place(all[k].plain(bytes, BYTES, offset, len, n), index, len), all[k].name);
        check(all[k].checked(bytes, BYTES, offset, len, n, &place) && is_place(place, index, len),
            all[k].name);
    }
}

static void tests(const uint8_t *bytes, size_t offset, size_t len)
{
    size_t ones = 0;
    bool any = false, every = false;
    for (size_t i = 0; i < len; i++) {
        ones += bit(bytes, offset + i);
    }
    check(vb_any_set(bytes, BYTES, offset, len) == (ones > 0), "vb_any_set");
    check(vb_try_any_set(bytes, BYTES, offset, len, &any) && any == (ones > 0), "vb_try_any_set");
    check(vb_all_set(bytes, BYTES, offset, len) == (ones == len), "vb_all_set");
    check(vb_try_all_set(bytes, BYTES, offset, len, &every) && every == (ones == len),
        "vb_try_all_set");
}

/* Windows of BYTES bytes that don't fit: past the end by a bit or by much, and past SIZE_MAX. */
static void refusals(const uint8_t *bytes)
{
    static const size_t bad[][2] = {
        {0, BITS + 1}, {1, BITS}, {BITS, 1}, {BITS + 1, 0}, {SIZE_MAX, 1}, {1, SIZE_MAX},
        {SIZE_MAX, SIZE_MAX}, {SIZE_MAX - 7, 8}, {SIZE_MAX, 0}, {0, SIZE_MAX},
    };
    for (size_t i = 0; i < sizeof bad / sizeof bad[0]; i++) {
        vb_place place = {true, 77};
        bool flag = true;
        for (size_t k = 0; k < ALL; k++) {
            check(!all[k].checked(bytes, BYTES, bad[i][0], bad[i][1], 0, &place), all[k].name);
        }
        check(!vb_try_any_set(bytes, BYTES, bad[i][0], bad[i][1], &flag)
                && !vb_try_all_set(bytes, BYTES, bad[i][0], bad[i][1], &flag), "a bad window");
        check(place.found && place.index == 77 && flag, "a refused call left all as it was");
    }
}

int main(void)
{
    uint8_t bytes[BYTES];
    for (int round = 0; round < ROUNDS; round++) {
        randomize(bytes);
        const size_t offset = random_below(BITS + 1), len = random_below(BITS - offset + 1);
        const size_t ends[] = {0, len, len + 1, SIZE_MAX, random_below(len + 1)};
        for (size_t k = 0; k < sizeof ends / sizeof ends[0]; k++) {
            places(bytes, offset, len, ends[k]);
        }
        tests(bytes, offset, len);
    }
    refusals(bytes);
    return failures == 0 ? 0 : 1;
}
