/*
 * The code that extents.c and neighbours.c share: the output of a call, and its input. The calls
 * themselves, one of each function that writes, are in calls.h, which bindings/c/functions writes.
 * It is C and C++ alike.
 */
#ifndef VORTEX_BITS_WRITERS_H
#define VORTEX_BITS_WRITERS_H

#include "tests.h"
#include "vortex_bits.h"

#include <string.h>

enum { SOURCE = 1 << 20, INDICES = 1 << 17, MASK = 1 << 15, OUTS = 2, NAMED = 200 };

/* A call writes `count` bits, or items, of each `out` from bit `offset` on. */
struct job {
    uint8_t *out[OUTS];
    size_t size[OUTS];
    size_t offset, count;
    /* Among the kept_of(count) bits from bit 3 on, `count` are true. */
    const uint8_t *mask;
};

/* A function that writes items of `each` bytes, or bits if that is 0. */
struct writer {
    const char *name;
    size_t each;
    /* The number of windows that it writes, and whether their first bit is an argument. */
    size_t outs;
    bool is_told;
    /* Makes the call. Returns whether its result is correct. */
    bool (*call)(const struct job *it);
};

/*
 * Bits at random, every second bit true, small numbers of 1, 2, 4 and 8 bytes, and numbers of 1, 2
 * and 4 bytes that are at most their index.
 */
static uint64_t random_words[SOURCE / 8], spaced_words[SOURCE / 8], index_words[4][INDICES];
static uint32_t code_words[3][INDICES];
static const uint8_t *const source = (const uint8_t *)random_words;
static const uint8_t *const spaced = (const uint8_t *)spaced_words;

static inline const void *indices(size_t each)
{
    return index_words[each == 1 ? 0 : each == 2 ? 1 : each == 4 ? 2 : 3];
}

static inline const void *codes(size_t each)
{
    return code_words[each == 1 ? 0 : each == 2 ? 1 : 2];
}

static inline size_t kept_of(size_t count)
{
    return 2 * count + 3;
}

/* Writes a mask that selects `count` bits. */
static inline void make_mask(uint8_t *mask, size_t count)
{
    size_t wanted = count;
    memset(mask, 0, MASK);
    for (size_t left = kept_of(count); left > 0; left--) {
        const bool keeps = random_below(left) < wanted;
        put(mask, 3 + kept_of(count) - left, keeps);
        wanted -= keeps;
    }
}

static inline void make_sources(void)
{
    memset(spaced_words, 0xAA, sizeof spaced_words);
    for (size_t i = 0; i < SOURCE / 8; i++) {
        random_words[i] = random_below(SIZE_MAX);
    }
    for (size_t kind = 0; kind < 4; kind++) {
        for (size_t i = 0; i < INDICES; i++) {
            ((uint8_t *)index_words[kind])[i << kind] = (uint8_t)random_below(NAMED);
        }
    }
    for (size_t i = 0; i < INDICES; i++) {
        const uint16_t half = (uint16_t)i;
        ((uint8_t *)code_words[0])[i] = (uint8_t)i;
        memcpy((uint8_t *)code_words[1] + sizeof half * i, &half, sizeof half);
        code_words[2][i] = (uint32_t)i;
    }
}

/* Returns the number of bytes that have a bit of one of its windows, or that its items take. */
static inline size_t bytes_of(const struct writer *it, size_t bit, size_t count)
{
    return it->each != 0 ? it->each * count : count == 0 ? 0 : (bit + count + 7) / 8;
}

/*
 * The call of `it` that writes `count` bits from bit `bit` of `first` on, or `count` items from
 * `first` on. Its sizes include all bytes up to `end`. If the first bit is an argument of the
 * function, `out` begins `before` bytes earlier.
 */
static inline struct job job_of(const struct writer *it, uint8_t *const first[OUTS],
    uint8_t *const end[OUTS], size_t before, size_t bit, size_t count, const uint8_t *mask)
{
    struct job made = {{NULL, NULL}, {0, 0}, 8 * before + bit, count, mask};
    for (size_t k = 0; k < it->outs; k++) {
        made.out[k] = first[k] - (it->is_told ? before : 0);
        made.size[k] = (size_t)(end[k] - made.out[k]) / (it->each != 0 ? it->each : 1);
    }
    return made;
}

#endif
