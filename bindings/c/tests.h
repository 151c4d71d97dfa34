/*
 * The code that the tests of this folder share: random numbers, access to single bits, and a
 * message for each failed check. It is C and C++ alike.
 */
#ifndef VORTEX_BITS_TESTS_H
#define VORTEX_BITS_TESTS_H

#include <stdbool.h>
#include <stddef.h>
#include <stdint.h>
#include <stdio.h>

static uint64_t state = 88172645463325252u;
static int failures = 0;

static inline size_t random_below(size_t n)
{
    state ^= state << 13;
    state ^= state >> 7;
    state ^= state << 17;
    return (size_t)(state % n);
}

static inline void check(bool holds, const char *what)
{
    if (!holds) {
        failures++;
        fprintf(stderr, "failed: %s\n", what);
    }
}

static inline bool bit(const uint8_t *bytes, size_t i)
{
    return (bytes[i / 8] >> (i % 8) & 1) != 0;
}

static inline void put(uint8_t *bytes, size_t i, bool v)
{
    const uint8_t mask = (uint8_t)(1u << (i % 8));
    bytes[i / 8] = (uint8_t)(v ? bytes[i / 8] | mask : bytes[i / 8] & ~mask);
}

/* Fills the bytes in one of four ways: no bit is true, all are, about half are, or fewer are. */
static inline void randomize_bytes(uint8_t *bytes, size_t size)
{
    const size_t kind = random_below(4);
    for (size_t i = 0; i < size; i++) {
        const uint8_t some = (uint8_t)random_below(256);
        bytes[i] = kind == 0 ? 0 : kind == 1 ? 255 : kind == 2 ? some
            : (uint8_t)(some & random_below(256));
    }
}

#endif
