/*
 * The parts of pages.c, except its calls, which bindings/c/functions writes: items between pages
 * that can't be read, and the checks after a call. It is C and C++ alike.
 */
#ifndef VORTEX_BITS_PAGES_H
#define VORTEX_BITS_PAGES_H

#ifndef _DEFAULT_SOURCE
#define _DEFAULT_SOURCE
#endif
#include "vortex_bits.h"

#include <stdio.h>
#include <string.h>
#include <sys/mman.h>

enum { PAGE = 4096, ROOM = 2 * PAGE, ARENAS = 6, ROUNDS = 2000, MOST = 500 };

static uint64_t state = 88172645463325252u;
static int failures = 0;
static unsigned long long calls = 0, good = 0;
/* Memory between pages that can't be read, and its contents before and after a call. */
static uint8_t *arena[ARENAS], before[ARENAS][ROOM], after[ARENAS][ROOM];
/* The index of a call's items in each, and the number of their bytes. */
static size_t start[ARENAS], bytes[ARENAS];

static size_t random_below(size_t n)
{
    state ^= state << 13;
    state ^= state >> 7;
    state ^= state << 17;
    return (size_t)(state % n);
}

static void check(bool holds, const char *name, const char *what)
{
    if (!holds) {
        failures++;
        fprintf(stderr, "failed: %s: %s\n", name, what);
    }
}

/* Restores the memory before a call. */
static void begin(void)
{
    calls++;
    for (size_t k = 0; k < ARENAS; k++) {
        memcpy(arena[k], before[k], ROOM);
    }
}

static bool guard(void)
{
    for (size_t k = 0; k < ARENAS; k++) {
        const int kind = MAP_PRIVATE | MAP_ANONYMOUS;
        void *all = mmap(NULL, ROOM + 2 * PAGE, PROT_NONE, kind, -1, 0);
        arena[k] = (uint8_t *)all + PAGE;
        if (all == MAP_FAILED || mprotect(arena[k], ROOM, PROT_READ | PROT_WRITE) != 0) {
            perror("mmap");
            return false;
        }
    }
    return true;
}

/*
 * Returns `count` items of `each` bytes, either right after a page that can't be read or right
 * before one. They are any bytes, or numbers below 1,024.
 */
static void *items(size_t k, size_t count, size_t each)
{
    const bool any = random_below(2) == 0;
    bytes[k] = count * each;
    start[k] = random_below(2) == 0 ? 0 : ROOM - bytes[k];
    memset(before[k], 0x5A, ROOM);
    for (size_t i = 0; i < count; i++) {
        uint8_t item[16] = {(uint8_t)random_below(256), (uint8_t)random_below(any ? 256 : 4)};
        for (size_t b = 2; b < sizeof item; b++) {
            item[b] = any ? (uint8_t)random_below(256) : 0;
        }
        memcpy(before[k] + start[k] + i * each, item, each);
    }
    memcpy(arena[k], before[k], ROOM);
    return arena[k] + start[k];
}

/* Returns a number: mostly below 600 and often valid, else below 9 * MOST or near SIZE_MAX. */
static size_t any_number(void)
{
    const size_t kind = random_below(12);
    return kind == 0 ? SIZE_MAX - random_below(9) : kind == 1 ? random_below(9 * MOST)
        : kind < 6 ? random_below(70) : random_below(600);
}

static void beside(const char *name)
{
    for (size_t k = 0; k < ARENAS; k++) {
        const size_t end = start[k] + bytes[k];
        check(memcmp(arena[k], before[k], start[k]) == 0
            && memcmp(arena[k] + end, before[k] + end, ROOM - end) == 0, name, "bytes beside");
    }
}

static void keep(void)
{
    for (size_t k = 0; k < ARENAS; k++) {
        memcpy(after[k], arena[k], ROOM);
        memcpy(arena[k], before[k], ROOM);
    }
}

static void unchanged(const char *name)
{
    for (size_t k = 0; k < ARENAS; k++) {
        check(memcmp(arena[k], before[k], ROOM) == 0, name, "what a failed call left");
    }
}

static void alike(const char *name)
{
    for (size_t k = 0; k < ARENAS; k++) {
        check(memcmp(arena[k], after[k], ROOM) == 0, name, "what both forms write");
    }
}

#endif
