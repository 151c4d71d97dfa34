/*
 * Compares walks over pages of memory with a loop over single bits, and runs them before a page
 * that can't be read. Packs bools with all values of a byte. It is C and C++ alike.
 */
#ifndef _DEFAULT_SOURCE
#define _DEFAULT_SOURCE
#endif
#include "tests.h"
#include "vortex_bits.h"

#include <stdio.h>
#include <string.h>
#include <sys/mman.h>

enum { PAGE = 4096, PAGES = 4, BYTES = PAGE * PAGES, BITS = 8 * BYTES, ROUNDS = 300 };

static size_t places[BITS];
static uint32_t narrow[BITS];
static vb_run runs[BITS / 2 + 1];
static vb_run_u32 narrow_runs[2][BITS / 2 + 1];

/* Fills the bytes with stretches of one kind: all false, all true, or random. */
static void randomize(uint8_t *bytes)
{
    size_t kind = 0;
    for (size_t i = 0; i < BYTES; i++) {
        if (random_below(700) == 0) {
            kind = random_below(3);
        }
        bytes[i] = kind == 0 ? 0 : kind == 1 ? 255 : (uint8_t)random_below(256);
    }
}

/* Checks that the first `room` indices and runs of the window are those that a loop finds. */
static void walk(const uint8_t *bytes, size_t offset, size_t len, size_t room)
{
    size_t seen = 0, begun = 0, ended = 0, count = 0;
    const size_t found = vb_set_indices(places, room, bytes, BYTES, offset, len);
    check(vb_try_set_indices(places, room, bytes, BYTES, offset, len, &count) && count == found,
        "vb_try_set_indices");
    for (size_t i = 0; i < len; i++) {
        if (bit(bytes, offset + i)) {
            check(seen >= room || places[seen] == i, "a place");
            seen++;
        }
    }
    check(found == (seen < room ? seen : room), "vb_set_indices");
    check(vb_set_indices_u32(narrow, room, bytes, BYTES, offset, len) == found,
        "vb_set_indices_u32");
    for (size_t k = 0; k < found; k++) {
        check(narrow[k] == places[k], "an index of 32 bits");
    }
    const size_t slices = vb_set_slices(runs, room, bytes, BYTES, offset, len);
    check(vb_try_set_slices(runs, room, bytes, BYTES, offset, len, &count) && count == slices,
        "vb_try_set_slices");
    for (size_t i = 0; i <= len; i++) {
        const bool here = i < len && bit(bytes, offset + i);
        if (here && (i == 0 || !bit(bytes, offset + i - 1))) {
            begun = i;
        }
        if (!here && i > 0 && bit(bytes, offset + i - 1)) {
            check(ended >= room || (runs[ended].start == begun && runs[ended].end == i), "a run");
            ended++;
        }
    }
    check(slices == (ended < room ? ended : room), "vb_set_slices");
    const size_t space = room < BITS / 2 + 1 ? room : BITS / 2 + 1;
    memset(narrow_runs, 0x5A, sizeof narrow_runs);
    check(vb_set_slices_u32(narrow_runs[0], space, bytes, BYTES, offset, len) == slices,
        "vb_set_slices_u32");
    check(vb_try_set_slices_u32(narrow_runs[1], space, bytes, BYTES, offset, len, &count)
            && count == slices, "vb_try_set_slices_u32");
    for (size_t k = 0; k < BITS / 2 + 1; k++) {
        const vb_run_u32 one = narrow_runs[0][k], other = narrow_runs[1][k];
        const bool as_wide = k < slices ? one.start == runs[k].start && one.end == runs[k].end
                                        : one.start == 0x5A5A5A5A && one.end == 0x5A5A5A5A;
        check(as_wide && one.start == other.start && one.end == other.end, "a run of 32 bits");
    }
}

/* Returns memory of `PAGES` pages that can be read and pages after them that can't. */
static uint8_t *guarded(size_t behind)
{
    const size_t size = BYTES + behind;
    void *all = mmap(NULL, size, PROT_READ | PROT_WRITE, MAP_PRIVATE | MAP_ANONYMOUS, -1, 0);
    if (all == MAP_FAILED || mprotect((uint8_t *)all + BYTES, behind, PROT_NONE) != 0) {
        perror("mmap");
        return NULL;
    }
    return (uint8_t *)all;
}

/*
 * Checks that walks find as many items as `out` has space for, and read nothing after the page of
 * the last one.
 */
static void stops(uint8_t *bytes, size_t behind)
{
    const size_t size = BYTES + behind;
    memset(bytes, 0, BYTES);
    bytes[1] = 0x15;
    bytes[BYTES - 1] = 0x20;
    check(vb_set_indices(places, 4, bytes, size, 0, 8 * size) == 4 && places[3] == BITS - 3,
        "the last index before memory ends");
    check(vb_set_slices(runs, 4, bytes, size, 3, 8 * size - 3) == 4 && runs[3].start == BITS - 6
            && runs[3].end == BITS - 5, "the last run before memory ends");
    check(vb_set_slices_u32(narrow_runs[0], 4, bytes, size, 3, 8 * size - 3) == 4
            && narrow_runs[0][3].start == BITS - 6, "the last run of 32 bits before memory ends");
    check(vb_set_slices_u32(narrow_runs[0], 0, bytes, size, BITS, 8 * behind) == 0, "no room");
    check(vb_set_indices(places, 0, bytes, size, 8 * size, 0) == 0, "no space and no bits");
    check(vb_set_slices(runs, 0, bytes, size, BITS, 8 * behind) == 0, "no room");
}

/* Checks that walks with space for all items read nothing after the page of the last bit. */
static void fits(uint8_t *bytes, size_t behind)
{
    const size_t size = BYTES + behind;
    memset(bytes, 0xFF, BYTES);
    for (size_t len = 1; len < 200; len++) {
        const size_t from = BITS - len;
        check(vb_set_indices(places, len, bytes, size, from, len) == len
                && places[len - 1] == len - 1, "indices up to the end of a page");
        check(vb_set_indices_u32(narrow, len, bytes, size, from, len) == len
                && narrow[len - 1] == len - 1, "indices of 32 bits up to the end of a page");
        check(vb_set_slices(runs, len, bytes, size, from, len) == 1 && runs[0].end == len,
            "a run up to the end of a page");
        check(vb_set_slices_u32(narrow_runs[0], len, bytes, size, from, len) == 1
                && narrow_runs[0][0].end == len, "a run of 32 bits up to the end of a page");
    }
}

/* Checks indices of 32 bits in a window of 2^32 bits and in a longer one. */
static void longest(void)
{
    const uint64_t all = (uint64_t)1 << 32;
    const size_t size = all / 8 + PAGE;
    void *zeros = mmap(NULL, size, PROT_READ | PROT_WRITE,
        MAP_PRIVATE | MAP_ANONYMOUS | MAP_NORESERVE, -1, 0);
    if (zeros == MAP_FAILED) {
        perror("mmap");
        failures++;
        return;
    }
    uint8_t *bytes = (uint8_t *)zeros;
    size_t count = 77;
    bytes[0] = 0x20;
    bytes[all / 8] = 0x0F;
    check(vb_try_set_indices_u32(narrow, 6, bytes, size, 4, all, &count) && count == 5
            && narrow[0] == 1 && narrow[1] == UINT32_MAX - 3 && narrow[4] == UINT32_MAX,
        "the last indices of 32 bits");
    check(!vb_try_set_indices_u32(narrow, 6, bytes, size, 3, all + 1, &count) && count == 5,
        "a window too long for indices of 32 bits");
    check(vb_try_set_indices(places, 1, bytes, size, 5, all + 1, &count) && count == 1
            && places[0] == 0, "a window as long, with indices of size_t");
    check(vb_try_set_slices_u32(narrow_runs[0], 6, bytes, size, 5, all - 1, &count) && count == 2
            && narrow_runs[0][0].end == 1 && narrow_runs[0][1].start == UINT32_MAX - 4
            && narrow_runs[0][1].end == UINT32_MAX, "the last run of 32 bits");
    check(!vb_try_set_slices_u32(narrow_runs[0], 6, bytes, size, 5, all, &count) && count == 2,
        "a window whose end doesn't fit 32 bits");
    munmap(zeros, size);
}

/* Checks that a byte of any value is true unless it is 0, and changes only its own bit. */
static void bools(void)
{
    enum { N = 200, OUT = N / 8 };
    uint8_t bytes[N], got[OUT], wanted[OUT];
    for (size_t value = 0; value < 256; value++) {
        for (size_t n = 1; n <= N; n += 7) {
            memset(wanted, 0, OUT);
            for (size_t i = 0; i < n; i++) {
                bytes[i] = (uint8_t)(random_below(3) == 0 ? value : random_below(2));
                wanted[i / 8] |= (uint8_t)((bytes[i] != 0) << (i % 8));
            }
            memset(got, 0, OUT);
            vb_pack_bools_padded(got, OUT, (const bool *)(const void *)bytes, n);
            check(memcmp(got, wanted, OUT) == 0, "vb_pack_bools_padded of any bytes");
            memset(got, 0, OUT);
            check(vb_try_pack_bools_padded(got, OUT, (const bool *)(const void *)bytes, n)
                    && memcmp(got, wanted, OUT) == 0, "vb_try_pack_bools_padded of any bytes");
        }
    }
}

int main(void)
{
    const size_t behind = 8 * (size_t)PAGE;
    uint8_t *bytes = guarded(behind);
    if (bytes == NULL) {
        return 2;
    }
    for (int round = 0; round < ROUNDS; round++) {
        randomize(bytes);
        const size_t offset = random_below(BITS + 1), len = random_below(BITS - offset + 1);
        walk(bytes, offset, len, random_below(3) == 0 ? random_below(50) : random_below(len + 1));
    }
    stops(bytes, behind);
    fits(bytes, behind);
    longest();
    bools();
    return failures == 0 ? 0 : 1;
}
