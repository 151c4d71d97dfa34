/*
 * Runs each function that writes, on windows whose bytes are the last ones before a page that can
 * be neither read nor written, or the first ones after such a page. The sizes in the arguments
 * include the page at the end, but a load or a store in either page stops the call. The same call
 * in writable memory must have the same result. It is C and C++ alike.
 */
#ifndef _DEFAULT_SOURCE
#define _DEFAULT_SOURCE
#endif
#include "writers.h"

#include "calls.h"

#include <setjmp.h>
#include <signal.h>
#include <sys/mman.h>

/* The pages of a region: some that can be written, and one on each side of them that can't. */
enum { PAGE = 4096, OPEN = 5 * PAGE, REGION = OPEN + 2 * PAGE, NEAR = 64, MOST_BITS = 130 };

static const size_t many_bits[] = {1000, 4095, 4097, 32769, 65541, 70001};
static const size_t many_items[] = {64, 65, 300, 1000};

static uint8_t *region[OUTS], twin[OUTS][REGION], mask[MASK];
static unsigned long long calls = 0;
static sigjmp_buf fault;

static void stop(int number)
{
    (void)number;
    siglongjmp(fault, 1);
}

static bool guard(void)
{
    struct sigaction action;
    memset(&action, 0, sizeof action);
    action.sa_handler = stop;
    action.sa_flags = SA_NODEFER;
    for (size_t k = 0; k < OUTS; k++) {
        void *all = mmap(NULL, REGION, PROT_READ | PROT_WRITE, MAP_PRIVATE | MAP_ANONYMOUS, -1, 0);
        region[k] = (uint8_t *)all;
        if (all == MAP_FAILED) {
            return false;
        }
        for (size_t i = 0; i < REGION; i++) {
            region[k][i] = (uint8_t)random_below(256);
        }
        memcpy(twin[k], region[k], REGION);
        if (mprotect(region[k], PAGE, PROT_NONE) != 0
                || mprotect(region[k] + PAGE + OPEN, PAGE, PROT_NONE) != 0) {
            return false;
        }
    }
    return sigaction(SIGSEGV, &action, NULL) == 0;
}

/* Returns whether the call accesses only the allowed bytes, and has the right result. */
static bool stays(const struct writer *it, const struct job *job)
{
    return sigsetjmp(fault, 0) == 0 && it->call(job);
}

/* Makes one call whose windows, or items, begin `at` bytes after the start of their regions. */
static bool holds(const struct writer *it, size_t at, size_t bit, size_t count)
{
    const size_t before = random_below(8);
    /* The compared bytes: those of the call, and the readable ones near them. */
    size_t from = at - NEAR, to = at + bytes_of(it, bit, count) + NEAR;
    if (from < PAGE) {
        from = PAGE;
    }
    if (to > PAGE + OPEN) {
        to = PAGE + OPEN;
    }
    const size_t near = from < to ? to - from : 0;
    uint8_t *first[OUTS], *end[OUTS], *twin_first[OUTS], *twin_end[OUTS];
    for (size_t k = 0; k < OUTS; k++) {
        first[k] = region[k] + at;
        end[k] = region[k] + REGION;
        twin_first[k] = twin[k] + at;
        twin_end[k] = twin[k] + REGION;
        memcpy(twin[k] + from, region[k] + from, near);
    }
    const struct job job = job_of(it, first, end, before, bit, count, mask);
    const struct job other = job_of(it, twin_first, twin_end, before, bit, count, mask);
    calls++;
    if (!stays(it, &job) || !it->call(&other)) {
        return false;
    }
    for (size_t k = 0; k < it->outs; k++) {
        if (memcmp(twin[k] + from, region[k] + from, near) != 0) {
            return false;
        }
    }
    return true;
}

/*
 * Calls a function for `count` bits, or items, from each bit of a byte on, at both ends of the
 * writable pages.
 */
static bool holds_of(const struct writer *it, size_t count)
{
    for (size_t bit = 0; bit < (it->is_told ? 8 : 1); bit++) {
        const size_t bytes = bytes_of(it, bit, count);
        /* A call without bits or items begins in the page that can't be written. */
        const size_t first = bytes == 0 ? PAGE + OPEN : PAGE;
        if (!holds(it, first, bit, count) || !holds(it, PAGE + OPEN - bytes, bit, count)) {
            fprintf(stderr, "failed: vb_%s: %zu from bit %zu on\n", it->name, count, bit);
            return false;
        }
    }
    return true;
}

/* Runs all functions for `count` bits or items. Leaves out a function once it has failed. */
static void all_of(bool is_left[], size_t count, bool of_bits, bool of_items)
{
    make_mask(mask, count);
    for (size_t k = 0; k < sizeof writers / sizeof *writers; k++) {
        if (!is_left[k] && (writers[k].each == 0 ? of_bits : of_items)
                && !holds_of(&writers[k], count)) {
            is_left[k] = true;
            failures++;
        }
    }
}

int main(void)
{
    static bool is_left[sizeof writers / sizeof *writers];
    make_sources();
    if (!guard()) {
        perror("memory");
        return 2;
    }
    for (size_t count = 0; count <= MOST_BITS; count++) {
        all_of(is_left, count, true, count < 40 || count % 16 < 2);
    }
    for (size_t k = 0; k < sizeof many_bits / sizeof *many_bits; k++) {
        all_of(is_left, many_bits[k], true, false);
    }
    for (size_t k = 0; k < sizeof many_items / sizeof *many_items; k++) {
        all_of(is_left, many_items[k], false, true);
    }
    printf("%llu calls between pages that can't be touched\n", calls);
    return failures == 0 ? 0 : 1;
}
