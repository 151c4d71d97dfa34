/*
 * Two threads write neighbouring windows, or items, of one memory at once with the same function.
 * Its arguments claim that it may write all bytes that follow. Checks that neither thread loses the
 * writes of the other one. It is C and C++ alike.
 */
#ifndef _DEFAULT_SOURCE
#define _DEFAULT_SOURCE
#endif
#include "writers.h"

#include "calls.h"

#include <pthread.h>

/* The number of calls per thread and function, and the number of bytes of a memory. */
enum { ROUNDS = 100000, BYTES = 2048, BEFORE = 3 };

/* The output of one thread: its windows, or items, and their contents before and after a call. */
struct side {
    const struct writer *writer;
    struct job job;
    size_t bytes;
    uint8_t *own[OUTS], before[OUTS][BYTES], after[OUTS][BYTES], mask[MASK];
    unsigned long long lost;
    pthread_barrier_t *both;
};

static uint64_t memory[OUTS][BYTES / 8];

/*
 * Sets up the side whose bytes begin at byte `at`, for `count` items, or `count` bits from bit
 * `bit` of that byte on.
 */
static void make_side(struct side *it, size_t at, size_t bit, size_t count)
{
    uint8_t *first[OUTS], *end[OUTS];
    make_mask(it->mask, count);
    it->bytes = bytes_of(it->writer, bit, count);
    it->lost = 0;
    for (size_t k = 0; k < OUTS; k++) {
        it->own[k] = first[k] = (uint8_t *)memory[k] + at;
        end[k] = (uint8_t *)memory[k] + BYTES;
        for (size_t i = 0; i < it->bytes; i++) {
            it->before[k][i] = (uint8_t)random_below(256);
        }
        memcpy(it->own[k], it->before[k], it->bytes);
    }
    it->job = job_of(it->writer, first, end, BEFORE, bit, count, it->mask);
    check(it->writer->call(&it->job), it->writer->name);
    for (size_t k = 0; k < OUTS; k++) {
        memcpy(it->after[k], it->own[k], it->bytes);
    }
}

static void *run(void *argument)
{
    struct side *it = (struct side *)argument;
    pthread_barrier_wait(it->both);
    for (int round = 0; round < ROUNDS; round++) {
        for (size_t k = 0; k < it->writer->outs; k++) {
            memcpy(it->own[k], it->before[k], it->bytes);
        }
        const bool is_good = it->writer->call(&it->job);
        for (size_t k = 0; k < it->writer->outs; k++) {
            it->lost += !is_good || memcmp(it->own[k], it->after[k], it->bytes) != 0;
        }
    }
    return NULL;
}

/* Runs both sides of a function at once. */
static void beside(const struct writer *it)
{
    static struct side left, right;
    pthread_barrier_t both;
    pthread_t other;
    const size_t count = it->each != 0 ? 70 : 77, bit = it->is_told ? 5 : 0;
    const size_t at = 16, bytes = bytes_of(it, bit, count);
    left.writer = right.writer = it;
    left.both = right.both = &both;
    make_side(&left, at, bit, it->each != 0 ? (BYTES / 2 - at) / it->each / 2 : count);
    make_side(&right, at + (it->each != 0 ? left.bytes : bytes), bit, left.job.count);
    if (pthread_barrier_init(&both, NULL, 2) != 0
            || pthread_create(&other, NULL, run, &right) != 0) {
        perror("thread");
        failures++;
        return;
    }
    run(&left);
    pthread_join(other, NULL);
    pthread_barrier_destroy(&both);
    if (left.lost + right.lost != 0) {
        failures++;
        fprintf(stderr, "failed: vb_%s: %llu of %d calls lost what they wrote\n", it->name,
            left.lost + right.lost, 2 * ROUNDS);
    }
}

int main(void)
{
    make_sources();
    for (size_t k = 0; k < sizeof writers / sizeof *writers; k++) {
        beside(&writers[k]);
    }
    return failures == 0 ? 0 : 1;
}
