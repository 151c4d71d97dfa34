/*
 * A filter over a column with validity: the indices and the sum of the values that are valid and
 * above a limit, by masks and by a plain loop over the column. It needs C11 for its clock.
 */
#include "vortex_bits.h"

#include <stdio.h>
#include <stdlib.h>
#include <time.h>

enum { VALUES = 1000000, LIMIT = 500, ROUNDS = 50, OFFSET = 3 };

static int32_t values[VALUES];
/* The first value's bit is bit OFFSET, as in a slice of a longer column. */
static uint8_t validity[VALUES / 8 + 1];
static uint8_t above[VALUES];
static uint8_t mask[VALUES / 8];
static size_t places[VALUES];

static uint64_t state = 88172645463325252u;

static uint64_t next(void)
{
    state ^= state << 13;
    state ^= state >> 7;
    state ^= state << 17;
    return state;
}

/* By masks: the comparisons are packed into bits, combined with the validity, and walked. */
static size_t filter(int64_t *sum)
{
    for (size_t i = 0; i < VALUES; i++) {
        above[i] = values[i] > LIMIT;
    }
    vb_pack_truthy(mask, sizeof mask, 0, above, VALUES);
    vb_and_bits(mask, sizeof mask, 0, validity, sizeof validity, OFFSET, VALUES);
    const size_t kept = vb_set_indices(places, VALUES, mask, sizeof mask, 0, VALUES);
    *sum = 0;
    for (size_t i = 0; i < kept; i++) {
        *sum += values[places[i]];
    }
    return kept;
}

static size_t plain(int64_t *sum)
{
    size_t kept = 0;
    *sum = 0;
    for (size_t i = 0; i < VALUES; i++) {
        const size_t bit = OFFSET + i;
        if (values[i] > LIMIT && (validity[bit / 8] >> (bit % 8) & 1) != 0) {
            places[kept++] = i;
            *sum += values[i];
        }
    }
    return kept;
}

/* The least time of some rounds, in microseconds. */
static double best(size_t (*run)(int64_t *))
{
    double least = 1e9;
    for (int round = 0; round < ROUNDS; round++) {
        int64_t sum;
        struct timespec start, end;
        timespec_get(&start, TIME_UTC);
        run(&sum);
        timespec_get(&end, TIME_UTC);
        const double took = (double)(end.tv_sec - start.tv_sec) * 1e6
            + (double)(end.tv_nsec - start.tv_nsec) / 1e3;
        least = took < least ? took : least;
    }
    return least;
}

int main(void)
{
    for (size_t i = 0; i < VALUES; i++) {
        values[i] = (int32_t)(next() % 1000);
    }
    for (size_t i = 0; i < sizeof validity; i++) {
        validity[i] = (uint8_t)(next() | next());
    }
    int64_t sum, wanted;
    const size_t kept = filter(&sum);
    if (kept != plain(&wanted) || sum != wanted) {
        fprintf(stderr, "the two ways differ\n");
        return 1;
    }
    printf("%zu of %d values are kept, their sum is %lld\n", kept, VALUES, (long long)sum);
    printf("by masks:      %.0f us\n", best(filter));
    printf("by plain loop: %.0f us\n", best(plain));
    return 0;
}
