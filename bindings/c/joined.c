/*
 * Compares vb_move_bits and the writes at a bit offset of vortex_bits_gather.h with a loop over
 * single bits: over random windows, some of several blocks of 4,096 bits, and each checked form
 * with numbers at and past every limit. Also joins batches into one column, and compares it with
 * that of a loop. It is C and C++ alike.
 */
#include "tests.h"
#include "vortex_bits.h"

#include <stdio.h>
#include <string.h>

enum { BYTES = 3000, BITS = 8 * BYTES, ROUNDS = 300, SOME = 12000 };

static unsigned long long calls = 0;
static uint8_t left[BYTES], right[BYTES], before[BYTES], wanted[BYTES], got[BYTES];

/* Returns a length: few bits in most rounds, any length up to `most` in the others. */
static size_t length_up_to(size_t most)
{
    return random_below(random_below(3) == 0 ? most + 1 : most / 60 + 1);
}

/* Returns an offset, in half of the rounds the first bit of a byte. */
static size_t offset_for(size_t len)
{
    const size_t o = random_below(BITS - len + 1);
    return random_below(2) == 0 ? o : o - o % 8;
}

static void begin(void)
{
    memcpy(got, before, BYTES);
    calls++;
}

static void wrote(const char *what)
{
    check(memcmp(got, wanted, BYTES) == 0, what);
}

static void filters(void)
{
    const size_t len = length_up_to(BITS / 2);
    const size_t v = random_below(BITS - len + 1), m = random_below(BITS - len + 1);
    size_t kept = 0, written = 77;
    for (size_t i = 0; i < len; i++) {
        kept += bit(right, m + i);
    }
    const size_t o = offset_for(kept);
    memcpy(wanted, before, BYTES);
    for (size_t i = 0, at = o; i < len; i++) {
        if (bit(right, m + i)) {
            put(wanted, at++, bit(left, v + i));
        }
    }
    begin();
    check(vb_filter_bits(got, BYTES, o, left, BYTES, v, right, BYTES, m, len) == kept,
        "vb_filter_bits");
    wrote("what vb_filter_bits writes");
    begin();
    check(vb_try_filter_bits(got, BYTES, o, left, BYTES, v, right, BYTES, m, len, &written)
            && written == kept, "vb_try_filter_bits");
    wrote("what vb_try_filter_bits writes");
    /* The last selected bit has no space, and windows past the end don't fit. */
    written = 77;
    memcpy(wanted, before, BYTES);
    begin();
    check(!vb_try_filter_bits(got, BYTES, BITS + 1 - kept, left, BYTES, v, right, BYTES, m, len,
        &written), "a filter without space");
    check(!vb_try_filter_bits(got, BYTES, 0, left, BYTES, BITS + 1 - len, right, BYTES, m, len,
        &written), "a filter of bits that don't exist");
    check(!vb_try_filter_bits(got, BYTES, 0, left, BYTES, v, right, BYTES, SIZE_MAX, len + 1,
        &written), "a filter by a mask past every index");
    check(!vb_try_filter_bits(got, BYTES, SIZE_MAX, left, BYTES, v, right, BYTES, m, len,
        &written) || kept == 0, "a filter to an index past every one");
    check(written == 77, "what a refused filter returns");
    wrote("what a refused filter leaves");
}

static void packs(void)
{
    static bool bools[BYTES];
    const size_t n = length_up_to(BYTES), o = offset_for(n);
    memcpy(wanted, before, BYTES);
    for (size_t i = 0; i < n; i++) {
        bools[i] = left[i] != 0;
        put(wanted, o + i, bools[i]);
    }
    begin();
    vb_pack_bools(got, BYTES, o, bools, n);
    wrote("what vb_pack_bools writes");
    begin();
    check(vb_try_pack_bools(got, BYTES, o, bools, n), "vb_try_pack_bools");
    wrote("what vb_try_pack_bools writes");
    begin();
    vb_pack_truthy(got, BYTES, o, left, n);
    wrote("what vb_pack_truthy writes");
    begin();
    check(vb_try_pack_truthy(got, BYTES, o, left, n), "vb_try_pack_truthy");
    wrote("what vb_try_pack_truthy writes");
    memcpy(wanted, before, BYTES);
    begin();
    check(!vb_try_pack_bools(got, BYTES, BITS + 1 - n, bools, n)
            && !vb_try_pack_truthy(got, BYTES, BITS + 1 - n, left, n)
            && !vb_try_pack_bools(got, BYTES, SIZE_MAX, bools, n + 1)
            && !vb_try_pack_truthy(got, BYTES, SIZE_MAX, left, n + 1), "a pack without space");
    wrote("what a refused pack leaves");
}

/* Moves bits within one bitmap, in half of the rounds with overlap. */
static void moves(void)
{
    const size_t len = length_up_to(BITS / 2), from = random_below(BITS - len + 1);
    const size_t by = random_below(random_below(2) == 0 ? 100 : BITS), end = BITS - len;
    const size_t down = from - (by < from ? by : from), up = from + by < end ? from + by : end;
    const size_t to = random_below(2) == 0 ? down : up;
    memcpy(wanted, before, BYTES);
    for (size_t i = 0; i < len; i++) {
        put(wanted, to + i, bit(before, from + i));
    }
    begin();
    vb_move_bits(got, BYTES, to, from, len);
    wrote("what vb_move_bits writes");
    begin();
    check(vb_try_move_bits(got, BYTES, to, from, len), "vb_try_move_bits");
    wrote("what vb_try_move_bits writes");
    memcpy(wanted, before, BYTES);
    begin();
    check(!vb_try_move_bits(got, BYTES, BITS + 1 - len, from, len)
            && !vb_try_move_bits(got, BYTES, to, BITS + 1 - len, len)
            && !vb_try_move_bits(got, BYTES, SIZE_MAX, from, len + 1)
            && !vb_try_move_bits(got, BYTES, to, SIZE_MAX, len + 1), "a move past the bits");
    wrote("what a refused move leaves");
}

/* A validity, or none: a null pointer of no bytes, with any offset. */
struct validity {
    const uint8_t *bytes;
    size_t size, offset;
};

static struct validity validity_for(const uint8_t *bytes, size_t len)
{
    const struct validity missing = {NULL, 0, random_below(2) == 0 ? 0 : SIZE_MAX};
    const struct validity some = {bytes, BYTES, random_below(BITS - len + 1)};
    return random_below(2) == 0 ? missing : some;
}

static bool is_valid(struct validity of, size_t i)
{
    return of.bytes == NULL || bit(of.bytes, of.offset + i);
}

#define OF(validity) (validity).bytes, (validity).size, (validity).offset

static void validities(void)
{
    const size_t len = length_up_to(BITS / 2), o = offset_for(len);
    const struct validity one = validity_for(left, len), other = validity_for(right, len);
    size_t valid = 0, counted = 77;
    memcpy(wanted, before, BYTES);
    for (size_t i = 0; i < len; i++) {
        const bool both = is_valid(one, i) && is_valid(other, i);
        valid += both;
        put(wanted, o + i, both);
    }
    begin();
    vb_and_validities(got, BYTES, o, OF(one), OF(other), len);
    wrote("what vb_and_validities writes");
    begin();
    check(vb_try_and_validities(got, BYTES, o, OF(one), OF(other), len), "vb_try_and_validities");
    wrote("what vb_try_and_validities writes");
    check(vb_count_valid(OF(one), OF(other), len) == valid, "vb_count_valid");
    check(vb_try_count_valid(OF(one), OF(other), len, &counted) && counted == valid,
        "vb_try_count_valid");
    memcpy(wanted, before, BYTES);
    for (size_t i = 0; i < len; i++) {
        put(wanted, o + i, bit(before, o + i) && is_valid(one, i));
    }
    begin();
    vb_and_validity(got, BYTES, o, OF(one), len);
    wrote("what vb_and_validity writes");
    begin();
    check(vb_try_and_validity(got, BYTES, o, OF(one), len), "vb_try_and_validity");
    wrote("what vb_try_and_validity writes");
}

static void filters_of_validities(void)
{
    const size_t len = length_up_to(BITS / 2), m = random_below(BITS - len + 1);
    const struct validity one = validity_for(left, len);
    size_t kept = 0, written = 77;
    for (size_t i = 0; i < len; i++) {
        kept += bit(right, m + i);
    }
    const size_t o = offset_for(kept);
    memcpy(wanted, before, BYTES);
    for (size_t i = 0, at = o; i < len; i++) {
        if (bit(right, m + i)) {
            put(wanted, at++, is_valid(one, i));
        }
    }
    begin();
    check(vb_filter_validity(got, BYTES, o, OF(one), right, BYTES, m, len) == kept,
        "vb_filter_validity");
    wrote("what vb_filter_validity writes");
    begin();
    check(vb_try_filter_validity(got, BYTES, o, OF(one), right, BYTES, m, len, &written)
            && written == kept, "vb_try_filter_validity");
    wrote("what vb_try_filter_validity writes");
    written = 77;
    memcpy(wanted, before, BYTES);
    begin();
    check(!vb_try_filter_validity(got, BYTES, BITS + 1 - kept, OF(one), right, BYTES, m, len,
            &written)
        && !vb_try_filter_validity(got, BYTES, 0, OF(one), right, BYTES, BITS + 1 - len, len,
            &written) && written == 77, "a filter of a validity without space, or without a mask");
    wrote("what a refused filter leaves");
}

/*
 * Tests that neither a null pointer with a size nor another pointer without bytes is a missing
 * validity. A validity that isn't missing must be in its bytes.
 */
static void no_validities(void)
{
    size_t number = 77;
    memcpy(wanted, before, BYTES);
    begin();
    check(!vb_try_and_validities(got, BYTES, 0, NULL, BYTES, 0, NULL, 0, 0, 8)
            && !vb_try_and_validities(got, BYTES, 0, NULL, 0, 0, NULL, 1, 0, 8)
            && !vb_try_and_validities(got, BYTES, 0, left, 0, 0, NULL, 0, 0, 8)
            && !vb_try_and_validities(got, BYTES, BITS - 7, NULL, 0, 0, NULL, 0, 0, 8)
            && !vb_try_and_validities(NULL, 1, 0, NULL, 0, 0, NULL, 0, 0, 8)
            && !vb_try_and_validities(got, BYTES, 0, left, 1, 1, NULL, 0, 0, 8)
            && !vb_try_and_validity(got, BYTES, 0, NULL, BYTES, 0, 8)
            && !vb_try_and_validity(got, BYTES, 0, left, 0, 0, 8)
            && !vb_try_and_validity(got, BYTES, BITS - 7, NULL, 0, 0, 8)
            && !vb_try_and_validity(NULL, 1, 0, NULL, 0, 0, 8)
            && !vb_try_and_validity(got, BYTES, SIZE_MAX, NULL, 0, 0, 8)
            && !vb_try_count_valid(NULL, 1, 0, NULL, 0, 0, 8, &number)
            && !vb_try_count_valid(left, 0, 0, NULL, 0, 0, 8, &number)
            && !vb_try_count_valid(NULL, 0, 0, right, BYTES, BITS - 7, 8, &number)
            && !vb_try_filter_validity(got, BYTES, 0, NULL, 1, 0, right, BYTES, 0, 8, &number)
            && !vb_try_filter_validity(got, BYTES, 0, left, 0, 0, right, BYTES, 0, 8, &number)
            && !vb_try_filter_validity(got, BYTES, 0, NULL, 0, 0, NULL, 1, 0, 8, &number)
            && number == 77, "what is no missing validity");
    wrote("what a refused validity leaves");
}

/* Compares the outputs of vb_take_bits_I and its checked form with a loop. */
#define TAKES(I, index_t)                                                                         \
    static void takes_##I(void)                                                                   \
    {                                                                                             \
        static index_t indices[SOME];                                                             \
        const size_t n = length_up_to(SOME), o = offset_for(n);                                   \
        const size_t most = sizeof(index_t) == 1 ? 255 : BITS - 9;                                \
        const size_t len = 1 + random_below(most), offset = random_below(BITS - len + 1);         \
        const size_t v = random_below(BITS - n + 1), bad = random_below(4 * (n + 1));             \
        const bool all = random_below(2) == 0;                                                    \
        size_t past = n;                                                                          \
        memcpy(wanted, before, BYTES);                                                            \
        for (size_t i = 0; i < n; i++) {                                                          \
            const bool counts = all || bit(right, v + i);                                         \
            indices[i] = (index_t)(i == bad ? len : random_below(len));                           \
            if (counts && i == bad) {                                                             \
                past = i;                                                                         \
            }                                                                                     \
            put(wanted, o + i, counts && i != bad && bit(left, offset + (size_t)indices[i]));     \
        }                                                                                         \
        for (int checked = 0; checked < 2; checked++) {                                           \
            vb_taken taken = {true, 77};                                                          \
            begin();                                                                              \
            if (checked != 0) {                                                                   \
                check(vb_try_take_bits_##I(got, BYTES, o, left, BYTES, offset, len, indices,      \
                    n, all, all ? NULL : right, all ? 0 : BYTES, v, &taken),                      \
                    "vb_try_take_bits_" #I);                                                      \
            } else {                                                                              \
                taken = vb_take_bits_##I(got, BYTES, o, left, BYTES, offset, len, indices, n,     \
                    all, all ? NULL : right, all ? 0 : BYTES, v);                                 \
            }                                                                                     \
            check(taken.out_of_range == (past < n) && (past == n || taken.position == past),      \
                "the position that vb_take_bits_" #I " returns");                                 \
            for (size_t i = 0; past < n && i < n; i++) {                                          \
                put(got, o + i, bit(wanted, o + i));                                              \
            }                                                                                     \
            wrote("what vb_take_bits_" #I " writes");                                             \
        }                                                                                         \
        vb_taken kept = {true, 77};                                                               \
        memcpy(wanted, before, BYTES);                                                            \
        begin();                                                                                  \
        check(!vb_try_take_bits_##I(got, BYTES, BITS + 1 - n, left, BYTES, offset, len,           \
                indices, n, true, NULL, 0, 0, &kept)                                              \
            && !vb_try_take_bits_##I(got, BYTES, SIZE_MAX, left, BYTES, offset, len, indices,     \
                n + (n == 0), true, NULL, 0, 0, &kept)                                            \
            && !vb_try_take_bits_##I(got, BYTES, 0, left, BYTES, BITS + 1 - len, len, indices,    \
                n, true, NULL, 0, 0, &kept)                                                       \
            && !vb_try_take_bits_##I(got, BYTES, 0, left, BYTES, offset, len, indices, n,         \
                false, right, BYTES, BITS + 1 - n, &kept), "bad numbers of a take");              \
        check(kept.out_of_range && kept.position == 77, "what a refused take returns");           \
        wrote("what a refused take leaves");                                                      \
    }

TAKES(u8, uint8_t)
TAKES(u16, uint16_t)
TAKES(u32, uint32_t)
TAKES(u64, uint64_t)

/* Joins batches one after the other into a column. */
static void joins(void)
{
    size_t at = 0, rows = 0;
    memcpy(wanted, before, BYTES);
    begin();
    for (size_t from = 0; from < BITS / 2;) {
        const size_t len = random_below(BITS / 2 - from + 1) % 5000 + 1;
        const size_t n = len < BITS / 2 - from ? len : BITS / 2 - from;
        at += vb_filter_bits(got, BYTES, at, left, BYTES, from, right, BYTES, from, n);
        calls++;
        from += n;
    }
    for (size_t i = 0; i < BITS / 2; i++) {
        if (bit(right, i)) {
            put(wanted, rows++, bit(left, i));
        }
    }
    check(at == rows, "how many rows the batches have");
    wrote("batches that are joined");
}

int main(void)
{
    for (int round = 0; round < ROUNDS; round++) {
        randomize_bytes(left, BYTES);
        randomize_bytes(right, BYTES);
        randomize_bytes(before, BYTES);
        filters();
        moves();
        validities();
        filters_of_validities();
        no_validities();
        packs();
        takes_u8();
        takes_u16();
        takes_u32();
        takes_u64();
        joins();
    }
    printf("%llu calls that write at an offset\n", calls);
    return failures == 0 ? 0 : 1;
}
