/*
 * Compares functions of vortex_bits.h with a loop over single bits, over random windows, and each
 * checked form with numbers at and past every limit. It is C and C++ alike.
 */
#include "tests.h"
#include "vortex_bits.h"

#include <stdlib.h>
#include <string.h>

enum { BYTES = 96, BITS = 8 * BYTES, ROUNDS = 20000 };

/* Returns the index of the n-th bit that is v, or len. */
static size_t nth(const uint8_t *bytes, size_t offset, size_t len, size_t n, bool v)
{
    for (size_t i = 0; i < len; i++) {
        if (bit(bytes, offset + i) == v && n-- == 0) {
            return i;
        }
    }
    return len;
}

static bool is_place(vb_place place, size_t wanted, size_t len)
{
    return wanted == len ? !place.found : place.found && place.index == wanted;
}

static void questions(const uint8_t *bytes, size_t offset, size_t len)
{
    size_t ones = 0, last = len, ones_checked = 0;
    for (size_t i = 0; i < len; i++) {
        if (bit(bytes, offset + i)) {
            ones++;
            last = i;
        }
    }
    check(vb_count_ones(bytes, BYTES, offset, len) == ones, "vb_count_ones");
    check(vb_try_count_ones(bytes, BYTES, offset, len, &ones_checked) && ones_checked == ones,
        "vb_try_count_ones");
    vb_place place = {false, 0};
    check(is_place(vb_last_set(bytes, BYTES, offset, len), last, len), "vb_last_set");
    check(vb_try_last_set(bytes, BYTES, offset, len, &place) && is_place(place, last, len),
        "vb_try_last_set");
    const size_t n = random_below(len + 2);
    const size_t set = nth(bytes, offset, len, n, true), unset = nth(bytes, offset, len, n, false);
    check(is_place(vb_select(bytes, BYTES, offset, len, n), set, len), "vb_select");
    check(vb_try_select(bytes, BYTES, offset, len, n, &place) && is_place(place, set, len),
        "vb_try_select");
    check(is_place(vb_select_unset(bytes, BYTES, offset, len, n), unset, len), "vb_select_unset");
    check(vb_try_select_unset(bytes, BYTES, offset, len, n, &place) && is_place(place, unset, len),
        "vb_try_select_unset");
    if (offset < BITS) {
        bool one = false;
        check(vb_get_bit(bytes, BYTES, offset) == bit(bytes, offset), "vb_get_bit");
        check(vb_try_get_bit(bytes, BYTES, offset, &one) && one == bit(bytes, offset),
            "vb_try_get_bit");
    }
}

/* Checks that the indices of 32 bits are those of `size_t`. */
static void narrow_places(const size_t *places, size_t room, const uint8_t *bytes, size_t offset,
    size_t len, size_t found)
{
    uint32_t narrow[BITS + 1], checked[BITS + 1];
    size_t count = 0;
    memset(narrow, 0xEE, sizeof narrow);
    check(vb_set_indices_u32(narrow, room, bytes, BYTES, offset, len) == found
            && vb_try_set_indices_u32(checked, room, bytes, BYTES, offset, len, &count)
            && count == found, "vb_set_indices_u32");
    for (size_t i = 0; i < BITS + 1; i++) {
        check(i < found ? narrow[i] == places[i] && checked[i] == places[i]
                : narrow[i] == 0xEEEEEEEEu, "an index of 32 bits");
    }
}

static void walks(const uint8_t *bytes, size_t offset, size_t len)
{
    size_t places[BITS + 1], checked[BITS + 1];
    vb_run runs[BITS + 1], runs_checked[BITS + 1];
    const size_t room = random_below(3) == 0 ? random_below(len + 1) : len + 1;
    size_t count = 0, seen = 0, begun = 0;
    memset(places, 0xEE, sizeof places);
    size_t written = vb_set_indices(places, room, bytes, BYTES, offset, len);
    check(vb_try_set_indices(checked, room, bytes, BYTES, offset, len, &count) && count == written,
        "vb_try_set_indices");
    for (size_t i = 0; i < len; i++) {
        if (bit(bytes, offset + i)) {
            if (seen < room) {
                check(places[seen] == i && checked[seen] == i, "a place");
            }
            seen++;
        }
    }
    check(written == (seen < room ? seen : room), "vb_set_indices");
    for (size_t i = written; i < BITS + 1; i++) {
        check(places[i] == (size_t)0xEEEEEEEEEEEEEEEEu, "memory behind the indices");
    }
    narrow_places(places, room, bytes, offset, len, written);
    written = vb_set_slices(runs, room, bytes, BYTES, offset, len);
    check(vb_try_set_slices(runs_checked, room, bytes, BYTES, offset, len, &count)
            && count == written, "vb_try_set_slices");
    seen = 0;
    for (size_t i = 0; i <= len; i++) {
        const bool here = i < len && bit(bytes, offset + i);
        const bool before = i > 0 && bit(bytes, offset + i - 1);
        if (here && !before) {
            begun = i;
        }
        if (before && !here) {
            if (seen < room) {
                check(runs[seen].start == begun && runs[seen].end == i, "a run");
                check(runs_checked[seen].start == begun && runs_checked[seen].end == i,
                    "a run, checked");
            }
            seen++;
        }
    }
    check(written == (seen < room ? seen : room), "vb_set_slices");
}

typedef void (*combine)(uint8_t *, size_t, size_t, const uint8_t *, size_t, size_t, size_t);
typedef bool (*try_combine)(uint8_t *, size_t, size_t, const uint8_t *, size_t, size_t, size_t);
typedef void (*into)(uint8_t *, size_t, size_t, const uint8_t *, size_t, size_t, const uint8_t *,
    size_t, size_t, size_t);
typedef bool (*try_into)(uint8_t *, size_t, size_t, const uint8_t *, size_t, size_t,
    const uint8_t *, size_t, size_t, size_t);

/* The operators. Bit 2 * left + right of `table` is the result for two bits. */
static const struct {
    const char *name;
    combine plain;
    try_combine checked;
    into third;
    try_into third_checked;
    unsigned table;
} combines[] = {
    {"copy", vb_copy_bits, vb_try_copy_bits, NULL, NULL, 0xA},
    {"and", vb_and_bits, vb_try_and_bits, vb_and_into, vb_try_and_into, 0x8},
    {"or", vb_or_bits, vb_try_or_bits, vb_or_into, vb_try_or_into, 0xE},
    {"xor", vb_xor_bits, vb_try_xor_bits, vb_xor_into, vb_try_xor_into, 0x6},
    {"and not", vb_and_not_bits, vb_try_and_not_bits, vb_and_not_into, vb_try_and_not_into, 0x4},
};
enum { COMBINES = sizeof combines / sizeof combines[0] };

/*
 * Writes the result of operator k on two windows to a third one, and checks that other bits are
 * unchanged.
 */
static void thirds(size_t k, const uint8_t *bytes, size_t l, const uint8_t *other, size_t r,
    size_t len)
{
    uint8_t wanted[BYTES], got[BYTES];
    const size_t o = random_below(BITS - len + 1);
    if (combines[k].third == NULL) {
        return;
    }
    memset(wanted, 0x5A, BYTES);
    memset(got, 0x5A, BYTES);
    for (size_t i = 0; i < len; i++) {
        const unsigned both = 2u * bit(bytes, l + i) + bit(other, r + i);
        put(wanted, o + i, (combines[k].table >> both & 1) != 0);
    }
    combines[k].third(got, BYTES, o, bytes, BYTES, l, other, BYTES, r, len);
    check(memcmp(got, wanted, BYTES) == 0, combines[k].name);
    memset(got, 0x5A, BYTES);
    check(combines[k].third_checked(got, BYTES, o, bytes, BYTES, l, other, BYTES, r, len)
            && memcmp(got, wanted, BYTES) == 0, combines[k].name);
}

static void writes(const uint8_t *bytes, const uint8_t *other, size_t offset, size_t len)
{
    uint8_t wanted[BYTES], got[BYTES];
    const size_t s = random_below(BITS - len + 1);
    for (size_t k = 0; k < COMBINES; k++) {
        memcpy(wanted, bytes, BYTES);
        for (size_t i = 0; i < len; i++) {
            const unsigned both = 2u * bit(bytes, offset + i) + bit(other, s + i);
            put(wanted, offset + i, (combines[k].table >> both & 1) != 0);
        }
        memcpy(got, bytes, BYTES);
        combines[k].plain(got, BYTES, offset, other, BYTES, s, len);
        check(memcmp(got, wanted, BYTES) == 0, combines[k].name);
        memcpy(got, bytes, BYTES);
        check(combines[k].checked(got, BYTES, offset, other, BYTES, s, len)
                && memcmp(got, wanted, BYTES) == 0, combines[k].name);
        thirds(k, bytes, offset, other, s, len);
    }
    memcpy(got, bytes, BYTES);
    vb_copy_bits(got, BYTES, offset, other, BYTES, s, len);
    bool equal = true, equal_checked = false;
    for (size_t i = 0; i < len; i++) {
        equal = equal && bit(bytes, offset + i) == bit(other, s + i);
    }
    check(vb_equal_bits(got, BYTES, offset, other, BYTES, s, len), "vb_equal_bits of a copy");
    check(vb_equal_bits(bytes, BYTES, offset, other, BYTES, s, len) == equal, "vb_equal_bits");
    check(vb_try_equal_bits(bytes, BYTES, offset, other, BYTES, s, len, &equal_checked)
            && equal_checked == equal, "vb_try_equal_bits");
    for (int v = 0; v < 2; v++) {
        memcpy(wanted, bytes, BYTES);
        for (size_t i = 0; i < len; i++) {
            put(wanted, offset + i, v != 0);
        }
        memcpy(got, bytes, BYTES);
        vb_fill_bits(got, BYTES, offset, len, v != 0);
        check(memcmp(got, wanted, BYTES) == 0, "vb_fill_bits");
        memcpy(got, bytes, BYTES);
        check(vb_try_fill_bits(got, BYTES, offset, len, v != 0)
                && memcmp(got, wanted, BYTES) == 0, "vb_try_fill_bits");
    }
    memcpy(wanted, bytes, BYTES);
    for (size_t i = 0; i < len; i++) {
        put(wanted, offset + i, !bit(bytes, offset + i));
    }
    memcpy(got, bytes, BYTES);
    vb_negate_bits(got, BYTES, offset, len);
    check(memcmp(got, wanted, BYTES) == 0, "vb_negate_bits");
    memcpy(got, bytes, BYTES);
    check(vb_try_negate_bits(got, BYTES, offset, len) && memcmp(got, wanted, BYTES) == 0,
        "vb_try_negate_bits");
}

/* Tests packs of the bytes. `other` has the contents of the memory before. */
static void packs(const uint8_t *bytes, const uint8_t *other)
{
    uint8_t wanted[BYTES], got[BYTES];
    bool bools[BYTES];
    const size_t n = random_below(BYTES + 1);
    memcpy(wanted, other, BYTES);
    memset(wanted, 0, (n + 7) / 8);
    for (size_t i = 0; i < n; i++) {
        bools[i] = bytes[i] != 0;
        put(wanted, i, bools[i]);
    }
    memcpy(got, other, BYTES);
    vb_pack_bools_padded(got, BYTES, bools, n);
    check(memcmp(got, wanted, BYTES) == 0, "vb_pack_bools_padded");
    memcpy(got, other, BYTES);
    check(vb_try_pack_bools_padded(got, BYTES, bools, n) && memcmp(got, wanted, BYTES) == 0,
        "vb_try_pack_bools_padded");
    memcpy(got, other, BYTES);
    vb_pack_truthy_padded(got, BYTES, bytes, n);
    check(memcmp(got, wanted, BYTES) == 0, "vb_pack_truthy_padded");
    memcpy(got, other, BYTES);
    check(vb_try_pack_truthy_padded(got, BYTES, bytes, n) && memcmp(got, wanted, BYTES) == 0,
        "vb_try_pack_truthy_padded");
    /* One value more than there is space for. */
    memcpy(got, other, BYTES);
    check(!vb_try_pack_bools_padded(got, 1, bools, 9)
            && !vb_try_pack_truthy_padded(got, 1, bytes, 9)
            && memcmp(got, other, BYTES) == 0, "a refused pack left all as it was");
    check(vb_try_pack_truthy_padded(got, 1, bytes, 8), "a pack that has space");
}

/* Unpacks a window to bools and to bytes, and checks that the items after them are unchanged. */
static void unpacks(const uint8_t *bytes, size_t offset, size_t len)
{
    static uint8_t got[4][BITS + 9];
    bool *const bools[] = {(bool *)(void *)got[0], (bool *)(void *)got[1]};
    const size_t room = len + random_below(9);
    memset(got, 0xA5, sizeof got);
    vb_unpack_bools(bools[0], room, bytes, BYTES, offset, len);
    vb_unpack_bytes(got[2], room, bytes, BYTES, offset, len);
    check(vb_try_unpack_bools(bools[1], room, bytes, BYTES, offset, len)
            && vb_try_unpack_bytes(got[3], room, bytes, BYTES, offset, len), "the checked unpacks");
    for (size_t k = 0; k < 4; k++) {
        for (size_t i = 0; i < BITS + 9; i++) {
            check(got[k][i] == (i < len ? (uint8_t)bit(bytes, offset + i) : 0xA5),
                "an unpacked bit");
        }
    }
    check(len == 0 || (!vb_try_unpack_bools(bools[1], len - 1, bytes, BYTES, offset, len)
            && !vb_try_unpack_bytes(got[3], len - 1, bytes, BYTES, offset, len)), "no room");
    check(memcmp(got[0], got[1], sizeof got[0]) == 0 && memcmp(got[2], got[3], sizeof got[2]) == 0,
        "a refused unpack left all as it was");
}

enum { INDICES = 200 };

/*
 * Tests takes at random indices; in half of the rounds some may be past the window. `valid` is the
 * validity from bit v on, or null.
 */
static void takes(const uint8_t *bytes, size_t offset, size_t len, const uint8_t *valid, size_t v)
{
    uint32_t narrow[INDICES];
    uint64_t wide[INDICES];
    uint8_t got[BYTES], rest[BYTES];
    const size_t n = len == 0 ? 0 : random_below(INDICES + 1);
    const size_t most = len + random_below(2);
    const bool all = valid == NULL;
    const size_t size = all ? 0 : BYTES;
    size_t past = n;
    for (size_t p = n; p-- > 0;) {
        narrow[p] = (uint32_t)random_below(most);
        wide[p] = narrow[p];
        if (narrow[p] >= len && (all || bit(valid, v + p))) {
            past = p;
        }
    }
    for (size_t kind = 0; kind < 4; kind++) {
        vb_taken taken = {true, 77};
        memset(got, 0xA5, BYTES);
        memset(rest, 0xA5, BYTES);
        switch (kind) {
        case 0: taken = vb_take_bits_u32(got, BYTES, 0, bytes, BYTES, offset, len, narrow, n, all,
                    valid, size, v); break;
        case 1: taken = vb_take_bits_u64(got, BYTES, 0, bytes, BYTES, offset, len, wide, n, all,
                    valid, size, v); break;
        case 2: check(vb_try_take_bits_u32(got, BYTES, 0, bytes, BYTES, offset, len, narrow, n, all,
                    valid, size, v, &taken), "vb_try_take_bits_u32"); break;
        default: check(vb_try_take_bits_u64(got, BYTES, 0, bytes, BYTES, offset, len, wide, n, all,
                    valid, size, v, &taken), "vb_try_take_bits_u64");
        }
        check(taken.out_of_range == (past < n) && (past == n || taken.position == past),
            "the first position past the window");
        for (size_t p = 0; p < n; p++) {
            const bool counts = all || bit(valid, v + p);
            if (past == n) {
                check(bit(got, p) == (counts && bit(bytes, offset + wide[p])),
                    "a bit that is taken");
            }
            put(got, p, bit(rest, p));
        }
        check(memcmp(got, rest, BYTES) == 0, "bits behind those that are taken");
    }
}

enum { BLOCKS = (BITS + 511) / 512 };

static void ranks(const uint8_t *bytes, size_t offset, size_t len)
{
    size_t table[BLOCKS + 1], checked[BLOCKS + 1], count = 0, ones = 0, rank = 0;
    const size_t blocks = (len + 511) / 512, i = random_below(len + 1), n = random_below(len + 2);
    vb_place place = {false, 0};
    check(vb_block_counts(table, BLOCKS + 1, bytes, BYTES, offset, len) == blocks,
        "vb_block_counts");
    check(vb_try_block_counts(checked, BLOCKS + 1, bytes, BYTES, offset, len, &count)
            && count == blocks && memcmp(table, checked, blocks * sizeof *table) == 0,
        "vb_try_block_counts");
    for (size_t k = 0; k < i; k++) {
        check(k % 512 != 0 || table[k / 512] == ones, "an entry of the table");
        ones += bit(bytes, offset + k);
    }
    check(vb_rank(bytes, BYTES, offset, len, table, blocks, i) == ones, "vb_rank");
    check(vb_try_rank(bytes, BYTES, offset, len, table, blocks, i, &rank) && rank == ones,
        "vb_try_rank");
    const size_t set = nth(bytes, offset, len, n, true), unset = nth(bytes, offset, len, n, false);
    check(is_place(vb_ranked_select(bytes, BYTES, offset, len, table, blocks, n), set, len),
        "vb_ranked_select");
    check(vb_try_ranked_select(bytes, BYTES, offset, len, table, blocks, n, &place)
            && is_place(place, set, len), "vb_try_ranked_select");
    check(is_place(vb_ranked_select_unset(bytes, BYTES, offset, len, table, blocks, n), unset, len),
        "vb_ranked_select_unset");
    check(vb_try_ranked_select_unset(bytes, BYTES, offset, len, table, blocks, n, &place)
            && is_place(place, unset, len), "vb_try_ranked_select_unset");
}

/* Tests tables with a wrong size or wrong numbers, and windows that don't fit. */
static void bad_ranks(const uint8_t *bytes, size_t offset, size_t len)
{
    size_t table[BLOCKS + 1], rank = 77;
    vb_place place = {true, 9};
    memset(table, 0xEE, sizeof table);
    check(!vb_try_block_counts(table, BLOCKS, bytes, BYTES, offset, len, &rank), "a bad window");
    for (size_t entries = 0; entries <= BLOCKS + 1; entries++) {
        check(!vb_try_rank(bytes, BYTES, offset, len, table, entries, 0, &rank), "a bad window");
        check(!vb_try_ranked_select(bytes, BYTES, offset, len, table, entries, 0, &place),
            "a bad window");
        check(!vb_try_ranked_select_unset(bytes, BYTES, offset, len, table, entries, 0, &place),
            "a bad window");
        if (entries != BLOCKS) {
            check(!vb_try_rank(bytes, BYTES, 0, BITS, table, entries, 0, &rank), "a bad table");
            check(!vb_try_ranked_select(bytes, BYTES, 0, BITS, table, entries, 0, &place),
                "a bad table");
            check(!vb_try_ranked_select_unset(bytes, BYTES, 0, BITS, table, entries, 0, &place),
                "a bad table");
        }
    }
    check(!vb_try_rank(bytes, BYTES, 0, BITS, table, BLOCKS, BITS + 1, &rank), "a bad index");
    check(rank == 77 && place.found && place.index == 9 && table[0] == (size_t)0xEEEEEEEEEEEEEEEEu,
        "a refused rank left all as it was");
    check(vb_try_rank(bytes, BYTES, 0, BITS, table, BLOCKS, BITS, &rank), "a wrong table is read");
    check(vb_try_ranked_select(bytes, BYTES, 0, BITS, table, BLOCKS, SIZE_MAX, &place),
        "a wrong table is read");
    check(vb_try_ranked_select_unset(bytes, BYTES, 0, BITS, table, BLOCKS, SIZE_MAX, &place),
        "a wrong table is read");
}

/* Tests takes whose windows don't fit, or whose bits have no space. */
static void bad_takes(const uint8_t *bytes, size_t offset, size_t len)
{
    const uint32_t narrow[9] = {0};
    const uint64_t wide[9] = {0};
    uint8_t got[2] = {0x5A, 0x5A};
    vb_taken taken = {true, 9};
    check(!vb_try_take_bits_u32(got, 2, 0, bytes, BYTES, offset, len, narrow, 0, true, NULL, 0, 0,
        &taken), "a bad window");
    check(!vb_try_take_bits_u64(got, 2, 0, bytes, BYTES, offset, len, wide, 0, false, bytes, BYTES,
        0, &taken), "a bad window");
    check(!vb_try_take_bits_u32(got, 1, 0, bytes, BYTES, 0, 9, narrow, 9, true, NULL, 0, 0, &taken),
        "no room");
    check(!vb_try_take_bits_u64(got, 1, 0, bytes, BYTES, 0, 9, wide, 9, true, NULL, 0, 0, &taken),
        "no room");
    check(!vb_try_take_bits_u32(got, 2, 0, bytes, BYTES, 0, 9, narrow, 9, false, bytes, 1, 0,
        &taken), "a bad validity");
    check(!vb_try_take_bits_u64(got, 2, 0, bytes, BYTES, 0, 9, wide, 9, false, bytes, BYTES,
        BITS - 8, &taken), "a bad validity");
    check(got[0] == 0x5A && got[1] == 0x5A && taken.out_of_range && taken.position == 9,
        "a refused take left all as it was");
}

/* Windows of BYTES bytes that don't fit: past the end by a bit or by much, and past SIZE_MAX. */
static const size_t bad[][2] = {
    {0, BITS + 1}, {1, BITS}, {BITS, 1}, {BITS + 1, 0}, {SIZE_MAX, 1}, {1, SIZE_MAX},
    {SIZE_MAX, SIZE_MAX}, {SIZE_MAX - 7, 8}, {SIZE_MAX, 0}, {0, SIZE_MAX},
};
enum { BAD = sizeof bad / sizeof bad[0] };

static void refusals(const uint8_t *bytes)
{
    uint8_t got[BYTES];
    for (size_t k = 0; k < BAD; k++) {
        const size_t offset = bad[k][0], len = bad[k][1];
        size_t number = 77, places[1] = {5};
        uint32_t narrow[1] = {5};
        bool flag = true;
        vb_place place = {true, 9};
        vb_run runs[1] = {{3, 4}};
        memcpy(got, bytes, BYTES);
        check(!vb_try_count_ones(bytes, BYTES, offset, len, &number), "a bad count");
        check(!vb_try_select(bytes, BYTES, offset, len, 0, &place), "a bad select");
        check(!vb_try_select_unset(bytes, BYTES, offset, len, 0, &place), "a bad select");
        check(!vb_try_last_set(bytes, BYTES, offset, len, &place), "a bad last index");
        check(!vb_try_set_indices(places, 1, bytes, BYTES, offset, len, &number), "bad places");
        check(!vb_try_set_indices_u32(narrow, 1, bytes, BYTES, offset, len, &number), "bad places");
        check(!vb_try_set_slices(runs, 1, bytes, BYTES, offset, len, &number), "bad runs");
        check(!vb_try_equal_bits(bytes, BYTES, offset, bytes, BYTES, 0, len, &flag),
            "a bad left window");
        check(!vb_try_equal_bits(bytes, BYTES, 0, bytes, BYTES, offset, len, &flag),
            "a bad right window");
        check(!vb_try_unpack_bytes(got, BYTES, bytes, BYTES, offset, len), "a bad unpack");
        check(!vb_try_negate_bits(got, BYTES, offset, len), "a bad window to negate");
        check(!vb_try_fill_bits(got, BYTES, offset, len, true), "a bad window to fill");
        for (size_t c = 0; c < COMBINES; c++) {
            check(!combines[c].checked(got, BYTES, offset, bytes, BYTES, 0, len), combines[c].name);
            check(!combines[c].checked(got, BYTES, 0, bytes, BYTES, offset, len), combines[c].name);
            for (size_t at = 0; at < 3 && combines[c].third != NULL; at++) {
                check(!combines[c].third_checked(got, BYTES, at == 0 ? offset : 0, bytes, BYTES,
                    at == 1 ? offset : 0, bytes, BYTES, at == 2 ? offset : 0, len),
                    combines[c].name);
            }
        }
        check(number == 77 && flag && place.found && place.index == 9 && places[0] == 5
                && narrow[0] == 5 && runs[0].start == 3 && runs[0].end == 4
                && memcmp(got, bytes, BYTES) == 0, "a refused call left all as it was");
        bad_takes(bytes, offset, len);
        bad_ranks(bytes, offset, len);
    }
    bool flag = true;
    check(!vb_try_get_bit(bytes, BYTES, BITS, &flag) && flag, "a bit behind the last one");
    check(!vb_try_get_bit(bytes, BYTES, SIZE_MAX, &flag) && flag, "the last of all bits");
}

/* No bytes: the window of no bits at bit 0 fits. */
static void nothing(void)
{
    uint8_t none[1] = {0x55};
    size_t number = 77, places[1];
    bool flag = false;
    check(vb_try_count_ones(none, 0, 0, 0, &number) && number == 0, "a count of nothing");
    check(vb_try_set_indices(places, 0, none, 0, 0, 0, &number) && number == 0, "no places");
    check(vb_try_equal_bits(none, 0, 0, none, 0, 0, 0, &flag) && flag, "nothing equals nothing");
    check(!vb_try_count_ones(none, 0, 0, 1, &number), "a bit of nothing");
    check(vb_try_fill_bits(none, 0, 0, 0, true) && none[0] == 0x55, "a fill of nothing");
}

int main(void)
{
    uint8_t bytes[BYTES], other[BYTES];
    for (int round = 0; round < ROUNDS; round++) {
        randomize_bytes(bytes, BYTES);
        randomize_bytes(other, BYTES);
        const size_t offset = random_below(BITS + 1);
        const size_t len = random_below(BITS - offset + 1);
        questions(bytes, offset, len);
        walks(bytes, offset, len);
        writes(bytes, other, offset, len);
        ranks(bytes, offset, len);
        packs(bytes, other);
        unpacks(bytes, offset, len);
        takes(bytes, offset, len, NULL, 0);
        takes(bytes, offset, len, other, random_below(BITS - INDICES + 1));
    }
    refusals(bytes);
    nothing();
    check(vb_has_level() && strncmp(vb_level(), "x86-64-v", 8) == 0, "vb_level");
    return failures == 0 ? 0 : 1;
}
