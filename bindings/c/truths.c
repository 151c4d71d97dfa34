/*
 * Compares the three-valued logic of vortex_bits_gather.h with a loop over single rows, at each
 * length of up to 200, with windows that begin at bits 0 to 15 and end in the last byte of their
 * memory, since the functions handle fewer than eight bytes separately. It is C and C++ alike.
 */
#include "tests.h"
#include "vortex_bits.h"

#include <stdlib.h>
#include <string.h>

enum { LONGEST = 200, OFFSETS = 16, ROUNDS = 48, BYTES = (OFFSETS + LONGEST) / 8 + 1 };

/* Bits from an offset on, in memory that ends with their last byte. */
struct window {
    uint8_t *bytes;
    size_t size, offset;
};

static struct window window_of(size_t len)
{
    struct window w;
    w.offset = random_below(OFFSETS);
    w.size = (w.offset + len + 7) / 8;
    w.bytes = (uint8_t *)malloc(w.size > 0 ? w.size : 1);
    if (w.bytes == NULL) {
        exit(2);
    }
    randomize_bytes(w.bytes, w.size);
    return w;
}

enum truth { FALSE, NIL, TRUE };

struct column {
    struct window values, validity;
    bool all_valid;
};

static struct column column_of(size_t len)
{
    struct column c;
    c.values = window_of(len);
    c.validity = window_of(len);
    c.all_valid = random_below(3) == 0;
    return c;
}

static enum truth truth_at(const struct column *c, size_t i)
{
    if (!c->all_valid && !bit(c->validity.bytes, c->validity.offset + i)) {
        return NIL;
    }
    return bit(c->values.bytes, c->values.offset + i) ? TRUE : FALSE;
}

static void drop_column(struct column *c)
{
    free(c->values.bytes);
    free(c->validity.bytes);
}

/* In the order false, null, true, `and` is the lesser of two and `or` the greater. */
static enum truth combined(bool is_and, enum truth l, enum truth r)
{
    return (l < r) == is_and ? l : r;
}

/* Calls the function, or its checked form. */
static void call(bool is_and, bool checked, struct window *t, struct window *v,
    const struct column *l, const struct column *r, size_t len)
{
#define OF(w) w.bytes, w.size, w.offset
#define SIDE(c)                                                                                   \
    OF(c->values), c->all_valid, c->all_valid ? NULL : c->validity.bytes,                         \
        c->all_valid ? 0 : c->validity.size, c->validity.offset
#define GIVEN OF((*t)), OF((*v)), SIDE(l), SIDE(r), len
    if (checked) {
        check(is_and ? vb_try_and_kleene(GIVEN) : vb_try_or_kleene(GIVEN), "a call fails");
    } else if (is_and) {
        vb_and_kleene(GIVEN);
    } else {
        vb_or_kleene(GIVEN);
    }
}

/* Calls it on windows of this length, and compares all bytes of both results. */
static void combines(bool is_and, bool checked, size_t len)
{
    static uint8_t trues[BYTES], valid[BYTES];
    struct column l = column_of(len), r = column_of(len);
    struct window t = window_of(len), v = window_of(len);
    memcpy(trues, t.bytes, t.size);
    memcpy(valid, v.bytes, v.size);
    for (size_t i = 0; i < len; i++) {
        const enum truth both = combined(is_and, truth_at(&l, i), truth_at(&r, i));
        put(trues, t.offset + i, both == TRUE);
        put(valid, v.offset + i, both != NIL);
    }
    call(is_and, checked, &t, &v, &l, &r, len);
    check(memcmp(trues, t.bytes, t.size) == 0, "which results are true");
    check(memcmp(valid, v.bytes, v.size) == 0, "which results aren't null");
    drop_column(&l);
    drop_column(&r);
    free(t.bytes);
    free(v.bytes);
}

int main(void)
{
    for (size_t len = 0; len <= LONGEST; len++) {
        for (int round = 0; round < ROUNDS; round++) {
            combines(round % 2 == 0, round % 4 < 2, len);
        }
    }
    return failures == 0 ? 0 : 1;
}
