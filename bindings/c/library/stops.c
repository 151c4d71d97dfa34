/*
 * Replaces the functions of x86-64-v2: each aborts the program if a pointer to items is null.
 * Linked with these, nulls.c tests that vortex_bits.c passes no null pointer on.
 */
#include "vortex_bits.h"

#include "functions.h"

#include <stdlib.h>

static int look(const void *items)
{
    if (items == NULL) {
        abort();
    }
    return 0;
}

static void see(int first, ...)
{
    (void)first;
}

#define ANY(items, number) look(items), number
#define KNOWN(op) op
#define SEE(...) see(0, __VA_ARGS__)
#define F(type, name, parameters, given, arguments, rare)                                         \
    type vb_v2_##name parameters;                                                                 \
    type vb_v2_##name parameters                                                                  \
    {                                                                                             \
        static const type nothing;                                                                \
        SEE arguments;                                                                            \
        return nothing;                                                                           \
    }
#define P(name, parameters, given, arguments, rare)                                               \
    void vb_v2_##name parameters;                                                                 \
    void vb_v2_##name parameters                                                                  \
    {                                                                                             \
        SEE arguments;                                                                            \
    }
/* A checked form here always returns true, so only vortex_bits.c itself can return false. */
#define T(name, parameters, given, arguments, rare, tests)                                        \
    bool vb_v2_##name parameters;                                                                 \
    bool vb_v2_##name parameters                                                                  \
    {                                                                                             \
        SEE arguments;                                                                            \
        return true;                                                                              \
    }
FUNCTIONS
