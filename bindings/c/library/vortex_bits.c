/*
 * The functions of vortex_bits.h. Each calls the function of a processor level, such as
 * vb_v2_count_ones. It replaces a null pointer to no items by one that the called function accepts.
 * A checked form returns false for a null pointer to one item or more. by_hand.h and made.h have
 * the functions that do more.
 *
 * With VB_LEVEL (2, 3 or 4) they call that level only. Without it they call the higher one of v2
 * and v3 that the processor has.
 */
#include "vortex_bits.h"

/* bindings/c/functions writes functions.h from the headers. */
#include "functions.h"
#include "processor.h"

#include <stdatomic.h>

/* The object that replaces a null pointer to no items. No function reads or writes it. */
static max_align_t nothing;
/* Two arguments: a pointer, which may be null if the number is 0, and the number. */
#define ANY(items, number) ((items) != NULL || (number) != 0 ? (items) : (void *)&nothing), number
/* Returns whether a pointer may point to this number of items: a null pointer points to none. */
#define MAY_HAVE(items, number) ((items) != NULL || (number) == 0)

/*
 * The functions of the levels. They are in the same object or shared library, so that taking the
 * address of one reads no table.
 */
#pragma GCC visibility push(hidden)
#define F(type, name, parameters, given, arguments, rare)                                         \
    type vb_v2_##name parameters;                                                                 \
    type vb_v3_##name parameters;                                                                 \
    type vb_v4_##name parameters;
#define P(name, parameters, given, arguments, rare)                                               \
    F(void, name, parameters, given, arguments, rare)
#define T(name, parameters, given, arguments, rare, tests)                                        \
    F(bool, name, parameters, given, arguments, rare)
FUNCTIONS
#undef F
#undef P
#undef T
#pragma GCC visibility pop

#ifdef VB_LEVEL

#define JOIN(level, name) vb_v##level##_##name
#define LEVEL(level, name) JOIN(level, name)
#define CALL(name) LEVEL(VB_LEVEL, name)
#define CALL_OF(level, name) CALL(name)
#define TEXT(level) "x86-64-v" #level
#define NAME(level) TEXT(level)

static inline int chosen(void)
{
    return VB_LEVEL;
}

const char *vb_level(void)
{
    return NAME(VB_LEVEL);
}

#define HAS(level) has_v##level()
#define HAS_LEVEL(level) HAS(level)

bool vb_has_level(void)
{
    return HAS_LEVEL(VB_LEVEL);
}

#else

/*
 * The level that calls use, 2 or 3; 0 before the first call. Each thread that reads 0 chooses the
 * same level, so the order of their writes doesn't matter. There is no table of a level's
 * functions, so that -Wl,--gc-sections can remove the functions that a program doesn't call.
 */
static _Atomic(int) current;

static inline int chosen(void)
{
    return atomic_load_explicit(&current, memory_order_relaxed);
}

static int choose(void)
{
    const int best = has_v3() ? 3 : 2;
    atomic_store_explicit(&current, best, memory_order_relaxed);
    return best;
}

static inline int level(void)
{
    const int known = chosen();
    return known != 0 ? known : choose();
}

#define CALL_OF(level, name) ((level) == 3 ? vb_v3_##name : vb_v2_##name)
#define CALL(name) CALL_OF(level(), name)

const char *vb_level(void)
{
    return level() == 3 ? "x86-64-v3" : "x86-64-v2";
}

bool vb_has_level(void)
{
    return has_v2();
}

#endif

/* Returns a comparison that exists. A plain form traps if there is none with this number. */
static inline uint8_t known(uint8_t op)
{
    if (op > VB_GREATER_OR_EQUAL) {
        __builtin_trap();
    }
    return op;
}
#define KNOWN(op) known(op)

/*
 * Few calls have a null pointer or an unknown comparison, or come before a level is chosen: the
 * function rare_NAME is for these. The others pay for one test of the highest bit of several
 * numbers. The test selects a function pointer, and one call uses it: with a call in each branch,
 * compilers copy each argument on the stack through a register. A pointer with that bit set goes to
 * rare_NAME too, which accepts any pointer.
 */
#define NULL_DIGIT(number) ((uintptr_t)(number) - 1)
#define UNKNOWN_DIGIT(op) ((uintptr_t)VB_GREATER_OR_EQUAL - (op))
#define IS_RARE(digits) ((intptr_t)((digits) | NULL_DIGIT(now)) < 0)
#define RARE __attribute__((noinline, cold)) static
#define CHOSEN_OF(name, rare) (IS_RARE(rare) ? rare_##name : CALL_OF(now, name))

#define F(type, name, parameters, given, arguments, rare)                                         \
    RARE type rare_##name parameters                                                              \
    {                                                                                             \
        return CALL(name) arguments;                                                              \
    }                                                                                             \
    type vb_##name parameters                                                                     \
    {                                                                                             \
        const int now = chosen();                                                                 \
        return CHOSEN_OF(name, rare) given;                                                       \
    }
#define P(name, parameters, given, arguments, rare)                                               \
    RARE void rare_##name parameters                                                              \
    {                                                                                             \
        CALL(name) arguments;                                                                     \
    }                                                                                             \
    void vb_##name parameters                                                                     \
    {                                                                                             \
        const int now = chosen();                                                                 \
        CHOSEN_OF(name, rare) given;                                                              \
    }
#define T(name, parameters, given, arguments, rare, tests)                                        \
    RARE bool rare_##name parameters                                                              \
    {                                                                                             \
        return (tests) && CALL(name) arguments;                                                   \
    }                                                                                             \
    bool vb_##name parameters                                                                     \
    {                                                                                             \
        const int now = chosen();                                                                 \
        return CHOSEN_OF(name, rare) given;                                                       \
    }
PASSED_ON

#include "by_hand.h"
#include "made.h"
