/*
 * Tests which levels of x86-64 the processor has, and whether the system saves their registers.
 */
#ifndef VORTEX_BITS_PROCESSOR_H
#define VORTEX_BITS_PROCESSOR_H

#include <cpuid.h>
#include <stdbool.h>

/* The registers that a leaf of cpuid fills. */
struct leaf {
    unsigned eax, ebx, ecx, edx;
};

static inline struct leaf leaf(unsigned number)
{
    struct leaf it = {0, 0, 0, 0};
    (void)__get_cpuid_count(number, 0, &it.eax, &it.ebx, &it.ecx, &it.edx);
    return it;
}

/* Returns whether all of the wanted bits are 1. */
static inline bool has(unsigned bits, unsigned wanted)
{
    return (bits & wanted) == wanted;
}

/* Returns whether the system saves these state components of the vector registers. */
static inline bool keeps(unsigned components)
{
    unsigned low, high;
    if (!has(leaf(1).ecx, bit_OSXSAVE)) {
        return false;
    }
    __asm__("xgetbv" : "=a"(low), "=d"(high) : "c"(0));
    return has(low, components);
}

static inline bool has_v2(void)
{
    return has(leaf(1).ecx,
        bit_SSE3 | bit_SSSE3 | bit_CMPXCHG16B | bit_SSE4_1 | bit_SSE4_2 | bit_POPCNT);
}

static inline bool has_v3(void)
{
    return has_v2() && keeps(0x06) && has(leaf(1).ecx, bit_FMA | bit_MOVBE | bit_AVX | bit_F16C)
        && has(leaf(7).ebx, bit_BMI | bit_AVX2 | bit_BMI2) && has(leaf(0x80000001).ecx, bit_LZCNT);
}

static inline bool has_v4(void)
{
    return has_v3() && keeps(0xE6)
        && has(leaf(7).ebx,
            bit_AVX512F | bit_AVX512DQ | bit_AVX512CD | bit_AVX512BW | bit_AVX512VL);
}

#endif
