/*
 * The code that the C++ tests of this folder share: that of tests.h, and a test that a call throws.
 */
#ifndef VORTEX_BITS_TESTS_HPP
#define VORTEX_BITS_TESTS_HPP

#include "tests.h"

#include <stdexcept>

template <class Call> static void refused(Call call, const char *what)
{
    try {
        call();
        check(false, what);
    } catch (const std::out_of_range &) {
    }
}

#endif
