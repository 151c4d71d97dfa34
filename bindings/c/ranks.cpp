/*
 * Tests vortex_bits::ranks after moves, swaps and assignments, including those that run out of
 * memory: its window and its table always belong together.
 */
#include "tests.h"
#include "vortex_bits.hpp"

#include <cstdlib>
#include <new>

using vortex_bits::bits;
using vortex_bits::ranks;

static_assert(std::is_nothrow_move_constructible_v<ranks>);
static_assert(std::is_nothrow_move_assignable_v<ranks>);
static_assert(std::is_nothrow_swappable_v<ranks>);
static_assert(!std::is_reference_v<decltype(std::declval<ranks>().table())>);
static_assert(!std::is_reference_v<decltype(std::declval<const ranks>().table())>);

/* Whether allocations succeed. */
static bool has_memory = true;

void *operator new(std::size_t size)
{
    void *const made = has_memory ? std::malloc(size) : nullptr;
    return made != nullptr ? made : throw std::bad_alloc();
}

void operator delete(void *made) noexcept
{
    std::free(made);
}

void operator delete(void *made, std::size_t) noexcept
{
    std::free(made);
}

template <class Error, class Call> static bool throws(Call call)
{
    try {
        call();
    } catch (const Error &) {
        return true;
    }
    return false;
}

/* Returns whether its results are those of the window, up to its end and past it. */
static bool is_of(const ranks &it, bits window)
{
    const std::size_t len = window.size();
    if (it.size() != len) {
        return false;
    }
    for (std::size_t place = 0; place <= len; place += 1 + len / 37) {
        if (it.rank(place) != window.slice(0, place).count_ones()) {
            return false;
        }
    }
    return it.count() == window.count_ones()
        && it.select(len / 9) == window.select(len / 9)
        && it.select_unset(len / 9) == window.select_unset(len / 9)
        && it.table().size() == (len + 511) / 512
        && throws<std::out_of_range>([&] { (void)it.rank(len + 1); })
        && throws<std::out_of_range>([&] { (void)it.rank(SIZE_MAX); });
}

static void moves(bits window, bits other)
{
    ranks one(window);
    const ranks made(std::move(one));
    check(is_of(made, window), "what is moved to");
    check(is_of(one, bits()) && !one.select(0) && !one.select_unset(0), "what is moved from");
    one = ranks(other);
    check(is_of(one, other), "an assignment to what is moved from");
    ranks two(window);
    two = std::move(one);
    check(is_of(two, other) && is_of(one, bits()), "an assignment of what is moved");
    const ranks &same = one;
    one = same;
    check(is_of(one, bits()), "what is moved from, assigned to itself");
    one = made;
    check(is_of(one, window) && is_of(made, window), "an assignment of a copy");
    one = same;
    check(is_of(one, window), "a copy of itself");
    one = std::move(const_cast<ranks &>(same));
    check(is_of(one, window), "what is moved to itself");
    std::swap(one, two);
    check(is_of(one, other) && is_of(two, window), "a swap");
    std::swap(one, const_cast<ranks &>(same));
    check(is_of(one, other), "a swap with itself");
    const std::vector<std::size_t> table = std::move(two).table();
    check(is_of(ranks(window, table), window) && is_of(two, bits()), "a table that is taken");
    const std::vector<ranks> many = {ranks(window), ranks(other), ranks(bits())};
    check(is_of(many[0], window) && is_of(many[1], other) && is_of(many[2], bits()), "a vector");
}

/* Tests copies when memory runs out: `window` has bits, so that its table needs memory. */
static void wants(bits window, bits other)
{
    const ranks from(window);
    ranks to(other);
    has_memory = false;
    const bool thrown = throws<std::bad_alloc>([&] { to = from; });
    const bool made = throws<std::bad_alloc>([&] { ranks copy(from); });
    const bool counted = throws<std::bad_alloc>([&] { ranks again(window); });
    const bool moved = !throws<std::bad_alloc>([&] { to = ranks(std::move(to)); });
    has_memory = true;
    check(thrown && made && counted, "a copy without memory");
    check(moved, "a move allocates");
    check(is_of(to, other) && is_of(from, window), "an assignment without memory");
    to = from;
    check(is_of(to, window) && is_of(from, window), "the same with memory");
}

int main()
{
    std::vector<std::uint8_t> bytes(9000);
    for (std::size_t i = 0; i < bytes.size(); i++) {
        bytes[i] = static_cast<std::uint8_t>(i * i >> 3);
    }
    const std::size_t lens[] = {1, 511, 512, 513, 4096, 4097, 70000};
    for (const std::size_t len : lens) {
        for (const std::size_t other : lens) {
            moves(bits(bytes, 3, len), bits(bytes, 5, other));
            wants(bits(bytes, 3, len), bits(bytes, 5, other));
        }
        moves(bits(bytes, 3, len), bits());
        moves(bits(), bits(bytes, 3, len));
        wants(bits(bytes, 3, len), bits());
    }
    return failures == 0 ? 0 : 1;
}
