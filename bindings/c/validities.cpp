/*
 * Compares validities that may be missing, in the classes of vortex_bits.hpp, with a loop over
 * single rows, and tests their errors.
 */
#include "tests.hpp"
#include "vortex_bits.hpp"

#include <random>

using vortex_bits::bits;
using vortex_bits::bits_mut;
using buffer = std::vector<std::uint8_t>;
using validity = std::optional<bits>;

/* Compares what `call` writes to the `len` bits from bit 5 on with `wanted` of each. */
template <class Call, class Wanted>
static void writes(const buffer &before, std::size_t len, Call call, Wanted wanted,
    const char *what)
{
    buffer got = before, other = before;
    call(bits_mut(got, 5, len));
    for (std::size_t i = 0; i < len; i++) {
        bits_mut(other, 5, len).set(i, wanted(i));
    }
    check(got == other, what);
}

static void compare(const buffer &before, const validity &left, const validity &right, bits mask)
{
    const std::size_t len = mask.size();
    const auto is_valid = [](const validity &rows, std::size_t i) { return !rows || (*rows)[i]; };
    const auto is_both = [&](std::size_t i) { return is_valid(left, i) && is_valid(right, i); };
    std::vector<bool> kept;
    std::size_t both = 0;
    for (std::size_t i = 0; i < len; i++) {
        both += is_both(i);
        if (mask[i]) {
            kept.push_back(is_valid(left, i));
        }
    }
    check(vortex_bits::count_valid(left, right, len) == both, "count_valid");
    writes(before, len, [&](bits_mut out) { out.and_validities_of(left, right); }, is_both,
        "and_validities_of");
    writes(before, len, [&](bits_mut out) { out.and_validity(left); },
        [&](std::size_t i) { return is_valid(left, i) && bits(before, 5, len)[i]; },
        "and_validity");
    writes(before, kept.size(),
        [&](bits_mut out) {
            check(out.filter_validity_of(left, mask) == kept.size(), "how many rows are kept");
        },
        [&](std::size_t i) { return kept[i]; }, "filter_validity_of");
}

static void refusals()
{
    buffer all(3);
    const bits window(all, 0, 8);
    const validity rows(window), less(bits(all, 0, 7));
    buffer some(1);
    bits_mut out(some, 0, 8);
    refused([&] { out.and_validity(less); }, "two lengths");
    refused([&] { out.and_validities_of(std::nullopt, less); }, "two lengths");
    refused([&] { out.and_validities_of(less, std::nullopt); }, "two lengths");
    refused([&] { (void)vortex_bits::count_valid(rows, less, 8); }, "two lengths");
    refused([&] { (void)vortex_bits::count_valid(std::nullopt, less, 8); }, "two lengths");
    refused([&] { (void)out.filter_validity_of(less, window); }, "two lengths");
    refused([&] { (void)vortex_bits::validity(all.data(), 3, 17, 8); }, "a window past its bytes");
    out.fill(true);
    refused([&] { (void)bits_mut(all, 0, 3).filter_validity_of(std::nullopt, bits(out)); },
        "no room");
    check(all == buffer(3), "a refused call left all as it was");
    check(!vortex_bits::validity(nullptr, 3, 17, 8) && !vortex_bits::validity(nullptr, 0, 0, 8),
        "a missing validity");
    check(vortex_bits::validity(all.data(), 3, 16, 8)->size() == 8, "a validity");
}

int main()
{
    std::mt19937 random(1);
    for (int round = 0; round < 3000; round++) {
        buffer all(64), before(64);
        const auto any = [&] { return static_cast<std::uint8_t>(round % 5 == 0 ? 255 : random()); };
        std::generate(all.begin(), all.end(), any);
        std::generate(before.begin(), before.end(), any);
        const std::size_t len = random() % 300;
        const auto window = [&] { return bits(all, random() % (512 - len), len); };
        const auto either = [&] { return random() % 2 == 0 ? validity(window()) : std::nullopt; };
        compare(before, either(), either(), window());
    }
    refusals();
    return failures == 0 ? 0 : 1;
}
