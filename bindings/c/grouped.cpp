/*
 * Tests counts and sums by group of vortex_bits.hpp: their results, rows without a group, and their
 * errors; and the sum, the minimum and the maximum of floats.
 */
#include "tests.hpp"
#include "vortex_bits.hpp"

#include <cmath>
#include <limits>

using vortex_bits::bits;
using buffer = std::vector<std::uint8_t>;

static void floats()
{
    using namespace vortex_bits;
    const buffer mask = {0x3E};
    const double nan = std::numeric_limits<double>::quiet_NaN();
    const std::vector<double> weights = {1e16, 7.0, -1e16, nan, 1.0, -5.0};
    const std::vector<double> turning = {1e16, 1.0, -1e16};
    check(masked_sum(turning, bits(mask, 3, 3)) == 0.0, "a sum of floats, in order");
    check(std::isnan(masked_sum(weights, bits(mask, 0, 6))), "a sum of a NaN");
    check(masked_min(weights, bits(mask, 0, 6)) == -1e16, "the least number");
    check(masked_max(weights, bits(mask, 0, 6)) == 7.0, "the greatest number");
    const std::array<float, 2> zeros = {0.0f, -0.0f};
    check(std::signbit(*masked_min(zeros, bits(mask, 1, 2))), "-0.0 is less than 0.0");
    check(!std::signbit(*masked_max(zeros, bits(mask, 1, 2))), "0.0 is greater than -0.0");
    check(!masked_max(std::vector<double>(3, nan), bits(mask, 1, 3)), "the greatest of no numbers");
    refused([&] { (void)masked_sum(weights, bits(mask, 0, 5)); }, "too few bits of a mask");
}

int main()
{
    floats();
    using namespace vortex_bits;
    const std::vector<std::int8_t> codes = {2, 1, -1, 2, 0};
    const buffer mask = {0xD8};
    const bits known(mask, 3, 5);
    std::vector<std::uint64_t> counts = {0, 10, 0};
    check(!group_counts(counts, codes, known), "no row without a group");
    check(counts == std::vector<std::uint64_t>({1, 11, 2}), "counts by group");
    check(group_counts(counts, codes) == 2u, "the first row without a group");
    const std::vector<std::uint8_t> tens(1, 200);
    std::vector<std::uint64_t> many(201);
    check(!group_counts(many, tens) && many[200] == 1, "a code above those of its signed type");
    many.assign(201, 0);
    check(group_counts(many, std::vector<std::int8_t>{-56}) == 0u, "a negative code");
    const std::vector<short> amounts = {5, -3, 7, 20, 1};
    std::array<std::int64_t, 3> sums = {0, 1000, 0};
    check(!group_sums(sums, codes, amounts, known), "no row without a sum");
    check(sums == std::array<std::int64_t, 3>{{1, 997, 25}}, "sums by group");
    check(group_sums(sums, codes, amounts) == 2u && sums[0] == 1, "the first row without a sum");
    refused([&] { (void)group_counts(counts, codes, bits(mask, 3, 4)); }, "too few bits of a mask");
    refused([&] { (void)group_sums(sums, codes, std::vector<short>(4)); }, "too few values");
    return failures == 0 ? 0 : 1;
}
