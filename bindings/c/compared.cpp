/*
 * Compares the comparisons of vortex_bits.hpp with those of C++, at the ends of each type's range.
 */
#include "tests.hpp"
#include "vortex_bits.hpp"

#include <cmath>

using vortex_bits::bits;
using vortex_bits::bits_mut;
using buffer = std::vector<std::uint8_t>;

/* A type that represents each number of 64 bits, whole or float, exactly. */
using number = long double;
static_assert(std::numeric_limits<number>::digits >= 64);

static const std::array<vb_comparison, 6> all_ops = {
    VB_EQUAL, VB_NOT_EQUAL, VB_LESS, VB_LESS_OR_EQUAL, VB_GREATER, VB_GREATER_OR_EQUAL};
enum fruit { apple, pear = 100'000 };
/* compared.c tests the same in C. */
static_assert(sizeof(vb_comparison) == sizeof(unsigned int));

static bool holds(number left, vb_comparison op, number right)
{
    switch (op) {
    case VB_EQUAL:
        return left == right;
    case VB_NOT_EQUAL:
        return left != right;
    case VB_LESS:
        return left < right;
    case VB_LESS_OR_EQUAL:
        return left <= right;
    case VB_GREATER:
        return left > right;
    case VB_GREATER_OR_EQUAL:
        return left >= right;
    }
    return false;
}

/* The ends of a type, the numbers around 0, and some that other types don't have. */
template <class Value> static std::vector<Value> numbers()
{
    using limits = std::numeric_limits<Value>;
    const Value most = limits::max(), least = limits::lowest();
    std::vector<Value> found = {least, most, Value(0), Value(1), Value(most / 2), Value(most / 3)};
    if constexpr (std::is_floating_point_v<Value>) {
        for (const Value it : {limits::min(), limits::infinity(), Value(0.1), Value(0.1f),
                 Value(2.5), Value(0x1p24), Value(0x1p31), Value(0x1p53), Value(0x1p63),
                 Value(0x1p64)}) {
            found.insert(found.end(), {it, -it, std::nextafter(it, most), std::nextafter(-it, most),
                std::nextafter(it, least)});
        }
        found.push_back(limits::quiet_NaN());
    } else {
        for (const unsigned bit : {7u, 8u, 15u, 16u, 24u, 31u, 32u, 53u, 54u, 62u, 63u}) {
            if (bit < unsigned(limits::digits)) {
                const Value power = static_cast<Value>(Value(1) << bit);
                found.insert(found.end(), {Value(power - 1), power, Value(power + 1)});
            }
        }
        found.insert(found.end(), {Value(least + 1), Value(most - 1), Value(0 - found.back())});
    }
    return found;
}

/*
 * Compares values of a type with numbers of another, and checks that bits outside the window are
 * unchanged.
 */
template <class Value, class Number> static void compare(const std::vector<Number> &with)
{
    const std::vector<Value> values = numbers<Value>();
    const std::size_t len = values.size();
    for (const Number right : with) {
        for (const vb_comparison op : all_ops) {
            buffer out(len / 8 + 2, 0xA5), wanted = out;
            vortex_bits::compare(values, op, right, bits_mut(out, 3, len));
            bits_mut window(wanted, 3, len);
            for (std::size_t k = 0; k < len; k++) {
                const number left = static_cast<number>(values[k]);
                window.set(k, holds(left, op, static_cast<number>(right)));
            }
            check(out == wanted, "values of a type compared with a number of another");
        }
    }
}

template <class Value, class... Number> static void compare_with_types()
{
    (compare<Value>(numbers<Number>()), ...);
    compare<Value, char>({'a', '\0'});
    compare<Value, bool>({false, true});
    compare<Value, fruit>({apple, pear});
}

/* Compares values of each type with whole numbers of each type. */
template <class... Value> static void compare_whole_with_types()
{
    (compare_with_types<Value, std::int8_t, std::uint8_t, std::int16_t, std::uint16_t, std::int32_t,
        std::uint32_t, std::int64_t, std::uint64_t, long long, unsigned long long>(), ...);
}

template <class... Value> static void compare_floats_with_types()
{
    compare_whole_with_types<Value...>();
    (compare_with_types<Value, float, double, long double>(), ...);
}

static void known()
{
    const std::vector<std::int32_t> days = {1, 2, 3, 6};
    buffer out = {0xF0};
    const bits_mut window(out, 0, 4);
    vortex_bits::compare(days, VB_LESS, 3'000'000'000, window);
    check(out[0] == 0xFF, "a number past the values' type");
    vortex_bits::compare(days, VB_GREATER_OR_EQUAL, std::uint64_t{1} << 32, window);
    check(out[0] == 0xF0, "one whose low bits are 0");
    vortex_bits::compare(std::vector<std::int8_t>{5, -1, 100, -128}, VB_LESS, 300, window);
    check(out[0] == 0xFF, "a number of 16 bits with values of 8");
    vortex_bits::compare(std::vector<unsigned>{5, 6, 7, 8}, VB_EQUAL, -1, window);
    check(out[0] == 0xF0, "-1 is no unsigned number");
    vortex_bits::compare(std::vector<double>{0x1p53, 0x1p53 + 2, 0.0, 1.0}, VB_EQUAL,
        (std::int64_t{1} << 53) + 1, window);
    check(out[0] == 0xF0, "a whole number that is no double");
    vortex_bits::compare(std::vector<float>{0.1f, 0.1f, 0.0f, 1.0f}, VB_GREATER, 0.1, window);
    check(out[0] == 0xFB, "a double that is no float");
}

static void comparisons()
{
    const std::vector<std::int16_t> ages = {19, 64, -7, 30}, limits = {20, 20, -7, 40};
    buffer out = {0xF0};
    vortex_bits::compare(ages, VB_GREATER, 18, bits_mut(out, 0, 4));
    check(out[0] == 0xFB, "values above a number");
    vortex_bits::compare_with(ages, VB_LESS_OR_EQUAL, limits, bits_mut(out, 1, 4));
    check(out[0] == 0xFB, "values up to others");
    const std::vector<double> prices = {1.5, std::numeric_limits<double>::quiet_NaN(), -0.0, 9.0};
    vortex_bits::compare(prices, VB_GREATER_OR_EQUAL, 0.0, bits_mut(out, 0, 4));
    check(out[0] == 0xFD, "doubles from zero on");
    vortex_bits::compare_with(prices, VB_NOT_EQUAL, prices, bits_mut(out, 0, 4));
    check(out[0] == 0xF2, "doubles that are no number");
    const std::array<float, 2> halves = {0.5f, 0.25f};
    vortex_bits::compare(halves, VB_LESS, 0.5f, bits_mut(out, 6, 2));
    check(out[0] == 0xB2, "a float below a number");
    refused([&] { vortex_bits::compare(ages, VB_LESS, 1, bits_mut(out, 0, 5)); }, "too many bits");
    for (const int op : {6, 255}) {
        const auto none = static_cast<vb_comparison>(op);
        refused([&] { vortex_bits::compare(ages, none, 1, bits_mut(out, 0, 4)); }, "no comparison");
        refused([&] { vortex_bits::compare(ages, none, 99'999, bits_mut(out, 0, 4)); }, "nor here");
        refused([&] { vortex_bits::compare_with(ages, none, ages, bits_mut(out, 0, 4)); }, "too");
    }
    refused([&] { vortex_bits::compare_with(ages, VB_LESS, std::vector<std::int16_t>(3),
        bits_mut(out, 0, 4)); }, "too few others");
    check(out[0] == 0xB2, "a refused call left all as it was");
}

int main()
{
    compare_whole_with_types<std::int8_t, std::uint8_t, std::int16_t, std::uint16_t, std::int32_t,
        std::uint32_t, std::int64_t, std::uint64_t, long long, char>();
    compare_floats_with_types<float, double>();
    known();
    comparisons();
    return failures == 0 ? 0 : 1;
}
