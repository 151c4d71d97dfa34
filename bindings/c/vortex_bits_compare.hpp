/*
 * Comparisons of values, a part of vortex_bits.hpp, which includes this file.
 *
 *     std::vector<std::int32_t> ages = {19, 64, 7, 30};
 *     std::vector<std::uint8_t> grown(1);
 *     vortex_bits::compare(ages, VB_GREATER, 18, vortex_bits::bits_mut(grown, 0, 4));    // 0x0B
 */
#ifndef VORTEX_BITS_COMPARE_HPP
#define VORTEX_BITS_COMPARE_HPP

#include "vortex_bits.hpp"

#if __cplusplus >= 201703L

namespace vortex_bits {

namespace detail {

/* The C functions for numbers of `Size` bytes: floats, or signed or unsigned whole numbers. */
template <std::size_t Size, bool Float, bool Signed> struct compared_by;
#define VB_COMPARED_BY(size, is_float, is_signed, name, number_type)                              \
    template <> struct compared_by<size, is_float, is_signed> {                                   \
        using type = number_type;                                                                 \
        static constexpr auto number = vb_compare_##name;                                         \
        static constexpr auto others = vb_compare_with_##name;                                    \
    };
/* Written by tools/write-lists from tools/families/compare.txt. */
VB_COMPARED_BY(1, false, false, u8, std::uint8_t)
VB_COMPARED_BY(2, false, false, u16, std::uint16_t)
VB_COMPARED_BY(4, false, false, u32, std::uint32_t)
VB_COMPARED_BY(8, false, false, u64, std::uint64_t)
VB_COMPARED_BY(1, false, true, i8, std::int8_t)
VB_COMPARED_BY(2, false, true, i16, std::int16_t)
VB_COMPARED_BY(4, false, true, i32, std::int32_t)
VB_COMPARED_BY(8, false, true, i64, std::int64_t)
VB_COMPARED_BY(4, true, true, f32, float)
VB_COMPARED_BY(8, true, true, f64, double)
/* To here. */
#undef VB_COMPARED_BY

template <class Value>
using compared_as =
    compared_by<sizeof(Value), std::is_floating_point_v<Value>, std::is_signed_v<Value>>;

/* Whether there are such functions. */
template <class Value> constexpr bool is_compared()
{
    return is_index<Value>() || std::is_same_v<Value, float> || std::is_same_v<Value, double>;
}

/* Returns whether it is a type of numbers that values are compared with. */
template <class Number> constexpr bool is_number()
{
    if constexpr (std::is_convertible_v<Number, double> && !std::is_class_v<Number>) {
        using promoted = decltype(+std::declval<Number>());
        return is_index<promoted>() || std::is_floating_point_v<promoted>;
    }
    return false;
}

/* Returns whether such values are compared with a `Number`: whole numbers with whole ones only. */
template <class Value, class Number> constexpr bool is_compared_with()
{
    if constexpr (is_number<Number>()) {
        return is_index<decltype(+std::declval<Number>())>() || std::is_floating_point_v<Value>;
    }
    return false;
}

/* The least value that isn't below a number, whether they are equal, and whether none exists. */
template <class Value> struct bound {
    Value value;
    bool is_number;
    bool is_none;
};

template <class Value, class Number> bound<Value> bound_of_whole(Number number)
{
    using limits = std::numeric_limits<Value>;
    if (number > 0) {
        const bool is_none =
            static_cast<std::uint64_t>(number) > static_cast<std::uint64_t>(limits::max());
        return {static_cast<Value>(number), !is_none, is_none};
    }
    const bool is_less =
        static_cast<std::int64_t>(number) < static_cast<std::int64_t>(limits::min());
    return {is_less ? limits::min() : static_cast<Value>(number), !is_less, false};
}

/*
 * Returns 1 if the rounded number is above the number, -1 if it is below, and 0 if both are equal
 * or NaN.
 */
template <class Value, class Number> int side(Value rounded, Number number)
{
    if constexpr (std::is_floating_point_v<Number>) {
        using wide = std::common_type_t<Value, Number>;
        const wide left = static_cast<wide>(rounded), right = static_cast<wide>(number);
        return (left > right) - (left < right);
    } else {
        // `rounded` is a whole number. Rounding up may have moved it above the range of `Number`.
        constexpr Value half = static_cast<Value>(std::numeric_limits<Number>::max() / 2 + 1);
        if (rounded >= 2 * half) {
            return 1;
        }
        const Number whole = static_cast<Number>(rounded);
        return (whole > number) - (whole < number);
    }
}

template <class Value, class Number> bound<Value> bound_of_float(Number number)
{
    const Value rounded = static_cast<Value>(number);
    const int is_at = side(rounded, number);
    const Value next = std::nextafter(rounded, std::numeric_limits<Value>::infinity());
    return {is_at < 0 ? next : rounded, is_at == 0, false};
}

template <class Value, class Number> bound<Value> bound_of(Number number)
{
    if constexpr (std::is_floating_point_v<Value>) {
        return bound_of_float<Value>(number);
    } else {
        return bound_of_whole<Value>(number);
    }
}

} // namespace detail

/*
 * Writes to bit k of `out`, one bit per value, whether value k compares with `number` by `op`:
 * VB_EQUAL, VB_LESS, .. of vortex_bits_compare.h. Throws std::out_of_range if the lengths differ,
 * or `op` is none of these. Values are whole numbers of 8 to 64 bits, floats or doubles. `number`
 * is of any standard type of numbers, and a whole number if the values are. The comparison is
 * exact, even if their type can't represent it: all values of 8 bits are below 300, and no float
 * equals 0.1.
 * With a NaN only VB_NOT_EQUAL is true, so `compare_with(values, VB_EQUAL, values, out)` finds the
 * values that aren't NaN.
 */
template <class Values, class Number>
void compare(const Values &values, vb_comparison op, Number number, bits_mut out)
{
    using value = std::remove_cv_t<detail::lent_t<const Values>>;
    static_assert(detail::is_compared<value>(),
        "compare compares whole numbers of 8, 16, 32 or 64 bits, float and double, in a type "
        "with data() and size(): for a pointer write vortex_bits::view(pointer, count)");
    static_assert(!detail::is_compared<value>() || detail::is_number<Number>(),
        "compare compares values with a number of a standard type of C++");
    static_assert(!detail::is_compared<value>() || !detail::is_number<Number>()
            || detail::is_compared_with<value, Number>(),
        "compare compares whole numbers with a whole number: round this one as you mean it");
    if constexpr (detail::is_compared<value>() && detail::is_compared_with<value, Number>()) {
        detail::expect(op <= VB_GREATER_OR_EQUAL, "not a comparison");
        detail::expect(detail::size(values) == out.len_, "not a bit for each value");
        using by = detail::compared_as<value>;
        using as = typename by::type;
        const auto bound = detail::bound_of<as>(+number);
        const bool is_less = op == VB_LESS || op == VB_LESS_OR_EQUAL;
        if (!bound.is_number && (bound.is_none || op == VB_EQUAL || op == VB_NOT_EQUAL)) {
            return out.fill(op == VB_NOT_EQUAL || is_less);
        }
        const std::uint8_t beside = is_less ? VB_LESS : VB_GREATER_OR_EQUAL;
        by::number(out.writable(), out.size_, out.offset_,
            reinterpret_cast<const as *>(values.data()), detail::size(values),
            bound.is_number ? static_cast<std::uint8_t>(op) : beside, bound.value);
    }
}

/* Does the same with the item of `others` at the same index; both have one length and type. */
template <class Values, class Others>
void compare_with(const Values &values, vb_comparison op, const Others &others, bits_mut out)
{
    using value = std::remove_cv_t<detail::lent_t<const Values>>;
    using other = std::remove_cv_t<detail::lent_t<const Others>>;
    static_assert(detail::is_compared<value>(),
        "compare_with compares whole numbers of 8, 16, 32 or 64 bits, float and double, in a "
        "type with data() and size(): for a pointer write vortex_bits::view(pointer, count)");
    static_assert(!detail::is_compared<value>() || std::is_same_v<other, value>,
        "compare_with compares values of one type");
    if constexpr (detail::is_compared<value>() && std::is_same_v<other, value>) {
        detail::expect(op <= VB_GREATER_OR_EQUAL, "not a comparison");
        detail::expect(detail::size(values) == out.len_ && detail::size(others) == out.len_,
            "values, others and bits differ in number");
        using by = detail::compared_as<value>;
        using as = typename by::type;
        by::others(out.writable(), out.size_, out.offset_,
            reinterpret_cast<const as *>(values.data()), detail::size(values),
            static_cast<std::uint8_t>(op), reinterpret_cast<const as *>(others.data()),
            detail::size(others));
    }
}

} // namespace vortex_bits

#endif

#endif
