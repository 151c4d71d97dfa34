/*
 * Sum, minimum and maximum of the values that a mask selects, and counts and sums by group, a part
 * of vortex_bits.hpp, which includes this file.
 *
 *     std::vector<std::int32_t> prices = {20, -5, 30, 7};
 *     std::vector<std::uint8_t> mask = {0x0D};
 *     vortex_bits::masked_checked_sum(prices, {mask, 0, 4});    // 57
 *     vortex_bits::masked_min(prices, {mask, 0, 4});            // 7
 */
#ifndef VORTEX_BITS_AGGREGATE_HPP
#define VORTEX_BITS_AGGREGATE_HPP

#include "vortex_bits.hpp"

#if __cplusplus >= 201703L

namespace vortex_bits {

namespace detail {

/* The C functions for whole numbers of `Size` bytes, signed or unsigned. */
template <std::size_t Size, bool Signed> struct aggregated_by;
#define VB_AGGREGATED_BY(size, is_signed, name, number_type)                                      \
    template <> struct aggregated_by<size, is_signed> {                                           \
        using type = number_type;                                                                 \
        static constexpr auto sum = vb_masked_sum_##name;                                         \
        static constexpr auto checked_sum = vb_masked_checked_sum_##name;                         \
        static constexpr auto wrapping_sum = vb_masked_wrapping_sum_##name;                       \
        static constexpr auto min = vb_masked_min_##name;                                         \
        static constexpr auto max = vb_masked_max_##name;                                         \
    };
/* Written by tools/write-lists from tools/families/masked_sums.txt. */
VB_AGGREGATED_BY(1, false, u8, std::uint8_t)
VB_AGGREGATED_BY(2, false, u16, std::uint16_t)
VB_AGGREGATED_BY(4, false, u32, std::uint32_t)
VB_AGGREGATED_BY(8, false, u64, std::uint64_t)
VB_AGGREGATED_BY(1, true, i8, std::int8_t)
VB_AGGREGATED_BY(2, true, i16, std::int16_t)
VB_AGGREGATED_BY(4, true, i32, std::int32_t)
VB_AGGREGATED_BY(8, true, i64, std::int64_t)
/* To here. */
#undef VB_AGGREGATED_BY

/* The C functions for floats. */
template <class Float> struct floats_by;
#define VB_FLOATS_BY(name, float_type)                                                            \
    template <> struct floats_by<float_type> {                                                    \
        using type = float_type;                                                                  \
        static constexpr auto sum = vb_masked_sum_##name;                                         \
        static constexpr auto min = vb_masked_min_##name;                                         \
        static constexpr auto max = vb_masked_max_##name;                                         \
    };
/* Written by tools/write-lists from tools/families/masked_floats.txt. */
VB_FLOATS_BY(f32, float)
VB_FLOATS_BY(f64, double)
/* To here. */
#undef VB_FLOATS_BY

/* The C function that counts rows by codes of `Code` bytes. */
template <std::size_t Code> struct counted_by;
#define VB_COUNTED_BY(code, name)                                                                 \
    template <> struct counted_by<code> {                                                         \
        static constexpr auto count = vb_group_counts_##name;                                     \
    };
/* Written by tools/write-lists from tools/families/groups.txt. */
VB_COUNTED_BY(1, u8)
VB_COUNTED_BY(2, u16)
VB_COUNTED_BY(4, u32)
/* To here. */
#undef VB_COUNTED_BY

/* The C function that sums values of `Size` bytes by such codes. */
template <std::size_t Code, std::size_t Size, bool Signed> struct summed_by;
#define VB_SUMMED_BY(code, size, is_signed, name)                                                 \
    template <> struct summed_by<code, size, is_signed> {                                         \
        static constexpr auto sum = vb_group_sums_##name;                                         \
    };
/* Written by tools/write-lists from tools/families/groups.txt. */
VB_SUMMED_BY(1, 1, false, u8_u8)
VB_SUMMED_BY(1, 2, false, u16_u8)
VB_SUMMED_BY(1, 4, false, u32_u8)
VB_SUMMED_BY(1, 8, false, u64_u8)
VB_SUMMED_BY(1, 1, true, i8_u8)
VB_SUMMED_BY(1, 2, true, i16_u8)
VB_SUMMED_BY(1, 4, true, i32_u8)
VB_SUMMED_BY(1, 8, true, i64_u8)
VB_SUMMED_BY(2, 1, false, u8_u16)
VB_SUMMED_BY(2, 2, false, u16_u16)
VB_SUMMED_BY(2, 4, false, u32_u16)
VB_SUMMED_BY(2, 8, false, u64_u16)
VB_SUMMED_BY(2, 1, true, i8_u16)
VB_SUMMED_BY(2, 2, true, i16_u16)
VB_SUMMED_BY(2, 4, true, i32_u16)
VB_SUMMED_BY(2, 8, true, i64_u16)
VB_SUMMED_BY(4, 1, false, u8_u32)
VB_SUMMED_BY(4, 2, false, u16_u32)
VB_SUMMED_BY(4, 4, false, u32_u32)
VB_SUMMED_BY(4, 8, false, u64_u32)
VB_SUMMED_BY(4, 1, true, i8_u32)
VB_SUMMED_BY(4, 2, true, i16_u32)
VB_SUMMED_BY(4, 4, true, i32_u32)
VB_SUMMED_BY(4, 8, true, i64_u32)
/* To here. */
#undef VB_SUMMED_BY

/* Calls `call` with the C functions for the type of the values, and with their arguments. */
struct aggregate {
    template <class Values, class Call>
    static auto of_whole(const Values &values, const bits &mask, Call call)
    {
        using value = item_t<Values>;
        static_assert(is_index<value>(),
            "exact sums are of whole numbers of 8, 16, 32 or 64 bits");
        if constexpr (is_index<value>()) {
            using by = aggregated_by<sizeof(value), std::is_signed_v<value>>;
            return call_by<by>(values, mask, call);
        } else if constexpr (std::is_arithmetic_v<value>) {
            // Returns the right type, so that the uses of the result cause no second error.
            return of_whole(std::array<std::int64_t, 0>{}, mask, call);
        }
    }

    /* The same, also for floats. */
    template <class Values, class Call>
    static auto of(const Values &values, const bits &mask, Call call)
    {
        using value = item_t<Values>;
        static_assert(is_index<value>() || is_float<value>(),
            "sums, min and max are of whole numbers of 8, 16, 32 or 64 bits, float and double");
        if constexpr (is_float<value>()) {
            return call_by<floats_by<value>>(values, mask, call);
        } else if constexpr (is_index<value>()) {
            return of_whole(values, mask, call);
        } else if constexpr (std::is_arithmetic_v<value>) {
            return of_whole(std::array<std::int64_t, 0>{}, mask, call);
        }
    }

    template <class By, class Values, class Call>
    static auto call_by(const Values &values, const bits &mask, Call call)
    {
        expect(detail::size(values) == mask.len_, "mask and values differ in length");
        return call(By(), reinterpret_cast<const typename By::type *>(values.data()),
            detail::size(values), mask.bytes_, mask.size_, mask.offset_);
    }

    /*
     * Calls `call` with the totals, the codes and the mask; without a mask each row is selected.
     * The C function reads a negative code as a large one. So it gets no more totals than the
     * non-negative codes can index, and a negative code is out of range.
     */
    template <class Totals, class Codes, class Call>
    static std::optional<std::size_t> by_group(Totals &totals, const Codes &codes,
        std::optional<bits> mask, Call call)
    {
        using code = item_t<Codes>;
        using as = typename laid<sizeof(code)>::type;
        expect(!mask || mask->len_ == detail::size(codes), "mask and codes differ in length");
        const bits selected = mask.value_or(bits());
        return detail::position(call(totals.data(), reached<code>(detail::size(totals)),
            reinterpret_cast<const as *>(codes.data()), detail::size(codes), !mask, selected.bytes_,
            selected.size_, selected.offset_));
    }
};

/* Returns the value as a `Value`, which has the same size and sign. */
template <class Value, class Optional> std::optional<Value> optional(Optional it)
{
    return it.has_value ? std::optional<Value>(static_cast<Value>(it.value)) : std::nullopt;
}

} // namespace detail

/*
 * Returns the exact sum of the values whose bit in the mask is set: a vb_i128 for signed values, a
 * vb_u128 for unsigned ones. Values are whole numbers of 8 to 64 bits; the mask has a bit for each.
 * For floats and doubles it returns the sum in their type: it starts from 0.0 and adds one value
 * after the other, in order.
 */
template <class Values> [[nodiscard]] auto masked_sum(const Values &values, bits mask)
{
    return detail::aggregate::of(values, mask, [](auto by, auto... all) { return by.sum(all...); });
}

/*
 * Returns the sum of whole numbers as a value of their type; nullopt if it is out of the range of
 * the type.
 */
template <class Values> [[nodiscard]] auto masked_checked_sum(const Values &values, bits mask)
{
    return detail::aggregate::of_whole(values, mask, [](auto by, auto... all) {
        return detail::optional<detail::item_t<Values>>(by.checked_sum(all...));
    });
}

/* Returns that sum, wrapped around at the end of their type. */
template <class Values> [[nodiscard]] auto masked_wrapping_sum(const Values &values, bits mask)
{
    return detail::aggregate::of_whole(values, mask, [](auto by, auto... all) {
        return static_cast<detail::item_t<Values>>(by.wrapping_sum(all...));
    });
}

/*
 * Returns the minimum of the values whose bit in the mask is set; nullopt if there are none. For
 * floats it skips NaN and returns nullopt if there are no other values; -0.0 is less than 0.0.
 */
template <class Values> [[nodiscard]] auto masked_min(const Values &values, bits mask)
{
    return detail::aggregate::of(values, mask, [](auto by, auto... all) {
        return detail::optional<detail::item_t<Values>>(by.min(all...));
    });
}

/* Returns the maximum of those values; nullopt if there are none. */
template <class Values> [[nodiscard]] auto masked_max(const Values &values, bits mask)
{
    return detail::aggregate::of(values, mask, [](auto by, auto... all) {
        return detail::optional<detail::item_t<Values>>(by.max(all...));
    });
}

/*
 * Adds to each count, a std::uint64_t, the number of selected rows whose code is its index: `codes`
 * are whole numbers of 8 to 32 bits. Without a mask each row is selected. Returns the first
 * selected row whose code is out of range, if there is one; the counts are then unchanged.
 */
template <class Counts, class Codes>
[[nodiscard]] std::optional<std::size_t> group_counts(Counts &&counts, const Codes &codes,
    std::optional<bits> mask = std::nullopt)
{
    using code = detail::item_t<Codes>;
    static_assert(detail::is_code<code>(), "codes are whole numbers of 8, 16 or 32 bits");
    static_assert(std::is_same_v<detail::lent_t<std::remove_reference_t<Counts>>, std::uint64_t>,
        "counts are of std::uint64_t");
    if constexpr (detail::is_code<code>()) {
        return detail::aggregate::by_group(counts, codes, mask,
            [](auto... all) { return detail::counted_by<sizeof(code)>::count(all...); });
    }
    return std::nullopt;
}

namespace detail {

/* The sums of floats, in vortex_bits_groups.hpp. */
template <class Codes, class Values>
std::optional<std::size_t> float_group_sums(view<double> sums, const Codes &codes,
    const Values &values, std::optional<bits> mask);

/* The type of the sums by group of such values. */
template <class Value>
using group_sum = std::conditional_t<is_float<Value>(), double,
    std::conditional_t<std::is_signed_v<Value>, std::int64_t, std::uint64_t>>;

} // namespace detail

/*
 * Adds each selected value to the sum at the index that is the code of its row. Values are whole
 * numbers of 8 to 64 bits or floats, one for each code. A sum is a std::int64_t for signed values
 * and a std::uint64_t for unsigned ones, both of which wrap around. It is a double for floats,
 * which are added in the order of the rows, each sum rounded as IEEE 754 says, unless you compile
 * with -ffast-math; this code is tested, not proved. The rest is as in group_counts.
 */
template <class Sums, class Codes, class Values>
[[nodiscard]] std::optional<std::size_t> group_sums(Sums &&sums, const Codes &codes,
    const Values &values, std::optional<bits> mask = std::nullopt)
{
    using code = detail::item_t<Codes>;
    using value = detail::item_t<Values>;
    static_assert(detail::is_code<code>(), "codes are whole numbers of 8, 16 or 32 bits");
    constexpr bool is_value = detail::is_index<value>() || detail::is_float<value>();
    static_assert(is_value, "values are whole numbers of 8, 16, 32 or 64 bits, float or double");
    constexpr bool is_sum = std::is_same_v<detail::lent_of<Sums>, detail::group_sum<value>>;
    static_assert(!is_value || is_sum,
        "sums are of std::int64_t for signed values, std::uint64_t for unsigned ones, and double "
        "for floats");
    detail::expect(detail::size(values) == detail::size(codes), "not a value for each code");
    if constexpr (detail::is_code<code>() && detail::is_float<value>() && is_sum) {
        return detail::float_group_sums(view(sums.data(), detail::size(sums)), codes, values, mask);
    } else if constexpr (detail::is_code<code>() && detail::is_index<value>()) {
        using by = detail::summed_by<sizeof(code), sizeof(value), std::is_signed_v<value>>;
        using as = typename detail::aggregated_by<sizeof(value), std::is_signed_v<value>>::type;
        const auto *terms = reinterpret_cast<const as *>(values.data());
        return detail::aggregate::by_group(sums, codes, mask,
            [&](auto *out, std::size_t out_count, auto *of, std::size_t count, auto... rest) {
                return by::sum(out, out_count, of, count, terms, detail::size(values), rest...);
            });
    }
    return std::nullopt;
}

} // namespace vortex_bits

#endif

#endif
