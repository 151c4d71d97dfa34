/*
 * Values at indices and under masks, a part of vortex_bits.hpp, which includes this file.
 *
 *     std::vector<std::int64_t> column = {10, 20, 30, 40}, taken(2);
 *     auto past = vortex_bits::take_values(column, std::vector<std::uint8_t>{3, 0}, taken);
 *     // taken is 40, 10, and past has no value, since both indices are in range
 */
#ifndef VORTEX_BITS_VALUES_HPP
#define VORTEX_BITS_VALUES_HPP

#include "vortex_bits.hpp"

#if __cplusplus >= 201703L

namespace vortex_bits {

namespace detail {

/* The C function for values of `Value` bytes at indices of `Index` bytes. */
template <std::size_t Value, std::size_t Index> struct taken_by;
#define VB_TAKEN_BY(value, index, name)                                                           \
    template <> struct taken_by<value, index> {                                                   \
        static constexpr auto take = vb_take_values_##name;                                       \
    };
/* Written by tools/write-lists from tools/families/take_values.txt. */
VB_TAKEN_BY(1, 1, u8_u8)
VB_TAKEN_BY(2, 1, u16_u8)
VB_TAKEN_BY(4, 1, u32_u8)
VB_TAKEN_BY(8, 1, u64_u8)
VB_TAKEN_BY(16, 1, u128_u8)
VB_TAKEN_BY(1, 2, u8_u16)
VB_TAKEN_BY(2, 2, u16_u16)
VB_TAKEN_BY(4, 2, u32_u16)
VB_TAKEN_BY(8, 2, u64_u16)
VB_TAKEN_BY(16, 2, u128_u16)
VB_TAKEN_BY(1, 4, u8_u32)
VB_TAKEN_BY(2, 4, u16_u32)
VB_TAKEN_BY(4, 4, u32_u32)
VB_TAKEN_BY(8, 4, u64_u32)
VB_TAKEN_BY(16, 4, u128_u32)
VB_TAKEN_BY(1, 8, u8_u64)
VB_TAKEN_BY(2, 8, u16_u64)
VB_TAKEN_BY(4, 8, u32_u64)
VB_TAKEN_BY(8, 8, u64_u64)
VB_TAKEN_BY(16, 8, u128_u64)
/* To here. */
#undef VB_TAKEN_BY

} // namespace detail

template <class Values, class Out>
std::size_t bits::keep_into(const Values &values, Out &&out) const
{
    using value = std::remove_cv_t<detail::lent_t<const Values>>;
    static_assert(detail::is_value<value>(),
        "keep_into takes values of 1, 2, 4, 8 or 16 bytes that are copied and aligned as whole "
        "numbers are: these, floats, bool, vb_u128. std::vector<bool> has none of them");
    static_assert(std::is_same_v<detail::lent_of<Out>, value>,
        "keep_into writes values of the type that it reads");
    std::size_t kept = 0;
    if constexpr (detail::is_value<value>() && std::is_same_v<detail::lent_of<Out>, value>) {
        detail::expect(detail::size(values) == len_, "not a bit for each value");
        using laid = detail::laid<sizeof(value)>;
        detail::expect(laid::try_keep(reinterpret_cast<typename laid::type *>(out.data()),
                detail::size(out), reinterpret_cast<const typename laid::type *>(values.data()),
                len_, bytes_, size_, offset_, &kept),
            "no space for the selected values");
    }
    return kept;
}

template <class Values> std::size_t bits::retain_in(Values &&values) const
{
    using value = detail::lent_t<std::remove_reference_t<Values>>;
    static_assert(detail::is_value<value>() && !std::is_const_v<value>,
        "retain_in takes writable values of 1, 2, 4, 8 or 16 bytes that are copied and aligned as "
        "whole numbers are: these, floats, bool, vb_u128. std::vector<bool> has none of them");
    detail::expect(detail::size(values) == len_, "not a bit for each value");
    if constexpr (detail::is_value<value>() && !std::is_const_v<value>) {
        using laid = detail::laid<sizeof(value)>;
        return laid::retain(reinterpret_cast<typename laid::type *>(values.data()), len_, bytes_,
            size_, offset_);
    }
    return 0;
}

template <class Values, class Out>
std::size_t bits::scatter_into(const Values &values, Out &&out) const
{
    using value = std::remove_cv_t<detail::lent_t<const Values>>;
    static_assert(detail::is_value<value>(),
        "scatter_into takes values of 1, 2, 4, 8 or 16 bytes that are copied and aligned as whole "
        "numbers are: these, floats, bool, vb_u128. std::vector<bool> has none of them");
    static_assert(std::is_same_v<detail::lent_of<Out>, value>,
        "scatter_into writes values of the type that it reads");
    if constexpr (detail::is_value<value>() && std::is_same_v<detail::lent_of<Out>, value>) {
        detail::expect(detail::size(out) == len_, "not a bit for each item");
        detail::expect(count_ones() <= detail::size(values), "not a value for each set bit");
        using laid = detail::laid<sizeof(value)>;
        return laid::scatter(reinterpret_cast<typename laid::type *>(out.data()), len_,
            reinterpret_cast<const typename laid::type *>(values.data()), detail::size(values),
            bytes_, size_, offset_);
    }
    return 0;
}

/*
 * Takes (gathers): writes the values at the indices, whole numbers of 8 to 64 bits, to the front of
 * `out`, one each. Writes 0 where `valid` is false, whatever the index. Returns the first position
 * that counts and whose index is out of range, if there is one; the items for all indices are then
 * unspecified. Later ones are unchanged. Values are of the types that keep_into takes.
 */
template <class Values, class Indices, class Out>
[[nodiscard]] std::optional<std::size_t> take_values(const Values &values, const Indices &indices,
    std::optional<bits> valid, Out &&out)
{
    using value = std::remove_cv_t<detail::lent_t<const Values>>;
    using index = std::remove_cv_t<detail::lent_t<const Indices>>;
    static_assert(detail::is_value<value>(),
        "take_values takes values of 1, 2, 4, 8 or 16 bytes that are copied and aligned as whole "
        "numbers are: these, floats, bool, vb_u128. std::vector<bool> has none of them");
    static_assert(detail::is_index<index>(),
        "take_values takes indices of a whole number of 8, 16, 32 or 64 bits");
    static_assert(std::is_same_v<detail::lent_of<Out>, value>,
        "take_values writes values of the type that it reads");
    if constexpr (detail::is_value<value>() && detail::is_index<index>()
        && std::is_same_v<detail::lent_of<Out>, value>) {
        detail::expect(detail::size(indices) <= detail::size(out),
            "no space for a value per index");
        detail::expect(!valid || valid->size() == detail::size(indices),
            "not a bit of validity for each index");
        using laid = typename detail::laid<sizeof(value)>::type;
        using as = typename detail::laid<sizeof(index)>::type;
        const bits counts = valid.value_or(bits());
        return detail::position(detail::taken_by<sizeof(value), sizeof(index)>::take(
            reinterpret_cast<laid *>(out.data()), detail::size(out),
            reinterpret_cast<const laid *>(values.data()),
            detail::reached<index>(detail::size(values)),
            reinterpret_cast<const as *>(indices.data()), detail::size(indices), !valid,
            counts.bytes_, counts.size_, counts.offset_));
    }
    return std::nullopt;
}

/* Does the same where every position counts. */
template <class Values, class Indices, class Out>
[[nodiscard]] std::optional<std::size_t> take_values(const Values &values, const Indices &indices,
    Out &&out)
{
    return vortex_bits::take_values(values, indices, std::nullopt, std::forward<Out>(out));
}

} // namespace vortex_bits

#endif

#endif
