/*
 * Helpers that the parts of vortex_bits.hpp share; a program needs none of them. Before C++17 this
 * file is one error, and the parts are empty.
 */
#ifndef VORTEX_BITS_DETAIL_HPP
#define VORTEX_BITS_DETAIL_HPP

#if __cplusplus < 201703L
#error "vortex_bits.hpp needs C++17: compile with -std=c++17 or a later one"
#else

#include "vortex_bits.h"

#include <algorithm>
#include <array>
#include <cmath>
#include <cstddef>
#include <cstdint>
#include <cstdlib>
#include <limits>
#include <optional>
#include <stdexcept>
#include <string_view>
#include <type_traits>
#include <utility>
#include <vector>
#if __has_include(<version>)
#include <version>
#endif
#ifdef __cpp_lib_span
#include <span>
#endif
/* libc++ 14 has borrowed ranges, but doesn't say so. */
#if defined(__cpp_lib_ranges) || (defined(__cpp_lib_span) && _LIBCPP_VERSION >= 14000)
#define VB_HAS_BORROWED_RANGES
#endif

namespace vortex_bits {

/* Declared here for the other parts, which may come before vortex_bits_compare.hpp. */
class bits_mut;
template <class Values, class Number>
void compare(const Values &values, vb_comparison op, Number number, bits_mut out);
template <class Values, class Others>
void compare_with(const Values &values, vb_comparison op, const Others &others, bits_mut out);

namespace detail {

[[noreturn]] inline void refuse(const char *why)
{
#ifdef __cpp_exceptions
    throw std::out_of_range(why);
#else
    (void)why;
    std::abort();
#endif
}

inline void expect(bool holds, const char *why)
{
    if (!holds) {
        refuse(why);
    }
}

inline std::optional<std::size_t> place(vb_place it)
{
    return it.found ? std::optional<std::size_t>(it.index) : std::nullopt;
}

/* Returns the first position whose index is out of range. */
inline std::optional<std::size_t> position(vb_taken it)
{
    return it.out_of_range ? std::optional<std::size_t>(it.position) : std::nullopt;
}

/* Whether it lends bytes, as a std::vector, std::array, std::span, .. of std::uint8_t does. */
template <class Container, class Byte, class = void> inline constexpr bool lends = false;
template <class Container, class Byte>
inline constexpr bool lends<Container, Byte,
    std::void_t<decltype(std::declval<Container &>().data()),
        decltype(std::declval<Container &>().size())>> =
    std::is_convertible_v<decltype(std::declval<Container &>().data()), Byte *>
    && std::is_convertible_v<decltype(std::declval<Container &>().size()), std::size_t>;

/* Returns the number of a container's items. Its size() may be of another type, such as int. */
template <class Container> constexpr std::size_t size(Container &of)
{
    return static_cast<std::size_t>(of.size());
}

/* The type that a container's data() points to; void if it has none. */
template <class Container, class = void> struct lent { using type = void; };
template <class Container>
struct lent<Container, std::void_t<decltype(std::declval<Container &>().data())>> {
    using type = std::remove_pointer_t<decltype(std::declval<Container &>().data())>;
};
template <class Container> using lent_t = typename lent<Container>::type;
template <class Out> using lent_of = lent_t<std::remove_reference_t<Out>>;

/* Returns whether such a container lends another's bytes, as far as its type shows. */
template <class Container> constexpr bool refers()
{
#ifdef VB_HAS_BORROWED_RANGES
    if constexpr (std::ranges::enable_borrowed_range<Container>) {
        return true;
    }
#endif
    return std::is_trivially_copyable_v<Container>
        && std::is_same_v<lent_t<const Container>, std::uint8_t>;
}

/* Calls `f` with an item of a walk; returns whether to go on: false if `f` returned false. */
template <class F, class... Item> bool goes_on(F &f, Item &&...item)
{
    using answer = decltype(f(std::forward<Item>(item)...));
    if constexpr (std::is_same_v<std::decay_t<answer>, bool>) {
        return f(std::forward<Item>(item)...);
    } else {
        static_cast<void>(f(std::forward<Item>(item)...));
        return true;
    }
}

/*
 * For items of `Size` bytes: the type that the C functions take, void if there are none, and the C
 * functions that filter, scatter and filter in place.
 */
template <class Type> using masked = std::size_t (*)(Type *, std::size_t, const Type *, std::size_t,
    const std::uint8_t *, std::size_t, std::size_t);
template <class Type> using try_masked = bool (*)(Type *, std::size_t, const Type *, std::size_t,
    const std::uint8_t *, std::size_t, std::size_t, std::size_t *);
template <class Type> using masked_in_place = std::size_t (*)(Type *, std::size_t,
    const std::uint8_t *, std::size_t, std::size_t);
template <class Type, try_masked<Type> Keep, masked<Type> Scatter, masked_in_place<Type> Retain>
struct by {
    using type = Type;
    static constexpr auto try_keep = Keep;
    static constexpr auto scatter = Scatter;
    static constexpr auto retain = Retain;
};
template <std::size_t Size> struct laid { using type = void; };
/* Written by tools/write-lists from tools/families/filter.txt. */
template <>
struct laid<1> : by<std::uint8_t, vb_try_filter_values_u8, vb_scatter_values_u8,
    vb_retain_values_u8> {};
template <>
struct laid<2> : by<std::uint16_t, vb_try_filter_values_u16, vb_scatter_values_u16,
    vb_retain_values_u16> {};
template <>
struct laid<4> : by<std::uint32_t, vb_try_filter_values_u32, vb_scatter_values_u32,
    vb_retain_values_u32> {};
template <>
struct laid<8> : by<std::uint64_t, vb_try_filter_values_u64, vb_scatter_values_u64,
    vb_retain_values_u64> {};
template <>
struct laid<16> : by<vb_u128, vb_try_filter_values_u128, vb_scatter_values_u128,
    vb_retain_values_u128> {};
/* To here. */

/* Returns whether items of the type may be copied as those of such a C type. */
template <class Item> constexpr bool is_value()
{
    if constexpr (std::is_object_v<Item>) {
        using as = typename laid<sizeof(Item)>::type;
        if constexpr (!std::is_void_v<as>) {
            return std::is_trivially_copyable_v<Item> && alignof(Item) % alignof(as) == 0;
        }
    }
    return false;
}

template <class Item> constexpr bool is_index()
{
    if constexpr (std::is_integral_v<Item> && !std::is_same_v<Item, bool>) {
        return sizeof(Item) <= 8;
    }
    return false;
}

template <class Code> constexpr bool is_code()
{
    return is_index<Code>() && sizeof(Code) <= 4;
}

template <class Value> constexpr bool is_float()
{
    return std::is_same_v<Value, float> || std::is_same_v<Value, double>;
}

template <class Values> using item_t = std::remove_cv_t<lent_t<const Values>>;

template <class Out> constexpr bool is_bytes()
{
    return std::is_same_v<lent_t<std::remove_reference_t<Out>>, std::uint8_t>;
}

/* Makes the capacity of a container suffice for more items. It at least doubles if it grows. */
template <class Container> void reserve(Container &of, std::size_t more)
{
    if (of.capacity() - of.size() < more) {
        of.reserve(std::max(of.size() + more, 2 * of.capacity()));
    }
}

/* Calls the functions of vortex_bits_aggregate.h with a window as their mask. */
struct aggregate;

/*
 * Returns `count`, and for a signed `Index` at most its greatest value plus 1: a negative index,
 * read as an unsigned number, is not below that.
 */
template <class Index> std::size_t reached(std::size_t count)
{
    if constexpr (std::is_signed_v<Index>) {
        return std::min(count, static_cast<std::size_t>(std::numeric_limits<Index>::max()) + 1);
    }
    return count;
}

} // namespace detail

} // namespace vortex_bits

#endif

#endif
