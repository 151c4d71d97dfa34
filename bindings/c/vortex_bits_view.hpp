/*
 * Which bytes a window can be over, a part of vortex_bits.hpp.
 *
 *     std::uint8_t *pointer = bytes.data();
 *     vortex_bits::bits rows(vortex_bits::view(pointer, 2), 3, 10);
 */
#ifndef VORTEX_BITS_VIEW_HPP
#define VORTEX_BITS_VIEW_HPP

#include "vortex_bits_detail.hpp"

#if __cplusplus >= 201703L

namespace vortex_bits {

/* Returns whether a window is in `size` bytes and its end fits a std::size_t: it can be made. */
constexpr bool fits(std::size_t size, std::size_t offset, std::size_t len)
{
    return len <= SIZE_MAX - offset && (offset + len) / 8 + ((offset + len) % 8 != 0) <= size;
}

/*
 * Whether objects of a type refer to bytes that outlive them, as a std::span does. A window over a
 * temporary object compiles for these types alone: view, std::basic_string_view, each borrowed
 * range of C++20, and each trivially copyable type whose `data() const` points to writable bytes,
 * which are taken to be another's. Set it to false for a type with mutable bytes of its own, and to
 * true for another view of yours:
 *
 *     template <> inline constexpr bool vortex_bits::is_borrowed<my::slice> = true;
 */
template <class Bytes> inline constexpr bool is_borrowed = detail::refers<Bytes>();
template <class Byte, class Traits>
inline constexpr bool is_borrowed<std::basic_string_view<Byte, Traits>> = true;

/*
 * Items that another container owns, like std::span of C++20:
 *
 *     vortex_bits::bits rows(vortex_bits::view(pointer, 2), 3, 10);    // over two bytes or words
 */
template <class Item> class view {
public:
    view() = default;
    view(Item *items, std::size_t count) : items_(items), count_(count)
    {
        detail::expect(items != nullptr || count == 0, "a view has a null pointer");
    }

    Item *data() const { return items_; }
    std::size_t size() const { return count_; }
    bool empty() const { return count_ == 0; }
    Item *begin() const { return items_; }
    Item *end() const { return items_ + count_; }

    Item &operator[](std::size_t position) const
    {
        detail::expect(position < count_, "a position is not one of the view");
        return items_[position];
    }

private:
    Item *items_ = nullptr;
    std::size_t count_ = 0;
};
template <class Item> view(Item *, std::size_t) -> view<Item>;
template <class Item> inline constexpr bool is_borrowed<view<Item>> = true;

namespace detail {

/* Types that lend bytes; of these, types that borrow the bytes, and types that own them. */
template <class Container, class Byte>
using lender = std::enable_if_t<lends<Container, Byte>, int>;
template <class Container, class Byte>
using borrower = std::enable_if_t<lends<Container, Byte> && is_borrowed<Container>, int>;
template <class Container, class Byte>
using owner = std::enable_if_t<lends<Container, Byte> && !is_borrowed<Container>, int>;

/* Types that lend neither bytes nor words, and types that lend them only to be read. */
template <class Container>
inline constexpr bool is_lender =
    lends<const Container, const std::uint8_t> || lends<const Container, const std::uint64_t>;
template <class Container>
using other = std::enable_if_t<std::is_class_v<Container> && !is_lender<Container>, int>;
template <class Container>
using fixed = std::enable_if_t<is_lender<Container> && !lends<const Container, std::uint8_t>
        && !lends<const Container, std::uint64_t>, int>;

/* Returns the bytes of words, the lowest byte of each first, as on each x86-64. */
template <class Words> auto bytes_of(Words &words)
{
    using word = std::remove_pointer_t<decltype(words.data())>;
    using byte = std::conditional_t<std::is_const_v<word>, const std::uint8_t, std::uint8_t>;
    return reinterpret_cast<byte *>(words.data());
}

} // namespace detail

} // namespace vortex_bits

#endif

#endif
