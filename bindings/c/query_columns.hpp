/*
 * The columns of a batch of Arrow's C data interface, for query.cpp and geopackage.cpp.
 */
#ifndef VORTEX_BITS_QUERY_COLUMNS_HPP
#define VORTEX_BITS_QUERY_COLUMNS_HPP

#include "arrow.h"
#include "vortex_bits.hpp"

#include <memory>

using vortex_bits::bits;
using vortex_bits::bits_mut;
using vortex_bits::view;

struct release {
    void operator()(ArrowArray *array) const
    {
        array->release(array);
        delete array;
    }
};
using batch = std::unique_ptr<ArrowArray, release>;

/* A column of a batch: its values, and its validity, if it has one. */
class column {
public:
    column(const batch &all, std::size_t i)
        : child_(*all->children[i]), len_(static_cast<std::size_t>(all->length)),
          offset_(static_cast<std::size_t>(all->offset + child_.offset))
    {
    }

    std::size_t size() const { return len_; }

    std::optional<bits> valid() const
    {
        return has_nulls() ? std::optional<bits>(bits_of(0)) : std::nullopt;
    }

    bits flags() const { return bits_of(1); }

    /* Queries of a single row. */
    bool is_valid(std::size_t row) const { return !has_nulls() || bit(0, row); }
    bool flag(std::size_t row) const { return bit(1, row); }

    template <class T> view<const T> values() const
    {
        return {static_cast<const T *>(child_.buffers[1]) + offset_, len_};
    }

    /* The texts of a column of the format u. */
    vortex_bits::texts<std::int32_t> texts() const
    {
        return vortex_bits::texts_of<std::int32_t>(child_.buffers[1], child_.buffers[2], offset_,
            len_);
    }

private:
    bool has_nulls() const { return child_.null_count != 0 && child_.buffers[0] != nullptr; }

    const std::uint8_t *bytes(std::size_t buffer) const
    {
        return static_cast<const std::uint8_t *>(child_.buffers[buffer]);
    }

    bits bits_of(std::size_t buffer) const
    {
        return bits(bytes(buffer), (offset_ + len_ + 7) / 8, offset_, len_);
    }

    bool bit(std::size_t buffer, std::size_t row) const
    {
        const std::size_t i = offset_ + row;
        return (bytes(buffer)[i / 8] >> (i % 8) & 1) != 0;
    }

    const ArrowArray &child_;
    std::size_t len_;
    std::size_t offset_;
};

#endif
