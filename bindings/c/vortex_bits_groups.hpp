/*
 * Groups that no C function computes, a part of vortex_bits.hpp, which includes this file: a bitmap
 * for each code, and the sums of floats of group_sums. This code is tested, not proved.
 *
 *     vortex_bits::bitmaps_by_code cities(3);
 *     std::vector<std::uint8_t> codes = {2, 0, 2};
 *     if (const auto row = cities.append(codes)) { .. }    // the first row whose code is 3 or more
 *     cities[2].set_indices();                             // 0, 2
 */
#ifndef VORTEX_BITS_GROUPS_HPP
#define VORTEX_BITS_GROUPS_HPP

#include "vortex_bits.hpp"

#if __cplusplus >= 201703L

namespace vortex_bits {

namespace detail {

/* Calls `f` with each row that the mask selects, with each of `rows` rows if there is no mask. */
template <class F> void for_each_selected(std::size_t rows, std::optional<bits> mask, F f)
{
    const auto each = [&](std::size_t start, std::size_t end) {
        for (std::size_t row = start; row < end; row++) {
            f(row);
        }
    };
    if (mask) {
        mask->for_each_run(each);
    } else {
        each(0, rows);
    }
}

/* Returns the first selected row whose code isn't the index of one of `groups` groups. */
template <class Codes>
std::optional<std::size_t> wrong_code(const Codes &codes, std::optional<bits> mask,
    std::size_t groups)
{
    using code = item_t<Codes>;
    using laid = std::make_unsigned_t<code>;
    constexpr std::size_t BLOCK = 4096;
    const auto *first = reinterpret_cast<const laid *>(codes.data());
    for (std::size_t row = 0; row < detail::size(codes); row += BLOCK) {
        const std::size_t rows = std::min(BLOCK, detail::size(codes) - row);
        std::array<std::uint64_t, BLOCK / 64> words = {};
        bits_mut wrong(words, 0, rows);
        vortex_bits::compare(view(first + row, rows), VB_GREATER_OR_EQUAL, reached<code>(groups),
            wrong);
        wrong.and_validity(mask ? std::optional<bits>(mask->slice(row, rows)) : std::nullopt);
        if (const auto place = wrong.next_set(0)) {
            return row + *place;
        }
    }
    return std::nullopt;
}

/* Adds the selected floats, one per code, to the sums of their codes, if no code is wrong. */
template <class Codes, class Values>
std::optional<std::size_t> float_group_sums(view<double> sums, const Codes &codes,
    const Values &values, std::optional<bits> mask)
{
    expect(!mask || mask->size() == detail::size(codes), "mask and codes differ in length");
    const auto wrong = wrong_code(codes, mask, sums.size());
    if (!wrong) {
        for_each_selected(detail::size(codes), mask,
            [sums = sums.data(), codes = codes.data(), values = values.data()](std::size_t row) {
                sums[static_cast<std::size_t>(codes[row])] += static_cast<double>(values[row]);
            });
    }
    return wrong;
}

} // namespace detail

/*
 * A bitmap for each code of a column that comes in batches: bit `row` of bitmap `code` is whether
 * the row has the code. It owns the bitmaps, which have one bit per row each, so an append writes
 * to all of them. If memory runs out, it appends nothing.
 */
class bitmaps_by_code {
public:
    /* Bitmaps of no rows, one for each code below `codes`. */
    explicit bitmaps_by_code(std::size_t codes) : bitmaps_(codes) {}

    /* Leaves no codes and no rows. */
    bitmaps_by_code(bitmaps_by_code &&from) noexcept : bitmaps_by_code(0) { swap(from); }
    bitmaps_by_code(const bitmaps_by_code &) = default;
    bitmaps_by_code &operator=(bitmaps_by_code from) noexcept
    {
        swap(from);
        return *this;
    }

    /* Returns the number of codes, and that of rows. */
    std::size_t codes() const { return bitmaps_.size(); }
    std::size_t size() const { return rows_; }

    /* Returns the bitmap of a code, valid until the next append, even one that fails. */
    bits operator[](std::size_t code) const &
    {
        detail::expect(code < codes(), "a code is not one of the bitmaps");
        return bits(bitmaps_[code], 0, rows_);
    }
    bits operator[](std::size_t code) const && = delete;

    /*
     * Appends a row for each code, a whole number of 8 to 32 bits. Rows that the mask doesn't
     * select, such as nulls, are in no bitmap. Returns the first selected row of this batch whose
     * code is out of range, if there is one; then it appends nothing. The mask must not be one of
     * its own bitmaps.
     */
    template <class Codes>
    [[nodiscard]] std::optional<std::size_t> append(const Codes &codes,
        std::optional<bits> mask = std::nullopt)
    {
        static_assert(detail::is_code<detail::item_t<Codes>>(),
            "codes are whole numbers of 8, 16 or 32 bits");
        const std::size_t rows = detail::size(codes);
        detail::expect(!mask || mask->size() == rows, "not a bit for each code");
        if (const auto wrong = detail::wrong_code(codes, mask, bitmaps_.size())) {
            return wrong;
        }
        for (buffer &bitmap : bitmaps_) {
            bitmap.resize((rows_ + rows + 7) / 8);
        }
        const auto *first = codes.data();
        detail::for_each_selected(rows, mask, [&](std::size_t row) {
            const std::size_t bit = rows_ + row;
            std::uint8_t &byte = bitmaps_[static_cast<std::size_t>(first[row])][bit / 8];
            byte = static_cast<std::uint8_t>(byte | 1u << (bit % 8));
        });
        rows_ += rows;
        return std::nullopt;
    }

private:
    using buffer = std::vector<std::uint8_t>;

    void swap(bitmaps_by_code &with) noexcept
    {
        bitmaps_.swap(with.bitmaps_);
        std::swap(rows_, with.rows_);
    }

    std::vector<buffer> bitmaps_;
    std::size_t rows_ = 0;
};

} // namespace vortex_bits

#endif

#endif
