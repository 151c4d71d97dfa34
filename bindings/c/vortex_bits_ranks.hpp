/*
 * Ranks over a window, a part of vortex_bits.hpp, which includes this file.
 *
 *     vortex_bits::ranks rows(vortex_bits::bits(valid, 3, 10));
 *     rows.rank(5);                                     // set bits among the first five
 *     rows.select(0);                                   // the first set bit's index
 */
#ifndef VORTEX_BITS_RANKS_HPP
#define VORTEX_BITS_RANKS_HPP

#include "vortex_bits.hpp"

#if __cplusplus >= 201703L

namespace vortex_bits {

/*
 * A window with its own table of the number of set bits before each block of 512. After a move the
 * source has no bits. An assignment that throws leaves both sides unchanged.
 */
class ranks {
public:
    /* Counts the bits once. */
    explicit ranks(bits window) : bits_(window), table_(blocks(window))
    {
        vb_block_counts(table_.data(), table_.size(), bits_.bytes_, bits_.size_, bits_.offset_,
            bits_.len_);
    }

    /*
     * Uses a stored table that table() returned for the same bits, and counts nothing. With another
     * table of that size the results are meaningless, but harmless.
     */
    ranks(bits window, std::vector<std::size_t> table) : bits_(window), table_(std::move(table))
    {
        detail::expect(table_.size() == blocks(window), "not an entry for each block");
    }

    ranks(const ranks &) = default;
    ranks(ranks &&from) noexcept
        : bits_(std::exchange(from.bits_, bits())), table_(std::exchange(from.table_, {}))
    {
    }

    /* `from` is copied or moved before anything changes here. */
    ranks &operator=(ranks from) noexcept
    {
        std::swap(bits_, from.bits_);
        table_.swap(from.table_);
        return *this;
    }

    const std::vector<std::size_t> &table() const & { return table_; }

    std::vector<std::size_t> table() const && { return table_; }

    /* Takes the table of a temporary object, which then has no bits. */
    std::vector<std::size_t> table() &&
    {
        bits_ = bits();
        return std::exchange(table_, {});
    }

    std::size_t size() const { return bits_.len_; }

    /* Returns the number of set bits. */
    std::size_t count() const { return rank(bits_.len_); }

    /* Returns the number of set bits before `place`. Reads one entry of the table and one block. */
    std::size_t rank(std::size_t place) const
    {
        detail::expect(place <= bits_.len_, "an index is past the end of the window");
        return vb_rank(bits_.bytes_, bits_.size_, bits_.offset_, bits_.len_, table_.data(),
            table_.size(), place);
    }

    /* Returns the index of the n-th set bit, counted from 0, if there is one. */
    std::optional<std::size_t> select(std::size_t n) const { return by(vb_ranked_select, n); }

    /* Returns the index of the n-th unset bit. */
    std::optional<std::size_t> select_unset(std::size_t n) const
    {
        return by(vb_ranked_select_unset, n);
    }

private:
    static std::size_t blocks(bits window) { return window.len_ / 512 + (window.len_ % 512 != 0); }

    template <class Call> std::optional<std::size_t> by(Call call, std::size_t n) const
    {
        return detail::place(call(bits_.bytes_, bits_.size_, bits_.offset_, bits_.len_,
            table_.data(), table_.size(), n));
    }

    bits bits_;
    std::vector<std::size_t> table_;
};

} // namespace vortex_bits

#endif

#endif
