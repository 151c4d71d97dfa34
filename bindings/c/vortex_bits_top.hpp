/*
 * The greatest or the least values of a column, a part of vortex_bits.hpp, which includes this
 * file. This code is tested, not proved.
 *
 *     std::vector<double> prices = {0.5, 7.5, 2.0};
 *     auto best = vortex_bits::top_k<double>::greatest(2);
 *     best.append(prices);
 *     best.items();                                // 7.5 of row 1, 2.0 of row 2
 */
#ifndef VORTEX_BITS_TOP_HPP
#define VORTEX_BITS_TOP_HPP

#include "vortex_bits.hpp"

#if __cplusplus >= 201703L

namespace vortex_bits {

/*
 * The greatest or the least `k` values of a column that comes in batches, with their rows, as
 * `order by .. limit k` of SQL. Of equal values, such as 0.0 and -0.0, it keeps those of the first
 * rows. It never keeps a NaN. Values are whole numbers of 8 to 64 bits, floats or doubles. A batch
 * that adds one of the best `k` values takes time in proportion to `k` too, however few rows it
 * has.
 */
template <class Value> class top_k {
public:
    struct item {
        Value value;
        std::size_t row;
    };

    static top_k greatest(std::size_t k) { return top_k(k, VB_GREATER); }
    static top_k least(std::size_t k) { return top_k(k, VB_LESS); }

    /* Leaves no values and no rows. */
    top_k(top_k &&from) noexcept : top_k(from.k_, from.order_) { swap(from); }
    top_k(const top_k &) = default;
    top_k &operator=(top_k from) noexcept
    {
        swap(from);
        return *this;
    }

    /* Returns at most `k` values with their rows, the best first. */
    const std::vector<item> &items() const & { return best_; }
    const std::vector<item> &items() const && = delete;

    /*
     * Adds the values of a batch that `mask` selects, or all if there is no mask. The first row of
     * the next batch is the one after the last value of this one. If memory runs out, it adds
     * nothing.
     */
    template <class Values>
    void append(const Values &values, std::optional<bits> mask = std::nullopt)
    {
        static_assert(std::is_same_v<detail::item_t<Values>, Value>,
            "append to a top_k<Value> takes values of type Value");
        const std::size_t count = detail::size(values);
        detail::expect(!mask || mask->size() == count, "not a bit for each value");
        const std::size_t most = k_ < SIZE_MAX / 2 - MORE ? k_ + extra() : SIZE_MAX;
        detail::reserve(best_, std::min(count, most - std::min(best_.size(), most)));
        for (std::size_t at = 0; at < count; at += BLOCK) {
            const std::size_t rows = std::min(BLOCK, count - at);
            append_block(view<const Value>(values.data() + at, rows),
                mask ? std::optional<bits>(mask->slice(at, rows)) : std::nullopt);
        }
        keep_best();
    }

private:
    /* The number of rows that are compared at once with the last of the best. */
    static constexpr std::size_t BLOCK = 4096;
    /* The number of values, or `k` if more, that are added to `k` sorted ones before a sort. */
    static constexpr std::size_t MORE = 64;

    top_k(std::size_t k, vb_comparison order) : k_(k), order_(order) {}

    void swap(top_k &with) noexcept
    {
        std::swap(k_, with.k_);
        std::swap(order_, with.order_);
        std::swap(rows_, with.rows_);
        best_.swap(with.best_);
        std::swap(sorted_, with.sorted_);
    }

    std::size_t extra() const { return std::max(k_, MORE); }

    bool is_before(const Value &one, const Value &other) const
    {
        return order_ == VB_GREATER ? one > other : one < other;
    }

    /* Once it has `k` values, the first `k` are sorted: a new one must be before the k-th. */
    void append_block(view<const Value> values, std::optional<bits> mask)
    {
        std::array<std::uint64_t, BLOCK / 64> words = {};
        bits_mut rows(words, 0, values.size());
        if (k_ != 0 && sorted_ == k_) {
            vortex_bits::compare(values, order_, best_[k_ - 1].value, rows);
        } else if (k_ != 0) {
            // Only a NaN isn't equal to itself.
            vortex_bits::compare_with(values, VB_EQUAL, values, rows);
        }
        rows.and_validity(mask);
        rows.for_each_set([&](std::size_t row) { add(values.data()[row], rows_ + row); });
        rows_ += values.size();
    }

    void add(Value value, std::size_t row)
    {
        if (sorted_ == k_ && !is_before(value, best_[k_ - 1].value)) {
            return;
        }
        best_.push_back({value, row});
        if (best_.size() - sorted_ >= (sorted_ == k_ ? extra() : k_ - sorted_)) {
            keep_best();
        }
    }

    /* Sorts the values, and drops all but the best. */
    void keep_best()
    {
        const auto is_first = [&](const item &one, const item &other) {
            return is_before(one.value, other.value)
                || (!is_before(other.value, one.value) && one.row < other.row);
        };
        const auto added = best_.begin() + static_cast<std::ptrdiff_t>(sorted_);
        std::sort(added, best_.end(), is_first);
        std::inplace_merge(best_.begin(), added, best_.end(), is_first);
        best_.resize(std::min(best_.size(), k_));
        sorted_ = best_.size();
    }

    std::size_t k_;
    vb_comparison order_;
    std::size_t rows_ = 0;
    /* The first `sorted_` ones are sorted. */
    std::vector<item> best_;
    std::size_t sorted_ = 0;
};

} // namespace vortex_bits

#endif

#endif
