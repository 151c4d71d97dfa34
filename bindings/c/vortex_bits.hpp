/*
 * The windows of vortex_bits.h as C++ classes, for C++17 and later. This file includes its parts,
 * such as vortex_bits_values.hpp, which you may also include alone and in any order.
 *
 *     c++ -std=c++17 -O2 app.cpp -I DIST/include DIST/lib/libvortex_bits.a
 *
 *     std::vector<std::uint8_t> valid = {0xE8, 0x06};
 *     vortex_bits::bits rows(valid, 3, 10);             // ten rows, from bit 3 on
 *     rows.count_ones();                                // 6
 *     rows.for_each_set([&](std::size_t row) { .. });
 *
 * A window is tested once, by its constructor. It owns no bytes, so over a temporary container it
 * does not compile. Calls test lengths, single indices and capacity, and throw std::out_of_range
 * before a write, or abort without exceptions. Takes and calls by group instead return the position
 * of the first index or code out of range; set_indices_into and set_slices_into write items up to
 * the size of their output. The container of an output may overlap no other argument. A call may
 * read all bytes of its windows' containers: vortex_bits.h says what threads may do. All parts of a
 * program need one version of C++, and exceptions in all or in none.
 */
#ifndef VORTEX_BITS_HPP
#define VORTEX_BITS_HPP

#include "vortex_bits_view.hpp"

#if __cplusplus >= 201703L

namespace vortex_bits {

/* A read-only window: the `len` bits from bit `offset` on of some bytes. */
class bits {
public:
    /* No bits. */
    bits() = default;

    bits(const std::uint8_t *bytes, std::size_t size, std::size_t offset, std::size_t len)
        : bytes_(bytes), size_(size), offset_(offset), len_(len)
    {
        detail::expect(bytes != nullptr || size == 0, "a window has a null pointer");
        detail::expect(fits(size, offset, len), "a window does not fit in its bytes");
    }

    template <class Bytes, detail::lender<const Bytes, const std::uint8_t> = 0>
    bits(const Bytes &bytes, std::size_t offset, std::size_t len)
        : bits(bytes.data(), detail::size(bytes), offset, len) {}

    /* Over words of 64 bits: bit i is bit i % 64 of word i / 64, least significant first. */
    template <class Words, detail::lender<const Words, const std::uint64_t> = 0>
    bits(const Words &words, std::size_t offset, std::size_t len)
        : bits(detail::bytes_of(words), 8 * detail::size(words), offset, len) {}

    /* Deleted: a temporary container dies before the window. Name it; for views see is_borrowed. */
    template <class Bytes, detail::owner<Bytes, const std::uint8_t> = 0>
    bits(const Bytes &&bytes, std::size_t offset, std::size_t len) = delete;
    template <class Words, detail::owner<Words, const std::uint64_t> = 0>
    bits(const Words &&words, std::size_t offset, std::size_t len) = delete;

    /* Deleted: a pointer needs a size, and other items, such as char, a cast. */
    template <class Item>
    bits(Item *, std::size_t, std::size_t) = delete; // no size: write view(pointer, count)
    template <class Other, detail::other<Other> = 0>
    bits(const Other &, std::size_t, std::size_t) = delete; // write view(cast to uint8_t *, ..)

    std::size_t size() const { return len_; }
    bool empty() const { return len_ == 0; }
    /* Returns the index of the first bit in the bytes. */
    std::size_t offset() const { return offset_; }

#ifdef __cpp_lib_span
    /* Returns all bytes of the window's container, those outside of the window too. */
    std::span<const std::uint8_t> bytes() const { return {bytes_, size_}; }
#endif

    /* Returns the `len` bits from index `start` on. */
    bits slice(std::size_t start, std::size_t len) const
    {
        detail::expect(start <= len_ && len <= len_ - start, "a slice is not in its window");
        return bits(bytes_, size_, offset_ + start, len);
    }

    bool operator[](std::size_t place) const
    {
        detail::expect(place < len_, "an index is not one of the window");
        const std::size_t bit = offset_ + place;
        return (bytes_[bit / 8] >> (bit % 8) & 1) != 0;
    }

    std::size_t count_ones() const { return vb_count_ones(bytes_, size_, offset_, len_); }
    std::size_t count_zeros() const { return len_ - count_ones(); }

    /* Counts the bits set in both, either, just one, or here alone. The lengths must be equal. */
    std::size_t and_count(bits right) const { return by_another(vb_and_count, right); }
    std::size_t or_count(bits right) const { return by_another(vb_or_count, right); }
    std::size_t xor_count(bits right) const { return by_another(vb_xor_count, right); }
    std::size_t and_not_count(bits right) const { return by_another(vb_and_not_count, right); }

    /* Written by tools/write-lists from tools/families/questions.txt. */
    /* Returns whether no bit is set in both, and whether each bit set here is set in `right`. */
    bool is_disjoint(bits right) const { return by_another(vb_is_disjoint, right); }
    bool is_subset(bits right) const { return by_another(vb_is_subset, right); }
    /* To here. */

    /* Returns the index of the n-th set bit, counted from 0, if there is one. */
    std::optional<std::size_t> select(std::size_t n) const
    {
        return detail::place(vb_select(bytes_, size_, offset_, len_, n));
    }

    /* Returns the index of the n-th unset bit. */
    std::optional<std::size_t> select_unset(std::size_t n) const
    {
        return detail::place(vb_select_unset(bytes_, size_, offset_, len_, n));
    }

    /* Returns the index of the last set bit, if there is one. */
    std::optional<std::size_t> last_set() const
    {
        return detail::place(vb_last_set(bytes_, size_, offset_, len_));
    }

    /* Returns the index of the first set, or unset, bit at or after `from`, if there is one. */
    std::optional<std::size_t> next_set(std::size_t from) const
    {
        return detail::place(vb_next_set(bytes_, size_, offset_, len_, from));
    }
    std::optional<std::size_t> next_unset(std::size_t from) const
    {
        return detail::place(vb_next_unset(bytes_, size_, offset_, len_, from));
    }

    /* Returns the index of the last set, or unset, bit before index `before`, if there is one. */
    std::optional<std::size_t> previous_set(std::size_t before) const
    {
        return detail::place(vb_previous_set(bytes_, size_, offset_, len_, before));
    }
    std::optional<std::size_t> previous_unset(std::size_t before) const
    {
        return detail::place(vb_previous_unset(bytes_, size_, offset_, len_, before));
    }

    /* Returns whether any bit is set (false for no bits), or whether all are (true for no bits). */
    bool any() const { return vb_any_set(bytes_, size_, offset_, len_); }
    bool all() const { return vb_all_set(bytes_, size_, offset_, len_); }

    /* Returns whether the bits are the same, at whatever offsets. */
    friend bool operator==(const bits &left, const bits &right)
    {
        return left.len_ == right.len_
            && vb_equal_bits(left.bytes_, left.size_, left.offset_, right.bytes_, right.size_,
                right.offset_, right.len_);
    }

    friend bool operator!=(const bits &left, const bits &right) { return !(left == right); }

    /*
     * Calls `f` with the index of each set bit, in ascending order. If `f` returns a bool, the walk
     * ends at the first false; any other result is ignored. It looks for 64 set bits at once.
     */
    template <class F> void for_each_set(F f) const
    {
        std::array<std::size_t, 64> places;
        walk(places, vb_set_indices, [](std::size_t place) { return place + 1; },
            [&](std::size_t from, std::size_t place) { return detail::goes_on(f, from + place); });
    }

    /*
     * Calls `f` with the start and the end of each maximal run of set bits. If `f` returns a bool,
     * the walk ends at the first false; any other result is ignored. It looks for 64 runs at once.
     */
    template <class F> void for_each_run(F f) const
    {
        std::array<vb_run, 64> runs;
        walk(runs, vb_set_slices, [](vb_run run) { return run.end; },
            [&](std::size_t from, vb_run run) {
                return detail::goes_on(f, from + run.start, from + run.end);
            });
    }

    /*
     * Returns the indices of the set bits, as `Index`: std::size_t, or std::uint32_t of a window of
     * at most 2^32 bits.
     */
    template <class Index = std::size_t> std::vector<Index> set_indices() const
    {
        std::vector<Index> places(count_ones());
        set_indices_into(places);
        return places;
    }

    /* Returns the runs of set bits, as `Run`: vb_run, or vb_run_u32 of fewer than 2^32 bits. */
    template <class Run = vb_run> std::vector<Run> set_slices() const
    {
        using index = decltype(Run::start);
        detail::expect(len_ <= std::numeric_limits<index>::max(), "more bits than a run can index");
        std::vector<Run> runs;
        for_each_run([&](std::size_t start, std::size_t end) {
            runs.push_back({static_cast<index>(start), static_cast<index>(end)});
        });
        return runs;
    }

    /* Writes indices or runs to the front of `out`, up to its size; returns their number. */
    template <class Out> std::size_t set_indices_into(Out &&out) const
    {
        using index = detail::lent_t<std::remove_reference_t<Out>>;
        static_assert(std::is_same_v<index, std::size_t> || std::is_same_v<index, std::uint32_t>,
            "set_indices writes indices of std::size_t or std::uint32_t");
        if constexpr (std::is_same_v<index, std::uint32_t>) {
            detail::expect(len_ <= std::size_t(UINT32_MAX) + 1, "more bits than 32 bits can index");
            return vb_set_indices_u32(out.data(), detail::size(out), bytes_, size_, offset_, len_);
        } else if constexpr (std::is_same_v<index, std::size_t>) {
            return vb_set_indices(out.data(), detail::size(out), bytes_, size_, offset_, len_);
        }
        return 0;
    }
    template <class Out> std::size_t set_slices_into(Out &&out) const
    {
        using run = detail::lent_t<std::remove_reference_t<Out>>;
        static_assert(std::is_same_v<run, vb_run> || std::is_same_v<run, vb_run_u32>,
            "set_slices writes runs of vb_run or vb_run_u32");
        if constexpr (std::is_same_v<run, vb_run_u32>) {
            detail::expect(len_ <= UINT32_MAX, "more bits than a run can index");
            return vb_set_slices_u32(out.data(), detail::size(out), bytes_, size_, offset_, len_);
        } else if constexpr (std::is_same_v<run, vb_run>) {
            return vb_set_slices(out.data(), detail::size(out), bytes_, size_, offset_, len_);
        }
        return 0;
    }

    /*
     * Takes (gathers): writes the bits at the indices, whole numbers of 8 to 64 bits, to the first
     * bits of `out`, one each. Returns the first position whose index is out of range, if there is
     * one; the bits for all indices are then unspecified.
     */
    template <class Indices, class Out>
    [[nodiscard]] std::optional<std::size_t> take_into(const Indices &indices, Out &&out) const;

    /* Does the same where `valid`, if there is one, is true; writes false at other positions. */
    template <class Indices, class Out>
    [[nodiscard]] std::optional<std::size_t> take_into(const Indices &indices,
        std::optional<bits> valid, Out &&out) const;

    /*
     * Writes the bits that `mask`, of the same length, selects, in order, to the first bits of
     * `out`, and returns their number.
     */
    template <class Out> std::size_t filter_into(bits mask, Out &&out) const;

    /*
     * Writes the values whose bit is set, in order, to the front of `out`, and returns their
     * number. There must be one value per bit. They are whole numbers, floats, bool, vb_u128, or
     * other types that can be copied as bytes. These must have 1, 2, 4, 8 or 16 bytes and the
     * alignment of an integer of that size; those of 16 bytes need alignment 8.
     */
    template <class Values, class Out>
    std::size_t keep_into(const Values &values, Out &&out) const;

    /*
     * Does the same in place (filters in place): moves those values to the front, and returns their
     * number. The values after these are unchanged.
     */
    template <class Values> std::size_t retain_in(Values &&values) const;

    /*
     * Undoes keep_into (scatters): writes the values, in order, over those items of `out` whose bit
     * is set, and returns their number. There must be one item per bit, and a value per set bit.
     * Values after these are ignored, and the other items are unchanged.
     */
    template <class Values, class Out>
    std::size_t scatter_into(const Values &values, Out &&out) const;

    /*
     * Copies the bits to one bool each (not of a std::vector<bool>), or to one byte 0 or 1. `out`
     * has exactly one item per bit; vb_unpack_bools and vb_unpack_bytes of C accept more.
     */
    template <class Bools> void copy_to_bools(Bools &&out) const;
    template <class Bytes> void copy_to_bytes(Bytes &&out) const;

private:
    friend class bits_mut;
    friend class ranks;
    friend std::size_t count_valid(std::optional<bits>, std::optional<bits>, std::size_t);
    friend struct detail::aggregate;
    template <class Values, class Indices, class Out>
    friend std::optional<std::size_t> take_values(const Values &, const Indices &,
        std::optional<bits>, Out &&);

    template <class Answer, class... Values>
    Answer by_another(Answer (*call)(const std::uint8_t *, std::size_t, std::size_t,
                          const std::uint8_t *, std::size_t, std::size_t, std::size_t, Values...),
        bits right, Values... values) const
    {
        detail::expect(right.len_ == len_, "windows are of two lengths");
        return call(bytes_, size_, offset_, right.bytes_, right.size_, right.offset_, len_,
            values...);
    }

    /* Calls `each` with each item that `find` writes, until it returns false. */
    template <class Items, class Find, class End, class Each>
    void walk(Items &items, Find find, End end, Each each) const
    {
        std::size_t from = 0, found = items.size();
        while (found == items.size() && from < len_) {
            found = find(items.data(), items.size(), bytes_, size_, offset_ + from, len_ - from);
            for (std::size_t k = 0; k < found; k++) {
                if (!each(from, items[k])) {
                    return;
                }
            }
            from += found == items.size() ? end(items.back()) : 0;
        }
    }

    template <class Indices>
    [[nodiscard]] std::optional<std::size_t> take(const Indices &indices, const bits *valid,
        std::uint8_t *out, std::size_t size, std::size_t at) const;

protected:
    const std::uint8_t *bytes_ = nullptr;
    std::size_t size_ = 0;
    std::size_t offset_ = 0;
    std::size_t len_ = 0;
};

/*
 * A writable window, with all calls of bits; every bit outside of it is unchanged. Don't assign a
 * window over const bytes to it through a reference to bits: it would then write these bytes.
 */
class bits_mut : public bits {
public:
    bits_mut(std::uint8_t *bytes, std::size_t size, std::size_t offset, std::size_t len)
        : bits(bytes, size, offset, len)
    {
    }

    template <class Bytes, detail::lender<Bytes, std::uint8_t> = 0>
    bits_mut(Bytes &bytes, std::size_t offset, std::size_t len)
        : bits_mut(bytes.data(), detail::size(bytes), offset, len) {}

    /* Over a temporary container too, if it refers to another's bytes, as a std::span does. */
    template <class Bytes, detail::borrower<Bytes, std::uint8_t> = 0>
    bits_mut(const Bytes &&bytes, std::size_t offset, std::size_t len)
        : bits_mut(bytes.data(), detail::size(bytes), offset, len) {}
    template <class Bytes, detail::owner<Bytes, std::uint8_t> = 0>
    bits_mut(const Bytes &&bytes, std::size_t offset, std::size_t len) = delete;

    /* Over words of 64 bits, as in bits. */
    template <class Words, detail::lender<Words, std::uint64_t> = 0>
    bits_mut(Words &words, std::size_t offset, std::size_t len)
        : bits_mut(detail::bytes_of(words), 8 * detail::size(words), offset, len) {}
    template <class Words, detail::borrower<Words, std::uint64_t> = 0>
    bits_mut(const Words &&words, std::size_t offset, std::size_t len)
        : bits_mut(detail::bytes_of(words), 8 * detail::size(words), offset, len) {}
    template <class Words, detail::owner<Words, std::uint64_t> = 0>
    bits_mut(const Words &&words, std::size_t offset, std::size_t len) = delete;

    /* Makes this the other window. Unlike copy_from it writes no bit. A temporary has no `=`. */
    bits_mut &operator=(const bits_mut &) & = default;
    bits_mut(const bits_mut &) = default;

    /* Deleted, as in bits; and const bytes can only be read. */
    template <class Item>
    bits_mut(Item *, std::size_t, std::size_t) = delete; // no size: write view(pointer, count)
    template <class Bytes, detail::fixed<Bytes> = 0>
    bits_mut(const Bytes &, std::size_t, std::size_t) = delete; // the bytes are const: write bits
    template <class Other, detail::other<Other> = 0>
    bits_mut(const Other &, std::size_t, std::size_t) = delete; // write view(cast to uint8_t *, ..)

    /* Returns the `len` bits from index `start` on. */
    bits_mut slice(std::size_t start, std::size_t len) const
    {
        detail::expect(start <= len_ && len <= len_ - start, "a slice is not in its window");
        return bits_mut(writable(), size_, offset_ + start, len);
    }

    void set(std::size_t place, bool value)
    {
        detail::expect(place < len_, "an index is not one of the window");
        vb_fill_bits(writable(), size_, offset_ + place, 1, value);
    }
    void fill(bool value) { vb_fill_bits(writable(), size_, offset_, len_, value); }
    void negate() { vb_negate_bits(writable(), size_, offset_, len_); }

    /*
     * Copies the `len` bits from index `from` on to those from index `to` on, which may overlap.
     * vb_move_bits of C has these numbers in memmove's order: to, from, length.
     */
    void copy_within(std::size_t from, std::size_t len, std::size_t to)
    {
        detail::expect(from <= len_ && len <= len_ - from && to <= len_ && len <= len_ - to,
            "bits to copy are not in the window");
        vb_move_bits(writable(), size_, offset_ + to, offset_ + from, len);
    }

    /* Here and below `source` or `right` has this window's length, and another container. */
    void copy_from(bits source) { by_another(vb_copy_bits, source); }
    void operator&=(bits right) { by_another(vb_and_bits, right); }
    void operator|=(bits right) { by_another(vb_or_bits, right); }
    void operator^=(bits right) { by_another(vb_xor_bits, right); }
    void and_not(bits right) { by_another(vb_and_not_bits, right); }

    /* Sets the bits of rows that aren't valid to false; a missing validity changes nothing. */
    void and_validity(std::optional<bits> validity);

    /* Writes the result of two windows, which may overlap each other. */
    void and_of(bits left, bits right) { by_two(vb_and_into, left, right); }
    void or_of(bits left, bits right) { by_two(vb_or_into, left, right); }
    void xor_of(bits left, bits right) { by_two(vb_xor_into, left, right); }
    void and_not_of(bits left, bits right) { by_two(vb_and_not_into, left, right); }

    /* Writes which rows are true on both sides (validities or masks); `nullopt` is all true. */
    void and_validities_of(std::optional<bits> left, std::optional<bits> right);

    /*
     * Undoes filter_into: writes the bits of `values` in order where `mask`, of this length, is
     * true, and false elsewhere. `values` has exactly one bit per set bit of the mask; scatter_into
     * and vb_deposit_bits of C accept more.
     */
    void deposit_of(bits values, bits mask);

    /*
     * Writes the bits of `values` that `mask`, of the same length, selects, in order, to the first
     * bits of the window, and returns their number. To join batches, write each one after the
     * `rows` bits of the earlier ones:
     *
     *     rows += out.slice(rows, out.size() - rows).filter_of(batch, mask);
     */
    std::size_t filter_of(bits values, bits mask);

    /* Does the same with a validity; if it is missing, writes true for each row selected. */
    std::size_t filter_validity_of(std::optional<bits> validity, bits mask);

    /*
     * Takes bits of `values`, as bits::take_into writes them, where `valid`, if there is one, is
     * true; writes false at other positions. Returns the first position that counts and whose index
     * is out of range, if any; all bits are unspecified then. With dictionary codes as indices this
     * is a semi-join. It is also one with other numbers, if `valid` is false at each out of range:
     *
     *     bad = rows.take_of(selected_keys, codes, valid);    // rows: those with these keys
     */
    template <class Indices>
    [[nodiscard]] std::optional<std::size_t> take_of(bits values, const Indices &indices,
        std::optional<bits> valid = std::nullopt);

    /*
     * Writes where `left and right`, or `left or right`, is true, by three-valued logic: `and` is
     * false if one is false, `or` is true if one is true, even if the other one is null. Else the
     * result is null if a side is null: this window and `valid` then both get false. A side without
     * a validity has no null; a value at a null may be any. So for a `not`, negate the values and
     * keep `valid`. To select rows, `&=` the values with `valid`.
     */
    void and_kleene_of(bits left, std::optional<bits> left_valid, bits right,
        std::optional<bits> right_valid, bits_mut valid);
    void or_kleene_of(bits left, std::optional<bits> left_valid, bits right,
        std::optional<bits> right_valid, bits_mut valid);

    /* Copies one bool per bit (not of a std::vector<bool>), or bytes, true if they are not 0. */
    template <class Bools> void copy_from_bools(const Bools &bools);
    template <class Bytes> void copy_from_truthy(const Bytes &truthy);

private:
    template <class Values, class Number>
    friend void compare(const Values &, vb_comparison, Number, bits_mut);
    template <class Values, class Others>
    friend void compare_with(const Values &, vb_comparison, const Others &, bits_mut);

    template <class Call> void by_another(Call call, bits right)
    {
        detail::expect(right.len_ == len_, "windows are of two lengths");
        call(writable(), size_, offset_, right.bytes_, right.size_, right.offset_, len_);
    }

    template <class Call> void by_two(Call call, bits left, bits right)
    {
        detail::expect(left.len_ == len_ && right.len_ == len_, "windows are of two lengths");
        call(writable(), size_, offset_, left.bytes_, left.size_, left.offset_, right.bytes_,
            right.size_, right.offset_, len_);
    }

    template <class Call>
    void by_columns(Call call, bits left, std::optional<bits> left_valid, bits right,
        std::optional<bits> right_valid, bits_mut valid);

    /* Returns the bytes for writing. Each constructor has received writable bytes. */
    std::uint8_t *writable() const { return const_cast<std::uint8_t *>(bytes_); }
};

} // namespace vortex_bits

#include "vortex_bits_aggregate.hpp"
#include "vortex_bits_compare.hpp"
#include "vortex_bits_gather.hpp"
#include "vortex_bits_groups.hpp"
#include "vortex_bits_ranks.hpp"
#include "vortex_bits_texts_mut.hpp"
#include "vortex_bits_top.hpp"
#include "vortex_bits_values.hpp"

#endif

#endif
