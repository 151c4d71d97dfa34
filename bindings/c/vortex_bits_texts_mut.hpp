/*
 * A column that grows by the texts that masks and indices select, a part of vortex_bits.hpp, which
 * includes this file. This code is tested, not proved.
 *
 *     vortex_bits::texts_mut<std::int32_t> kept;
 *     kept.append_kept(cities, mask);                     // for each batch
 *     kept.offsets(), kept.bytes();                       // the buffers of an array of Arrow
 */
#ifndef VORTEX_BITS_TEXTS_MUT_HPP
#define VORTEX_BITS_TEXTS_MUT_HPP

#include "vortex_bits_texts.hpp"

#if __cplusplus >= 201703L

#include <cstring>
#include <string>

namespace vortex_bits {

template <class Offset> class texts;

namespace detail {

/* Returns the first of `count` positions that passes a test, if there is one. */
template <class Test> std::optional<std::size_t> first_that(std::size_t count, Test test)
{
    for (std::size_t k = 0; k < count; k++) {
        if (test(k)) {
            return k;
        }
    }
    return std::nullopt;
}

/*
 * Copies a text, and returns the end of the copy. For 1 to 16 bytes it copies 16 if both sides have
 * 16 bytes up to their ends: a copy of a known size takes two instructions.
 */
inline char *copy_text(char *to, const char *to_end, std::string_view text, const char *from_end)
{
    constexpr std::ptrdiff_t SHORT = 16;
    if (text.empty()) {
        return to;
    }
    if (text.size() <= SHORT && to_end - to >= SHORT && from_end - text.data() >= SHORT) {
        std::memcpy(to, text.data(), SHORT);
    } else {
        std::memcpy(to, text.data(), text.size());
    }
    return to + text.size();
}

/* Space for texts to append: the next offset, the next byte, and the end of the bytes. */
template <class Offset> struct text_space {
    Offset *offsets;
    char *bytes;
    const char *end;
};

} // namespace detail

/*
 * A column that owns its texts, and grows at its end by single texts or by those of batches. Its
 * constructor, copies and appends allocate memory. An append throws std::out_of_range, before it
 * changes anything, if the lengths of its arguments differ, or the bytes become more than the
 * largest `Offset`. If memory runs out, an append appends nothing, and an assignment changes
 * nothing. Texts to append must not be its own. `Offset` is that of texts.
 */
template <class Offset> class texts_mut {
    static_assert(std::is_same_v<Offset, std::int32_t> || std::is_same_v<Offset, std::int64_t>,
        "offsets of texts are of std::int32_t or std::int64_t");

public:
    texts_mut() = default;
    texts_mut(const texts_mut &) = default;
    texts_mut(texts_mut &&) noexcept = default;
    texts_mut &operator=(texts_mut from) noexcept
    {
        offsets_.swap(from.offsets_);
        bytes_.swap(from.bytes_);
        return *this;
    }

    std::size_t size() const { return std::max<std::size_t>(offsets_.size(), 1) - 1; }
    bool empty() const { return size() == 0; }

    /* The offsets, one more than texts (none after a move), and the bytes, as Arrow has them. */
    const std::vector<Offset> &offsets() const & { return offsets_; }
    const std::string &bytes() const & { return bytes_; }

    /* Returns all texts, or one of them, valid until the next append, assignment or move. */
    texts<Offset> as_texts() const & { return texts<Offset>(offsets_, bytes_, size()); }
    std::string_view operator[](std::size_t row) const & { return as_texts()[row]; }

    /* Deleted: temporary texts die before the result. */
    const std::vector<Offset> &offsets() const && = delete;
    const std::string &bytes() const && = delete;
    texts<Offset> as_texts() const && = delete;
    std::string_view operator[](std::size_t row) const && = delete;

    void append(std::string_view text)
    {
        const space to = lengthen(1, grown(0, text.size()));
        std::copy(text.begin(), text.end(), to.bytes);
        *to.offsets = static_cast<Offset>(bytes_.size());
    }

    /* Appends the texts whose bit in `mask`, one per text, is set, and returns their number. */
    std::size_t append_kept(texts<Offset> from, bits mask)
    {
        detail::expect(mask.size() == from.size(), "not a bit for each text");
        std::size_t rows = 0, bytes = 0;
        mask.for_each_run([&](std::size_t start, std::size_t end) {
            rows += end - start;
            bytes = grown(bytes, from.from(end) - from.from(start));
        });
        space to = lengthen(rows, bytes);
        const char *end_of_bytes = from.bytes_ + from.size_;
        mask.for_each_run([&](std::size_t start, std::size_t end) {
            const auto moved = static_cast<Offset>(to.bytes - bytes_.data()) - from.offsets_[start];
            to.offsets = std::transform(from.offsets_ + start + 1, from.offsets_ + end + 1,
                to.offsets, [&](Offset offset) { return offset + moved; });
            to.bytes = detail::copy_text(to.bytes, to.end, from.text(start, end), end_of_bytes);
        });
        return rows;
    }

    /*
     * Appends the texts at the indices, whole numbers of 8 to 64 bits, one each; where `valid` is
     * false, an empty one, whatever the index. Returns the first position that counts and whose
     * index is out of range, if there is one, and appends nothing; but if the texts before it have
     * too many bytes, it throws.
     */
    template <class Indices>
    [[nodiscard]] std::optional<std::size_t> append_taken(texts<Offset> from,
        const Indices &indices, std::optional<bits> valid = std::nullopt)
    {
        using index = std::remove_cv_t<detail::lent_t<const Indices>>;
        static_assert(detail::is_index<index>(),
            "append_taken takes indices of a whole number of 8, 16, 32 or 64 bits");
        const std::size_t count = detail::size(indices);
        detail::expect(!valid || valid->size() == count, "not a bit of validity for each index");
        // A negative index becomes greater than each row.
        const auto at = [&](std::size_t k) { return static_cast<std::size_t>(indices.data()[k]); };
        const auto counts = [&](std::size_t k) { return !valid || (*valid)[k]; };
        std::size_t bytes = 0;
        const auto is_wrong = [&](std::size_t k) {
            const bool is_row = at(k) < from.size();
            bytes = counts(k) && is_row ? grown(bytes, from.length(at(k))) : bytes;
            return counts(k) && !is_row;
        };
        if (const auto wrong = detail::first_that(count, is_wrong)) {
            return wrong;
        }
        space to = lengthen(count, bytes);
        const char *end_of_bytes = from.bytes_ + from.size_;
        for (std::size_t k = 0; k < count; k++) {
            const std::string_view text = counts(k) ? from.text(at(k)) : std::string_view();
            to.bytes = detail::copy_text(to.bytes, to.end, text, end_of_bytes);
            *to.offsets++ = static_cast<Offset>(to.bytes - bytes_.data());
        }
        return std::nullopt;
    }

private:
    using space = detail::text_space<Offset>;

    /* Returns the sum of two numbers of bytes to append. Throws if no offset can be their end. */
    std::size_t grown(std::size_t bytes, std::size_t more) const
    {
        const auto most = static_cast<std::size_t>(std::numeric_limits<Offset>::max());
        const std::size_t own = offsets_.empty() ? 0 : bytes_.size();
        detail::expect(more <= most - own - bytes, "more bytes than an offset can have");
        return bytes + more;
    }

    /* Texts that were moved from have no offset. */
    void begin()
    {
        if (offsets_.empty()) {
            bytes_.clear();
            offsets_.push_back(0);
        }
    }

    /* Appends zeros for such numbers of texts and bytes. If memory runs out, appends nothing. */
    space lengthen(std::size_t rows, std::size_t bytes)
    {
        begin();
        detail::reserve(offsets_, rows);
        detail::reserve(bytes_, bytes);
        offsets_.resize(offsets_.size() + rows);
        bytes_.resize(bytes_.size() + bytes);
        char *end = bytes_.data() + bytes_.size();
        return {offsets_.data() + offsets_.size() - rows, end - bytes, end};
    }

    std::vector<Offset> offsets_ = {0};
    std::string bytes_;
};

} // namespace vortex_bits

#endif

#endif
