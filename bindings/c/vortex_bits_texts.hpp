/*
 * Columns of texts or binary values, a part of vortex_bits.hpp, which includes this file:
 * predicates that write a mask. They compare bytes as unsigned numbers. This code is tested, not
 * proved.
 *
 *     std::vector<std::int32_t> offsets = {0, 4, 8, 12};
 *     std::string bytes = "OsloRomeLima";
 *     std::vector<std::uint8_t> mask(1);
 *     vortex_bits::texts cities(offsets, bytes);
 *     cities.contains("m", vortex_bits::bits_mut(mask, 0, 3));    // 0x06: Rome and Lima
 */
#ifndef VORTEX_BITS_TEXTS_HPP
#define VORTEX_BITS_TEXTS_HPP

#include "vortex_bits.hpp"

#if __cplusplus >= 201703L

#include <cstring>
#include <initializer_list>
#include <string>

namespace vortex_bits {

namespace detail {

/* Returns up to eight bytes as a number, the first one lowest. Missing bytes are 0. */
inline std::uint64_t eight(const char *bytes, std::size_t size)
{
    std::uint64_t word = 0;
    if (size >= sizeof word) {
        std::memcpy(&word, bytes, sizeof word);
    } else if (size != 0) {
        std::memcpy(&word, bytes, size);
    }
    return word;
}

/* Returns the mask of the first `size` bytes of such a number, by a table instead of a branch. */
inline std::uint64_t low_bytes(std::size_t size)
{
    static constexpr std::uint64_t masks[] = {0, 0xFF, 0xFFFF, 0xFFFFFF, UINT32_MAX, 0xFFFFFFFFFF,
        0xFFFFFFFFFFFF, 0xFFFFFFFFFFFFFF, UINT64_MAX};
    return masks[std::min<std::size_t>(size, 8)];
}

/* A text to look for, with its first eight bytes. */
struct wanted_text {
    explicit wanted_text(std::string_view of) : text(of), first(eight(of.data(), of.size())) {}

    std::string_view text;
    std::uint64_t first;
};

/* The texts of is_in, in the order of their first eight bytes as a number, then of all bytes. */
class wanted_texts {
public:
    template <class Texts> explicit wanted_texts(const Texts &texts)
    {
        using item = decltype(*std::begin(texts));
        static_assert(std::is_lvalue_reference_v<item> || std::is_same_v<item, std::string_view>,
            "the wanted texts are those of a container, not temporary ones");
        for (const auto &text : texts) {
            all_.emplace_back(std::string_view(text));
        }
        std::sort(all_.begin(), all_.end(), is_before);
        for (const wanted_text &it : all_) {
            lengths_ |= bit_of_length(it.text.size());
            hashes_ |= std::uint64_t(1) << hash(it.first);
        }
    }

    /* Returns false only if none of them has this number of bytes and these first eight. */
    bool may_have(std::size_t size, std::uint64_t first) const
    {
        return (lengths_ & bit_of_length(size) & -(hashes_ >> hash(first) & 1)) != 0;
    }

    bool has(std::string_view text, std::uint64_t first) const
    {
        const auto is = [&](const wanted_text &it) { return it.first == first && it.text == text; };
        return all_.size() <= FEW
            ? std::any_of(all_.begin(), all_.end(), is)
            : std::binary_search(all_.begin(), all_.end(), wanted_text(text), is_before);
    }

private:
    /* A loop over up to this number of texts is faster than a binary search. */
    static constexpr std::size_t FEW = 16;

    static bool is_before(const wanted_text &one, const wanted_text &other)
    {
        return one.first != other.first ? one.first < other.first : one.text < other.text;
    }

    static std::uint64_t bit_of_length(std::size_t size)
    {
        return std::uint64_t(1) << std::min<std::size_t>(size, 63);
    }

    static std::uint64_t hash(std::uint64_t first) { return first * 0x9E3779B97F4A7C15u >> 58; }

    std::vector<wanted_text> all_;
    std::uint64_t lengths_ = 0, hashes_ = 0;
};

/* Returns the bits of what `passes` returns for up to 64 rows from `row` on. */
template <class Passes>
std::uint64_t word_of(std::size_t row, std::size_t count, const Passes &passes)
{
    std::uint64_t word = 0;
    for (std::size_t k = count; k > 0; k--) {
        word = 2 * word + passes(row + k - 1);
    }
    return word;
}

/* Returns the bits of `rows` for which `passes` returns true. Bit 0 is that of row `row`. */
template <class Passes>
std::uint64_t those_that(std::uint64_t rows, std::size_t row, const Passes &passes)
{
    std::uint64_t passed = 0;
    for (; rows != 0; rows &= rows - 1) {
        const int k = __builtin_ctzll(rows);
        passed |= std::uint64_t(passes(row + static_cast<std::size_t>(k))) << k;
    }
    return passed;
}

template <class Item> constexpr bool is_byte()
{
    return std::is_same_v<Item, char> || std::is_same_v<Item, unsigned char>
        || std::is_same_v<Item, std::byte>;
}

/* Whether a container is alive after the call that it is an argument of. */
template <class Container>
inline constexpr bool stays = std::is_lvalue_reference_v<Container>
    || is_borrowed<std::remove_cv_t<std::remove_reference_t<Container>>>;

} // namespace detail

template <class Offset> class texts_mut;

/*
 * A column of texts or binary values, over the offsets and the bytes of an array of Arrow: its
 * formats u and z have an `Offset` of std::int32_t, U and Z of std::int64_t. It owns neither. It
 * has no validity: remove null rows from a mask by and_validity.
 */
template <class Offset> class texts {
    static_assert(std::is_same_v<Offset, std::int32_t> || std::is_same_v<Offset, std::int64_t>,
        "offsets of texts are of std::int32_t or std::int64_t");

public:
    /* No texts. */
    texts() = default;

    /*
     * Text k is the bytes from offset k to offset k + 1. So there is one offset more than texts;
     * without offsets there are no texts. Throws std::out_of_range if an offset is negative, less
     * than the one before it, or past the bytes. It reads all offsets once.
     */
    template <class Offsets, class Bytes> texts(Offsets &&offsets, Bytes &&bytes)
    {
        static_assert(detail::stays<Offsets> && detail::stays<Bytes>,
            "a temporary container dies before the texts: name it");
        static_assert(detail::is_byte<std::remove_cv_t<detail::lent_of<Bytes>>>(),
            "texts are over char, std::uint8_t or std::byte, in a type with data() and size(): for "
            "a pointer write vortex_bits::view(pointer, count)");
        offsets_ = offsets.data();
        len_ = std::max<std::size_t>(detail::size(offsets), 1) - 1;
        bytes_ = reinterpret_cast<const char *>(bytes.data());
        size_ = detail::size(bytes);
        detail::expect(detail::size(offsets) == 0 || are_offsets(),
            "an offset of a text is negative, less than the one before it, or past the bytes");
    }

    std::size_t size() const { return len_; }
    bool empty() const { return len_ == 0; }

    std::string_view operator[](std::size_t row) const
    {
        detail::expect(row < len_, "a row is not one of the texts");
        return text(row);
    }

    /* Returns the `len` texts from row `start` on. */
    texts slice(std::size_t start, std::size_t len) const
    {
        detail::expect(start <= len_ && len <= len_ - start, "a slice is not in its texts");
        texts slice = *this;
        slice.offsets_ += start;
        slice.len_ = len;
        return slice;
    }

    /*
     * Each predicate writes to bit k of `out`, one bit per text, whether text k passes. It throws
     * std::out_of_range, before it writes, if the lengths differ. Here a text passes if it compares
     * with another one by `op`: VB_EQUAL, VB_LESS, .. of vortex_bits_compare.h; if `op` is none of
     * these, the call throws too.
     */
    void compare(vb_comparison op, std::string_view other, bits_mut out) const;

    void starts_with(std::string_view start, bits_mut out) const;
    void ends_with(std::string_view end, bits_mut out) const;

    /* Searches the bytes of up to 512 texts at once. */
    void contains(std::string_view part, bits_mut out) const;

    /*
     * A text passes if it equals an item of `wanted`, which holds std::string_view, std::string or
     * the like. The call allocates memory for them.
     */
    template <class Texts> void is_in(const Texts &wanted, bits_mut out) const;
    void is_in(std::initializer_list<std::string_view> wanted, bits_mut out) const
    {
        is_in<std::initializer_list<std::string_view>>(wanted, out);
    }

private:
    friend class texts_mut<Offset>;

    /* Offsets that texts_mut has written need no test. */
    texts(const std::vector<Offset> &offsets, const std::string &bytes, std::size_t len)
        : offsets_(offsets.data()), len_(len), bytes_(bytes.data()), size_(bytes.size())
    {
    }

    /* The number of texts whose bits are computed before they are copied to the output. */
    static constexpr std::size_t BLOCK = 512;
    using block = std::array<std::uint64_t, BLOCK / 64>;

    bool are_offsets() const
    {
        bool is_wrong = offsets_[0] < 0;
        for (std::size_t row = 0; row < len_; row += BLOCK) {
            const std::size_t count = std::min(BLOCK, len_ - row);
            const view starts(offsets_ + row, count), ends(offsets_ + row + 1, count);
            block words = {};
            bits_mut falls(words, 0, count);
            vortex_bits::compare_with(ends, VB_LESS, starts, falls);
            is_wrong |= falls.any();
        }
        return !is_wrong && from(len_) <= size_;
    }

    std::size_t from(std::size_t row) const { return static_cast<std::size_t>(offsets_[row]); }
    std::size_t length(std::size_t row) const { return from(row + 1) - from(row); }
    std::string_view text(std::size_t row) const { return text(row, row + 1); }

    /* Returns the bytes of the texts from row `start` to row `end`. */
    std::string_view text(std::size_t start, std::size_t end) const
    {
        return {bytes_ + from(start), from(end) - from(start)};
    }

    /* Returns eight bytes from an index on, also those after the end of a text. */
    std::uint64_t eight(std::size_t at) const { return detail::eight(bytes_ + at, size_ - at); }

    /* Writes the bits of all texts. `fill` gets the first row, the number of rows, and a block. */
    template <class Fill> void write_blocks(bits_mut out, Fill fill) const
    {
        detail::expect(out.size() == len_, "not a bit for each text");
        for (std::size_t row = 0; row < len_; row += BLOCK) {
            const std::size_t count = std::min(BLOCK, len_ - row);
            block words = {};
            fill(row, count, words);
            out.slice(row, count).copy_from(bits(words, 0, count));
        }
    }

    /* Writes words. `word` gets the first row and the number of rows of each. */
    template <class Word> void write_words(bits_mut out, Word word) const
    {
        write_blocks(out, [&](std::size_t row, std::size_t count, block &words) {
            for (std::size_t k = 0; k < count; k += 64) {
                words[k / 64] = word(row + k, std::min<std::size_t>(64, count - k));
            }
        });
    }

    /* Writes what `passes` returns for each row. */
    template <class Passes> void write(bits_mut out, Passes passes) const
    {
        write_words(out, [&](std::size_t row, std::size_t count) {
            return detail::word_of(row, count, passes);
        });
    }

    /*
     * Writes what `passes` returns for each row. This must be false unless `wanted` is at the index
     * that `at` returns for the row. So up to eight bytes from there on are compared first, even
     * outside of the row: most rows fail this test.
     */
    template <class At, class Passes>
    void write_beginning(bits_mut out, std::string_view wanted, At at, Passes passes) const
    {
        const std::uint64_t first = detail::eight(wanted.data(), wanted.size());
        const std::uint64_t mask = detail::low_bytes(wanted.size());
        const auto begins = [&](std::size_t row) {
            std::uint64_t word;
            std::memcpy(&word, bytes_ + at(row), sizeof word);
            return ((word ^ first) & mask) == 0;
        };
        write_words(out, [&](std::size_t row, std::size_t count) {
            // Whether eight bytes can be read at each row's index. An index is at most `last`, and
            // at least the start of the first row less the size of `wanted`.
            const std::size_t last = from(row + count);
            const bool are_eight = from(row) >= wanted.size() && last + 8 <= size_;
            const std::uint64_t all = UINT64_MAX >> (64 - count);
            const std::uint64_t rows = are_eight ? detail::word_of(row, count, begins) : all;
            return detail::those_that(rows, row, passes);
        });
    }

    void equals(std::string_view other, bits_mut out) const;
    void is_less(std::string_view other, bool or_equal, bits_mut out) const;
    void find(std::string_view part, std::size_t first, std::size_t count, block &words) const;

    /* Returns the row that has the byte at an index, among those from `row` on. */
    std::size_t row_of(std::size_t place, std::size_t row) const
    {
        while (from(row + 1) <= place) {
            row++;
        }
        return row;
    }

    const Offset *offsets_ = nullptr;
    std::size_t len_ = 0;
    const char *bytes_ = nullptr;
    std::size_t size_ = 0;
};

template <class Offsets, class Bytes>
texts(Offsets &&, Bytes &&) -> texts<std::remove_cv_t<detail::lent_of<Offsets>>>;

/*
 * Returns the `len` texts from row `offset` on of an array of Arrow, whose buffers 1 and 2 are the
 * offsets and the bytes. Without rows both may be null. It throws as the constructor of texts does.
 * The caller ensures that the buffers have offset + len + 1 offsets, and the bytes up to the last
 * one of these:
 *
 *     auto names = vortex_bits::texts_of<std::int32_t>(array.buffers[1], array.buffers[2], offset,
 *         len);
 */
template <class Offset>
texts<Offset> texts_of(const void *offsets, const void *bytes, std::size_t offset, std::size_t len)
{
    if (len == 0) {
        return {};
    }
    detail::expect(offsets != nullptr, "texts have no offsets");
    const view rows(static_cast<const Offset *>(offsets) + offset, len + 1);
    return {rows, view(static_cast<const char *>(bytes), static_cast<std::size_t>(rows[len]))};
}

template <class Offset>
void texts<Offset>::compare(vb_comparison op, std::string_view other, bits_mut out) const
{
    detail::expect(op <= VB_GREATER_OR_EQUAL, "not a comparison");
    if (op == VB_EQUAL || op == VB_NOT_EQUAL) {
        equals(other, out);
    } else {
        is_less(other, op == VB_LESS_OR_EQUAL || op == VB_GREATER, out);
    }
    if (op == VB_NOT_EQUAL || op == VB_GREATER || op == VB_GREATER_OR_EQUAL) {
        out.negate();
    }
}

template <class Offset> void texts<Offset>::equals(std::string_view other, bits_mut out) const
{
    write_beginning(out, other, [&](std::size_t row) { return from(row); },
        [&](std::size_t row) { return text(row) == other; });
}

template <class Offset>
void texts<Offset>::is_less(std::string_view other, bool or_equal, bits_mut out) const
{
    const std::uint64_t first = __builtin_bswap64(detail::eight(other.data(), other.size()));
    write(out, [&](std::size_t row) {
        const std::uint64_t mask = detail::low_bytes(length(row));
        const std::uint64_t own = __builtin_bswap64(eight(from(row)) & mask);
        return own != first ? own < first : text(row).compare(other) < int(or_equal);
    });
}

template <class Offset>
void texts<Offset>::starts_with(std::string_view start, bits_mut out) const
{
    write_beginning(out, start, [&](std::size_t row) { return from(row); },
        [&](std::size_t row) { return text(row).substr(0, start.size()) == start; });
}

template <class Offset> void texts<Offset>::ends_with(std::string_view end, bits_mut out) const
{
    write_beginning(out, end, [&](std::size_t row) { return from(row + 1) - end.size(); },
        [&](std::size_t row) {
            const bool is_long = length(row) >= end.size();
            return is_long && text(row).substr(length(row) - end.size()) == end;
        });
}

template <class Offset> void texts<Offset>::contains(std::string_view part, bits_mut out) const
{
    write_blocks(out, [&](std::size_t row, std::size_t count, block &words) {
        if (part.empty()) {
            words.fill(UINT64_MAX);
        } else {
            find(part, row, count, words);
        }
    });
}

/* Sets the bits of the texts that contain a part, among `count` texts from row `first` on. */
template <class Offset>
void texts<Offset>::find(std::string_view part, std::size_t first, std::size_t count,
    block &words) const
{
    const std::string_view all(bytes_, from(first + count));
    std::size_t row = first, place = all.find(part, from(first));
    while (place != all.npos) {
        row = row_of(place, row);
        const bool is_within = part.size() <= from(row + 1) - place;
        words[(row - first) / 64] |= std::uint64_t(is_within) << (row - first) % 64;
        place = all.find(part, from(row + 1));
    }
}

template <class Offset>
template <class Texts>
void texts<Offset>::is_in(const Texts &wanted, bits_mut out) const
{
    const detail::wanted_texts all(wanted);
    write(out, [&](std::size_t row) {
        const std::uint64_t first = eight(from(row)) & detail::low_bytes(length(row));
        return all.may_have(length(row), first) && all.has(text(row), first);
    });
}

} // namespace vortex_bits

#endif

#endif
