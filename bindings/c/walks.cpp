/*
 * Tests walks of vortex_bits.hpp that stop early, windows over temporary views, windows over words,
 * and moves within a window or a column.
 */
#include "tests.hpp"
#include "vortex_bits.hpp"

#include <cstring>

using vortex_bits::bits;
using vortex_bits::bits_mut;
using buffer = std::vector<std::uint8_t>;

/* A view of bytes that it doesn't own, like std::span of C++20. */
struct view {
    std::uint8_t *first;
    std::size_t count;
    std::uint8_t *data() const { return first; }
    std::size_t size() const { return count; }
};

/* Tests walks that end at the n-th index or run, because the function returns false. */
static void stops(const buffer &all, std::size_t n)
{
    const bits window(all, 3, 8 * all.size() - 5);
    const std::vector<std::size_t> places = window.set_indices();
    const std::vector<vb_run> runs = window.set_slices();
    const std::vector<vb_run_u32> narrow = window.set_slices<vb_run_u32>();
    std::vector<vb_run_u32> some(runs.size() / 2 + 1);
    check(narrow.size() == runs.size()
            && window.set_slices_into(some) == std::min(some.size(), runs.size()),
        "how many runs of 32 bits");
    for (std::size_t k = 0; k < runs.size(); k++) {
        const vb_run_u32 written = k < some.size() ? some[k] : narrow[k];
        check(narrow[k].start == runs[k].start && narrow[k].end == runs[k].end
                && written.start == narrow[k].start && written.end == narrow[k].end,
            "a run of 32 bits");
    }
    std::vector<std::size_t> walked;
    window.for_each_set([&](std::size_t place) {
        walked.push_back(place);
        return walked.size() < n;
    });
    const std::size_t wanted = std::min(std::max<std::size_t>(n, 1), places.size());
    check(walked.size() == wanted && std::equal(walked.begin(), walked.end(), places.begin()),
        "a walk over indices that stops");
    std::size_t calls = 0, behind = 0;
    window.for_each_run([&](std::size_t start, std::size_t end) {
        check(start == runs[calls].start && end == runs[calls].end, "a run before the stop");
        behind = end;
        return ++calls < n;
    });
    check(calls == std::min(std::max<std::size_t>(n, 1), runs.size()),
        "a walk over runs that stops");
    check(calls == 0 || behind == runs[calls - 1].end, "the run at which it stops");
    calls = 0;
    window.for_each_set([&](std::size_t) { return ++calls, 0; });
    check(calls == places.size(), "a number doesn't stop a walk");
    enum class [[nodiscard]] told { yes };
    window.for_each_set([&](std::size_t) { return ++calls, told::yes; });
    window.for_each_run([&](std::size_t, std::size_t) { return ++calls, told::yes; });
    check(calls == 2 * places.size() + runs.size(), "a result that must be used is ignored");
}

/* Windows over temporary views of bytes that outlive them. */
static void views()
{
    buffer all = {0xB6, 0x01};
    const bits window(view{all.data(), all.size()}, 1, 8);
    check(window == bits(all, 1, 8), "a window over a view");
    bits_mut(view{all.data(), all.size()}, 5, 6).negate();
    check(all == buffer({0x56, 0x06}), "a write over a view");
    refused([&] { bits(view{all.data(), 2}, 0, 17); }, "a window past the bytes of a view");
    refused([&] { bits_mut(view{all.data(), 2}, 15, 2); }, "a window past the bytes of a view");
#ifdef __cpp_lib_span
    check(bits(std::span<const std::uint8_t>(all), 3, 9).bytes().size() == 2, "a span");
    bits_mut(std::span<std::uint8_t>(all.data(), 1), 4, 4).fill(true);
    check(all == buffer({0xF6, 0x06}), "a write over a span");
#endif
}

/*
 * Compares windows over words with those over the same bytes, at each offset of two words and more.
 */
static void words(const buffer &all)
{
    std::vector<std::uint64_t> some(all.size() / 8);
    std::memcpy(some.data(), all.data(), 8 * some.size());
    for (std::size_t offset = 0; offset < 130; offset++) {
        const std::size_t len = 64 * some.size() - 2 * offset;
        buffer bytes = all;
        std::vector<std::uint64_t> written = some;
        check(bits(some, offset, len) == bits(all, offset, len), "a window over words");
        bits_mut(bytes, offset, len).negate();
        bits_mut(written, offset, len).negate();
        check(std::memcmp(written.data(), bytes.data(), 8 * some.size()) == 0, "a write to words");
        bits_mut(vortex_bits::view(written.data(), some.size()), offset, len).negate();
        check(written == some, "a write over a view of words");
    }
    check(bits(some, 0, 64 * some.size()).count_ones() > 0, "all bits of words");
    refused([&] { bits(some, 1, 64 * some.size()); }, "a window past its words");
    refused([&] { bits_mut(some, 64 * some.size(), 1); }, "a window behind its words");
}

/* Tests indices of 32 bits in a window that is too long: no byte is read. */
static void narrow_indices()
{
    const std::size_t len = (std::size_t(1) << 32) + 1;
    const std::uint8_t byte = 1;
    std::array<std::uint32_t, 1> one = {7};
    refused([&] { bits(&byte, len / 8 + 1, 0, len).set_indices_into(one); },
        "a window of more bits than 32 bits can index");
    check(one[0] == 7, "a refused walk wrote nothing");
    std::array<vb_run_u32, 1> run = {{{7, 8}}};
    refused([&] { bits(&byte, len / 8 + 1, 0, len - 1).set_slices_into(run); },
        "a window whose end 32 bits can't index");
    check(run[0].start == 7 && run[0].end == 8, "a refused walk of runs wrote nothing");
}

/* Tests the class view: its items, and its errors. */
static void items()
{
    const buffer all = {5, 6, 7};
    const vortex_bits::view middle(all.data() + 1, 2);
    check(buffer(middle.begin(), middle.end()) == buffer({6, 7}) && middle[1] == 7, "a view");
    refused([&] { return middle[2]; }, "a position past a view");
    const vortex_bits::view<std::uint16_t> none;
    check(none.empty() && none.size() == 0 && none.begin() == none.end(), "a view of nothing");
}

/* Compares moves of bits within their window with a loop over a copy. */
static void moves(const buffer &any)
{
    for (const std::size_t len : std::array<std::size_t, 6>{0, 1, 64, 65, 500, 1300}) {
        for (const std::size_t from : std::array<std::size_t, 4>{0, 1, 9, 40}) {
            for (const std::size_t to : std::array<std::size_t, 4>{0, 3, 8, 41}) {
                buffer got = any, wanted = any;
                bits_mut(got, 5, 1350).copy_within(from, len, to);
                for (std::size_t i = 0; i < len; i++) {
                    bits_mut(wanted, 5, 1350).set(to + i, bits(any, 5, 1350)[from + i]);
                }
                check(got == wanted, "copy_within");
            }
        }
    }
    buffer some = any;
    bits_mut window(some, 5, 1350);
    refused([&] { window.copy_within(1, 1350, 0); }, "a move of bits past the window");
    refused([&] { window.copy_within(0, 1350, 1); }, "a move past the window");
    refused([&] { window.copy_within(1351, 0, 0); }, "a move from past the window");
    refused([&] { window.copy_within(0, 0, SIZE_MAX); }, "a move to past the window");
    check(some == any, "a refused move left all as it was");
}

/* Values of some type that a mask filters in place. */
template <class Value> static void retains(const buffer &any)
{
    const bits mask(any, 3, 500);
    std::vector<Value> column(500);
    for (std::size_t i = 0; i < column.size(); i++) {
        std::memcpy(&column[i], &any[i], sizeof(Value));
    }
    const std::vector<Value> all = column;
    std::vector<Value> wanted = column;
    const std::size_t kept = mask.keep_into(all, wanted);
    check(mask.retain_in(column) == kept, "retain_in");
    check(std::memcmp(column.data(), wanted.data(), 500 * sizeof(Value)) == 0, "what it retains");
    refused([&] { (void)bits(any, 3, 499).retain_in(column); }, "two lengths");
    check(std::memcmp(column.data(), wanted.data(), 500 * sizeof(Value)) == 0, "a refused filter");
}

int main()
{
    buffer any(170), more(600);
    for (std::size_t i = 0; i < more.size(); i++) {
        more[i] = static_cast<std::uint8_t>(i * i * 37 >> 3);
    }
    std::copy_n(more.begin(), any.size(), any.begin());
    for (const std::size_t n : std::array<std::size_t, 9>{0, 1, 2, 63, 64, 65, 128, 129, 9999}) {
        for (const buffer &all : {any, buffer(200, 0xFF), buffer(200, 0x55), buffer(200)}) {
            stops(all, n);
        }
    }
    views();
    words(any);
    items();
    moves(any);
    retains<std::uint8_t>(more);
    retains<std::int16_t>(more);
    retains<float>(more);
    retains<std::uint64_t>(more);
    retains<vb_u128>(more);
    narrow_indices();
    return failures == 0 ? 0 : 1;
}
