/*
 * Tests the reading calls of writable windows of vortex_bits.hpp, windows past their bytes, what
 * errors say, and how often filters count the bits of a mask.
 */
#include "tests.hpp"
#include "vortex_bits.h"

#include <cstddef>
#include <cstdint>

/*
 * The number of times that a class counts bits. If a call of C counts them too, the class must not,
 * unless the output has less space than the mask has bits.
 */
static std::size_t counts = 0;

static std::size_t counted(const std::uint8_t *bytes, std::size_t size, std::size_t offset,
    std::size_t len)
{
    counts++;
    return vb_count_ones(bytes, size, offset, len);
}

#define vb_count_ones counted
#include "vortex_bits.hpp"

using vortex_bits::bits;
using vortex_bits::bits_mut;
using buffer = std::vector<std::uint8_t>;

/* Checks what the error of a call says. */
template <class Call> static void says(Call call, std::string_view wanted)
{
    try {
        call();
        check(false, "no error");
    } catch (const std::out_of_range &error) {
        check(error.what() == wanted, error.what());
    }
}

/* Words whose number is an int. */
struct few_words {
    const std::uint64_t *first;
    int count;
    const std::uint64_t *data() const { return first; }
    int size() const { return count; }
};
template <> inline constexpr bool vortex_bits::is_borrowed<few_words> = true;

/* Checks that only C counts the bits of a mask for filters, if there is space for all. */
static void counts_of_filters()
{
    const buffer all = {0xB6, 0x01};
    const bits rows(all, 1, 8), mask(all, 0, 8);
    const std::array<std::uint16_t, 8> values = {10, 11, 12, 13, 14, 15, 16, 17};
    std::array<std::uint16_t, 5> kept;
    buffer out(2);
    bits_mut window(out, 3, 8);
    counts = 0;
    check(mask.keep_into(values, kept) == 5 && counts == 0, "values are counted once");
    check(rows.filter_into(mask, out) == 5 && counts == 0, "bits are counted once");
    check(window.filter_of(rows, mask) == 5 && counts == 0, "bits for a window are counted once");
    check(window.filter_validity_of(rows, mask) == 5 && counts == 0, "so are validities");
    check(window.slice(0, 5).filter_of(rows, mask) == 5 && counts == 1, "where not all fit");
    refused([&] { (void)window.slice(0, 4).filter_validity_of(rows, mask); }, "no room");
    refused([&] { (void)window.slice(0, 4).filter_validity_of(std::nullopt, mask); }, "no room");
}

/* Tests that a writable window has the calls of a read-only one, and converts to it. */
static void readings()
{
    buffer all = {0xB6, 0x01};
    const bits_mut window(all, 1, 8), other(all, 1, 8);
    const bits reader = window;
    check(window.count_ones() == 6 && window.count_zeros() == 2 && !window.empty(), "counts");
    check(window.any() && !window.all() && window[0] && !window[2], "any, all and a bit");
    check(window == other && window == reader && !(window != bits(all, 1, 8)), "==");
    check(window != bits(all, 0, 8) && window.offset() == 1, "!= and where it begins");
    check(window.set_indices() == reader.set_indices(), "indices");
    check(window.and_count(reader) == 6 && reader.is_subset(window), "two windows");
    bits_mut(all, 0, 3).fill(false);
    check(window.slice(0, 2).count_ones() == 0, "what another one writes");
}

/* Tests windows past their bytes, and a write after an assignment through the base class. */
static void bounds()
{
    refused([] { bits(nullptr, 8, 0, 64); }, "no bytes to read");
    refused([] { bits_mut(nullptr, 8, 0, 64); }, "no bytes to write");
    check(bits(nullptr, 0, 0, 0).empty(), "no bits of no bytes");
    refused([] { vortex_bits::view<const std::int64_t>(nullptr, 1); }, "no items to read");
    refused([] { vortex_bits::view<std::uint8_t>(nullptr, SIZE_MAX); }, "no items to write");
    check(vortex_bits::view<std::uint8_t>(nullptr, 0).empty(), "no items of none");
    const std::uint64_t word = 0;
    const few_words words = {&word, 1 << 28};
    const std::size_t all = std::size_t{64} << 28;
    check(bits(words, all - 1, 1).size() == 1, "the last bit of many words");
    refused([&] { bits(words, all, 1); }, "a bit after many words");
    refused([&] { bits(words, 2 * all, 0); }, "a window after many words");
    buffer few = {0xFF}, more(100, 0xFF);
    bits_mut window(few, 0, 8);
    static_cast<bits &>(window) = bits(more, 0, 800);
    window.fill(false);
    check(few[0] == 0xFF && !bits(more, 0, 800).any(), "the assigned window is written");
}

/* Tests that errors are about the numbers that the call was passed. */
static void errors()
{
    buffer all = {0xB6, 0x01};
    bits_mut window(all, 1, 8);
    const std::string_view index = "an index is not one of the window";
    says([&] { (void)window[8]; }, index);
    says([&] { window.set(8, true); }, index);
    says([&] { window.set(SIZE_MAX, false); }, index);
    says([&] { window.slice(8, 1).fill(true); }, "a slice is not in its window");
    says([] { bits(nullptr, 8, 0, 64); }, "a window has a null pointer");
    says([&] { bits(all, 1, 16); }, "a window does not fit in its bytes");
    check(all == buffer({0xB6, 0x01}), "a refused write left all as it was");
    // 32 bits can index each of these bits, but not the end of a run.
    const bits many(all.data(), std::size_t{1} << 29, 0, std::size_t{1} << 32);
    std::array<vb_run_u32, 1> run;
    says([&] { many.set_slices_into(run); }, "more bits than a run can index");
    says([&] { (void)many.set_slices<vb_run_u32>(); }, "more bits than a run can index");
}

int main()
{
    counts_of_filters();
    readings();
    bounds();
    errors();
    return failures == 0 ? 0 : 1;
}
