/*
 * Compares the classes of vortex_bits.hpp with loops over single bits, over random windows, and
 * tests their errors.
 */
#include "tests.hpp"
#include "vortex_bits.hpp"

#include <cstring>
#include <random>

using vortex_bits::bits;
using vortex_bits::bits_mut;
using buffer = std::vector<std::uint8_t>;

static bool bit(const buffer &all, std::size_t i)
{
    return (all[i / 8] >> (i % 8) & 1) != 0;
}

/* Returns the bits of a window, by a loop. */
static std::vector<bool> list(const buffer &all, std::size_t offset, std::size_t len)
{
    std::vector<bool> found;
    for (std::size_t i = 0; i < len; i++) {
        found.push_back(bit(all, offset + i));
    }
    return found;
}

/* Tests indices and runs in vectors, and in outputs that are too short for all. */
static void walks_into(bits window, const std::vector<std::size_t> &trues)
{
    const std::vector<vb_run> runs = window.set_slices();
    std::vector<std::size_t> joined, places(trues.size() / 2 + 2, SIZE_MAX);
    for (const vb_run &run : runs) {
        for (std::size_t i = run.start; i < run.end; i++) {
            joined.push_back(i);
        }
    }
    check(joined == trues, "set_slices");
    const std::size_t found = std::min(places.size(), trues.size());
    check(window.set_indices_into(places) == found, "set_indices_into");
    check(std::equal(trues.begin(), trues.begin() + static_cast<std::ptrdiff_t>(found),
        places.begin()) && (found == places.size() || places[found] == SIZE_MAX), "first indices");
    std::array<std::uint32_t, 3> three;
    const std::size_t narrow = window.set_indices_into(three);
    check(narrow == std::min<std::size_t>(3, trues.size())
        && std::equal(three.begin(), three.begin() + static_cast<std::ptrdiff_t>(narrow),
            trues.begin()), "first indices of 32 bits");
    std::array<vb_run, 2> two;
    const std::size_t some = window.set_slices_into(two);
    check(some == std::min<std::size_t>(2, runs.size()), "set_slices_into");
    check(some == 0 || (two[some - 1].start == runs[some - 1].start
        && two[some - 1].end == runs[some - 1].end), "first runs");
}

static void questions(const buffer &all, std::size_t offset, std::size_t len, std::size_t n)
{
    const bits window(all, offset, len);
    const std::vector<bool> wanted = list(all, offset, len);
    std::vector<std::size_t> trues, falses, walked;
    for (std::size_t i = 0; i < len; i++) {
        (wanted[i] ? trues : falses).push_back(i);
        check(window[i] == wanted[i], "a place");
    }
    const auto nth = [&](const std::vector<std::size_t> &places) {
        return n < places.size() ? std::optional(places[n]) : std::nullopt;
    };
    check(window.count_ones() == trues.size(), "count_ones");
    check(window.count_zeros() == falses.size(), "count_zeros");
    check(window.select(n) == nth(trues) && window.select_unset(n) == nth(falses), "select");
    const auto last = trues.empty() ? std::nullopt : std::optional(trues.back());
    check(window.last_set() == last, "last_set");
    check(window.any() == !trues.empty() && window.all() == falses.empty(), "any and all");
    check(window.set_indices() == trues, "set_indices");
    const std::vector<std::uint32_t> narrow = window.set_indices<std::uint32_t>();
    check(std::equal(narrow.begin(), narrow.end(), trues.begin(), trues.end()), "of 32 bits");
    window.for_each_set([&](std::size_t place) { walked.push_back(place); });
    check(walked == trues, "for_each_set");
    walked.clear();
    std::size_t behind = 0;
    window.for_each_run([&](std::size_t start, std::size_t end) {
        check(start < end && (start == 0 || behind < start), "a run is as long as can be");
        for (std::size_t i = start; i < end; i++) {
            walked.push_back(i);
        }
        behind = end;
    });
    check(walked == trues, "for_each_run");
    walks_into(window, trues);
    const vortex_bits::ranks counted(window), ranks(window, counted.table());
    check(ranks.count() == trues.size() && ranks.size() == len, "count by ranks");
    check(ranks.select(n) == nth(trues) && ranks.select_unset(n) == nth(falses), "by ranks");
    check(ranks.rank(len / 2) == window.slice(0, len / 2).count_ones(), "rank");
}

template <class Call, class Of>
static void write(const buffer &all, std::size_t offset, std::size_t len, Call call, Of of)
{
    buffer got = all, wanted = all;
    call(bits_mut(got, offset, len));
    for (std::size_t i = 0; i < len; i++) {
        const std::uint8_t digit = static_cast<std::uint8_t>(1u << ((offset + i) % 8));
        std::uint8_t &byte = wanted[(offset + i) / 8];
        byte = static_cast<std::uint8_t>(of(i) ? byte | digit : byte & ~digit);
    }
    check(got == wanted, "a write");
}

static void writes(const buffer &all, std::size_t l, const buffer &other, std::size_t r,
    std::size_t len)
{
    const bits left(all, l, len), right(other, r, len);
    const auto a = [&](std::size_t i) { return bit(all, l + i); };
    const auto b = [&](std::size_t i) { return bit(other, r + i); };
    check((left == right) == (list(all, l, len) == list(other, r, len)), "==");
    write(all, l, len, [&](bits_mut it) { it.fill(true); }, [](std::size_t) { return true; });
    write(all, l, len, [&](bits_mut it) { it.negate(); }, [&](std::size_t i) { return !a(i); });
    write(all, l, len, [&](bits_mut it) { it.copy_from(right); }, b);
    write(all, l, len, [&](bits_mut it) { it &= right; },
        [&](std::size_t i) { return a(i) && b(i); });
    write(all, l, len, [&](bits_mut it) { it |= right; },
        [&](std::size_t i) { return a(i) || b(i); });
    write(all, l, len, [&](bits_mut it) { it ^= right; },
        [&](std::size_t i) { return a(i) != b(i); });
    write(all, l, len, [&](bits_mut it) { it.and_not(right); },
        [&](std::size_t i) { return a(i) && !b(i); });
    write(all, l, len, [&](bits_mut it) { it.and_of(left, right); },
        [&](std::size_t i) { return a(i) && b(i); });
    write(all, l, len, [&](bits_mut it) { it.or_of(left, right); },
        [&](std::size_t i) { return a(i) || b(i); });
    write(all, l, len, [&](bits_mut it) { it.xor_of(left, right); },
        [&](std::size_t i) { return a(i) != b(i); });
    write(all, l, len, [&](bits_mut it) { it.and_not_of(left, right); },
        [&](std::size_t i) { return a(i) && !b(i); });
}

static void takes()
{
    const buffer all = {0xB6, 0x01};
    const bits window(all, 1, 8), valid(all, 1, 3);
    std::array<std::uint8_t, 1> out = {0xF0};
    check(!window.take_into(std::array<std::uint32_t, 3>{7, 0, 2}, out), "a take");
    check(out[0] == 0xF3, "the bits that are taken");
    const std::vector<std::uint64_t> some = {7, 8, 99};
    check(window.take_into(some, out) == std::optional<std::size_t>(1), "a bad index");
    check(!window.take_into(std::vector<std::uint64_t>{0, 1, 99}, valid, out), "a valid take");
    check((out[0] & 7) == 3, "the bits that are valid and taken");
    vortex_bits::pack_truthy(std::array<std::uint8_t, 3>{9, 0, 1}, out);
    check(out[0] == 5, "pack_truthy");
    vortex_bits::pack_bools(std::array<bool, 4>{false, true, true, false}, out);
    check(out[0] == 6, "pack_bools");
    std::array<bool, 5> flags;
    buffer bytes(5, 9);
    bits(all, 1, 5).copy_to_bools(flags);
    bits(all, 1, 5).copy_to_bytes(bytes);
    check(flags == std::array<bool, 5>({true, true, false, true, true}), "copy_to_bools");
    check(bytes == buffer({1, 1, 0, 1, 1}), "copy_to_bytes");
    refused([&] { bits(all, 1, 4).copy_to_bools(flags); }, "too many bools");
    refused([&] { bits(all, 1, 6).copy_to_bytes(bytes); }, "too few bytes");
    refused([&] { (void)window.take_into(std::vector<std::uint32_t>(9), out); }, "no room");
    refused([&] { (void)window.take_into(some, window, out); }, "a long validity");
    refused([&] { vortex_bits::pack_truthy(buffer(9), out); }, "no room");
    refused([&] { vortex_bits::pack_bools(std::array<bool, 9>{}, out); }, "no room");
}

static void filters()
{
    const buffer all = {0xB6, 0x01};
    const bits window(all, 1, 8), mask(all, 0, 8);
    std::array<std::uint8_t, 1> out = {0xE0};
    check(window.filter_into(mask, out) == 5 && out[0] == 0xF5, "the bits that are kept");
    const std::array<std::uint16_t, 8> values = {10, 11, 12, 13, 14, 15, 16, 17};
    std::vector<std::uint16_t> some(6, 99);
    check(mask.keep_into(values, some) == 5, "how many values are kept");
    check(some == std::vector<std::uint16_t>({11, 12, 14, 15, 17, 99}), "the values that are kept");
    const std::array<vb_u128, 1> one = {{{1, 2}}};
    std::array<vb_u128, 1> wide = {{{3, 4}}};
    check(bits(all, 1, 1).keep_into(one, wide) == 1 && wide[0].high == 2, "a wide value");
    refused([&] { (void)window.filter_into(bits(all, 0, 7), out); }, "two lengths");
    refused([&] { (void)mask.keep_into(some, some); }, "two lengths");
    refused([&] { (void)mask.keep_into(values, std::vector<std::uint16_t>(4)); }, "no room");
    std::vector<std::uint16_t> back(8, 5);
    check(mask.scatter_into(some, back) == 5, "how many values are scattered");
    check(back == std::vector<std::uint16_t>({5, 11, 12, 5, 14, 15, 5, 17}), "scattered values");
    refused([&] { (void)mask.scatter_into(some, some); }, "two lengths");
    refused([&] { (void)mask.scatter_into(std::vector<std::uint16_t>(4), back); }, "few values");
}

static void pairs()
{
    const buffer some = {0xB6, 0x01}, others = {0x1E, 0x00};
    const bits left(some, 1, 8), right(others, 0, 8);
    check(left.and_count(right) == 3 && left.or_count(right) == 7, "and, or");
    check(left.xor_count(right) == 4 && left.and_not_count(right) == 3, "xor, and not");
    buffer out = {0xFF, 0xFF};
    bits_mut window(out, 3, 8);
    window.deposit_of(bits(others, 0, left.count_ones()), left);
    for (std::size_t i = 0, n = 0; i < 8; i++) {
        const bool here = left[i] && right[n];
        n += left[i];
        check(bits(window)[i] == here, "a deposited bit");
    }
    check((out[0] & 7) == 7 && out[1] >> 3 == 31, "the bits next to them");
    refused([&] { (void)left.and_count(bits(others, 0, 7)); }, "two lengths");
    refused([&] { window.deposit_of(right, left); }, "too many bits");
}

static void truths()
{
    // True, true, false and null, with true, false, true and false.
    const buffer a = {0x18}, a_valid = {0x07}, b = {0x05};
    const bits left(a, 3, 4), left_valid(a_valid, 0, 4), right(b, 0, 4);
    buffer out = {0xFF, 0x00}, known = {0xFF};
    bits_mut trues(out, 6, 4), valid(known, 1, 4);
    trues.and_kleene_of(left, left_valid, right, std::nullopt, valid);
    check(out[0] == 0x7F && out[1] == 0x00 && known[0] == 0xFF, "a null and false");
    trues.or_kleene_of(left, left_valid, right, std::nullopt, valid);
    check(out[0] == 0xFF && out[1] == 0x01 && known[0] == 0xEF, "a null or false");
    trues.or_kleene_of(right, std::nullopt, left, std::nullopt, valid);
    check(out[0] == 0xFF && out[1] == 0x01 && known[0] == 0xFF, "no validity");
    const auto three = bits(b, 0, 3);
    refused([&] { trues.and_kleene_of(left, three, right, std::nullopt, valid); }, "a validity");
    refused([&] { trues.or_kleene_of(left, left_valid, three, std::nullopt, valid); }, "a side");
    refused([&] { trues.or_kleene_of(left, left_valid, right, left_valid, bits_mut(known, 0, 3)); },
        "where the validity goes");
}

static void joins()
{
    const buffer some = {0xB6, 0x01}, others = {0x1E, 0x00};
    const bits values(some, 1, 8), mask(others, 0, 8);
    buffer out = {0x00, 0xFF, 0xFF}, others_out(1);
    bits_mut window(out, 5, 14);
    std::size_t rows = window.filter_of(values, mask);
    rows += window.slice(rows, 14 - rows).filter_of(mask, values);
    check(rows == 10 && out[0] == 0xA0 && out[1] == 0x9D, "batches that are joined");
    check(!window.slice(10, 3).take_of(values, std::array<std::int8_t, 3>{0, 2, 7}), "a take");
    check(out[1] == 0x9D && out[2] == 0xFE, "what it wrote, and the bits next to it");
    check(window.take_of(values, std::array<std::int8_t, 2>{0, -1}, bits(others, 1, 2))
            == std::optional<std::size_t>(1), "a negative index");
    check(!window.take_of(values, std::array<std::int8_t, 2>{0, -1}, bits(others, 4, 2)),
        "a negative index that is null");
    check(out[0] == 0xA0, "what the last take wrote");
    const std::optional<bits> some_valid = bits(others, 4, 2);
    check(!window.take_of(values, std::array<std::int8_t, 2>{0, -1}, some_valid), "an optional");
    check(window.take_of(values, std::array<std::int8_t, 2>{0, -1}, std::nullopt)
            == std::optional<std::size_t>(1), "a validity that is missing");
    check(!values.take_into(std::array<std::int8_t, 1>{0}, std::optional<bits>(), others_out)
            && others_out[0] == 1, "a take into bytes without a validity");
    window.slice(0, 3).copy_from_bools(std::array<bool, 3>{true, false, true});
    check(out[0] == 0xA0, "bools at an offset");
    window.slice(0, 3).copy_from_truthy(buffer{0, 7, 255});
    check(out[0] == 0xC0, "bytes at an offset");
    refused([&] { (void)window.slice(0, 3).filter_of(values, mask); }, "no room");
    refused([&] { (void)window.filter_of(values, bits(others, 0, 7)); }, "two lengths");
    refused([&] { (void)window.take_of(values, std::vector<std::uint16_t>(15)); }, "no room");
    refused([&] { (void)window.take_of(values, std::vector<std::uint16_t>(2), mask); },
        "a long validity");
    refused([&] { window.copy_from_truthy(buffer(13)); }, "too few bytes");
}

static void nearest()
{
    const buffer some = {0xB6, 0x01};
    const bits window(some, 1, 8);
    check(window.next_set(2) == std::optional<std::size_t>(3), "the next true bit");
    check(window.next_unset(3) == std::optional<std::size_t>(5), "the next false bit");
    check(window.previous_set(3) == std::optional<std::size_t>(1), "the true bit before");
    check(window.previous_unset(99) == std::optional<std::size_t>(5), "the last false bit");
    check(!window.next_set(8) && !window.previous_set(0), "no bit");
    check(window.any() && !window.all() && bits(some, 1, 2).all() && !bits(some, 3, 1).any(),
        "any and all");
}

static void aggregates()
{
    using namespace vortex_bits;
    const std::vector<std::int8_t> degrees = {-40, 21, 100, 18, 7};
    const buffer mask = {0xEE};
    const bits warm(mask, 0, 5), none(mask, 4, 0);
    const vb_i128 sum = masked_sum(degrees, warm);
    check(sum.low == 139 && sum.high == 0, "an exact sum");
    check(masked_sum(degrees, bits(mask, 3, 5)).high == 0, "an exact sum of others");
    check(!masked_checked_sum(degrees, warm), "a sum that is past the end of its type");
    check(masked_checked_sum(degrees, bits(mask, 3, 5)) == std::int8_t{85}, "one that is not");
    check(masked_wrapping_sum(degrees, warm) == -117, "a sum that is wrapped around");
    check(masked_min(degrees, warm) == std::int8_t{18}, "the least value");
    check(masked_max(degrees, warm) == std::int8_t{100}, "the greatest value");
    const std::array<unsigned long, 0> empty{};
    check(!masked_min(empty, none) && !masked_max(empty, none), "min and max of no values");
    const std::array<unsigned long long, 2> most = {SIZE_MAX, SIZE_MAX};
    const vb_u128 both = masked_sum(most, {mask, 1, 2});
    check(both.low == SIZE_MAX - 1 && both.high == 1, "a sum of more than 64 bits");
    refused([&] { (void)masked_sum(degrees, bits(mask, 0, 4)); }, "too few bits of a mask");
    refused([&] { (void)masked_min(empty, warm); }, "too many bits of a mask");
}

static void values_at_indices()
{
    using vortex_bits::take_values;
    const std::vector<double> column = {0.5, 1.5, 2.5, 3.5};
    std::vector<double> out(4, 9.0);
    check(!take_values(column, std::vector<std::uint8_t>{3, 0, 3}, out), "no position");
    check(out == std::vector<double>({3.5, 0.5, 3.5, 9.0}), "values at indices of 8 bits");
    const buffer valid = {0x05};
    check(!take_values(column, std::array<std::int32_t, 3>{2, -1, 1}, bits(valid, 0, 3), out),
        "an index that doesn't count");
    check(out == std::vector<double>({2.5, 0.0, 1.5, 9.0}), "0 where it doesn't");
    check(take_values(column, std::vector<std::int64_t>{0, -1}, out) == 1, "a negative index");
    check(take_values(column, std::vector<std::uint16_t>{4}, out) == 0, "an index past the values");
    const std::vector<char> many(300, 'x');
    std::vector<char> one(1);
    check(take_values(many, std::vector<std::int8_t>{-1}, one) == 0, "-1 isn't 255");
    const std::vector<vb_u128> wides = {{1, 2}, {3, 4}};
    std::vector<vb_u128> wide(1);
    check(!take_values(wides, std::vector<std::size_t>{1}, wide) && wide[0].high == 4,
        "a wide value");
    refused([&] { (void)take_values(column, std::vector<std::uint8_t>(5), out); }, "no room");
    refused(
        [&] { (void)take_values(column, std::vector<std::uint8_t>(2), bits(valid, 0, 3), out); },
        "a long validity");
}

/* Compares takes at n indices of a type with a loop; the last index may be out of range. */
template <class Index> static void take(const buffer &all, bool valid, std::size_t n, bool past)
{
    const std::size_t most = std::min<std::size_t>(100, 8 * all.size() - 3);
    const bits window(all, 3, most), counts(all, 1, n);
    std::vector<Index> indices;
    for (std::size_t p = 0; p < n; p++) {
        indices.push_back(static_cast<Index>((p * 37 + 5) % most));
    }
    const bool bad = past && n > 0 && (!valid || counts[n - 1]);
    if (past && n > 0) {
        indices[n - 1] = static_cast<Index>(std::is_signed_v<Index> ? -1 : static_cast<int>(most));
    }
    buffer out(n / 8 + 2, 0xA5);
    const auto found =
        valid ? window.take_into(indices, counts, out) : window.take_into(indices, out);
    check(found == (bad ? std::optional(n - 1) : std::nullopt), "the first bad index of a type");
    for (std::size_t p = 0; p < 8 * out.size() && !bad; p++) {
        const bool taken = p < n && (!valid || counts[p])
            && window[static_cast<std::size_t>(indices[p])];
        check(bit(out, p) == (p < n ? taken : (0xA5 >> (p % 8) & 1) != 0), "takes of a type");
    }
}

template <class... Index> static void takes_of_types(const buffer &all)
{
    for (const std::size_t n : std::array<std::size_t, 7>{0, 1, 8, 511, 512, 513, 1300}) {
        for (int k = 0; k < 4; k++) {
            (take<Index>(all, k % 2 == 1, n, k >= 2), ...);
        }
    }
}

/* Compares filters of a type's values with a loop. */
template <class Value> static void keep(const buffer &all)
{
    const bits mask(all, 5, 190);
    std::array<Value, 190> values;
    std::array<Value, 190> out;
    for (std::size_t i = 0; i < values.size(); i++) {
        const std::uint64_t number = (i + 1) * 0x9E3779B97F4A7C15u;
        std::memset(&values[i], static_cast<int>(number >> 56), sizeof(Value));
        std::memcpy(&values[i], &number, std::min(sizeof number, sizeof(Value)));
    }
    std::memset(static_cast<void *>(&out), 0x5A, sizeof out);
    const std::size_t kept = mask.keep_into(values, out);
    check(kept == mask.count_ones(), "how many values of a type are kept");
    std::array<Value, 190> back;
    std::memset(static_cast<void *>(&back), 0x5A, sizeof back);
    check(mask.scatter_into(out, back) == kept, "how many values of a type are scattered");
    for (std::size_t i = 0; i < back.size(); i++) {
        const Value &wanted = mask[i] ? values[i] : out.back();
        check(std::memcmp(&back[i], &wanted, sizeof(Value)) == 0, "scattered values of a type");
    }
    std::size_t at = 0;
    mask.for_each_set([&](std::size_t i) {
        check(std::memcmp(&out[at++], &values[i], sizeof(Value)) == 0, "values of a type");
    });
}

template <class... Value> static void keeps_of_types(const buffer &all)
{
    (keep<Value>(all), ...);
}

enum class color : std::uint16_t { red };

struct pair_of_numbers {
    std::int64_t first;
    double second;
};

static void types(const buffer &all)
{
    takes_of_types<std::int8_t, std::uint8_t, std::int16_t, std::uint16_t, std::int32_t,
        std::uint32_t, std::int64_t, std::uint64_t, long, long long, unsigned long long,
        std::size_t, char>(all);
    keeps_of_types<std::int8_t, std::uint8_t, std::int16_t, std::uint16_t, std::int32_t,
        std::uint32_t, std::int64_t, std::uint64_t, long, long long, std::size_t, float, double,
        long double, char, std::byte, color, vb_u128, pair_of_numbers>(all);
#ifdef __SIZEOF_INT128__
    __extension__ typedef __int128 wide;
    keeps_of_types<wide>(all);
#endif
    const std::array<bool, 8> flags = {true, false, true, true, false, false, true, false};
    std::array<bool, 8> kept = {};
    const buffer mask = {0x0D};
    check(bits(mask, 0, 8).keep_into(flags, kept) == 3 && kept[0] && kept[1] && kept[2],
        "bools that are kept");
}

static void refusals()
{
    buffer two(2), none;
    check(bits(none, 0, 0).empty() && bits().count_ones() == 0, "no bytes");
    check(bits(none, 0, 0) == bits() && bits(two, 16, 0) == bits(), "no bits");
    refused([&] { bits(two, 0, 17); }, "a window past its bytes");
    refused([&] { bits(two, 1, SIZE_MAX); }, "a window without an end");
    refused([&] { bits_mut(two, 9, 8); }, "a window past its bytes");
    refused([&] { bits(two, 0, 16).slice(9, 8); }, "a slice past its window");
    refused([&] { (void)bits(two, 8, 8)[8]; }, "an index past the window");
    refused([&] { bits_mut(two, 8, 8).set(8, true); }, "an index past the window");
    refused([&] { bits_mut(two, 8, 8).copy_from(bits(two, 0, 7)); }, "two lengths");
    refused([&] { bits_mut(two, 8, 8).or_of(bits(two, 0, 8), bits(two, 0, 7)); }, "two lengths");
    refused([&] { (void)vortex_bits::ranks(bits(two, 8, 8)).rank(9); }, "an index past the window");
    refused([&] { vortex_bits::ranks(bits(two, 0, 9), {}); }, "a table of another size");
    check(two == buffer(2), "a refused call left all as it was");
}

int main()
{
    std::mt19937 random(1);
    const auto below = [&](std::size_t n) { return static_cast<std::size_t>(random()) % n; };
    for (int round = 0; round < 2000; round++) {
        buffer all(1 + below(300)), other(1 + below(300));
        const auto any = [&] { return static_cast<std::uint8_t>(round % 3 == 0 ? 255 : random()); };
        std::generate(all.begin(), all.end(), any);
        std::generate(other.begin(), other.end(), any);
        const std::size_t len = below(8 * std::min(all.size(), other.size()) + 1);
        const std::size_t l = below(8 * all.size() - len + 1);
        questions(all, l, len, below(len + 2));
        writes(all, l, other, below(8 * other.size() - len + 1), len);
    }
    buffer all(170);
    std::generate(all.begin(), all.end(), [&] { return static_cast<std::uint8_t>(random()); });
    types(all);
    takes();
    filters();
    pairs();
    truths();
    joins();
    nearest();
    aggregates();
    values_at_indices();
    refusals();
    return failures == 0 ? 0 : 1;
}
