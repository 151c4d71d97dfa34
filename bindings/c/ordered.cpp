/*
 * Compares the bitmaps by code and the sums of floats of vortex_bits_groups.hpp, and the greatest
 * and least values of vortex_bits_top.hpp, with loops over rows, and tests their errors.
 */
#include "tests.hpp"
#include "vortex_bits.hpp"

#include <cstdlib>
#include <limits>
#include <new>
#include <random>

using vortex_bits::bits;
using vortex_bits::bits_mut;
using vortex_bits::bitmaps_by_code;
using vortex_bits::top_k;
using buffer = std::vector<std::uint8_t>;
using position = std::optional<std::size_t>;

static std::mt19937 any(1);

static std::size_t below(std::size_t n)
{
    return any() % n;
}

/* A random mask, or no mask, which selects each row. */
struct mask {
    explicit mask(std::size_t rows) : bytes(rows / 8 + 3), offset(below(9))
    {
        for (std::uint8_t &it : bytes) {
            it = static_cast<std::uint8_t>(any());
        }
        if (below(3) != 0) {
            selected = bits(bytes, offset, rows);
        }
    }

    bool operator[](std::size_t row) const { return !selected || (*selected)[row]; }

    buffer bytes;
    std::size_t offset;
    std::optional<bits> selected;
};

static std::size_t some_rows()
{
    return below(10) == 0 ? 4000 + below(5000) : below(200);
}

/* Codes below `groups`; any code in rows that the mask doesn't select. */
template <class Code>
static std::vector<Code> random_codes(std::size_t rows, std::size_t groups, const mask &of)
{
    std::vector<Code> codes(rows);
    for (std::size_t row = 0; row < rows; row++) {
        codes[row] = static_cast<Code>(of[row] ? below(std::min<std::size_t>(groups, 128)) : any());
    }
    return codes;
}

/* Sets a selected row's code to one out of range, and returns the row, if both exist. */
template <class Code>
static position spoiled(std::vector<Code> &codes, std::size_t groups, const mask &of)
{
    std::vector<std::size_t> rows;
    for (std::size_t row = 0; row < codes.size(); row++) {
        if (of[row]) {
            rows.push_back(row);
        }
    }
    const bool is_negative = std::is_signed_v<Code> && below(2) == 0;
    if (rows.empty() || (!is_negative && groups > std::numeric_limits<Code>::max())) {
        return std::nullopt;
    }
    const std::size_t row = rows[below(rows.size())];
    codes[row] = static_cast<Code>(is_negative ? -1 : static_cast<Code>(groups));
    return row;
}

template <class Code> static void splits_by_code()
{
    const std::size_t groups = below(5) == 0 ? 300 : 1 + below(100);
    bitmaps_by_code bitmaps(groups);
    std::vector<std::vector<bool>> wanted(groups);
    for (int batch = 0; batch < 4; batch++) {
        const std::size_t rows = some_rows();
        const mask of(rows);
        std::vector<Code> codes = random_codes<Code>(rows, groups, of);
        const std::size_t before = bitmaps.size();
        std::vector<Code> wrong = codes;
        if (const position row = spoiled(wrong, groups, of)) {
            check(bitmaps.append(wrong, of.selected) == row, "the row of a wrong code");
        }
        check(bitmaps.size() == before, "a wrong code appends nothing");
        check(!bitmaps.append(codes, of.selected), "codes in range");
        for (std::size_t code = 0; code < groups; code++) {
            for (std::size_t row = 0; row < rows; row++) {
                wanted[code].push_back(of[row] && std::size_t(codes[row]) == code);
            }
        }
    }
    for (std::size_t code = 0; code < groups; code++) {
        bool is = bitmaps[code].size() == wanted[code].size();
        for (std::size_t row = 0; is && row < wanted[code].size(); row++) {
            is = bitmaps[code][row] == wanted[code][row];
        }
        check(is, "a bitmap of a code");
    }
    check(bitmaps.codes() == groups, "the number of codes");
}

template <class Code, class Value> static void sums_of_floats()
{
    const std::size_t groups = below(5) == 0 ? 300 : 1 + below(100), rows = some_rows();
    const mask of(rows);
    std::vector<Code> codes = random_codes<Code>(rows, groups, of);
    std::vector<Value> values(rows);
    std::vector<double> sums(groups, 0.25), wanted = sums;
    for (std::size_t row = 0; row < rows; row++) {
        values[row] = static_cast<Value>(any()) / 7;
        if (of[row]) {
            wanted[std::size_t(codes[row])] += static_cast<double>(values[row]);
        }
    }
    std::vector<Code> wrong = codes;
    const std::vector<double> before = sums;
    if (const position row = spoiled(wrong, groups, of)) {
        check(vortex_bits::group_sums(sums, wrong, values, of.selected) == row, "a wrong code");
    }
    check(sums == before, "a wrong code changes no sum");
    check(!vortex_bits::group_sums(sums, codes, values, of.selected), "codes in range");
    check(sums == wanted, "sums of floats");
}

template <class Value> static Value random_value()
{
    if constexpr (std::is_floating_point_v<Value>) {
        const Value all[] = {0, -Value(0), std::numeric_limits<Value>::quiet_NaN(),
            std::numeric_limits<Value>::infinity(), -std::numeric_limits<Value>::infinity()};
        return below(4) == 0 ? all[below(5)] : static_cast<Value>(below(2000)) - 1000;
    } else {
        return static_cast<Value>(below(2) == 0 ? any() : below(100));
    }
}

template <class Value> static void ends_of_order(bool is_greatest)
{
    using item = typename top_k<Value>::item;
    const std::size_t sizes[] = {0, 1, 2, 10, 100, 1000}, k = sizes[below(6)];
    auto best = is_greatest ? top_k<Value>::greatest(k) : top_k<Value>::least(k);
    std::vector<item> wanted;
    std::size_t before = 0;
    for (int batch = 0; batch < 4; batch++) {
        const std::size_t rows = some_rows();
        const mask of(rows);
        std::vector<Value> values(rows);
        std::generate(values.begin(), values.end(), random_value<Value>);
        for (std::size_t row = 0; row < rows; row++) {
            if (of[row] && values[row] == values[row]) {
                wanted.push_back({values[row], before + row});
            }
        }
        best.append(values, of.selected);
        before += rows;
        std::stable_sort(wanted.begin(), wanted.end(), [=](const item &one, const item &other) {
            return is_greatest ? one.value > other.value : one.value < other.value;
        });
        wanted.resize(std::min(wanted.size(), k));
        const auto is_same = [](const item &one, const item &other) {
            return one.value == other.value && one.row == other.row;
        };
        check(std::equal(wanted.begin(), wanted.end(), best.items().begin(), best.items().end(),
                  is_same),
            "the first values of an order");
    }
}

/* An object that was moved from is empty, and can be used again. */
static void moves()
{
    auto best = top_k<double>::greatest(2);
    best.append(std::vector<double>{1, 2, 3});
    auto moved = std::move(best);
    check(moved.items().size() == 2 && best.items().empty(), "values that were moved from");
    best.append(std::vector<double>{5, 9, 7});
    check(best.items().size() == 2 && best.items()[0].row == 1, "values after a move");
    moved = best;
    check(moved.items()[1].value == 7, "a copy");
    bitmaps_by_code bitmaps(3);
    check(!bitmaps.append(buffer{2, 0}), "codes in range");
    const bitmaps_by_code others = std::move(bitmaps);
    check(others[2][0] && bitmaps.codes() == 0 && bitmaps.size() == 0, "bitmaps that were moved");
}

/* The number of the first allocation to fail, counted from 1; 0 if none fails. */
static std::size_t until_refused = 0;

void *operator new(std::size_t size, const std::nothrow_t &) noexcept
{
    void *const made = until_refused != 1 ? std::malloc(size) : nullptr;
    until_refused -= until_refused > 1;
    return made;
}

void *operator new(std::size_t size)
{
    void *const made = operator new(size, std::nothrow);
    return made != nullptr ? made : throw std::bad_alloc();
}

#if defined(__GNUC__) && !defined(__clang__)
// gcc inlines only one of `new` and `delete`, and then takes them for a wrong pair.
#pragma GCC diagnostic ignored "-Wmismatched-new-delete"
#endif

void operator delete(void *made) noexcept
{
    std::free(made);
}

void operator delete(void *made, std::size_t) noexcept
{
    std::free(made);
}

/* Makes the call with allocation 1, 2, .. failing, until it succeeds. Returns how many failed. */
template <class Call, class Unchanged> static std::size_t in_turn(Call call, Unchanged unchanged)
{
    for (std::size_t n = 1;; n++) {
        until_refused = n;
        try {
            call();
            until_refused = 0;
            return n - 1;
        } catch (const std::bad_alloc &) {
            until_refused = 0;
            check(unchanged(), "an append without memory changes nothing");
        }
    }
}

static void refused_memory()
{
    const std::vector<double> first = {1, 9}, more(5000, 5);
    const buffer codes(100, 1);
    auto best = top_k<double>::greatest(4);
    best.append(first);
    const auto is_first = [&] { return best.items().size() == 2 && best.items()[0].value == 9; };
    check(in_turn([&] { best.append(more); }, is_first) == 1, "the requests of top_k");
    check(best.items().size() == 4 && best.items()[1].row == 2, "an append after refusals");
    bitmaps_by_code bitmaps(3);
    const auto is_empty = [&] { return bitmaps.size() == 0 && bitmaps[1].empty(); };
    const auto append = [&] { check(!bitmaps.append(codes), "codes in range"); };
    // Each of three bitmaps allocates, and keeps its memory if a later one fails.
    check(in_turn(append, is_empty) == 2, "the requests of bitmaps");
    check(bitmaps[1].all() && bitmaps[1].size() == 100 && !bitmaps[2].any(), "all bitmaps");
    const std::vector<std::int32_t> offsets = {0, 40, 80};
    const std::string bytes(80, 'a');
    vortex_bits::texts_mut<std::int32_t> kept;
    const auto no_text = [&] { return kept.empty() && kept.bytes().empty(); };
    const auto keep = [&] { kept.append_kept({offsets, bytes}, bits(codes, 0, 1).slice(0, 0)); };
    refused(keep, "two lengths");
    const buffer both = {3};
    const auto keep_both = [&] { kept.append_kept({offsets, bytes}, bits(both, 0, 2)); };
    check(in_turn(keep_both, no_text) == 2, "the requests of texts");
    check(kept.size() == 2 && kept.bytes() == bytes, "texts after refusals");
    vortex_bits::texts_mut<std::int32_t> copy;
    copy.append(std::string(20, 'b'));
    const auto is_old = [&] { return copy.size() == 1 && copy[0] == std::string(20, 'b'); };
    check(in_turn([&] { copy = kept; }, is_old) == 2, "the requests of an assignment");
    auto &same = copy;
    copy = std::move(same);
    check(copy.size() == 2 && copy.bytes() == bytes, "an assignment after refusals");
}

static void refusals()
{
    const buffer codes = {1, 0}, one = {1};
    const std::vector<double> values = {1, 2, 3};
    std::vector<double> sums(2);
    buffer bytes(1);
    bitmaps_by_code bitmaps(2);
    auto best = top_k<double>::least(2);
    for (const bits &it : {bits(bytes, 0, 1), bits(bytes, 0, 4)}) {
        refused([&] { (void)vortex_bits::group_sums(sums, codes, std::vector<float>(2), it); },
            "two lengths");
        refused([&] { (void)bitmaps.append(codes, it); }, "two lengths");
        refused([&] { best.append(values, it); }, "two lengths");
    }
    refused([&] { (void)vortex_bits::group_sums(sums, codes, values); }, "two lengths");
    refused([&] { (void)bitmaps[2]; }, "a code");
    check(sums == std::vector<double>(2) && bitmaps.size() == 0 && best.items().empty(),
        "a refused call changes nothing");
    check(bitmaps_by_code(0).append(one) == position(0) && !bitmaps_by_code(0).append(buffer()),
        "no groups");
    check(!bitmaps.append(buffer()) && bitmaps[1].empty(), "no rows");
}

int main()
{
    for (int round = 0; round < 80; round++) {
        splits_by_code<std::uint8_t>();
        splits_by_code<std::int8_t>();
        splits_by_code<std::uint16_t>();
        splits_by_code<std::int32_t>();
        sums_of_floats<std::uint8_t, float>();
        sums_of_floats<std::int8_t, double>();
        sums_of_floats<std::uint32_t, double>();
        ends_of_order<double>(round % 2 == 0);
        ends_of_order<float>(round % 2 == 0);
        ends_of_order<std::int64_t>(round % 2 == 0);
        ends_of_order<std::uint8_t>(round % 2 == 0);
    }
    moves();
    refused_memory();
    refusals();
    return failures == 0 ? 0 : 1;
}
