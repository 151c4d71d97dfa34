"""Code that must compile with vortex_bits.hpp, and code that must not, for bindings/c/headers."""

# The beginning of each program.
BEGIN = """\
#include "vortex_bits.h"
size_t position(vb_taken);
#include "vortex_bits.hpp"

#include <memory>
#include <string>
#if __cplusplus >= 202002L
#include <span>
#endif

using namespace vortex_bits;
using buffer = std::vector<std::uint8_t>;

/* A user's view, a view of writable bytes, and types that own their bytes. */
struct slice {
    const std::uint8_t *first;
    std::size_t count;
    const std::uint8_t *data() const { return first; }
    std::size_t size() const { return count; }
};
template <> inline constexpr bool vortex_bits::is_borrowed<slice> = true;
struct spare {
    std::uint8_t *first;
    std::size_t count;
    std::uint8_t *data() const { return first; }
    std::size_t size() const { return count; }
};
namespace user {
struct alignas(8) cell { int a, b; };
template <class V, class I, class N, class O>
std::optional<std::size_t> take_values(const V &, const I &, N, O &&) = delete;
} // namespace user
struct counted {
    std::uint8_t all[2];
    std::uint8_t *data() { return all; }
    std::size_t size() { return 2; }
};
template <class Item> struct column {
    std::vector<Item> items;
    Item *data() { return items.data(); }
    const Item *data() const { return items.data(); }
    int size() const { return static_cast<int>(items.size()); }
};
struct digest {
    std::uint8_t all[16];
    const std::uint8_t *data() const { return all; }
    std::size_t size() const { return 16; }
};
#if __cplusplus >= 202002L
struct range : slice {};
template <> inline constexpr bool std::ranges::enable_borrowed_range<range> = true;
#endif
[[maybe_unused]] static buffer made() { return buffer(4); }
[[maybe_unused]] static const buffer made_constant() { return buffer(4); }
[[maybe_unused]] static std::size_t count(bits rows) { return rows.count_ones(); }
template <class Window, class Bytes>
constexpr bool can_be = std::is_constructible_v<Window, Bytes, std::size_t, std::size_t>;
"""
# The function around each line of code, with the variables that the line may use.
AROUND = """\
static void line_{line}()
{{
    [[maybe_unused]] buffer bytes(4);
    [[maybe_unused]] const buffer fixed(4);
    [[maybe_unused]] std::uint8_t plain[4] = {{}};
    [[maybe_unused]] bits rows(fixed, 0, 8);
    [[maybe_unused]] bits_mut four(bytes, 0, 4);
#line {line}
    {code}
}}

"""

# Code that must compile as C++17 and later, and code that must as C++20 and later.
ACCEPTED = [
    "(void)bits(bytes, 0, 8); (void)bits_mut(bytes, 0, 8);",
    "(void)bits(fixed, 0, 8); (void)count({fixed, 0, 8});",
    "std::array<std::uint8_t, 4> all = {}; (void)bits(all, 0, 8); (void)bits_mut(all, 0, 8);",
    "(void)bits(plain, 4, 0, 8); (void)bits_mut(plain, 4, 0, 8);",
    "const spare all = {plain, 4}; (void)bits(all, 0, 8); (void)bits_mut(all, 0, 8);",
    "const slice all = {plain, 4}; (void)bits(all, 0, 8);",
    "(void)bits(slice{plain, 4}, 0, 8); (void)bits(spare{plain, 4}, 0, 8);",
    "bits_mut(spare{plain, 4}, 0, 8).fill(true);",
    "spare all = {plain, 4}; (void)bits(std::move(all), 0, 8);",
    "spare all = {plain, 4}; (void)bits_mut(std::move(all), 0, 8);",
    "(void)bits(std::basic_string_view<std::uint8_t>(plain, 4), 0, 8);",
    "(void)count({slice{plain, 4}, 0, 8}); (void)ranks(bits(slice{plain, 4}, 0, 8));",
    "(void)bits(vortex_bits::view(plain, 4), 0, 8);",
    "bits_mut(vortex_bits::view(plain, 4), 0, 8).fill(true);",
    "std::vector<std::uint64_t> all(1); (void)bits(all, 0, 64); (void)bits_mut(all, 0, 64);",
    "const std::vector<std::uint64_t> all(1); (void)bits(all, 0, 64); (void)count({all, 0, 8});",
    "std::uint64_t all[2] = {}; (void)bits(vortex_bits::view(all, 2), 0, 128);",
    "static_assert(can_be<bits, buffer &> && can_be<bits, const buffer &> && can_be<bits, slice>);",
    "static_assert(!can_be<bits, buffer> && !can_be<bits, const buffer> && !can_be<bits, digest>);",
    "static_assert(can_be<bits_mut, buffer &> && can_be<bits_mut, spare>);",
    "static_assert(!can_be<bits_mut, buffer> && !can_be<bits_mut, const buffer &>);",
    "static_assert(!can_be<bits_mut, slice> && !can_be<bits_mut, digest &>);",
    "std::vector<std::size_t> all; rows.for_each_set([&](std::size_t i) { all.push_back(i); });",
    "rows.for_each_set([](std::size_t i) { return i < 3; });",
    "rows.for_each_set([p = std::make_unique<int>(1)](std::size_t &&) mutable { return ++*p; });",
    "bool is = true; rows.for_each_set([&](auto) -> const bool & { return is; });",
    "rows.for_each_run([](std::size_t, std::size_t end) { return end < 9; });",
    "std::vector<std::uint32_t> all = rows.set_indices<std::uint32_t>(); (void)all;",
    "std::array<std::uint32_t, 2> all; (void)rows.set_indices_into(all);",
    "bits_mut all(bytes, 0, 8); all.and_validity(rows); all.and_validity(std::nullopt);",
    "bits_mut(bytes, 0, 8).and_validities_of(bits_mut(plain, 4, 0, 8), bits(fixed, 1, 8));",
    "(void)count_valid(rows, {}, 8); (void)count_valid(validity(plain, 4, 0, 8), rows, 8);",
    "bits_mut all(bytes, 0, 8); (void)(all.count_ones() + all[0] + all.any() + (all == rows));",
    "const bits_mut all(bytes, 0, 8); all.for_each_set([](std::size_t) {}); rows = all;",
    "std::optional<bits> valid = rows; (void)bits_mut(bytes, 0, 8).take_of(rows, fixed, valid);",
    "(void)rows.take_into(fixed, std::nullopt, bytes); (void)rows.take_into(fixed, rows, bytes);",
    "const auto &table = ranks(rows).table(); (void)table[0];",
    "std::vector<user::cell> all(8), out(8); (void)vortex_bits::take_values(all, bytes, out);",
    "counted all{{1, 2}}; (void)bits_mut(all, 0, 16); (void)rows.take_into(fixed, all);",
    "std::vector<std::uint64_t> all(2); (void)group_counts(all, bytes);",
    "column<std::uint8_t> all{bytes}; (void)rows.filter_into(rows, all); (void)bits(all, 0, 8);",
    "column<std::uint64_t> all{{1}}; (void)bits(all, 0, 64); bits_mut(all, 0, 64).fill(true);",
    "column<int> all{{1, 2}}; compare(all, VB_LESS, 2, four);",
    "column<int> all{{1, 2}}; compare_with(all, VB_LESS, all, four);",
    "column<int> all{{1, 2}}; (void)(rows.keep_into(all, all) + rows.retain_in(all));",
    "column<int> all{{1, 2}}; (void)(rows.scatter_into(all, all) + *masked_min(all, rows));",
    "column<unsigned> all{{1}}; (void)rows.take_into(all, bytes);",
    "column<unsigned> all{{1}}; (void)take_values(all, all, all);",
    "column<std::uint64_t> sums{{1}}; column<unsigned> all{{1}}; (void)group_sums(sums, all, all);",
    "compare(std::vector<std::int8_t>(8), VB_LESS, 5, bits_mut(bytes, 0, 8));",
    "const vb_comparison op = VB_LESS; compare(vortex_bits::view(plain, 4), op, 5u, four);",
    "compare(std::vector<float>(8), VB_LESS, 0.5, {bytes, 0, 8});",
    "compare(std::vector<double>(8), VB_LESS, fixed.size(), {bytes, 0, 8});",
    "const auto op = static_cast<vb_comparison>(plain[0]); compare_with(fixed, op, fixed, four);",
    "const std::vector<int> at{0}; const std::string all; (void)(texts(at, all).size());",
    "std::vector<int> at{0, 1}; texts(at, std::string_view(\"a\")).contains(\"\", {bytes, 0, 1});",
    "std::int64_t at[1] = {}; (void)texts(vortex_bits::view(at, 1), fixed).slice(0, 0).empty();",
    "column<int> at{{0, 1}}; column<char> it{{'a'}}; texts(at, it).is_in({\"a\"}, {bytes, 0, 1});",
    "std::vector<std::string> all; texts<std::int64_t>().is_in(all, bits_mut(bytes, 0, 0));",
    "bits_mut all = four; all = four.slice(0, 2); rows = all; (void)(all.size() + rows.size());",
    "texts_mut<int> all; all.append(\"a\"); texts it = all.as_texts(); (void)(it[0] == all[0]);",
    "bitmaps_by_code all(2); (void)all.append(fixed, rows); (void)(all[1].any() + all.codes());",
    "auto all = top_k<int>::least(2); all.append(std::vector<int>(8), rows); (void)all.items();",
    "std::vector<double> all(2); (void)group_sums(all, fixed, std::vector<float>(4), rows);",
    "texts_mut<int> all; (void)(all.append_kept({}, {}) + all.append_taken({}, fixed).value());",
    "static_assert(!can_be<bits, std::string &> && !can_be<bits, std::uint8_t *>);",
    "static_assert(!can_be<bits_mut, std::string &> && !can_be<bits_mut, std::uint8_t *>);",
]
ACCEPTED_SINCE_20 = [
    "(void)bits(std::span<const std::uint8_t>(fixed), 0, 8);",
    "(void)bits(std::span<std::uint8_t>(bytes), 0, 8); (void)bits(std::span(plain), 0, 8);",
    "bits_mut(std::span<std::uint8_t>(plain, 4), 0, 8).fill(true);",
    "(void)bits_mut(std::span(plain), 0, 8); (void)bits_mut(std::span(bytes).first(2), 0, 8);",
    "const std::span all(plain); (void)bits(all, 0, 8); (void)bits_mut(all, 0, 8);",
    "(void)bits(range{plain, 4}, 0, 8);",
    "std::uint64_t all[2] = {}; (void)bits(std::span(all), 0, 128);",
    "std::uint64_t all[2] = {}; bits_mut(std::span(all), 0, 128).fill(true);",
    "static_assert(can_be<bits, std::span<std::uint8_t, 4>> && !can_be<bits, std::span<char>>);",
    "static_assert(!can_be<bits_mut, std::span<const std::uint8_t>>);",
]

# Code that must not compile: windows over bytes that are freed before them, writable windows over
# const bytes, and windows over other items; a number in place of a comparison; and results that are
# ignored. Both compilers have these words in their errors.
DELETED = "deleted (function|constructor|member function|operator)"
NONE, UNUSED = "no matching", "ignoring return value"
REFUSED = [
    ("bits it(buffer(4), 0, 8); (void)it;", DELETED),
    ("bits it(made(), 0, 8); (void)it;", DELETED),
    ("bits it(made_constant(), 0, 8); (void)it;", DELETED),
    ("bits it(std::move(bytes), 0, 8); (void)it;", DELETED),
    ("bits it(std::array<std::uint8_t, 4>{}, 0, 8); (void)it;", DELETED),
    ("bits it(std::basic_string<std::uint8_t>(4, 0), 0, 8); (void)it;", DELETED),
    ("bits it(digest(), 0, 8); (void)it;", DELETED),
    ("bits it(std::vector<std::uint64_t>(4), 0, 8); (void)it;", DELETED),
    ("bits_mut it(std::vector<std::uint64_t>(4), 0, 8); (void)it;", DELETED),
    ("const std::vector<std::uint64_t> all(1); bits_mut it(all, 0, 8); (void)it;", DELETED),
    ("std::vector<std::uint32_t> all(1); bits it(all, 0, 8); (void)it;", DELETED),
    ("std::string all(4, ' '); bits it(all, 0, 8); (void)it;", DELETED),
    ("std::vector<std::byte> all(1); bits_mut it(all, 0, 8); (void)it;", DELETED),
    ("bits it(bytes.data(), 0, 8); (void)it;", DELETED),
    ("bits_mut it(plain, 0, 8); (void)it;", DELETED),
    ("bits_mut it(fixed.data(), 0, 8); (void)it;", DELETED),
    ("(void)count({buffer(4), 0, 8});", DELETED),
    ("bits_mut it(buffer(4), 0, 8); (void)it;", DELETED),
    ("bits_mut(made(), 0, 8).fill(true);", DELETED),
    ("bits_mut(std::move(bytes), 0, 8).fill(true);", DELETED),
    ("bits_mut(std::array<std::uint8_t, 4>{}, 0, 8).fill(true);", DELETED),
    ("bits_mut it(fixed, 0, 8); (void)it;", DELETED),
    ("bits_mut it(made_constant(), 0, 8); (void)it;", DELETED),
    ("bits_mut it(slice{plain, 4}, 0, 8); (void)it;", DELETED),
    ("compare(fixed, 2, VB_LESS, four);", NONE),
    ("compare(fixed, 5, 2, four);", NONE),
    ("compare_with(fixed, 2, fixed, four);", NONE),
    ("rows.take_into(bytes, bytes);", UNUSED),
    ("rows.take_into(bytes, rows, bytes);", UNUSED),
    ("bits_mut(bytes, 0, 8).take_of(rows, fixed);", UNUSED),
    ("bits_mut(bytes, 0, 8).take_of(rows, fixed, rows);", UNUSED),
    ("take_values(fixed, fixed, bytes);", UNUSED),
    ("take_values(fixed, fixed, rows, bytes);", UNUSED),
    ("masked_sum(fixed, rows);", UNUSED),
    ("masked_max(fixed, rows);", UNUSED),
    ("texts_mut<int>().append_taken({}, fixed);", UNUSED),
    ("(void)texts_mut<int>().as_texts();", DELETED),
    ("(void)texts_mut<int>().bytes();", DELETED),
    ("(void)texts_mut<int>().offsets();", DELETED),
    ("(void)texts_mut<int>()[0];", DELETED),
    ("for (auto &it : top_k<int>::least(2).items()) { (void)it; }", DELETED),
    ("bitmaps_by_code(2).append(fixed);", UNUSED),
    ("(void)bitmaps_by_code(2)[1];", DELETED),
    ("four.slice(0, 2) = four.slice(1, 2);", "discards|expects an lvalue|no viable"),
]


def program(codes: list[str]) -> str:
    """A program with these lines of code, numbered by `#line`, in their order, from 1001 on."""
    parts = [AROUND.format(line=line, code=code) for line, code in enumerate(codes, 1001)]
    uses = "".join(f"    line_{line}();\n" for line in range(1001, 1001 + len(codes)))
    return f"{BEGIN}{''.join(parts)}int main()\n{{\n{uses}}}\n"


def accepted(standard: str) -> str:
    """A program of all that compiles."""
    return program([*ACCEPTED, *(ACCEPTED_SINCE_20 if standard >= "c++20" else [])])


def refused() -> tuple[str, dict[int, str]]:
    """A program of all that must not compile, and what the first error of each line says."""
    lines = {line: error for line, (_, error) in enumerate(REFUSED, 1001)}
    return program([code for code, _ in REFUSED]), lines
