/*
 * Times the C++ calls without a C function, and plain loops, in turn: predicates, filters and takes
 * of texts, sums of floats by group, bitmaps by code, and the ten greatest values.
 *
 *     c++ -std=c++17 -O2 -I bindings/c bench/columns.cpp bindings/out/libvortex_bits.a -o columns
 *     ./columns
 *
 * It prints a line for each call and each size of a batch: the least time of the call and that of
 * the loop in 21 turns over up to a million rows, in nanoseconds a row, and their ratio; below 1
 * the call is faster. It stops if two results differ.
 */
#include "vortex_bits.hpp"

#include <chrono>
#include <cstdio>
#include <cstdlib>
#include <functional>
#include <numeric>
#include <random>
#include <unordered_set>

using vortex_bits::bits;
using vortex_bits::bits_mut;
using vortex_bits::texts;
using vortex_bits::texts_mut;

using buffer = std::vector<std::uint8_t>;

static const std::size_t ROWS = 1000000, TURNS = 21;

static const std::size_t CODES = 100;

/* A batch of rows, about one in ten of which is null: names, codes and prices. */
struct batch {
    std::size_t size() const { return offsets.size() - 1; }
    bool is_valid(std::size_t row) const { return (valid[row / 8] >> (row % 8) & 1) != 0; }

    std::string_view operator[](std::size_t row) const
    {
        const auto start = static_cast<std::size_t>(offsets[row]);
        return {bytes.data() + start, static_cast<std::size_t>(offsets[row + 1]) - start};
    }

    texts<std::int32_t> all() const { return texts<std::int32_t>(offsets, bytes); }

    std::vector<std::int32_t> offsets = {0};
    std::string bytes;
    buffer valid;
    std::vector<std::int32_t> codes;
    std::vector<double> prices;
};

static batch random_batch(std::size_t rows, std::mt19937 &random)
{
    const char *words[] = {"apple", "banana", "cherry", "date", "elderberry", "fig", "grape",
        "honeydew", "kiwi", "lemon", "mango", "nectarine", "orange juice", "papaya", "quince"};
    batch made;
    made.valid.resize((rows + 7) / 8);
    for (std::size_t row = 0; row < rows; row++) {
        made.bytes += words[random() % 15];
        made.bytes += random() % 2 == 0 ? std::to_string(random() % 1000) : "";
        made.offsets.push_back(static_cast<std::int32_t>(made.bytes.size()));
        bits_mut(made.valid, row, 1).fill(random() % 10 != 0);
        made.codes.push_back(static_cast<std::int32_t>(random() % CODES));
        made.prices.push_back(static_cast<double>(random()) / 1000);
    }
    return made;
}

using batches = std::vector<batch>;
using call = std::function<std::size_t(const batches &)>;

/* The last result, so that no call is optimized away. */
static volatile std::size_t result;

static double nanoseconds(const call &of, const batches &all)
{
    using clock = std::chrono::steady_clock;
    const clock::time_point start = clock::now();
    result = of(all);
    return std::chrono::duration<double, std::nano>(clock::now() - start).count();
}

static void time(const char *name, const batches &all, const call &ours, const call &loop)
{
    if (ours(all) != loop(all)) {
        std::fprintf(stderr, "%s: the results differ\n", name);
        std::exit(1);
    }
    double least[2] = {1e300, 1e300};
    for (std::size_t turn = 0; turn < TURNS; turn++) {
        least[0] = std::min(least[0], nanoseconds(ours, all));
        least[1] = std::min(least[1], nanoseconds(loop, all));
    }
    const double rows = static_cast<double>(all.size() * all[0].size());
    std::printf("%s,%zu,%.2f,%.2f,%.2f\n", name, all[0].size(), least[0] / rows, least[1] / rows,
        least[0] / least[1]);
}

/* Counts the valid rows that pass, by a call that writes a mask and by a test of each row. */
template <class Write, class Test>
static void predicate(const char *name, const batches &all, Write write, Test test)
{
    const call ours = [=](const batches &of) {
        std::size_t passed = 0;
        buffer bytes((of[0].size() + 7) / 8);
        for (const batch &it : of) {
            bits_mut mask(bytes, 0, it.size());
            write(it.all(), mask);
            mask.and_validity(bits(it.valid, 0, it.size()));
            passed += mask.count_ones();
        }
        return passed;
    };
    time(name, all, ours, [=](const batches &of) {
        std::size_t passed = 0;
        for (const batch &it : of) {
            for (std::size_t row = 0; row < it.size(); row++) {
                passed += it.is_valid(row) && test(it[row]);
            }
        }
        return passed;
    });
}

static void predicates(const batches &all, std::string_view equal, std::string_view part,
    const std::vector<std::string> &wanted)
{
    using column = texts<std::int32_t>;
    const std::unordered_set<std::string_view> set(wanted.begin(), wanted.end());
    predicate("equals", all,
        [=](column rows, bits_mut out) { rows.compare(VB_EQUAL, equal, out); },
        [=](auto row) { return row == equal; });
    predicate("less than", all,
        [=](column rows, bits_mut out) { rows.compare(VB_LESS, equal, out); },
        [=](auto row) { return row < equal; });
    predicate("starts with", all, [=](column rows, bits_mut out) { rows.starts_with(part, out); },
        [=](auto row) { return row.substr(0, part.size()) == part; });
    predicate("ends with", all, [=](column rows, bits_mut out) { rows.ends_with(part, out); },
        [=](auto row) {
            return row.size() >= part.size() && row.substr(row.size() - part.size()) == part;
        });
    predicate("contains", all, [=](column rows, bits_mut out) { rows.contains(part, out); },
        [=](auto row) { return row.find(part) != row.npos; });
    predicate("in a set of 6", all, [&](column rows, bits_mut out) { rows.is_in(wanted, out); },
        [&](auto row) { return set.count(row) != 0; });
}

/* Joins the texts that a mask selects from each batch. */
static void joins(const char *name, const batches &all, const buffer &mask)
{
    const call ours = [&](const batches &of) {
        texts_mut<std::int32_t> kept;
        for (const batch &it : of) {
            kept.append_kept(it.all(), bits(mask, 0, it.size()));
        }
        return kept.size() + kept.bytes().size();
    };
    time(name, all, ours, [&](const batches &of) {
        std::vector<std::int32_t> offsets = {0};
        std::string bytes;
        for (const batch &it : of) {
            for (std::size_t row = 0; row < it.size(); row++) {
                if ((mask[row / 8] >> (row % 8) & 1) != 0) {
                    bytes += it[row];
                    offsets.push_back(static_cast<std::int32_t>(bytes.size()));
                }
            }
        }
        return offsets.size() - 1 + bytes.size();
    });
}

static void takes(const batches &all, const std::vector<std::uint32_t> &indices)
{
    const call ours = [&](const batches &of) {
        texts_mut<std::int32_t> taken;
        for (const batch &it : of) {
            if (taken.append_taken(it.all(), indices)) {
                std::abort(); // each index is one of a row
            }
        }
        return taken.size() + taken.bytes().size();
    };
    time("take", all, ours, [&](const batches &of) {
        std::vector<std::int32_t> offsets = {0};
        std::string bytes;
        for (const batch &it : of) {
            for (const std::uint32_t row : indices) {
                bytes += it[row];
                offsets.push_back(static_cast<std::int32_t>(bytes.size()));
            }
        }
        return offsets.size() - 1 + bytes.size();
    });
}

static std::size_t hash(const std::vector<double> &sums)
{
    const auto add = [](std::size_t all, double it) { return 31 * all + std::size_t(it); };
    return std::accumulate(sums.begin(), sums.end(), std::size_t(0), add);
}

/* Sums the prices of the valid rows by code. */
static void groups(const batches &all)
{
    const call ours = [](const batches &of) {
        std::vector<double> sums(CODES);
        for (const batch &it : of) {
            if (vortex_bits::group_sums(sums, it.codes, it.prices, bits(it.valid, 0, it.size()))) {
                std::abort(); // each code is one of a group
            }
        }
        return hash(sums);
    };
    time("sum by group", all, ours, [](const batches &of) {
        std::vector<double> sums(CODES);
        for (const batch &it : of) {
            for (std::size_t row = 0; row < it.size(); row++) {
                if (it.is_valid(row)) {
                    sums[static_cast<std::size_t>(it.codes[row])] += it.prices[row];
                }
            }
        }
        return hash(sums);
    });
}

/* Builds a bitmap of the valid rows for each code, and counts the rows of one. */
static void bitmaps(const batches &all)
{
    const call ours = [](const batches &of) {
        vortex_bits::bitmaps_by_code made(CODES);
        for (const batch &it : of) {
            if (made.append(it.codes, bits(it.valid, 0, it.size()))) {
                std::abort(); // each code is one of a bitmap
            }
        }
        return made[7].count_ones();
    };
    time("bitmaps by code", all, ours, [](const batches &of) {
        std::vector<buffer> made(CODES, buffer((ROWS + 7) / 8));
        std::size_t rows = 0;
        for (const batch &it : of) {
            for (std::size_t row = 0; row < it.size(); row++, rows++) {
                if (it.is_valid(row)) {
                    std::uint8_t &byte = made[static_cast<std::size_t>(it.codes[row])][rows / 8];
                    byte = static_cast<std::uint8_t>(byte | 1u << (rows % 8));
                }
            }
        }
        return bits(made[7], 0, rows).count_ones();
    });
}

static void greatest(const batches &all)
{
    const call ours = [](const batches &of) {
        auto best = vortex_bits::top_k<double>::greatest(10);
        for (const batch &it : of) {
            best.append(it.prices, bits(it.valid, 0, it.size()));
        }
        return best.items().back().row;
    };
    time("top 10", all, ours, [](const batches &of) {
        std::vector<std::pair<double, std::size_t>> best(10, {-1.0, 0});
        std::size_t rows = 0;
        for (const batch &it : of) {
            for (std::size_t row = 0; row < it.size(); row++, rows++) {
                const double price = it.prices[row];
                if (it.is_valid(row) && price > best.back().first) {
                    const auto is_less = [=](const auto &one) { return one.first < price; };
                    const auto at = std::find_if(best.begin(), best.end(), is_less);
                    std::move_backward(at, best.end() - 1, best.end());
                    *at = {price, rows};
                }
            }
        }
        return best.back().second;
    });
}

static void run(std::size_t rows)
{
    std::mt19937 random(1);
    batches all;
    for (std::size_t done = 0; done + rows <= ROWS; done += rows) {
        all.push_back(random_batch(rows, random));
    }
    predicates(all, "fig12", "an", {"fig", "lemon", "kiwi7", "papaya", "quince44", "date 7"});
    buffer half((rows + 7) / 8), few((rows + 7) / 8);
    for (std::size_t row = 0; row < rows; row++) {
        bits_mut(half, row, 1).fill(random() % 2 == 0);
        bits_mut(few, row, 1).fill(random() % 100 == 0);
    }
    joins("filter of 50 %", all, half);
    joins("filter of 1 %", all, few);
    std::vector<std::uint32_t> indices(rows);
    for (std::uint32_t &it : indices) {
        it = static_cast<std::uint32_t>(random() % indices.size());
    }
    takes(all, indices);
    groups(all);
    bitmaps(all);
    greatest(all);
}

int main()
{
    std::printf("call,rows a batch,ns a row,ns a row of the loop,ratio\n");
    run(1000);
    run(65536);
}
