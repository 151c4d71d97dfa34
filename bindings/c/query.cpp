/*
 * The engine of query.c by the classes of vortex_bits.hpp: `where a > x and b is not null` over a
 * stream of batches by Arrow's C stream interface, and the same by plain loops over rows.
 *
 *     query [ROWS [time]]
 */
#include "query_columns.hpp"
#include "query_rows.h"

#include <algorithm>
#include <chrono>
#include <cstdio>

constexpr std::int32_t limit = 700;
constexpr std::size_t nth = 999, places = 1000;

struct answer {
    std::size_t rows = 0;
    /* The columns of the rows that are kept, and which values of c are valid. */
    std::vector<std::int64_t> b;
    std::vector<double> c;
    std::vector<std::uint8_t> c_valid;
    std::int64_t sum_b = 0;
    double sum_c = 0;
    /* The first selected row, and the selected row number `nth`, counted from 0. */
    std::optional<std::size_t> first, found;
    std::size_t nulls = 0, flags = 0;
    /* The values of b at some of the selected rows, and the number of nulls of c there. */
    std::vector<std::int64_t> taken;
    std::size_t taken_nulls = 0;

    bool operator==(const answer &other) const
    {
        return rows == other.rows && b == other.b && c == other.c && c_valid == other.c_valid
            && sum_b == other.sum_b && sum_c == other.sum_c && first == other.first
            && found == other.found && nulls == other.nulls && flags == other.flags
            && taken == other.taken && taken_nulls == other.taken_nulls;
    }
};

static std::uint32_t place_at(std::uint32_t i)
{
    return static_cast<std::uint32_t>(i * 2654435761u) >> 16;
}

/* Appends the `kept` values that the mask selects. */
template <class T>
static void append(std::vector<T> &all, view<const T> values, bits mask, std::size_t kept)
{
    const std::size_t at = all.size();
    all.resize(at + kept);
    mask.keep_into(values, view<T>{all.data() + at, kept});
}

struct by_calls {
    static void find(answer &to, bits mask, std::size_t n, std::optional<std::size_t> &row)
    {
        if (const auto place = mask.select(n); place && !row) {
            row = to.rows + *place;
        }
    }

    /* Appends the validity of the values of c that the mask selects, after `at` others. */
    static void append_valid(answer &to, std::size_t at, std::optional<bits> valid, bits mask,
        std::size_t kept)
    {
        to.c_valid.resize(bytes_for(at + kept));
        bits_mut(to.c_valid, at, kept).filter_validity_of(valid, mask);
    }

    static void add(answer &to, const batch &all)
    {
        const column a(all, 0), b(all, 1), c(all, 2), flag(all, 3);
        const std::size_t len = a.size(), at = to.b.size();
        std::vector<std::uint8_t> bytes(bytes_for(len));
        bits_mut mask(bytes, 0, len);
        vortex_bits::compare(a.values<std::int32_t>(), VB_GREATER, limit, mask);
        mask.and_validity(a.valid());
        mask.and_validity(b.valid());
        const std::size_t kept = mask.count_ones();
        find(to, mask, 0, to.first);
        if (at <= nth) {
            find(to, mask, nth - at, to.found);
        }
        append(to.b, b.values<std::int64_t>(), mask, kept);
        append(to.c, c.values<double>(), mask, kept);
        append_valid(to, at, c.valid(), mask, kept);
        to.nulls += len - vortex_bits::count_valid(a.valid(), b.valid(), len);
        to.flags += vortex_bits::count_valid(flag.flags(), flag.valid(), len);
        to.rows += len;
    }

    static void finish(answer &to)
    {
        for (const std::int64_t value : to.b) {
            to.sum_b += value;
        }
        const bits valid(to.c_valid, 0, to.c.size());
        valid.for_each_set([&](std::size_t row) { to.sum_c += to.c[row]; });
        std::vector<std::uint32_t> at;
        for (std::uint32_t i = 0; i < places; i++) {
            if (place_at(i) < to.b.size()) {
                at.push_back(place_at(i));
            }
        }
        to.taken.resize(at.size());
        std::vector<std::uint8_t> taken(bytes_for(at.size()));
        if (vortex_bits::take_values(to.b, at, to.taken) || valid.take_into(at, taken)) {
            std::abort(); // each index is below the number of selected rows
        }
        to.taken_nulls = bits(taken, 0, at.size()).count_zeros();
    }
};

struct by_loops {
    static void add(answer &to, const batch &all)
    {
        const column a(all, 0), b(all, 1), c(all, 2), flag(all, 3);
        const std::int32_t *a_values = a.values<std::int32_t>().data();
        const std::int64_t *b_values = b.values<std::int64_t>().data();
        const double *c_values = c.values<double>().data();
        for (std::size_t row = 0; row < a.size(); row++) {
            const bool has_both = a.is_valid(row) && b.is_valid(row);
            to.nulls += !has_both;
            to.flags += flag.flag(row) && flag.is_valid(row);
            if (has_both && a_values[row] > limit) {
                keep(to, to.rows + row, b_values[row], c_values[row], c.is_valid(row));
            }
        }
        to.rows += a.size();
    }

    static void keep(answer &to, std::size_t row, std::int64_t b, double c, bool has_c)
    {
        const std::size_t at = to.b.size();
        to.first = to.first ? to.first : row;
        to.found = at == nth ? row : to.found;
        to.b.push_back(b);
        to.c.push_back(c);
        to.sum_b += b;
        to.sum_c += has_c ? c : 0;
        to.c_valid.resize(bytes_for(at + 1));
        to.c_valid[at / 8] |= static_cast<std::uint8_t>(has_c << (at % 8));
    }

    static void finish(answer &to)
    {
        const bits valid(to.c_valid, 0, to.c.size());
        for (std::uint32_t i = 0; i < places; i++) {
            const std::size_t row = place_at(i);
            if (row < to.b.size()) {
                to.taken.push_back(to.b[row]);
                to.taken_nulls += !valid[row];
            }
        }
    }
};

template <class Way> static answer ask(const std::vector<batch> &batches)
{
    answer made;
    for (const batch &one : batches) {
        Way::add(made, one);
    }
    Way::finish(made);
    return made;
}

/* Reads all batches of a stream, and releases it. Their columns are those of query_rows.h. */
static std::vector<batch> read_all(ArrowArrayStream stream)
{
    std::vector<batch> batches;
    ArrowArray next;
    while (stream.get_next(&stream, &next) == 0 && next.release != nullptr) {
        batches.emplace_back(new ArrowArray(next));
    }
    stream.release(&stream);
    return batches;
}

template <class Way> static double time_of(const std::vector<batch> &batches)
{
    const auto start = std::chrono::steady_clock::now();
    const answer made = ask<Way>(batches);
    const std::chrono::duration<double, std::milli> took = std::chrono::steady_clock::now() - start;
    return made.rows > 0 ? took.count() : 0;
}

static void print_times(const std::vector<batch> &batches)
{
    double ours = 1e9, plain = 1e9;
    for (int round = 0; round < 30; round++) {
        ours = std::min(ours, time_of<by_calls>(batches));
        plain = std::min(plain, time_of<by_loops>(batches));
    }
    std::printf("%s: %.3f ms, by plain loops %.3f ms: %.2f of it\n", vb_level(), ours, plain,
        plain > 0 ? ours / plain : 1);
}

int main(int count, char **words)
{
    rows all = make_rows(rows_asked(count, words));
    {
        const std::vector<batch> batches = read_all(stream_of(&all));
        const answer made = ask<by_calls>(batches);
        if (!(made == ask<by_loops>(batches))) {
            std::fputs("the two ways differ\n", stderr);
            return 1;
        }
        std::printf("%zu of %zu rows are kept, sums %lld and %.2f\n", made.b.size(), made.rows,
            static_cast<long long>(made.sum_b), made.sum_c);
        if (count > 2) {
            print_times(batches);
        }
    }
    free_rows(&all);
    return 0;
}
