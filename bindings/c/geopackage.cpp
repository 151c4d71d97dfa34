/*
 * SQL's queries over a GeoPackage that GDAL opens, by the classes of vortex_bits.hpp: a filter with
 * three-valued logic, a semi-join, groups, the first rows of an order and a page.
 *
 *     geopackage FILE [ROWS]
 *
 * ../gdal/make_parcels.py writes FILE. GDAL passes its tables by Arrow's C stream interface, in
 * batches of at most ROWS rows, by default 65,536. The program prints each query with its rows;
 * ../gdal/compare compares them with those of SQLite.
 */
#include "query_columns.hpp"

#include <algorithm>
#include <cmath>
#include <cstdio>
#include <cstdlib>
#include <cstring>
#include <functional>
#include <numeric>
#include <string>
#include <string_view>

#include <gdal.h>
#include <ogr_api.h>

/* A mask of a batch, with its own bytes. */
struct mask {
    explicit mask(std::size_t len) : bytes((len + 7) / 8), len(len) {}

    bits_mut write() { return bits_mut(bytes, 0, len); }

    /* Appends `rows` bits, and returns them. */
    bits_mut grow(std::size_t rows)
    {
        len += rows;
        bytes.resize((len + 7) / 8);
        return write().slice(len - rows, rows);
    }

    operator bits() const { return bits(bytes, 0, len); }

    std::vector<std::uint8_t> bytes;
    std::size_t len;
};

/* Ends the program if a call of GDAL fails. */
static void must(bool good, const char *what)
{
    if (!good) {
        std::fprintf(stderr, "%s\n", what);
        std::exit(1);
    }
}

/* The requested columns of a table, and its batches. */
struct table {
    table(GDALDatasetH file, const char *layer, const std::string &most,
        std::vector<const char *> names)
    {
        std::string option = "MAX_FEATURES_IN_BATCH=" + most;
        std::vector<char *> options = {option.data(), nullptr};
        ArrowArrayStream stream;
        OGRLayerH found = GDALDatasetGetLayerByName(file, layer);
        must(found != nullptr && OGR_L_GetArrowStream(found, &stream, options.data()),
            "GDAL has no such stream");
        find(stream, names);
        while (true) {
            batch next(new ArrowArray);
            must(stream.get_next(&stream, next.get()) == 0, "GDAL can't read on");
            if (next->release == nullptr) {
                delete next.release();
                break;
            }
            batches.push_back(std::move(next));
        }
        stream.release(&stream);
    }

    /* Finds the index of each name among the columns. */
    void find(ArrowArrayStream &stream, const std::vector<const char *> &names)
    {
        ArrowSchema schema;
        must(stream.get_schema(&stream, &schema) == 0, "GDAL has no schema");
        for (const char *name : names) {
            std::int64_t i = 0;
            while (i < schema.n_children && std::strcmp(schema.children[i]->name, name) != 0) {
                i++;
            }
            must(i < schema.n_children, name);
            places.push_back(static_cast<std::size_t>(i));
        }
        schema.release(&schema);
    }

    std::vector<std::size_t> places;
    std::vector<batch> batches;
};

/* A column of an answer. */
template <class T> struct kept {
    /* Appends the values of a batch that the mask selects, `count` of them. */
    void add(const column &from, bits mask, std::size_t count)
    {
        const std::size_t at = values.size();
        values.resize(at + count);
        mask.keep_into(from.values<T>(), view<T>(values.data() + at, count));
        valid.resize((at + count + 7) / 8);
        bits_mut(valid, at, count).filter_validity_of(from.valid(), mask);
    }

    /* Returns the rows at indices. */
    kept take(const std::vector<std::uint32_t> &at) const
    {
        kept taken;
        taken.values.resize(at.size());
        taken.valid.resize((at.size() + 7) / 8);
        const bool fails = vortex_bits::take_values(values, at, taken.values)
            || bits_mut(taken.valid, 0, at.size()).take_of(bits(valid, 0, values.size()), at);
        must(!fails, "an index is past the rows");
        return taken;
    }

    std::string shown(std::size_t row) const
    {
        char text[32];
        if (!bits(valid, 0, values.size())[row]) {
            return "NULL";
        }
        if constexpr (std::is_floating_point_v<T>) {
            std::snprintf(text, sizeof text, "%.3f", values[row]);
            return text;
        } else {
            return std::to_string(values[row]);
        }
    }

    std::vector<T> values;
    std::vector<std::uint8_t> valid;
};

/* The parcels of a batch. */
struct parcels {
    parcels(const table &of, const batch &all)
        : fid(all, of.places[0]), weight(all, of.places[1]), truck(all, of.places[2]),
          cents(all, of.places[3]), days(all, of.places[4]), express(all, of.places[5])
    {
    }

    std::size_t size() const { return fid.size(); }

    column fid, weight, truck, cents, days, express;
};

/* The rows of an answer: select fid, weight, truck, cents. */
struct rows {
    void add(const parcels &from, bits mask)
    {
        const std::size_t count = mask.count_ones();
        fid.add(from.fid, mask, count);
        weight.add(from.weight, mask, count);
        truck.add(from.truck, mask, count);
        cents.add(from.cents, mask, count);
    }

    rows take(const std::vector<std::uint32_t> &at) const
    {
        return {fid.take(at), weight.take(at), truck.take(at), cents.take(at)};
    }

    void print() const
    {
        for (std::size_t row = 0; row < fid.values.size(); row++) {
            std::printf("%s,%s,%s,%s\n", fid.shown(row).c_str(), weight.shown(row).c_str(),
                truck.shown(row).c_str(), cents.shown(row).c_str());
        }
    }

    kept<std::int64_t> fid;
    kept<double> weight;
    kept<std::int64_t> truck, cents;
};

/*
 * Returns which values of a column satisfy a comparison with a number. The bits of nulls are
 * arbitrary.
 */
template <class T> static mask compared(const column &of, vb_comparison op, T number)
{
    mask made(of.size());
    vortex_bits::compare(of.values<T>(), op, number, made.write());
    return made;
}

/* Returns the same, with false at nulls. */
template <class T> static mask passed(const column &of, vb_comparison op, T number)
{
    mask made = compared(of, op, number);
    made.write().and_validity(of.valid());
    return made;
}

/* Evaluates a condition with a `not`. A null must stay null until the `not` is applied. */
static mask neither_near_nor_light(const parcels &of)
{
    const mask near = compared<std::int32_t>(of.days, VB_LESS_OR_EQUAL, 3);
    const mask light = compared(of.weight, VB_LESS, 2.5);
    const mask quick = compared<std::int32_t>(of.express, VB_EQUAL, 1);
    mask either(of.size()), valid(of.size()), any(of.size()), any_valid(of.size());
    either.write().or_kleene_of(near, of.days.valid(), light, of.weight.valid(), valid.write());
    any.write().or_kleene_of(either, valid, quick, of.express.valid(), any_valid.write());
    any_valid.write().and_not(any);
    return any_valid;
}

/*
 * Returns for each row the bit of `chosen` at its truck's number; false if the row names no truck.
 */
static mask of_chosen(const parcels &of, const mask &chosen)
{
    const auto end = static_cast<std::int64_t>(chosen.len);
    mask known = passed<std::int64_t>(of.truck, VB_GREATER_OR_EQUAL, 0), made(of.size());
    known.write() &= compared<std::int64_t>(of.truck, VB_LESS, end);
    const bool fails =
        made.write().take_of(chosen, of.truck.values<std::int64_t>(), known).has_value();
    must(!fails, "a truck is not one of the trucks");
    return made;
}

using rule = std::function<mask(const parcels &)>;

static rows filter(const table &from, const rule &where)
{
    rows found;
    for (const batch &all : from.batches) {
        const parcels some(from, all);
        found.add(some, where(some));
    }
    return found;
}

/* Returns which trucks are in Linz. */
static mask in_linz(const table &trucks)
{
    mask made(0);
    for (const batch &all : trucks.batches) {
        const column city(all, trucks.places[0]);
        bits_mut rows = made.grow(city.size());
        city.texts().compare(VB_EQUAL, "Linz", rows);
        rows.and_validity(city.valid());
    }
    return made;
}

/*
 * Prints for each truck the number of its parcels, the number of those with a price, and the sum of
 * the prices.
 */
static void print_groups(const table &from, std::size_t trucks)
{
    for (std::size_t truck = 0; truck < trucks; truck++) {
        const auto number = static_cast<std::int64_t>(truck);
        const rows of = filter(from, [&](const parcels &some) {
            return passed(some.truck, VB_EQUAL, number);
        });
        std::int64_t sum = 0;
        const bits valid(of.cents.valid, 0, of.cents.values.size());
        valid.for_each_set([&](std::size_t row) { sum += of.cents.values[row]; });
        if (valid.size() > 0) {
            std::printf("%zu,%zu,%zu,%s\n", truck, valid.size(), valid.count_ones(),
                valid.any() ? std::to_string(sum).c_str() : "NULL");
        }
    }
}

/*
 * Keeps the heaviest rows so far, and considers only rows that are heavier than the lightest of
 * them.
 */
static rows heaviest(const table &from, std::size_t most)
{
    rows top;
    for (const batch &all : from.batches) {
        const parcels some(from, all);
        const bool full = top.fid.values.size() == most;
        top.add(some, full ? passed(some.weight, VB_GREATER, top.weight.values.back())
                           : passed(some.weight, VB_GREATER_OR_EQUAL, -HUGE_VAL));
        const std::vector<double> &weight = top.weight.values;
        std::vector<std::uint32_t> order(weight.size());
        std::iota(order.begin(), order.end(), 0u);
        std::stable_sort(order.begin(), order.end(),
            [&](std::uint32_t one, std::uint32_t other) { return weight[one] > weight[other]; });
        order.resize(std::min(order.size(), most));
        top = top.take(order);
    }
    return top;
}

/* Skips rows by counting bits, without reading their values. */
static rows page(const table &from, std::size_t offset, std::size_t limit)
{
    rows found;
    for (const batch &all : from.batches) {
        const parcels some(from, all);
        mask express = passed<std::int32_t>(some.express, VB_EQUAL, 1);
        const std::size_t count = bits(express).count_ones();
        const std::size_t first = bits(express).select(offset).value_or(express.len);
        const std::size_t end = bits(express).select(offset + limit).value_or(express.len);
        express.write().slice(0, first).fill(false);
        express.write().slice(end, express.len - end).fill(false);
        limit -= bits(express).count_ones();
        offset -= std::min(offset, count);
        found.add(some, express);
    }
    return found;
}

static void ask(const table &of, const mask &linz)
{
    const char *const columns = "-- select fid, weight, truck, cents from parcels where";
    std::printf("%s not (days <= 3 or weight < 2.5 or express = 1);\n", columns);
    filter(of, neither_near_nor_light).print();
    std::printf("%s truck in (select truck from trucks where city = 'Linz');\n", columns);
    filter(of, [&](const parcels &some) { return of_chosen(some, linz); }).print();
    std::printf("%s weight is not null order by weight desc, fid limit 10;\n", columns);
    heaviest(of, 10).print();
    std::printf("%s express = 1 order by fid limit 20 offset 50;\n", columns);
    page(of, 50, 20).print();
    std::puts("-- select truck, count(*), count(cents), sum(cents) from parcels "
              "where truck in (select truck from trucks) group by truck order by truck;");
    print_groups(of, linz.len);
}

int main(int count, char **words)
{
    if (count < 2) {
        std::puts("skipped: no file, such as bindings/gdal/make_parcels.py writes");
        return 0;
    }
    GDALAllRegister();
    GDALDatasetH file = GDALOpenEx(words[1], GDAL_OF_VECTOR, nullptr, nullptr, nullptr);
    must(file != nullptr, "GDAL can't open the file");
    {
        const std::string most = count > 2 ? words[2] : "65536";
        const table all(file, "parcels", most,
            {"fid", "weight", "truck", "cents", "days", "express"});
        ask(all, in_linz(table(file, "trucks", most, {"city"})));
    }
    GDALClose(file);
    return 0;
}
