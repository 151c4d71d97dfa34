/*
 * A small engine in C: `select b, c where a > x and b is not null` over a stream of batches, which
 * another part of the program, query_rows.h, produces by Arrow's C stream interface. The program
 * answers it by the calls of vortex_bits.h, and by plain loops over rows, and compares the answers.
 * It needs C11 for its clock.
 *
 *     query [ROWS [time]]
 *
 * It makes ROWS rows, by default 100,000. With `time` it prints the times of the query and of the
 * plain loops, which it runs in turns: the least of 30 times of each.
 */
#include "arrow.h"
#include "query_rows.h"
#include "vortex_bits.h"

#include <stdio.h>
#include <stdlib.h>
#include <string.h>
#include <time.h>

enum { LIMIT = 700, NTH = 999, AT = 1000, ROUNDS = 30 };

/* Bits from `offset` on; `bytes` is NULL if all are true. */
struct bits {
    const uint8_t *bytes;
    size_t size;
    size_t offset;
};

/* A column of a batch; bit or item `offset` of the values is that of its first row. */
struct column {
    size_t len;
    size_t offset;
    /* The validity; if it is missing, a null pointer of no bytes. */
    struct bits valid;
    /* The values, if they are bits. */
    struct bits flags;
    const void *values;
};

static struct column column_of(const struct ArrowArray *batch, size_t i)
{
    const struct ArrowArray *child = batch->children[i];
    const size_t len = (size_t)batch->length, offset = (size_t)(batch->offset + child->offset);
    const void *valid = child->null_count == 0 ? NULL : child->buffers[0];
    const size_t size = bytes_for(offset + len);
    const struct column column = {len, offset, {valid, valid == NULL ? 0 : size, offset},
        {child->buffers[1], size, offset}, child->buffers[1]};
    return column;
}

struct answer {
    size_t rows;
    /* The columns of the rows that are kept, and which values of c are valid. */
    size_t kept;
    int64_t *b;
    double *c;
    uint8_t *c_valid;
    size_t c_valid_size;
    /* The sums over the selected rows in which the value is valid. */
    int64_t sum_b;
    double sum_c;
    /* The first selected row, and the selected row number NTH, counted from 0. */
    vb_place first;
    vb_place nth;
    /* The number of rows in which a or b is null, and the number with a true flag. */
    size_t nulls;
    size_t flags;
    /* The values of b at up to AT of the selected rows, and the number of nulls of c there. */
    size_t taken;
    int64_t at[AT];
    size_t taken_nulls;
};

/* Returns an empty answer with space for `rows` rows. */
static struct answer answer_for(size_t rows)
{
    struct answer answer = {.b = room(rows, sizeof *answer.b), .c = room(rows, sizeof *answer.c),
        .c_valid = room(bytes_for(rows), 1), .c_valid_size = bytes_for(rows)};
    return answer;
}

static void free_answer(struct answer *answer)
{
    free(answer->b);
    free(answer->c);
    free(answer->c_valid);
}

/* Returns the i-th of the indices at which `finish` takes rows. */
static uint32_t place_at(uint32_t i)
{
    return (uint32_t)(i * 2654435761u) >> 16;
}

/* Returns the number of rows, among `len`, in which both are valid. */
static size_t count_both(struct bits left, struct bits right, size_t len)
{
    return vb_count_valid(left.bytes, left.size, left.offset, right.bytes, right.size, right.offset,
        len);
}

/* Writes which rows of a batch have an a above the limit, and neither a nor b null. */
static void compare(uint8_t *mask, const struct column *a, const struct column *b)
{
    const struct bits valid[] = {a->valid, b->valid};
    const size_t size = bytes_for(a->len);
    vb_compare_i32(mask, size, 0, (const int32_t *)a->values + a->offset, a->len, VB_GREATER,
        LIMIT);
    for (size_t i = 0; i < 2; i++) {
        vb_and_validity(mask, size, 0, valid[i].bytes, valid[i].size, valid[i].offset, a->len);
    }
}

/* Adds the `kept` rows of a batch that the mask selects to the columns. */
static void keep(struct answer *answer, const uint8_t *mask, size_t kept, const struct column *b,
    const struct column *c)
{
    const size_t at = answer->kept, size = bytes_for(b->len);
    vb_filter_values_u64((uint64_t *)answer->b + at, kept, (const uint64_t *)b->values + b->offset,
        b->len, mask, size, 0);
    vb_filter_values_u64((uint64_t *)(void *)(answer->c + at), kept,
        (const uint64_t *)c->values + c->offset, c->len, mask, size, 0);
    vb_filter_validity(answer->c_valid, answer->c_valid_size, at, c->valid.bytes, c->valid.size,
        c->valid.offset, mask, size, 0, c->len);
    answer->kept += kept;
}

/* Returns the row of the n-th set bit of a batch's mask, if it has that many. */
static vb_place find(const struct answer *answer, const uint8_t *mask, size_t len, size_t n)
{
    vb_place place = vb_select(mask, bytes_for(len), 0, len, n);
    place.index += place.found ? answer->rows : 0;
    return place;
}

static void add(struct answer *answer, const struct ArrowArray *batch)
{
    const struct column a = column_of(batch, 0), b = column_of(batch, 1), c = column_of(batch, 2),
        flag = column_of(batch, 3);
    uint8_t mask[BATCH / 8];
    compare(mask, &a, &b);
    const size_t kept = vb_count_ones(mask, sizeof mask, 0, a.len);
    if (!answer->first.found) {
        answer->first = find(answer, mask, a.len, 0);
    }
    if (!answer->nth.found && answer->kept <= NTH) {
        answer->nth = find(answer, mask, a.len, NTH - answer->kept);
    }
    keep(answer, mask, kept, &b, &c);
    answer->nulls += a.len - count_both(a.valid, b.valid, a.len);
    answer->flags += count_both(flag.flags, flag.valid, flag.len);
    answer->rows += a.len;
}

/* Computes the sums over the selected rows, and takes (gathers) some of these by index. */
static void finish(struct answer *answer)
{
    size_t found[64], start = 0, n;
    for (size_t row = 0; row < answer->kept; row++) {
        answer->sum_b += answer->b[row];
    }
    do {
        n = vb_set_indices(found, 64, answer->c_valid, answer->c_valid_size, start,
            answer->kept - start);
        for (size_t i = 0; i < n; i++) {
            answer->sum_c += answer->c[start + found[i]];
        }
        start += n == 64 ? found[63] + 1 : 0;
    } while (n == 64);
    uint32_t at[AT];
    uint8_t valid[AT / 8];
    for (uint32_t i = 0; i < AT; i++) {
        at[answer->taken] = place_at(i);
        answer->taken += place_at(i) < answer->kept;
    }
    const vb_taken values = vb_take_values_u64_u32((uint64_t *)answer->at, AT,
        (const uint64_t *)answer->b, answer->kept, at, answer->taken, true, NULL, 0, 0);
    const vb_taken bits = vb_take_bits_u32(valid, sizeof valid, 0, answer->c_valid,
        answer->c_valid_size, 0, answer->kept, at, answer->taken, true, NULL, 0, 0);
    if (values.out_of_range || bits.out_of_range) {
        abort();    // each index is below the number of selected rows
    }
    answer->taken_nulls = answer->taken - vb_count_ones(valid, sizeof valid, 0, answer->taken);
}

/*
 * The same by plain loops.
 */

static bool bit(struct bits bits, size_t row)
{
    const size_t i = bits.offset + row;
    return bits.bytes == NULL || (bits.bytes[i / 8] >> (i % 8) & 1) != 0;
}

static void keep_row(struct answer *answer, size_t row, int64_t b, double c, bool has_c)
{
    const size_t at = answer->kept++;
    const vb_place place = {true, answer->rows + row};
    if (at == 0) {
        answer->first = place;
    }
    if (at == NTH) {
        answer->nth = place;
    }
    answer->b[at] = b;
    answer->c[at] = c;
    answer->sum_b += b;
    answer->sum_c += has_c ? c : 0;
    answer->c_valid[at / 8] |= (uint8_t)(has_c << (at % 8));
}

static void add_by_loop(struct answer *answer, const struct ArrowArray *batch)
{
    const struct column a = column_of(batch, 0), b = column_of(batch, 1), c = column_of(batch, 2),
        flag = column_of(batch, 3);
    const int32_t *a_values = (const int32_t *)a.values + a.offset;
    const int64_t *b_values = (const int64_t *)b.values + b.offset;
    const double *c_values = (const double *)c.values + c.offset;
    for (size_t row = 0; row < a.len; row++) {
        const bool has_both = bit(a.valid, row) && bit(b.valid, row);
        if (has_both && a_values[row] > LIMIT) {
            keep_row(answer, row, b_values[row], c_values[row], bit(c.valid, row));
        }
        answer->nulls += !has_both;
        answer->flags += bit(flag.flags, row) && bit(flag.valid, row);
    }
    answer->rows += a.len;
}

static void finish_by_loop(struct answer *answer)
{
    const struct bits c_valid = {answer->c_valid, answer->c_valid_size, 0};
    for (uint32_t i = 0; i < AT; i++) {
        const size_t row = place_at(i);
        if (row < answer->kept) {
            answer->at[answer->taken++] = answer->b[row];
            answer->taken_nulls += !bit(c_valid, row);
        }
    }
}

/*
 * The batches of the query.
 */

struct batches {
    size_t count;
    size_t rows;
    struct ArrowArray *all;
};

static bool is_known(const struct ArrowSchema *schema)
{
    bool known = strcmp(schema->format, "+s") == 0 && schema->n_children == COLUMNS;
    for (size_t i = 0; known && i < COLUMNS; i++) {
        const struct ArrowSchema *child = schema->children[i];
        known = strcmp(child->name, names[i]) == 0 && strcmp(child->format, formats[i]) == 0;
    }
    return known;
}

/* Returns whether a batch isn't too long for the engine, and has no null rows. */
static bool is_good(const struct ArrowArray *batch)
{
    return batch->n_children == COLUMNS && batch->length <= BATCH
        && (batch->null_count == 0 || batch->buffers[0] == NULL);
}

/*
 * Reads all batches of a stream, and releases it. Returns whether the engine can process all of
 * them.
 */
static bool read_all(struct ArrowArrayStream *stream, struct batches *batches)
{
    struct ArrowSchema schema;
    struct ArrowArray batch;
    bool good = stream->get_schema(stream, &schema) == 0;
    if (good) {
        good = is_known(&schema);
        schema.release(&schema);
    }
    while (good && (good = stream->get_next(stream, &batch) == 0) && batch.release != NULL) {
        struct ArrowArray *all = realloc(batches->all, (batches->count + 1) * sizeof batch);
        if (all == NULL || !is_good(&batch)) {
            batch.release(&batch);
            good = false;
        } else {
            all[batches->count++] = batch;
            batches->rows += (size_t)batch.length;
        }
        batches->all = all == NULL ? batches->all : all;
    }
    stream->release(stream);
    return good;
}

static void free_batches(struct batches *batches)
{
    for (size_t i = 0; i < batches->count; i++) {
        batches->all[i].release(&batches->all[i]);
    }
    free(batches->all);
}

typedef void add_batch(struct answer *, const struct ArrowArray *);

static struct answer ask(const struct batches *batches, add_batch *add_one,
    void (*end)(struct answer *))
{
    struct answer answer = answer_for(batches->rows);
    for (size_t i = 0; i < batches->count; i++) {
        add_one(&answer, &batches->all[i]);
    }
    end(&answer);
    return answer;
}

static bool same_place(vb_place left, vb_place right)
{
    return left.found == right.found && (!left.found || left.index == right.index);
}

static bool same(const struct answer *x, const struct answer *y)
{
    return x->rows == y->rows && x->kept == y->kept && x->nulls == y->nulls
        && x->flags == y->flags && x->sum_b == y->sum_b && x->sum_c == y->sum_c
        && x->taken == y->taken && x->taken_nulls == y->taken_nulls
        && same_place(x->first, y->first) && same_place(x->nth, y->nth)
        && memcmp(x->b, y->b, x->kept * sizeof *x->b) == 0
        && memcmp(x->c, y->c, x->kept * sizeof *x->c) == 0
        && memcmp(x->at, y->at, x->taken * sizeof *x->at) == 0
        && vb_equal_bits(x->c_valid, x->c_valid_size, 0, y->c_valid, y->c_valid_size, 0, x->kept);
}

static void print_place(const char *name, vb_place place)
{
    if (place.found) {
        printf("%s row %zu\n", name, place.index);
    } else {
        printf("no %s row\n", name);
    }
}

static void print_answer(const struct answer *answer)
{
    printf("%zu of %zu rows are kept\n", answer->kept, answer->rows);
    printf("sums %lld and %.2f\n", (long long)answer->sum_b, answer->sum_c);
    print_place("first", answer->first);
    print_place("n-th", answer->nth);
    printf("%zu nulls, %zu flags\n", answer->nulls, answer->flags);
    printf("%zu rows at indices, %zu nulls of c\n", answer->taken, answer->taken_nulls);
}

/* Returns the time of one answer in milliseconds, or `least` if that is less. */
static double time_of(const struct batches *batches, add_batch *add_one,
    void (*end)(struct answer *), double least)
{
    struct timespec start, stop;
    timespec_get(&start, TIME_UTC);
    struct answer answer = ask(batches, add_one, end);
    timespec_get(&stop, TIME_UTC);
    free_answer(&answer);
    const double took = (double)(stop.tv_sec - start.tv_sec) * 1e3
        + (double)(stop.tv_nsec - start.tv_nsec) / 1e6;
    return took < least ? took : least;
}

static void print_times(const struct batches *batches)
{
    double ours = 1e9, plain = 1e9;
    for (int round = 0; round < ROUNDS; round++) {
        ours = time_of(batches, add, finish, ours);
        plain = time_of(batches, add_by_loop, finish_by_loop, plain);
    }
    printf("%s: %.3f ms, by plain loops %.3f ms: %.2f of it\n", vb_level(), ours, plain,
        ours / plain);
}

int main(int count, char **words)
{
    struct rows rows = make_rows(rows_asked(count, words));
    struct ArrowArrayStream stream = stream_of(&rows);
    struct batches batches = {0, 0, NULL};
    if (!read_all(&stream, &batches)) {
        fputs("a batch that the engine doesn't know\n", stderr);
        return 1;
    }
    struct answer answer = ask(&batches, add, finish);
    struct answer wanted = ask(&batches, add_by_loop, finish_by_loop);
    const bool agree = same(&answer, &wanted);
    print_answer(&answer);
    if (!agree) {
        fputs("the two ways differ\n", stderr);
    } else if (count > 2) {
        print_times(&batches);
    }
    free_answer(&answer);
    free_answer(&wanted);
    free_batches(&batches);
    free_rows(&rows);
    return agree ? 0 : 1;
}
