/*
 * Rows for query.c and query.cpp, and the stream of their batches by Arrow's C stream interface. It
 * takes the role of another program. A batch is a slice of the columns, by an offset into each. The
 * column `flag` has no null row, and so no validity. This file is C and C++ alike.
 */
#ifndef VORTEX_BITS_QUERY_ROWS_H
#define VORTEX_BITS_QUERY_ROWS_H

#include "arrow.h"

#include <stddef.h>
#include <stdint.h>
#include <stdio.h>
#include <stdlib.h>
#include <string.h>

/* The greatest number of rows of a batch. */
enum { BATCH = 65536 };

/* The greatest number of rows: they and their answers take some gigabytes. */
enum { MOST_ROWS = 100000000 };

/*
 * Returns the number of rows of the command line `query [ROWS [time]]`, by default 100,000. Ends
 * the program at any other command line.
 */
static size_t rows_asked(int count, char **words)
{
    const char *rows = count > 1 ? words[1] : "100000";
    const unsigned long long number = strtoull(rows, NULL, 10);
    /* strtoull also reads signs and leading spaces: -1 as the greatest number. */
    const size_t digits = strspn(rows, "0123456789");
    if (digits == 0 || rows[digits] != '\0' || number > MOST_ROWS || count > 3
        || (count == 3 && strcmp(words[2], "time") != 0)) {
        fprintf(stderr, "usage: query [ROWS [time]], with at most %d rows\n", MOST_ROWS);
        exit(2);
    }
    return (size_t)number;
}

/* Returns `count` items of zeros; ends the program if memory runs out. */
static void *room(size_t count, size_t size)
{
    void *made = count < SIZE_MAX ? calloc(count + 1, size) : NULL;
    if (made == NULL) {
        fputs("no memory\n", stderr);
        exit(2);
    }
    return made;
}

static size_t bytes_for(size_t bits)
{
    return bits / 8 + (bits % 8 != 0);
}

/* The columns. */
enum { COLUMNS = 4 };

static const char *const names[COLUMNS] = {"a", "b", "c", "flag"};
static const char *const formats[COLUMNS] = {"i", "l", "g", "b"};

struct rows {
    size_t count;
    /* The buffers of each column: its validity and its values. */
    const void *buffers[COLUMNS][2];
};

/* The position of a stream in the rows. */
struct given {
    const struct rows *rows;
    size_t next;
};

static uint64_t state = 88172645463325252u;

static uint64_t below(uint64_t n)
{
    state ^= state << 13;
    state ^= state >> 7;
    state ^= state << 17;
    return (state >> 11) % n;
}

/* Returns bits of which about one in `n` is false. */
static uint8_t *mostly_true(size_t count, uint64_t n)
{
    uint8_t *bits = (uint8_t *)room(bytes_for(count), 1);
    for (size_t i = 0; i < count; i++) {
        bits[i / 8] |= (uint8_t)((below(n) != 0) << (i % 8));
    }
    return bits;
}

/* The sums of c are exact in any order. The value of a null is like any other. */
static struct rows make_rows(size_t count)
{
    int32_t *a = (int32_t *)room(count, sizeof *a);
    int64_t *b = (int64_t *)room(count, sizeof *b);
    double *c = (double *)room(count, sizeof *c);
    for (size_t i = 0; i < count; i++) {
        a[i] = (int32_t)below(1000);
        b[i] = (int64_t)below(200000) - 100000;
        c[i] = (double)below(4000) / 4;
    }
    const struct rows rows = {count,
        {{mostly_true(count, 7), a}, {mostly_true(count, 4), b}, {mostly_true(count, 5), c},
            {NULL, mostly_true(count, 2)}}};
    return rows;
}

static void free_rows(struct rows *rows)
{
    for (size_t i = 0; i < COLUMNS; i++) {
        free((void *)rows->buffers[i][0]);
        free((void *)rows->buffers[i][1]);
    }
}

/* Releases a column or a struct: its children, and its own memory, which is one block. */
static void release_array(struct ArrowArray *array)
{
    for (int64_t i = 0; i < array->n_children; i++) {
        if (array->children[i]->release != NULL) {
            array->children[i]->release(array->children[i]);
        }
    }
    free(array->private_data);
    array->release = NULL;
}

static void release_schema(struct ArrowSchema *schema)
{
    for (int64_t i = 0; i < schema->n_children; i++) {
        if (schema->children[i]->release != NULL) {
            schema->children[i]->release(schema->children[i]);
        }
    }
    free(schema->private_data);
    schema->release = NULL;
}

struct schema_block {
    struct ArrowSchema columns[COLUMNS], *children[COLUMNS];
};

static int get_schema(struct ArrowArrayStream *stream, struct ArrowSchema *out)
{
    (void)stream;
    struct schema_block *block = (struct schema_block *)room(1, sizeof *block);
    for (size_t i = 0; i < COLUMNS; i++) {
        struct ArrowSchema *column = block->children[i] = &block->columns[i];
        column->format = formats[i];
        column->name = names[i];
        column->flags = ARROW_FLAG_NULLABLE;
        column->release = release_schema;
    }
    memset(out, 0, sizeof *out);
    out->format = "+s";
    out->name = "";
    out->n_children = COLUMNS;
    out->children = block->children;
    out->release = release_schema;
    out->private_data = block;
    return 0;
}

struct array_block {
    const void *buffers[COLUMNS][2], *none[1];
    struct ArrowArray columns[COLUMNS], *children[COLUMNS];
};

static int get_next(struct ArrowArrayStream *stream, struct ArrowArray *out)
{
    struct given *given = (struct given *)stream->private_data;
    const struct rows *rows = given->rows;
    const size_t left = rows->count - given->next, most = BATCH, len = left < most ? left : most;
    memset(out, 0, sizeof *out);
    if (len == 0) {
        return 0;
    }
    struct array_block *block = (struct array_block *)room(1, sizeof *block);
    for (size_t i = 0; i < COLUMNS; i++) {
        struct ArrowArray *column = block->children[i] = &block->columns[i];
        memcpy(block->buffers[i], rows->buffers[i], sizeof rows->buffers[i]);
        column->length = (int64_t)len;
        column->offset = (int64_t)given->next;
        column->null_count = rows->buffers[i][0] == NULL ? 0 : -1;
        column->n_buffers = 2;
        column->buffers = block->buffers[i];
        column->release = release_array;
    }
    out->length = (int64_t)len;
    out->n_buffers = 1;
    out->buffers = block->none;
    out->n_children = COLUMNS;
    out->children = block->children;
    out->release = release_array;
    out->private_data = block;
    given->next += len;
    return 0;
}

static const char *get_last_error(struct ArrowArrayStream *stream)
{
    (void)stream;
    return NULL;
}

static void release_stream(struct ArrowArrayStream *stream)
{
    free(stream->private_data);
    stream->release = NULL;
}

static struct ArrowArrayStream stream_of(const struct rows *rows)
{
    struct given *given = (struct given *)room(1, sizeof *given);
    given->rows = rows;
    const struct ArrowArrayStream stream = {get_schema, get_next, get_last_error, release_stream,
        given};
    return stream;
}

#endif
