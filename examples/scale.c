/* The whole way to a matrix that a solver likes, in C: a Matrix Market file (real, general, by coordinates) is read,
 * matched, scaled by powers of two and permuted, and written as Matrix Market text; rows and columns count from 1.
 *
 *     cc -std=c99 -Iinclude examples/scale.c target/staticlib/libsuontarvi.a -o scale
 *     ./scale host/examples/week.mtx
 *
 * A solver then factors what is written. For A x = b it solves B y = d with d[k] = 2^r[p(k)] b[p(k)], and x[k] is
 * 2^c[k] y[k], where p, r and c stand in comments: line k of them has the row that came to place k, its exponent, and
 * the exponent of column k. Nothing is rounded. Status 1 if the file is refused or has no complete match. */
#include <inttypes.h>
#include <stdio.h>
#include <stdlib.h>
#include <string.h>
#include "suontarvi.h"

static void *room(size_t count, size_t size) {
    void *made = calloc(count ? count : 1, size);
    if (!made) {
        fprintf(stderr, "scale: no memory\n");
        exit(1);
    }
    return made;
}

static int refused(const char *what, uint32_t number) {
    if (number != SUONTARVI_ACCEPTED) {
        fprintf(stderr, "scale: %s: refused with %" PRIu32 "\n", what, number);
        exit(1);
    }
    return 0;
}

static void misshapen(const char *what) {
    fprintf(stderr, "scale: %s\n", what);
    exit(1);
}

/* Triplets as the file has them, from 0. */
struct triplets {
    uint32_t n;
    size_t count;
    uint32_t *rows, *cols;
    double *vals;
};

static struct triplets read_file(FILE *file) {
    char line[1024];
    unsigned long rows, columns, count, row, column;
    struct triplets read;
    if (!fgets(line, sizeof line, file) || strncmp(line, "%%MatrixMarket matrix coordinate real general", 45) != 0)
        misshapen("the first line is not the banner of a real general matrix by coordinates");
    do {
        if (!fgets(line, sizeof line, file)) misshapen("there is no size line");
    } while (line[0] == '%');
    if (sscanf(line, "%lu %lu %lu", &rows, &columns, &count) != 3 || rows != columns)
        misshapen("the size line is not that of a square matrix");
    /* the library would refuse them too; here it saves the room */
    if (rows > SUONTARVI_MAX_N || count > SUONTARVI_MAX_ENTRIES) misshapen("the matrix is above the limits");
    read.n = (uint32_t)rows;
    read.count = count;
    read.rows = room(count, sizeof *read.rows);
    read.cols = room(count, sizeof *read.cols);
    read.vals = room(count, sizeof *read.vals);
    for (size_t at = 0; at < count; at++) {
        if (fscanf(file, "%lu %lu %lf", &row, &column, &read.vals[at]) != 3) misshapen("an entry is misshapen");
        if (row < 1 || row > rows || column < 1 || column > rows) misshapen("an entry is outside the matrix");
        read.rows[at] = (uint32_t)(row - 1);
        read.cols[at] = (uint32_t)(column - 1);
    }
    return read;
}

/* By columns. */
struct matrix {
    uint32_t n;
    uint32_t *col_ptr, *row_idx;
    double *values;
    size_t count;
};

static struct matrix assemble(const struct triplets *read) {
    size_t n = read->n, given = read->count, work_len = SUONTARVI_TRIPLETS_WORK_LEN(n, given);
    struct matrix made;
    uint32_t *work = room(work_len, sizeof *work);
    made.n = read->n;
    made.col_ptr = room(n + 1, sizeof *made.col_ptr);
    made.row_idx = room(given, sizeof *made.row_idx);
    made.values = room(given, sizeof *made.values);
    refused("the entries", suontarvi_triplets_general(read->n, read->rows, given, read->cols, given, read->vals, given,
                                                      made.col_ptr, n + 1, made.row_idx, given, made.values, given,
                                                      work, work_len));
    /* repeated places were summed, so that fewer may be left */
    made.count = made.col_ptr[n];
    free(work);
    return made;
}

/* perm has the row of each column; both sets of exponents are then those of the match. */
static void match(const struct matrix *a, uint32_t *perm, int32_t *row_exponents, int32_t *column_exponents) {
    size_t n = a->n, count = a->count, graph_len = SUONTARVI_GRAPH_WORK_LEN(n, count);
    size_t work_len = SUONTARVI_MATCH_WORK_LEN(n), fwork_len = SUONTARVI_MATCH_FWORK_LEN(n);
    uint32_t *ptr = room(n + 1, sizeof *ptr), *rows = room(count, sizeof *rows);
    uint32_t *graph = room(graph_len, sizeof *graph);
    uint32_t *work = room(work_len, sizeof *work);
    double *cost = room(count, sizeof *cost), *cmax = room(n, sizeof *cmax), *u = room(n, sizeof *u);
    double *v = room(n, sizeof *v), *fwork = room(fwork_len, sizeof *fwork);
    uint64_t answer[SUONTARVI_MATCH_ANSWER_LEN];
    memset(answer, 0, sizeof answer);
    refused("the values", suontarvi_whole_general_graph(a->n, a->col_ptr, n + 1, a->row_idx, count, a->values, count,
                                                        ptr, n + 1, rows, count, cost, count, cmax, n,
                                                        graph, graph_len));
    /* zeros are dropped: the graph ends at its last pointer */
    refused("the graph", suontarvi_match(a->n, ptr, n + 1, rows, ptr[n], cost, ptr[n], perm, n, u, n, v, n,
                                         work, work_len, fwork, fwork_len, answer, SUONTARVI_MATCH_ANSWER_LEN));
    if (answer[0] != n) {
        fprintf(stderr, "scale: matched %" PRIu64 " of %zu: the matrix is structurally singular\n", answer[0], n);
        exit(1);
    }
    refused("the duals", suontarvi_exponents(a->n, u, n, v, n, cmax, n, row_exponents, n, column_exponents, n));
    free(ptr), free(rows), free(graph), free(work), free(cost), free(cmax), free(u), free(v), free(fwork);
}

int main(int argc, char **argv) {
    FILE *file = argc == 2 ? fopen(argv[1], "r") : NULL;
    if (!file) misshapen(argc == 2 ? "the file could not be opened" : "usage: scale FILE.mtx");
    struct triplets read = read_file(file);
    struct matrix a = assemble(&read);
    size_t n = a.n;
    uint32_t *perm = room(n, sizeof *perm), *place = room(n, sizeof *place);
    int32_t *row_exponents = room(n, sizeof *row_exponents), *column_exponents = room(n, sizeof *column_exponents);
    fclose(file);
    match(&a, perm, row_exponents, column_exponents);
    refused("the scaled values", suontarvi_apply_exponents(a.n, a.col_ptr, n + 1, a.row_idx, a.count, row_exponents, n,
                                                           column_exponents, n, a.values, a.count));
    printf("%%%%MatrixMarket matrix coordinate real general\n");
    for (size_t k = 0; k < n; k++) {
        /* the row of column k comes to place k */
        place[perm[k]] = (uint32_t)k;
        printf("%% row %" PRIu32 " exponents %" PRId32 " %" PRId32 "\n", perm[k] + 1, row_exponents[perm[k]],
               column_exponents[k]);
    }
    printf("%zu %zu %zu\n", n, n, a.count);
    for (size_t column = 0; column < n; column++)
        for (uint32_t at = a.col_ptr[column]; at < a.col_ptr[column + 1]; at++)
            printf("%" PRIu32 " %zu %.17g\n", place[a.row_idx[at]] + 1, column + 1, a.values[at]);
    if (fflush(stdout) != 0 || ferror(stdout)) misshapen("standard output could not be written");
    free(perm), free(place), free(row_exponents), free(column_exponents);
    free(a.col_ptr), free(a.row_idx), free(a.values), free(read.rows), free(read.cols), free(read.vals);
    return 0;
}
