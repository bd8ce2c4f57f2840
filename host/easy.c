/* include/suontarvi_easy.h beside the calls of suontarvi.h that it stands on: the same answer, the same bits in every
 * array, nothing written by a refusal, one allocation and one free. On random matrices, damaged ones, at the limits and
 * without memory. `easy [COUNT]`, 10,000 without a number; C99 and C++17. The last line says what was compared. */
#include <stdio.h>
#include <stdlib.h>
#include <string.h>

static long allocations, frees;
static int no_memory;

static void *counted_calloc(size_t count, size_t size) {
    if (no_memory) {
        return NULL;
    }
    allocations++;
    return calloc(count, size);
}

static void counted_free(void *block) {
    frees += block != NULL;
    free(block);
}

#define calloc counted_calloc
#define free counted_free
#include "suontarvi_easy.h"
#undef calloc
#undef free

#define REQUIRE(truth) \
    do { \
        if (!(truth)) { \
            fprintf(stderr, "easy.c:%d: not so: %s\n", __LINE__, #truth); \
            exit(1); \
        } \
    } while (0)

static uint64_t state = 88172645463325252u;

static uint32_t below(uint32_t bound) {
    state ^= state << 13;
    state ^= state >> 7;
    state ^= state << 17;
    return (uint32_t)((state >> 20) % bound);
}

/* Exact arrays, so that valgrind sees every step beyond one. A NULL for nothing, now and then. */
static void *room(size_t count, size_t size) {
    void *made = count == 0 && below(2) ? NULL : calloc(count == 0 ? 1 : count, size);
    REQUIRE(made != NULL || count == 0);
    return made;
}

struct matrix {
    uint32_t n, *col_ptr, *row_idx;
    size_t entries;
    double *values;
};

static double any_value(int odd) {
    static const double numbers[] = {0.0,     -0.0,  5e-324, 2.2250738585072014e-308, 1.7976931348623157e308,
                                     -1e-308, 1e308};
    const double small = (double)(below(2001)) - 1000.0;
    if (odd && below(6) == 0) {
        return numbers[below(7)];
    }
    if (odd && below(40) == 0) {
        return below(2) ? (double)INFINITY : (double)NAN;
    }
    return ldexp(small, (int)below(40) - 20);
}

/* A matrix by columns; a symmetric one has its lower triangle. */
static struct matrix random_matrix(uint32_t n, uint32_t thick, int symmetric, int odd) {
    struct matrix made;
    uint32_t row, column;
    size_t most = (size_t)n * n;
    made.n = n;
    made.entries = 0;
    made.col_ptr = (uint32_t *)room(SUONTARVI_POINTERS_LEN(n), 4);
    made.row_idx = (uint32_t *)room(most + 1, 4);
    made.values = (double *)room(most + 1, 8);
    for (column = 0; column < n; column++) {
        for (row = symmetric ? column : 0; row < n; row++) {
            if (below(8) < thick || (row == column && below(4) != 0)) {
                made.row_idx[made.entries] = row;
                made.values[made.entries++] = any_value(odd);
            }
        }
        made.col_ptr[column + 1] = (uint32_t)made.entries;
    }
    return made;
}

static void damage(struct matrix *matrix) {
    switch (below(6)) {
    case 0:
        matrix->col_ptr[below(matrix->n + 1)] = below(20);
        break;
    case 1:
        matrix->col_ptr[matrix->n] += 1;
        break;
    case 2:
        matrix->row_idx[below((uint32_t)matrix->entries + 1)] = below(matrix->n + 2);
        break;
    case 3:
        matrix->row_idx[below((uint32_t)matrix->entries + 1)] = SUONTARVI_NONE;
        break;
    case 4:
        matrix->entries -= matrix->entries != 0;
        break;
    default:
        matrix->values[below((uint32_t)matrix->entries + 1)] = (double)NAN;
    }
}

static void release(struct matrix *matrix) {
    free(matrix->col_ptr);
    free(matrix->row_idx);
    free(matrix->values);
}

static void *copy(const void *from, size_t bytes) {
    void *made = malloc(bytes + 1);
    REQUIRE(made != NULL);
    suontarvi_easy_copy(made, from, bytes);
    return made;
}

/* What the calls leave, one after the other, each slice its own. */
struct expected {
    uint32_t refused, matched, *perm;
    double *u, *v, *cmax, *row_factors, *column_factors, *scaled;
    int32_t *row_exponents, *column_exponents;
};

/* What the calls are lent besides, and the lengths. */
struct slices {
    size_t pointers, span, work_len, match_len, fwork_len;
    uint32_t *graph_ptr, *graph_rows, *work, *match_work, *factor_work;
    double *cost, *fwork, *logs;
};

static struct slices made_slices(const struct matrix *m, int symmetric) {
    struct slices s;
    s.pointers = SUONTARVI_POINTERS_LEN(m->n);
    s.span = symmetric ? SUONTARVI_SYMMETRIC_GRAPH_LEN(m->entries) : m->entries;
    s.work_len = SUONTARVI_GRAPH_WORK_LEN(m->n, m->entries);
    s.match_len = SUONTARVI_MATCH_WORK_LEN(m->n);
    s.fwork_len = SUONTARVI_MATCH_FWORK_LEN(m->n);
    s.graph_ptr = (uint32_t *)room(s.pointers, 4);
    s.graph_rows = (uint32_t *)room(s.span, 4);
    s.work = (uint32_t *)room(s.work_len, 4);
    s.match_work = (uint32_t *)room(s.match_len, 4);
    s.factor_work = (uint32_t *)room(m->n, 4);
    s.cost = (double *)room(s.span, 8);
    s.fwork = (double *)room(s.fwork_len, 8);
    s.logs = (double *)room(m->entries, 8);
    return s;
}

static void release_slices(struct slices *s) {
    free(s->graph_ptr), free(s->graph_rows), free(s->work), free(s->match_work), free(s->factor_work);
    free(s->cost), free(s->fwork), free(s->logs);
}

/* kind 3 is by whole-number logarithms. */
static uint32_t graph(const struct matrix *m, uint32_t kind, struct slices *s, double *cmax) {
    const uint32_t n = m->n;
    const int symmetric = kind == SUONTARVI_EASY_SYMMETRIC || kind == SUONTARVI_EASY_SYMMETRIC_FLAT;
    uint32_t refused;
    if (kind == 3) {
        return suontarvi_whole_general_graph(n, m->col_ptr, s->pointers, m->row_idx, m->entries, m->values, m->entries,
                                             s->graph_ptr, s->pointers, s->graph_rows, s->span, s->cost, s->span, cmax,
                                             n, s->work, s->work_len);
    }
    refused = (symmetric ? suontarvi_validate_symmetric : suontarvi_validate_general)(
        n, m->col_ptr, s->pointers, m->row_idx, m->entries, m->values, m->entries);
    for (size_t at = 0; at < m->entries && refused == 0; at++) {
        refused = isfinite(m->values[at]) ? 0 : SUONTARVI_REFUSED_VALUE_NOT_FINITE;
        s->logs[at] = log(fabs(m->values[at]));
    }
    if (refused != 0) {
        return refused;
    }
    return (symmetric ? suontarvi_symmetric_graph : suontarvi_general_graph)(
        n, m->col_ptr, s->pointers, m->row_idx, m->entries, m->values, m->entries, s->logs, m->entries, s->graph_ptr,
        s->pointers, s->graph_rows, s->span, s->cost, s->span, cmax, n, s->work, s->work_len);
}

static uint32_t factors(const struct matrix *m, uint32_t kind, struct slices *s, struct expected *made) {
    const uint32_t n = m->n;
    uint32_t refused, unmatched[1] = {7};
    if (kind == 3) {
        refused = suontarvi_exponents(n, made->u, n, made->v, n, made->cmax, n, made->row_exponents, n,
                                      made->column_exponents, n);
        return refused != 0 ? refused
                            : suontarvi_apply_exponents(n, m->col_ptr, s->pointers, m->row_idx, m->entries,
                                                        made->row_exponents, n, made->column_exponents, n,
                                                        made->scaled, m->entries);
    }
    if (kind == SUONTARVI_EASY_GENERAL) {
        return suontarvi_unsymmetric_factors(n, made->u, n, made->v, n, made->cmax, n, made->row_factors, n,
                                             made->column_factors, n);
    }
    refused = suontarvi_log_factors_by_rule(kind == SUONTARVI_EASY_SYMMETRIC ? 0 : 1, n, made->matched, made->perm, n,
                                            made->u, n, made->v, n, made->cmax, n, m->col_ptr, s->pointers, m->row_idx,
                                            m->entries, m->values, m->entries, s->logs, m->entries, made->row_factors,
                                            n, s->factor_work, n, unmatched, 1);
    suontarvi_easy_copy(made->column_factors, made->row_factors, 8 * (size_t)n);
    return refused;
}

static struct expected by_the_calls(const struct matrix *m, uint32_t kind) {
    struct expected made;
    const uint32_t n = m->n;
    struct slices s = made_slices(m, kind == SUONTARVI_EASY_SYMMETRIC || kind == SUONTARVI_EASY_SYMMETRIC_FLAT);
    uint64_t answer[SUONTARVI_MATCH_ANSWER_LEN] = {0};
    made.perm = (uint32_t *)room(n, 4);
    made.u = (double *)room(n, 8);
    made.v = (double *)room(n, 8);
    made.cmax = (double *)room(n, 8);
    made.row_factors = (double *)room(n, 8);
    made.column_factors = (double *)room(n, 8);
    made.row_exponents = (int32_t *)room(n, 4);
    made.column_exponents = (int32_t *)room(n, 4);
    made.scaled = (double *)copy(m->values, 8 * m->entries);
    made.refused = graph(m, kind, &s, made.cmax);
    if (made.refused == 0) {
        const size_t kept = s.graph_ptr[n];
        made.refused = suontarvi_match(n, s.graph_ptr, s.pointers, s.graph_rows, kept, s.cost, kept, made.perm, n,
                                       made.u, n, made.v, n, s.match_work, s.match_len, s.fwork, s.fwork_len, answer,
                                       SUONTARVI_MATCH_ANSWER_LEN);
    }
    made.matched = (uint32_t)answer[0];
    if (made.refused == 0) {
        made.refused = factors(m, kind, &s, &made);
    }
    for (uint32_t at = 0; at < n; at++) {
        made.row_factors[at] = exp(made.row_factors[at]);
        made.column_factors[at] = exp(made.column_factors[at]);
    }
    release_slices(&s);
    return made;
}

static void release_expected(struct expected *made) {
    free(made->perm), free(made->u), free(made->v), free(made->cmax), free(made->row_factors);
    free(made->column_factors), free(made->row_exponents), free(made->column_exponents), free(made->scaled);
}

/* Arrays that the caller lends, full of a pattern that a refusal must leave. */
struct lent {
    uint32_t *perm, matched;
    double *u, *v;
    int32_t *row_exponents, *column_exponents;
};

static struct lent patterned(uint32_t n) {
    struct lent made;
    made.perm = (uint32_t *)room(n, 4);
    made.u = (double *)room(n, 8);
    made.v = (double *)room(n, 8);
    made.row_exponents = (int32_t *)room(n, 4);
    made.column_exponents = (int32_t *)room(n, 4);
    made.matched = 77;
    for (uint32_t at = 0; at < n; at++) {
        made.perm[at] = 77;
        made.u[at] = made.v[at] = 77.0;
        made.row_exponents[at] = made.column_exponents[at] = 77;
    }
    return made;
}

static int untouched(const struct lent *lent, uint32_t n) {
    int same = lent->matched == 77;
    for (uint32_t at = 0; at < n; at++) {
        same = same && lent->perm[at] == 77 && lent->u[at] == 77.0 && lent->v[at] == 77.0;
        same = same && lent->row_exponents[at] == 77 && lent->column_exponents[at] == 77;
    }
    return same;
}

static void release_lent(struct lent *lent) {
    free(lent->perm), free(lent->u), free(lent->v), free(lent->row_exponents), free(lent->column_exponents);
}

static int same_bytes(const void *one, const void *other, size_t bytes) {
    return bytes == 0 || memcmp(one, other, bytes) == 0;
}

static long answered[47];

/* Of a complete match every magnitude is below 2, and the matched ones are above 1/4. */
static void bounded(const struct matrix *m, const struct expected *made, const double *values) {
    for (uint32_t column = 0; column < m->n && made->matched == m->n; column++) {
        for (uint32_t at = m->col_ptr[column]; at < m->col_ptr[column + 1]; at++) {
            REQUIRE(fabs(values[at]) < 2 && (made->perm[column] != m->row_idx[at] || fabs(values[at]) > 0.25));
        }
    }
}

static void compare_whole(const struct matrix *m, const struct expected *made) {
    struct lent lent = patterned(m->n);
    const uint32_t n = m->n;
    double *values = (double *)copy(m->values, 8 * m->entries);
    uint32_t refused = suontarvi_easy_scale_whole(n, m->col_ptr, m->entries, m->row_idx, values, lent.perm,
                                                  lent.row_exponents, lent.column_exponents, &lent.matched);
    REQUIRE(refused == made->refused && refused < 47);
    answered[refused]++;
    REQUIRE(same_bytes(values, made->scaled, 8 * m->entries));
    if (refused == 0) {
        REQUIRE(same_bytes(lent.perm, made->perm, 4 * (size_t)n) && lent.matched == made->matched);
        REQUIRE(same_bytes(lent.row_exponents, made->row_exponents, 4 * (size_t)n));
        REQUIRE(same_bytes(lent.column_exponents, made->column_exponents, 4 * (size_t)n));
        bounded(m, made, values);
    } else {
        REQUIRE(untouched(&lent, n));
    }
    free(values);
    release_lent(&lent);
}

static uint32_t check(const struct matrix *m, const struct lent *of) {
    return suontarvi_easy_check(m->n, m->col_ptr, m->entries, m->row_idx, m->values, of->perm, of->u, of->v);
}

static void compare_match(const struct matrix *m, const struct expected *made) {
    struct lent lent = patterned(m->n);
    const uint32_t n = m->n;
    uint32_t refused = suontarvi_easy_match(n, m->col_ptr, m->entries, m->row_idx, m->values, lent.perm, lent.u,
                                            lent.v, &lent.matched);
    /* the match is refused by its graph alone */
    REQUIRE(refused == (made->refused == SUONTARVI_REFUSED_VALUE_NOT_NORMAL ? 0 : made->refused));
    if (refused == 0) {
        REQUIRE(same_bytes(lent.perm, made->perm, 4 * (size_t)n) && lent.matched == made->matched);
        REQUIRE(same_bytes(lent.u, made->u, 8 * (size_t)n) && same_bytes(lent.v, made->v, 8 * (size_t)n));
        REQUIRE(check(m, &lent) == (made->matched == n ? 0 : SUONTARVI_REFUSED_INCOMPLETE_MATCHING));
        if (made->matched == n && n != 0) {
            lent.u[below(n)] += 1.0;
            REQUIRE(check(m, &lent) == SUONTARVI_REFUSED_INFEASIBLE_DUALS);
        }
    } else {
        REQUIRE(untouched(&lent, n));
        REQUIRE(check(m, &lent) == refused);
    }
    release_lent(&lent);
}

static void compare_natural(const struct matrix *m, uint32_t kind) {
    struct expected made = by_the_calls(m, kind);
    struct lent lent = patterned(m->n);
    const uint32_t n = m->n;
    uint32_t refused = suontarvi_easy_scale_natural(kind, n, m->col_ptr, m->entries, m->row_idx, m->values, lent.perm,
                                                    lent.u, lent.v, &lent.matched);
    REQUIRE(refused == made.refused);
    if (refused == 0) {
        REQUIRE(same_bytes(lent.perm, made.perm, 4 * (size_t)n) && lent.matched == made.matched);
        REQUIRE(same_bytes(lent.u, made.row_factors, 8 * (size_t)n));
        REQUIRE(same_bytes(lent.v, made.column_factors, 8 * (size_t)n));
    } else {
        REQUIRE(untouched(&lent, n));
    }
    release_lent(&lent);
    release_expected(&made);
}

/* As large as can be, n and entries. */
static struct matrix largest(void) {
    struct matrix made;
    made.n = SUONTARVI_MAX_N;
    made.entries = SUONTARVI_MAX_ENTRIES;
    made.col_ptr = (uint32_t *)room(SUONTARVI_POINTERS_LEN(made.n), 4);
    made.row_idx = (uint32_t *)room(made.entries, 4);
    made.values = (double *)room(made.entries, 8);
    for (uint32_t column = 0; column < made.n; column++) {
        uint32_t first = column < made.n - 64 ? column : made.n - 64;
        for (uint32_t at = 0; at < 64; at++) {
            made.row_idx[64 * column + at] = first + at;
            made.values[64 * column + at] = any_value(0) + 0.5;
        }
        made.col_ptr[column + 1] = 64 * (column + 1);
    }
    return made;
}

#define WHOLE(n, entries) \
    suontarvi_easy_scale_whole(n, m.col_ptr, entries, m.row_idx, m.values, lent.perm, lent.row_exponents, \
                               lent.column_exponents, &lent.matched)
#define NATURAL(kind, n, entries) \
    suontarvi_easy_scale_natural(kind, n, m.col_ptr, entries, m.row_idx, m.values, lent.perm, lent.u, lent.v, \
                                 &lent.matched)
#define MATCH(n, entries) \
    suontarvi_easy_match(n, m.col_ptr, entries, m.row_idx, m.values, lent.perm, lent.u, lent.v, &lent.matched)
#define CHECK(n, entries) \
    suontarvi_easy_check(n, m.col_ptr, entries, m.row_idx, m.values, lent.perm, lent.u, lent.v)

static void limits(void) {
    struct matrix m = largest();
    struct lent lent = patterned(m.n);
    REQUIRE(NATURAL(0, m.n, m.entries) == 0 && lent.matched == m.n);
    REQUIRE(WHOLE(m.n, m.entries) == 0 && lent.matched == m.n);
    REQUIRE(MATCH(m.n, m.entries) == 0 && CHECK(m.n, m.entries) == 0);
    /* refused before anything is read or lent */
    release_lent(&lent);
    release(&m);
    memset(&m, 0, sizeof m);
    memset(&lent, 0, sizeof lent);
    REQUIRE(WHOLE(SUONTARVI_MAX_N + 1, 0) == 1 && WHOLE(0xFFFFFFFFu, SIZE_MAX) == 1);
    REQUIRE(MATCH(1, SIZE_MAX) == 2 && CHECK(1, SUONTARVI_MAX_ENTRIES + 1) == 2);
    REQUIRE(NATURAL(1, 1, SUONTARVI_MAX_SYMMETRIC_ENTRIES + 1) == 2 && NATURAL(3, 0, 0) == 5);
    no_memory = 1;
    REQUIRE(WHOLE(1, 1) == SUONTARVI_NO_MEMORY && MATCH(1, 1) == SUONTARVI_NO_MEMORY);
    REQUIRE(CHECK(1, 1) == SUONTARVI_NO_MEMORY && NATURAL(2, 1, 1) == SUONTARVI_NO_MEMORY);
    no_memory = 0;
}

int main(int count_of_words, char **words) {
    const long count = count_of_words > 1 ? atol(words[1]) : 10000;
    const uint32_t version = SUONTARVI_VERSION_MAJOR * 65536 + SUONTARVI_VERSION_MINOR * 256 + SUONTARVI_VERSION_PATCH;
    REQUIRE(suontarvi_version() == version);
    for (long at = 0; at < count; at++) {
        const int symmetric = (int)below(2), odd = below(3) == 0, damaged = below(3) == 0;
        struct matrix matrix = random_matrix(below(9), 1 + below(7), symmetric, odd);
        struct expected made;
        if (damaged) {
            damage(&matrix);
        }
        made = by_the_calls(&matrix, 3);
        compare_whole(&matrix, &made);
        compare_match(&matrix, &made);
        release_expected(&made);
        for (uint32_t kind = 0; kind < 3; kind++) {
            compare_natural(&matrix, kind);
        }
        release(&matrix);
    }
    limits();
    REQUIRE(allocations == frees && allocations > 4 * count);
    for (uint32_t number = 0; number < 47; number++) {
        if (answered[number] != 0) {
            printf("%ld answered with %u\n", answered[number], (unsigned)number);
        }
    }
    printf("%ld matrices, %ld allocations, all freed: the easy header agrees with the calls\n", count, allocations);
    return 0;
}
