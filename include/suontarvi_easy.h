/* Whole jobs in one call each: a general matrix in, permutation and factors out. Static inline functions over the
 * proved calls of suontarvi.h. They allocate what those calls are lent, with one calloc and one free. Link
 * libsuontarvi, and libm for the one function with logarithms (suontarvi_easy_scale_natural). C99 and C++.
 *
 * A matrix is square and stored by columns: col_ptr has n+1 pointers; row_idx and values have `entries` rows and
 * values, the rows rising within a column. Indices start at 0. The caller's arrays must be as long as stated here,
 * must not overlap if one of them is written, and are written only if the answer is SUONTARVI_ACCEPTED: a refusal
 * leaves everything as it was. Each function answers SUONTARVI_ACCEPTED, a refusal of suontarvi.h, or
 * SUONTARVI_NO_MEMORY.
 *
 * These functions are tested (host/easy.c), not proved; the calls below them are proved. */
#ifndef SUONTARVI_EASY_H
#define SUONTARVI_EASY_H

#include <math.h>
#include <stdlib.h>
#include <string.h>

#include "suontarvi.h"

/* Out of memory; no call of suontarvi.h answers this. */
#define SUONTARVI_NO_MEMORY 1000

/* Kinds of suontarvi_easy_scale_natural. */
#define SUONTARVI_EASY_GENERAL 0        /* a general matrix */
#define SUONTARVI_EASY_SYMMETRIC 1      /* the lower triangle of a symmetric one; unmatched rows get 1 */
#define SUONTARVI_EASY_SYMMETRIC_FLAT 2 /* the same; unmatched rows after Duff and Pralet (2005) */

/* What the calls are lent: slices of one block. */
struct suontarvi_easy_lent {
    double *logs, *cost, *cmax, *u, *v, *fwork, *row_factors, *column_factors;
    uint64_t *answer;
    uint32_t *graph_ptr, *graph_rows, *perm, *graph_work, *match_work, *factor_work;
    int32_t *row_exponents, *column_exponents;
    size_t room; /* of graph_rows and cost */
    void *block;
};

/* Allocates what a matrix of n columns and so many entries needs. Both numbers are within their limits, so no product
 * here overflows size_t. */
static inline uint32_t suontarvi_easy_lend(struct suontarvi_easy_lent *lent, uint32_t n, size_t entries, size_t room) {
    const size_t size = n, graph_work = SUONTARVI_GRAPH_WORK_LEN(n, entries);
    const size_t doubles = entries + room + 5 * size + SUONTARVI_MATCH_FWORK_LEN(n);
    const size_t words = SUONTARVI_POINTERS_LEN(n) + room + 4 * size + graph_work + SUONTARVI_MATCH_WORK_LEN(n);
    double *next;
    uint32_t *next_word;
    lent->room = room;
    lent->block = calloc(1, 8 * (doubles + SUONTARVI_MATCH_ANSWER_LEN) + 4 * words);
    if (lent->block == NULL) {
        return SUONTARVI_NO_MEMORY;
    }
    next = (double *)lent->block;
    lent->logs = next, next += entries;
    lent->cost = next, next += room;
    lent->cmax = next, next += size;
    lent->u = next, next += size;
    lent->v = next, next += size;
    lent->row_factors = next, next += size;
    lent->column_factors = next, next += size;
    lent->fwork = next, next += SUONTARVI_MATCH_FWORK_LEN(n);
    lent->answer = (uint64_t *)(void *)next, next += SUONTARVI_MATCH_ANSWER_LEN;
    next_word = (uint32_t *)(void *)next;
    lent->graph_ptr = next_word, next_word += SUONTARVI_POINTERS_LEN(n);
    lent->graph_rows = next_word, next_word += room;
    lent->perm = next_word, next_word += size;
    lent->factor_work = next_word, next_word += size;
    lent->row_exponents = (int32_t *)next_word, next_word += size;
    lent->column_exponents = (int32_t *)next_word, next_word += size;
    lent->graph_work = next_word, next_word += graph_work;
    lent->match_work = next_word;
    return SUONTARVI_ACCEPTED;
}

/* Tests the limits before anything is allocated. */
static inline uint32_t suontarvi_easy_limits(uint32_t n, size_t entries, size_t most) {
    if (n > SUONTARVI_MAX_N) {
        return SUONTARVI_REFUSED_TOO_MANY_COLUMNS;
    }
    return entries > most ? SUONTARVI_REFUSED_TOO_MANY_ENTRIES : SUONTARVI_ACCEPTED;
}

/* The match of the graph that was built. */
static inline uint32_t suontarvi_easy_matched(struct suontarvi_easy_lent *lent, uint32_t n) {
    const size_t kept = lent->graph_ptr[n];
    return suontarvi_match(n, lent->graph_ptr, SUONTARVI_POINTERS_LEN(n), lent->graph_rows, kept, lent->cost, kept,
                           lent->perm, n, lent->u, n, lent->v, n, lent->match_work, SUONTARVI_MATCH_WORK_LEN(n),
                           lent->fwork, SUONTARVI_MATCH_FWORK_LEN(n), lent->answer, SUONTARVI_MATCH_ANSWER_LEN);
}

/* Limits, the block, and the graph of a general matrix by whole-number logarithms. The caller frees lent->block, even
 * after a refusal. */
static inline uint32_t suontarvi_easy_whole_graph(struct suontarvi_easy_lent *lent, uint32_t n,
                                                  const uint32_t *col_ptr, size_t entries, const uint32_t *row_idx,
                                                  const double *values) {
    uint32_t refused = suontarvi_easy_limits(n, entries, SUONTARVI_MAX_ENTRIES);
    memset(lent, 0, sizeof *lent);
    if (refused == SUONTARVI_ACCEPTED) {
        refused = suontarvi_easy_lend(lent, n, entries, entries);
    }
    if (refused == SUONTARVI_ACCEPTED) {
        refused = suontarvi_whole_general_graph(
            n, col_ptr, SUONTARVI_POINTERS_LEN(n), row_idx, entries, values, entries, lent->graph_ptr,
            SUONTARVI_POINTERS_LEN(n), lent->graph_rows, lent->room, lent->cost, lent->room, lent->cmax, n,
            lent->graph_work, SUONTARVI_GRAPH_WORK_LEN(n, entries));
    }
    return refused;
}

/* memcpy must not get NULL, not even for 0 bytes. */
static inline void suontarvi_easy_copy(void *to, const void *from, size_t bytes) {
    if (bytes != 0) {
        memcpy(to, from, bytes);
    }
}

/* Match and scaling by powers of two, which rounds nothing: values are scaled in place; perm (n) gets the row of each
 * column or SUONTARVI_NONE, row_exponents and column_exponents (n each) the exponents, *matched the number of pairs.
 * If *matched is n, every magnitude is below 2 and the matched ones are above 1/4.
 * Refusals: those of suontarvi_whole_general_graph, then those of suontarvi_apply_exponents. */
static inline uint32_t suontarvi_easy_scale_whole(uint32_t n, const uint32_t *col_ptr, size_t entries,
                                                  const uint32_t *row_idx, double *values, uint32_t *perm,
                                                  int32_t *row_exponents, int32_t *column_exponents,
                                                  uint32_t *matched) {
    struct suontarvi_easy_lent lent;
    uint32_t refused = suontarvi_easy_whole_graph(&lent, n, col_ptr, entries, row_idx, values);
    if (refused == SUONTARVI_ACCEPTED) {
        refused = suontarvi_easy_matched(&lent, n);
    }
    if (refused == SUONTARVI_ACCEPTED) {
        refused = suontarvi_exponents(n, lent.u, n, lent.v, n, lent.cmax, n, lent.row_exponents, n,
                                      lent.column_exponents, n);
    }
    if (refused == SUONTARVI_ACCEPTED) {
        refused = suontarvi_apply_exponents(n, col_ptr, SUONTARVI_POINTERS_LEN(n), row_idx, entries,
                                            lent.row_exponents, n, lent.column_exponents, n, values, entries);
    }
    if (refused == SUONTARVI_ACCEPTED) {
        suontarvi_easy_copy(perm, lent.perm, 4 * (size_t)n);
        suontarvi_easy_copy(row_exponents, lent.row_exponents, 4 * (size_t)n);
        suontarvi_easy_copy(column_exponents, lent.column_exponents, 4 * (size_t)n);
        *matched = (uint32_t)lent.answer[0];
    }
    free(lent.block);
    return refused;
}

/* The cost graph of a matrix by natural logarithms. A value that is not finite is refused in every kind. */
static inline uint32_t suontarvi_easy_natural_graph(struct suontarvi_easy_lent *lent, int symmetric, uint32_t n,
                                                    const uint32_t *col_ptr, size_t entries, const uint32_t *row_idx,
                                                    const double *values) {
    const size_t pointers = SUONTARVI_POINTERS_LEN(n), work = SUONTARVI_GRAPH_WORK_LEN(n, entries);
    uint32_t refused = (symmetric ? suontarvi_validate_symmetric : suontarvi_validate_general)(
        n, col_ptr, pointers, row_idx, entries, values, entries);
    size_t at;
    if (refused != SUONTARVI_ACCEPTED) {
        return refused;
    }
    for (at = 0; at < entries; at++) {
        const double size = fabs(values[at]);
        if (!(size <= 1.7976931348623157e308)) {
            return SUONTARVI_REFUSED_VALUE_NOT_FINITE;
        }
        lent->logs[at] = size == 0.0 ? 0.0 : log(size); /* the log of a zero is not used */
    }
    return (symmetric ? suontarvi_symmetric_graph : suontarvi_general_graph)(
        n, col_ptr, pointers, row_idx, entries, values, entries, lent->logs, entries, lent->graph_ptr, pointers,
        lent->graph_rows, lent->room, lent->cost, lent->room, lent->cmax, n, lent->graph_work, work);
}

/* Writes the log factors of the match into row_factors and column_factors of the block. */
static inline uint32_t suontarvi_easy_log_factors(struct suontarvi_easy_lent *lent, uint32_t kind, uint32_t n,
                                                  const uint32_t *col_ptr, size_t entries, const uint32_t *row_idx,
                                                  const double *values) {
    uint32_t rule, refused, unmatched[1] = {0};
    if (kind == SUONTARVI_EASY_GENERAL) {
        return suontarvi_unsymmetric_factors(n, lent->u, n, lent->v, n, lent->cmax, n, lent->row_factors, n,
                                             lent->column_factors, n);
    }
    rule = kind == SUONTARVI_EASY_SYMMETRIC ? SUONTARVI_RULE_IDENTITY : SUONTARVI_RULE_FLAT;
    refused = suontarvi_log_factors_by_rule(rule, n, (uint32_t)lent->answer[0], lent->perm, n, lent->u, n, lent->v, n,
                                            lent->cmax, n, col_ptr, SUONTARVI_POINTERS_LEN(n), row_idx, entries,
                                            values, entries, lent->logs, entries, lent->row_factors, n,
                                            lent->factor_work, n, unmatched, 1);
    suontarvi_easy_copy(lent->column_factors, lent->row_factors, 8 * (size_t)n);
    return refused;
}

/* Match and factors by natural logarithms, with log and exp of the host; values are not written. perm (n) gets the row
 * of each column or SUONTARVI_NONE, row_factors and column_factors (n each) the factors, which are equal for a
 * symmetric matrix, *matched the number of pairs. If *matched is n, a value times both factors is 1 in magnitude if it
 * is matched and at most 1 otherwise, except for rounding and for factors clamped to e^709 or e^-709.
 * Refusals: 5 for an unknown kind; then those of a matrix of the kind; then 9 for a value that is not finite. */
static inline uint32_t suontarvi_easy_scale_natural(uint32_t kind, uint32_t n, const uint32_t *col_ptr,
                                                    size_t entries, const uint32_t *row_idx, const double *values,
                                                    uint32_t *perm, double *row_factors, double *column_factors,
                                                    uint32_t *matched) {
    const int symmetric = kind != SUONTARVI_EASY_GENERAL;
    const size_t most = symmetric ? SUONTARVI_MAX_SYMMETRIC_ENTRIES : SUONTARVI_MAX_ENTRIES;
    struct suontarvi_easy_lent lent;
    uint32_t refused = SUONTARVI_REFUSED_INDEX_RANGE;
    memset(&lent, 0, sizeof lent);
    if (kind <= SUONTARVI_EASY_SYMMETRIC_FLAT) {
        refused = suontarvi_easy_limits(n, entries, most);
    }
    if (refused == SUONTARVI_ACCEPTED) {
        refused = suontarvi_easy_lend(&lent, n, entries, symmetric ? SUONTARVI_SYMMETRIC_GRAPH_LEN(entries) : entries);
    }
    if (refused == SUONTARVI_ACCEPTED) {
        refused = suontarvi_easy_natural_graph(&lent, symmetric, n, col_ptr, entries, row_idx, values);
    }
    if (refused == SUONTARVI_ACCEPTED) {
        refused = suontarvi_easy_matched(&lent, n);
    }
    if (refused == SUONTARVI_ACCEPTED) {
        refused = suontarvi_easy_log_factors(&lent, kind, n, col_ptr, entries, row_idx, values);
    }
    if (refused == SUONTARVI_ACCEPTED) {
        uint32_t at;
        for (at = 0; at < n; at++) {
            row_factors[at] = exp(lent.row_factors[at]);
            column_factors[at] = exp(lent.column_factors[at]);
        }
        suontarvi_easy_copy(perm, lent.perm, 4 * (size_t)n);
        *matched = (uint32_t)lent.answer[0];
    }
    free(lent.block);
    return refused;
}

/* The match alone, by whole-number logarithms: perm (n) gets the row of each column or SUONTARVI_NONE, u and v (n each)
 * the duals of rows and columns, *matched the number of pairs. No matching has more pairs; if *matched is n, the
 * product of the matched magnitudes is the largest, by logarithms in units of 1/65,536, and suontarvi_easy_check
 * accepts it.
 * Refusals: those of suontarvi_whole_general_graph. */
static inline uint32_t suontarvi_easy_match(uint32_t n, const uint32_t *col_ptr, size_t entries,
                                            const uint32_t *row_idx, const double *values, uint32_t *perm, double *u,
                                            double *v, uint32_t *matched) {
    struct suontarvi_easy_lent lent;
    uint32_t refused = suontarvi_easy_whole_graph(&lent, n, col_ptr, entries, row_idx, values);
    if (refused == SUONTARVI_ACCEPTED) {
        refused = suontarvi_easy_matched(&lent, n);
    }
    if (refused == SUONTARVI_ACCEPTED) {
        suontarvi_easy_copy(perm, lent.perm, 4 * (size_t)n);
        suontarvi_easy_copy(u, lent.u, 8 * (size_t)n);
        suontarvi_easy_copy(v, lent.v, 8 * (size_t)n);
        *matched = (uint32_t)lent.answer[0];
    }
    free(lent.block);
    return refused;
}

/* Checks whether perm, u and v (n each), whoever made them, are a complete match of largest product, by logarithms in
 * units of 1/65,536, and the duals show it. Nothing is written.
 * Refusals: those of suontarvi_whole_general_graph, then those of suontarvi_check_match. */
static inline uint32_t suontarvi_easy_check(uint32_t n, const uint32_t *col_ptr, size_t entries,
                                            const uint32_t *row_idx, const double *values, const uint32_t *perm,
                                            const double *u, const double *v) {
    struct suontarvi_easy_lent lent;
    uint32_t refused = suontarvi_easy_whole_graph(&lent, n, col_ptr, entries, row_idx, values);
    if (refused == SUONTARVI_ACCEPTED) {
        const size_t kept = lent.graph_ptr[n];
        refused = suontarvi_check_match(n, lent.graph_ptr, SUONTARVI_POINTERS_LEN(n), lent.graph_rows, kept, lent.cost,
                                        kept, perm, n, u, n, v, n);
    }
    free(lent.block);
    return refused;
}

#endif
