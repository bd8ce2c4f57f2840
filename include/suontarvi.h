/* libsuontarvi.a: MC64 matching and scaling of sparse matrices, every call proved to meet its contract.
 *
 * Calls. Every call but suontarvi_version returns SUONTARVI_ACCEPTED (0) or the number of a refusal, for all contents
 * and lengths of its slices. A refused call leaves every slice as it was. An accepted call writes only the slices that
 * its text names, each of them completely unless the text says how far. Calls keep nothing, allocate nothing and may
 * run on several threads at once.
 *
 * Slices. A slice is passed as a pointer and then its length, in elements. Lengths are exact: a longer slice is
 * refused as well as a shorter one. A slice of length 0 may be passed as NULL: its pointer is not used. The caller
 * must ensure that each pointer is aligned and has that many initialised elements, and that a slice without const
 * overlaps no other slice of the call.
 *
 * Matrices and graphs are square. n counts the rows, and the columns, both numbered from 0. They are stored by
 * columns: column j has the entries from col_ptr[j] up to, but not including, col_ptr[j+1]; row_idx has the row of
 * each entry, rising within a column. The entry count is row_idx_len. Calls that build a graph name its col_ptr and
 * row_idx graph_ptr and graph_rows.
 *
 * Work. Slices named work may hold anything before a call; after an accepted call they are all zero.
 *
 * Stack. No call needs more than SUONTARVI_STACK_BYTES of stack. SUONTARVI_STACK_BYTES_NATIVE is enough for every call
 * except those on bytes and suontarvi_check_largest, which has 20,482 bytes of arrays of its own. Measured at the
 * limits by host/stack.c, not proved: 47,768 and 4,424 bytes.
 *
 * Refusals are tested in the order in which they are listed; the first that applies is returned. "At each entry 5,
 * then 7" means that both are tested at one entry, in stored order, before the next entry. A call returns only 0 and
 * the numbers that its text lists. */
#ifndef SUONTARVI_H
#define SUONTARVI_H

#include <stddef.h>
#include <stdint.h>

#ifdef __cplusplus
extern "C" {
#endif

#define SUONTARVI_VERSION "0.3.0"
#define SUONTARVI_VERSION_MAJOR 0
#define SUONTARVI_VERSION_MINOR 3
#define SUONTARVI_VERSION_PATCH 0

/* No row, in perm. */
#define SUONTARVI_NONE UINT32_C(4294967295)

/* Limits. */
#define SUONTARVI_MAX_N 4096
#define SUONTARVI_MAX_ENTRIES 262144           /* of a cost graph or a general matrix; also its triplets */
#define SUONTARVI_MAX_SYMMETRIC_ENTRIES 131072 /* stored entries of a symmetric matrix; also its triplets */
#define SUONTARVI_MAX_N_BYTES 256              /* of the calls on bytes */
#define SUONTARVI_MAX_ENTRIES_BYTES 2048       /* of the match on bytes */
#define SUONTARVI_MAX_EXPONENT 67108864        /* in magnitude */
#define SUONTARVI_STACK_BYTES 65536            /* enough for every call */
#define SUONTARVI_STACK_BYTES_NATIVE 8192      /* enough for all but those on bytes and check_largest */

/* Lengths that are not simply n or the entry count; each argument is used once. */
#define SUONTARVI_POINTERS_LEN(n) ((size_t)(n) + 1)           /* col_ptr, graph_ptr, row_ptr */
#define SUONTARVI_MATCH_WORK_LEN(n) (12 * (size_t)(n) + 1)    /* work of the match */
#define SUONTARVI_MATCH_FWORK_LEN(n) (2 * (size_t)(n))        /* fwork of the match */
#define SUONTARVI_MATCH_ANSWER_LEN 8                          /* answer of the match */
#define SUONTARVI_TRIPLETS_WORK_LEN(n, triplets) (2 * (size_t)(n) + 2 + (size_t)(triplets))
#define SUONTARVI_GRAPH_WORK_LEN(n, entries) (2 * (size_t)(n) + 2 + (size_t)(entries))
#define SUONTARVI_SYMMETRIC_GRAPH_LEN(entries) (2 * (size_t)(entries)) /* graph_rows and cost, symmetric */
#define SUONTARVI_SHEET_LEN(n) (29 * (size_t)(n) + 2)         /* a sheet file that is written */

/* What calls return. */
#define SUONTARVI_ACCEPTED 0
#define SUONTARVI_REFUSED_TOO_MANY_COLUMNS 1   /* n is above the limit of the call */
#define SUONTARVI_REFUSED_TOO_MANY_ENTRIES 2   /* more entries, or triplets, than the limit of the call */
#define SUONTARVI_REFUSED_SLICE_LENGTH 3       /* a slice has a length other than the call requires */
#define SUONTARVI_REFUSED_COLUMN_POINTERS 4    /* pointer 0 is not 0, the last is not the entry count, or one falls */
#define SUONTARVI_REFUSED_INDEX_RANGE 5        /* a row or a column is not below n; no such choice, rule or digits */
#define SUONTARVI_REFUSED_UPPER_TRIANGLE 6     /* symmetric: a row is less than its column */
#define SUONTARVI_REFUSED_ROWS_NOT_RISING 7    /* the rows of a column are not strictly rising */
#define SUONTARVI_REFUSED_COST_RANGE 8         /* a cost or a log is out of range or a NaN; see each call */
#define SUONTARVI_REFUSED_VALUE_NOT_FINITE 9   /* a value is not finite; the logarithm of a zero */
#define SUONTARVI_REFUSED_MATCHING_RANGE 10    /* perm has neither NONE nor a row below n, or matched does not fit */
#define SUONTARVI_REFUSED_NO_ROOT 11           /* the root of a NaN or of a number below zero */
#define SUONTARVI_REFUSED_EXTERNAL_CHOICE 12   /* external factors are chosen */
/* 20 to 26 are printed by the programs for files that they cannot read; no call returns them. */
#define SUONTARVI_REFUSED_INCOMPLETE_MATCHING 30 /* a column without a row, a row twice, or a pair without an entry */
#define SUONTARVI_REFUSED_INFEASIBLE_DUALS 31  /* a dual is not whole or too large, or u + v above a cost; see each */
#define SUONTARVI_REFUSED_LOOSE_PAIR 32        /* u + v of a pair is below its cost */
#define SUONTARVI_REFUSED_NOT_LARGEST 33       /* a matching that is not largest */
#define SUONTARVI_REFUSED_SHEET_CUT 40         /* a sheet file is cut short, or its n is above the limit */
#define SUONTARVI_REFUSED_SHEET_INDEX 41       /* an unknown bit, or a column or a row that is not below n */
#define SUONTARVI_REFUSED_PATCH_TWICE 42       /* a column is given twice */
#define SUONTARVI_REFUSED_EXPONENT_RANGE 43    /* a factor is not whole, or an exponent is beyond its limit */
#define SUONTARVI_REFUSED_PATCH_ORDER 44       /* canonical: a column does not rise */
#define SUONTARVI_REFUSED_NEEDLESS_FIELD 45    /* canonical: an empty record, or a field that says nothing */
#define SUONTARVI_REFUSED_VALUE_NOT_NORMAL 46  /* a value other than zero is not normal, before or after scaling */

/* Choices of suontarvi_scaling. */
#define SUONTARVI_CHOICE_INFNORM 0  /* iterated inf-norm factors */
#define SUONTARVI_CHOICE_ONEPASS 1  /* one-pass inf-norm factors */
#define SUONTARVI_CHOICE_MC64 2     /* LOG factors of the match of the symmetric cost graph */
#define SUONTARVI_CHOICE_IDENTITY 3 /* factors of 1.0 */
#define SUONTARVI_CHOICE_EXTERNAL 4 /* refused with 12 */

/* What suontarvi_scaling did, in info[0]. */
#define SUONTARVI_DONE_APPLIED 0     /* the factors apply */
#define SUONTARVI_DONE_PARTIAL 1     /* they apply only to the matched columns */
#define SUONTARVI_DONE_NOT_APPLIED 2 /* there is nothing to apply: identity */

/* Rules of suontarvi_log_factors_by_rule, for unmatched rows and columns. */
#define SUONTARVI_RULE_IDENTITY 0 /* the log factor 0 */
#define SUONTARVI_RULE_FLAT 1     /* after Duff and Pralet (2005) */

/* ---- Numbers ---- */

/* The version of the library that runs: SUONTARVI_VERSION_MAJOR * 65536 + SUONTARVI_VERSION_MINOR * 256 +
 * SUONTARVI_VERSION_PATCH of the header that it was made with. There is no refusal. */
uint32_t suontarvi_version(void);

/* root gets the square root of x in 8 bytes, low byte first: rounded once, to nearest, ties to even. The root of -0.0
 * is -0.0, of infinity infinity.
 * Lengths: root 8. Refusals: 3; 11. */
uint32_t suontarvi_sqrt(double x, uint8_t *root, size_t root_len);

/* p[0] gets the base-two logarithm of the magnitude of x in units of 1/65,536, a whole number: 2^p is at most the
 * magnitude to the power 65,536, which is below 2^(p+2). Sixteen squarings of the 32 leading digits give it, so it is
 * the same on every machine; it is not always the exact logarithm rounded down. It lies from -70,385,664 to
 * 67,108,863.
 * Lengths: p 1. Refusals: 3; 9 for a zero, a NaN or an infinity. */
uint32_t suontarvi_whole_log(double x, int32_t *p, size_t p_len);

/* ---- Sparse matrices ---- */

/* Tests a matrix; a symmetric one is given by its lower triangle, the entries with row >= column. Values may be any
 * doubles. Nothing is written.
 * Lengths: col_ptr n+1; values as row_idx.
 * Refusals of a symmetric matrix: 1, 2, 3, 4; column by column, at each entry 5, then 6, and after the column's
 * entries 7. Of a general matrix: 1, 2, 3, 4; at each entry 5, then 7. */
uint32_t suontarvi_validate_symmetric(uint32_t n, const uint32_t *col_ptr, size_t col_ptr_len,
                                      const uint32_t *row_idx, size_t row_idx_len,
                                      const double *values, size_t values_len);
uint32_t suontarvi_validate_general(uint32_t n, const uint32_t *col_ptr, size_t col_ptr_len,
                                    const uint32_t *row_idx, size_t row_idx_len,
                                    const double *values, size_t values_len);

/* Assembles triplets into a matrix. Repeated places are summed in input order, beginning with 0.0; a NaN sum is
 * stored as 0x7FF8000000000000. The number of kept entries is then col_ptr[n]; row_idx and values keep what they held
 * past it.
 * Lengths: cols, vals, row_idx, values as rows; col_ptr n+1; work SUONTARVI_TRIPLETS_WORK_LEN(n, rows_len).
 * Refusals: 1, 2 (triplets are counted as given), 3; at each triplet 5 for its row or its column, then, symmetric,
 * 6. */
uint32_t suontarvi_triplets_symmetric(uint32_t n, const uint32_t *rows, size_t rows_len,
                                      const uint32_t *cols, size_t cols_len,
                                      const double *vals, size_t vals_len,
                                      uint32_t *col_ptr, size_t col_ptr_len,
                                      uint32_t *row_idx, size_t row_idx_len,
                                      double *values, size_t values_len,
                                      uint32_t *work, size_t work_len);
uint32_t suontarvi_triplets_general(uint32_t n, const uint32_t *rows, size_t rows_len,
                                    const uint32_t *cols, size_t cols_len,
                                    const double *vals, size_t vals_len,
                                    uint32_t *col_ptr, size_t col_ptr_len,
                                    uint32_t *row_idx, size_t row_idx_len,
                                    double *values, size_t values_len,
                                    uint32_t *work, size_t work_len);

/* ---- The match ---- */

/* The match of a cost graph. perm gets the row of each column or SUONTARVI_NONE, u the dual of each row, v that of
 * each column. answer gets the number of pairs and seven counts: [0] pairs, [1] heap slots set, [2] searches, [3]
 * rows touched, [4] inner steps of phase 3, [5] entries scanned, [6] rows popped, [7] the largest size of the heap.
 *
 * For all accepted costs: each pair is an entry of the graph, no row occurs twice, no matching of the graph has more
 * pairs, and this one is complete exactly when the graph has a complete matching. For whole costs a complete match has
 * the least total of all complete matchings, and, complete or not, u of the row plus v of the column equals the cost
 * of each matched entry and is at most the cost of every other. u[k] belongs to row k and v[k] to column k: for the
 * pair of column j add u[perm[j]] and v[j].
 *
 * Bounds of the counts: the rows popped are at most the searches times n and at most the rows touched, and the largest
 * heap is at most n; without a search both are 0. The entries scanned are at most the searches times the entries.
 * Lengths: col_ptr n+1; cost as row_idx; perm, u, v n; work SUONTARVI_MATCH_WORK_LEN(n), fwork
 * SUONTARVI_MATCH_FWORK_LEN(n); answer 8.
 * Refusals: 1, 2, 3, 4; at each entry 5, then 7; then 8 for a cost that is a NaN or below 0, or whose exact product
 * with n is not below 2^48. */
uint32_t suontarvi_match(uint32_t n, const uint32_t *col_ptr, size_t col_ptr_len,
                         const uint32_t *row_idx, size_t row_idx_len,
                         const double *cost, size_t cost_len,
                         uint32_t *perm, size_t perm_len,
                         double *u, size_t u_len,
                         double *v, size_t v_len,
                         uint32_t *work, size_t work_len,
                         double *fwork, size_t fwork_len,
                         uint64_t *answer, size_t answer_len);

/* The same for comparison: every slice is bytes, each number low byte first, and no work is lent. Limits
 * SUONTARVI_MAX_N_BYTES and SUONTARVI_MAX_ENTRIES_BYTES. The entry count is row_idx_len / 4, rounded down.
 * Lengths: those of suontarvi_match in bytes, 4 for each of col_ptr, row_idx and perm, 8 for each of the others.
 * Refusals: as suontarvi_match; a row_idx_len that is not a multiple of 4 gives 3. */
uint32_t suontarvi_match_bytes(uint32_t n, const uint8_t *col_ptr, size_t col_ptr_len,
                               const uint8_t *row_idx, size_t row_idx_len,
                               const uint8_t *cost, size_t cost_len,
                               uint8_t *perm, size_t perm_len,
                               uint8_t *u, size_t u_len,
                               uint8_t *v, size_t v_len,
                               uint8_t *answer, size_t answer_len);

/* Checks a match, whoever made it, without a search: perm has the row of each column, u and v whole-number duals of
 * rows and columns. It is accepted exactly if the pairs are a complete matching of the graph of least total, and the
 * duals, whole and at most 2^50 in size, show it. On whole costs the perm, u and v that suontarvi_match left are
 * accepted if it returned 0 and answer[0] is n. Nothing is written.
 * Lengths: col_ptr n+1; cost as row_idx; perm, u, v n.
 * Refusals: as suontarvi_match, with 8 also for a cost that is not whole; then, each over the whole match, 30, 31,
 * 32. */
uint32_t suontarvi_check_match(uint32_t n, const uint32_t *col_ptr, size_t col_ptr_len,
                               const uint32_t *row_idx, size_t row_idx_len,
                               const double *cost, size_t cost_len,
                               const uint32_t *perm, size_t perm_len,
                               const double *u, size_t u_len,
                               const double *v, size_t v_len);

/* How far a match, whoever made it, can be from the least total, for any costs: perm has the row of each column, u and
 * v any duals of rows and columns. gap[0] gets a number of steps of 2^-digits: the pairs are a complete matching of
 * the graph, and their total is at most that of every complete matching plus gap[0] * 2^-digits, in exact numbers;
 * nothing in these totals is rounded.
 *
 * The gap is the sum, over the columns, of the most by which u + v exceeds the cost of an entry, and of the amount by
 * which u + v of the pair falls short of its cost; neither part is below 0, and costs and duals are rounded to steps so
 * that the bound holds. A match that suontarvi_check_match also accepts has gap 0. More digits make finer steps but
 * admit only smaller numbers: take the largest that is accepted (36 to 50 in our runs with natural
 * logarithms).
 *
 * Duals may have 2^49 steps in size. So duals beyond 2^49 are refused with 31 at every digits, although
 * suontarvi_check_match takes them up to 2^50.
 * Lengths: col_ptr n+1; cost as row_idx; perm, u, v n; gap 1.
 * Refusals: 5 for digits above 50, before all else; 1, 2, 3, 4; at each entry 5, then 7; then 8 for a cost that
 * suontarvi_match refuses, or that has more than 2^49 steps; then 30; then 31 for a dual that is not finite, or that
 * has more than 2^49 steps in size. */
uint32_t suontarvi_match_gap(uint32_t n, uint32_t digits, const uint32_t *col_ptr, size_t col_ptr_len,
                             const uint32_t *row_idx, size_t row_idx_len,
                             const double *cost, size_t cost_len,
                             const uint32_t *perm, size_t perm_len,
                             const double *u, size_t u_len,
                             const double *v, size_t v_len,
                             uint64_t *gap, size_t gap_len);

/* Checks whether a pairing, complete or not and whoever made it, is a largest matching of a pattern: perm has the row
 * of each column, or SUONTARVI_NONE. It is accepted exactly if it is a matching and no matching of the pattern has
 * more pairs. What suontarvi_match left in perm is accepted if it returned 0, whatever the costs.
 *
 * columns and rows get marks that show it, each 1 or 0: a column is marked if an alternating path leads to it from a
 * column without a row, which is itself marked, and a row if an entry of a marked column is in it. Every entry of a
 * marked column is in a marked row, and every marked row is paired with a marked column. So the marked columns
 * outnumber the marked rows by the number of columns without a row, and at least that many stay empty in every
 * matching. matched[0] gets the number of pairs.
 * Lengths: col_ptr n+1; perm, columns, rows n; matched 1.
 * Refusals: 1, 2, 3, 4; at each entry 5, then 7; then 30 for an entry of perm that is neither SUONTARVI_NONE nor below
 * n, a row twice, or a pair without an entry (a column without a row is allowed here); then 33. */
uint32_t suontarvi_check_largest(uint32_t n, const uint32_t *col_ptr, size_t col_ptr_len,
                                 const uint32_t *row_idx, size_t row_idx_len,
                                 const uint32_t *perm, size_t perm_len,
                                 uint32_t *columns, size_t columns_len,
                                 uint32_t *rows, size_t rows_len,
                                 uint32_t *matched, size_t matched_len);

/* The row index of a cost graph: row i has the places of the index from row_ptr[i] up to row_ptr[i+1]; at each of them
 * cols has the column, rising within the row, and places the position of that entry in row_idx and cost. Every entry
 * is in the index exactly once. The costs may change afterwards in any way: the index stays right.
 * Lengths: col_ptr, row_ptr n+1; cost, cols, places as row_idx; work n.
 * Refusals: as suontarvi_match. */
uint32_t suontarvi_row_index(uint32_t n, const uint32_t *col_ptr, size_t col_ptr_len,
                             const uint32_t *row_idx, size_t row_idx_len,
                             const double *cost, size_t cost_len,
                             uint32_t *row_ptr, size_t row_ptr_len,
                             uint32_t *cols, size_t cols_len,
                             uint32_t *places, size_t places_len,
                             uint32_t *work, size_t work_len);

/* ---- A match as a file ---- */

/* A sheet file is n in two bytes, then records. A record is a column in two bytes, a bit map in one, then the fields
 * whose bits are set: bit 0 the row, two bytes; bits 1, 2 and 3 u, v and cmax, eight bytes each. All are low byte
 * first. Without a field the row is SUONTARVI_NONE and a number has all bits zero. The record of column k has perm[k],
 * u[k], v[k] and cmax[k]. Numbers are kept bit by bit, NaNs and -0.0 included.
 *
 * A record is cut if one of its first three bytes is missing, or a byte of a field whose bit is one of 0 to 3. The
 * other bits have no field, so they never make a record cut: they give 41. */

/* Writes the file: columns rise, no field equals what its absence means, and no record is empty, so equal matches have
 * equal bytes. used[0] gets the length of the file; sheet keeps what it held past it.
 * Lengths: perm, u, v, cmax n; sheet SUONTARVI_SHEET_LEN(n); used 1.
 * Refusals: 1, 3; 10 if an entry of perm is neither SUONTARVI_NONE nor below n, or matched is not the number of rows
 * in perm. */
uint32_t suontarvi_write_sheet(uint32_t n, uint32_t matched,
                               const uint32_t *perm, size_t perm_len,
                               const double *u, size_t u_len,
                               const double *v, size_t v_len,
                               const double *cmax, size_t cmax_len,
                               uint8_t *sheet, size_t sheet_len,
                               uint32_t *used, size_t used_len);

/* Reads a file of sheet_len bytes; answer gets n and the number of pairs, which is the number of rows present. The
 * whole file is tested before anything is written. suontarvi_read_sheet takes records in any order;
 * suontarvi_read_canonical_sheet takes only what suontarvi_write_sheet writes.
 * Lengths: perm, u, v, cmax the file's n (its first two bytes); answer 2.
 * Refusals: 40 for a file without n, or with n above the limit; 3; then record by record 40, then 41, then 42, or,
 * canonical, 40, then 41, then 45, then 44. */
uint32_t suontarvi_read_sheet(const uint8_t *sheet, size_t sheet_len,
                              uint32_t *perm, size_t perm_len,
                              double *u, size_t u_len,
                              double *v, size_t v_len,
                              double *cmax, size_t cmax_len,
                              uint32_t *answer, size_t answer_len);
uint32_t suontarvi_read_canonical_sheet(const uint8_t *sheet, size_t sheet_len,
                                        uint32_t *perm, size_t perm_len,
                                        double *u, size_t u_len,
                                        double *v, size_t v_len,
                                        double *cmax, size_t cmax_len,
                                        uint32_t *answer, size_t answer_len);

/* ---- Cost graphs ---- */

/* The cost graph of a matrix, for the match. logs has the natural logarithm of the magnitude of each value. The
 * symmetric call takes the lower triangle, drops zero values and mirrors the others; the general call drops zero
 * values and those that are not finite. Logs of dropped entries do not count. A cost is the largest log of its column
 * minus its own log; cmax gets that largest log, for a column without entries minus infinity (symmetric) or 0.0
 * (general). The number of entries is then graph_ptr[n]; graph_rows and cost keep what they held past it. The match
 * accepts the graph.
 * Lengths: col_ptr, graph_ptr n+1; values, logs as row_idx; graph_rows, cost
 * SUONTARVI_SYMMETRIC_GRAPH_LEN(row_idx_len) (symmetric) or row_idx_len (general); cmax n; work
 * SUONTARVI_GRAPH_WORK_LEN(n, row_idx_len).
 * Refusals: those of a matrix of the kind; then at each entry, symmetric, 9 for a value that is not finite; then 8
 * for the log of a kept entry that is a NaN or whose magnitude times n, exactly, is not below 2^47. */
uint32_t suontarvi_symmetric_graph(uint32_t n, const uint32_t *col_ptr, size_t col_ptr_len,
                                   const uint32_t *row_idx, size_t row_idx_len,
                                   const double *values, size_t values_len,
                                   const double *logs, size_t logs_len,
                                   uint32_t *graph_ptr, size_t graph_ptr_len,
                                   uint32_t *graph_rows, size_t graph_rows_len,
                                   double *cost, size_t cost_len,
                                   double *cmax, size_t cmax_len,
                                   uint32_t *work, size_t work_len);
uint32_t suontarvi_general_graph(uint32_t n, const uint32_t *col_ptr, size_t col_ptr_len,
                                 const uint32_t *row_idx, size_t row_idx_len,
                                 const double *values, size_t values_len,
                                 const double *logs, size_t logs_len,
                                 uint32_t *graph_ptr, size_t graph_ptr_len,
                                 uint32_t *graph_rows, size_t graph_rows_len,
                                 double *cost, size_t cost_len,
                                 double *cmax, size_t cmax_len,
                                 uint32_t *work, size_t work_len);

/* The same with suontarvi_whole_log of each kept value in place of lent logs. All costs are whole, so everything said
 * of the match of whole costs holds. Zero values are dropped; no cost and no cmax is -0.0.
 * Lengths: as above, without logs.
 * Refusals: those of a matrix of the kind; then at each entry 9 for a value that is not finite, in both kinds. */
uint32_t suontarvi_whole_symmetric_graph(uint32_t n, const uint32_t *col_ptr, size_t col_ptr_len,
                                         const uint32_t *row_idx, size_t row_idx_len,
                                         const double *values, size_t values_len,
                                         uint32_t *graph_ptr, size_t graph_ptr_len,
                                         uint32_t *graph_rows, size_t graph_rows_len,
                                         double *cost, size_t cost_len,
                                         double *cmax, size_t cmax_len,
                                         uint32_t *work, size_t work_len);
uint32_t suontarvi_whole_general_graph(uint32_t n, const uint32_t *col_ptr, size_t col_ptr_len,
                                       const uint32_t *row_idx, size_t row_idx_len,
                                       const double *values, size_t values_len,
                                       uint32_t *graph_ptr, size_t graph_ptr_len,
                                       uint32_t *graph_rows, size_t graph_rows_len,
                                       double *cost, size_t cost_len,
                                       double *cmax, size_t cmax_len,
                                       uint32_t *work, size_t work_len);

/* ---- Factors from a match ---- */

/* A log factor is the natural logarithm of a factor: the caller exponentiates it. The calls take any numbers and do
 * not test whether perm, u, v and cmax belong together. */

/* Symmetric, one log factor for each row and its column: (u + v - cmax) / 2, clamped to -709..709; 0 if the row or the
 * column is unmatched, or if cmax or that number is not finite. unmatched[0] gets n minus matched.
 * Lengths: perm, u, v, cmax, factors, work n; unmatched 1.
 * Refusals: 1, 3; 10 if an entry of perm is neither SUONTARVI_NONE nor below n, or matched is above n. */
uint32_t suontarvi_log_factors(uint32_t n, uint32_t matched,
                               const uint32_t *perm, size_t perm_len,
                               const double *u, size_t u_len,
                               const double *v, size_t v_len,
                               const double *cmax, size_t cmax_len,
                               double *factors, size_t factors_len,
                               uint32_t *work, size_t work_len,
                               uint32_t *unmatched, size_t unmatched_len);

/* The same by a rule for unmatched rows and columns. SUONTARVI_RULE_IDENTITY: everything is as in
 * suontarvi_log_factors; col_ptr, row_idx, values and logs are not read and may have any length. SUONTARVI_RULE_FLAT:
 * an index is matched if its row and its column are and its cmax is finite, and keeps its factor. For any other index,
 * take each entry of its column of the symmetric cost graph whose row is matched, and add the entry's log and the
 * factor of that row, rounded once. The index gets minus the largest of these sums, clamped to -709..709, and plus
 * zero if there is none. "Minus" turns the sign, that of a zero too: the largest sum +0.0 gives -0.0. Of equal sums
 * the first by row counts.
 * Lengths: as suontarvi_log_factors; by the flat rule also col_ptr n+1, values and logs as row_idx.
 * Refusals: 5 for a rule above 1. Then by the identity rule those of suontarvi_log_factors; by the flat rule those of
 * suontarvi_symmetric_graph, then 10. */
uint32_t suontarvi_log_factors_by_rule(uint32_t rule, uint32_t n, uint32_t matched,
                                       const uint32_t *perm, size_t perm_len,
                                       const double *u, size_t u_len,
                                       const double *v, size_t v_len,
                                       const double *cmax, size_t cmax_len,
                                       const uint32_t *col_ptr, size_t col_ptr_len,
                                       const uint32_t *row_idx, size_t row_idx_len,
                                       const double *values, size_t values_len,
                                       const double *logs, size_t logs_len,
                                       double *factors, size_t factors_len,
                                       uint32_t *work, size_t work_len,
                                       uint32_t *unmatched, size_t unmatched_len);

/* Unsymmetric: row_factors gets u, column_factors v - cmax, each clamped to -709..709; 0 for a NaN.
 * Lengths: all n. Refusals: 1, 3. */
uint32_t suontarvi_unsymmetric_factors(uint32_t n, const double *u, size_t u_len,
                                       const double *v, size_t v_len,
                                       const double *cmax, size_t cmax_len,
                                       double *row_factors, size_t row_factors_len,
                                       double *column_factors, size_t column_factors_len);

/* The same two for comparison: every slice is bytes, each number low byte first, and no work is lent. Limit
 * SUONTARVI_MAX_N_BYTES.
 * Lengths: those above in bytes, 4 for each of perm and unmatched, 8 for each of the others. Refusals: as above. */
uint32_t suontarvi_log_factors_bytes(uint32_t n, uint32_t matched,
                                     const uint8_t *perm, size_t perm_len,
                                     const uint8_t *u, size_t u_len,
                                     const uint8_t *v, size_t v_len,
                                     const uint8_t *cmax, size_t cmax_len,
                                     uint8_t *factors, size_t factors_len,
                                     uint8_t *unmatched, size_t unmatched_len);
uint32_t suontarvi_unsymmetric_factors_bytes(uint32_t n, const uint8_t *u, size_t u_len,
                                             const uint8_t *v, size_t v_len,
                                             const uint8_t *cmax, size_t cmax_len,
                                             uint8_t *row_factors, size_t row_factors_len,
                                             uint8_t *column_factors, size_t column_factors_len);

/* Exponents of two from the match of a graph of whole-number logarithms: u / 65,536 for a row, (v - cmax) / 65,536 for
 * a column, each rounded down. A complete match by suontarvi_match of a graph of suontarvi_whole_general_graph or
 * suontarvi_whole_symmetric_graph is never refused with 43, and 2^(row_exponents[i] + column_exponents[j]) brings each
 * entry (i, j) of the matrix below 2 in magnitude and the matched ones above 1/4. A match that others made and that
 * suontarvi_check_match accepts on that graph may be refused with 43; if it is not, the same bounds hold with the cmax
 * of the graph.
 * Lengths: all n.
 * Refusals: 1, 3; 43 if a u, or a v - cmax (one rounded difference), is not whole, or an exponent is beyond
 * SUONTARVI_MAX_EXPONENT. */
uint32_t suontarvi_exponents(uint32_t n, const double *u, size_t u_len,
                             const double *v, size_t v_len,
                             const double *cmax, size_t cmax_len,
                             int32_t *row_exponents, size_t row_exponents_len,
                             int32_t *column_exponents, size_t column_exponents_len);

/* Scales a general matrix in place: the value of row i and column j is multiplied by 2^(row_exponents[i] +
 * column_exponents[j]), by its exponent field alone, so nothing is rounded. Zeros keep their sign.
 *
 * A symmetric matrix: lend both triangles as a general matrix. Or lend the stored triangle as one, which leaves its
 * entries (i, j); a copy of it, with row_exponents and column_exponents exchanged, then leaves their mirrors (j, i). An
 * entry and its mirror need not be equal.
 *
 * If each application is accepted and the sums are within SUONTARVI_MAX_EXPONENT: one set and then another leave the
 * same bytes as the sums of both; a set and then its opposite bring the matrix back; and two sets leave the same in
 * either order, if both orders are accepted. (A value can leave the normal range in one order and not in the other.)
 * Lengths: col_ptr n+1; values as row_idx; row_exponents, column_exponents n.
 * Refusals: those of a general matrix; 43 if an exponent, used or not, is beyond SUONTARVI_MAX_EXPONENT; 46 if a
 * value that is not zero is not a normal number before or after scaling. */
uint32_t suontarvi_apply_exponents(uint32_t n, const uint32_t *col_ptr, size_t col_ptr_len,
                                   const uint32_t *row_idx, size_t row_idx_len,
                                   const int32_t *row_exponents, size_t row_exponents_len,
                                   const int32_t *column_exponents, size_t column_exponents_len,
                                   double *values, size_t values_len);

/* ---- Inf-norm factors, and the chooser ---- */

/* Factors of a symmetric matrix, given by its lower triangle: scaling by them from both sides brings the largest
 * magnitude of each row near to 1. A value may be infinite, or a NaN, which is never the largest.
 *
 * suontarvi_infnorm iterates from factors of 1.0: ten rounds at most; the last is one whose largest magnitudes are
 * all 0 or less than 1e-8 from 1. A row keeps its factor if its largest magnitude is 0, or if its new factor would be
 * infinite or 0. suontarvi_onepass takes 1.0 over the root of the row's largest magnitude; 1.0 if that is 0, or if
 * the factor would be 0.
 * Lengths: col_ptr n+1; values as row_idx; factors, work n.
 * Refusals: those of a symmetric matrix. */
uint32_t suontarvi_infnorm(uint32_t n, const uint32_t *col_ptr, size_t col_ptr_len,
                           const uint32_t *row_idx, size_t row_idx_len,
                           const double *values, size_t values_len,
                           double *factors, size_t factors_len,
                           double *work, size_t work_len);
uint32_t suontarvi_onepass(uint32_t n, const uint32_t *col_ptr, size_t col_ptr_len,
                           const uint32_t *row_idx, size_t row_idx_len,
                           const double *values, size_t values_len,
                           double *factors, size_t factors_len);

/* The scaling of a symmetric matrix, given by its lower triangle, by a choice. Each choice uses these slices; a slice
 * that it does not use may have any length, even NULL with 0, and is not touched:
 *
 *   slice                                          INFNORM  ONEPASS  MC64     IDENTITY  EXTERNAL
 *   col_ptr, row_idx, values                       read     read     read     read      row_idx_len alone
 *   external                                       -        -        -        -         -
 *   logs                                           -        -        read     -         -
 *   factors, info                                  written  written  written  written   -
 *   maxima                                         work     -        -        -         -
 *   graph_ptr, graph_rows, cost, cmax, perm, u, v  -        -        written  -         -
 *   graph_work, match_work, distances, factor_work -        -        work     -         -
 *
 * info gets what was done, SUONTARVI_DONE_..., and the number of unmatched columns, 0 unless it is
 * SUONTARVI_DONE_PARTIAL. MC64 leaves its slices as suontarvi_symmetric_graph, suontarvi_match and
 * suontarvi_log_factors do one after the other; graph_work, match_work, distances and factor_work are their work,
 * work, fwork and work. Its factors are LOG factors. If the logs of all kept entries are whole, info[0] is
 * SUONTARVI_DONE_APPLIED and every factor equals (u + v - cmax) / 2, so that none is clamped to 709 or -709, then the
 * two factors of a kept entry and its log add up to at most 0, and for column j and row perm[j] to exactly 0. These
 * are exact numbers; nothing in the sums is rounded.
 * Lengths: col_ptr, graph_ptr n+1; values, logs as row_idx; factors, maxima, cmax, perm, u, v, factor_work n;
 * graph_rows, cost SUONTARVI_SYMMETRIC_GRAPH_LEN(row_idx_len); graph_work SUONTARVI_GRAPH_WORK_LEN(n, row_idx_len);
 * match_work SUONTARVI_MATCH_WORK_LEN(n); distances SUONTARVI_MATCH_FWORK_LEN(n); info 2.
 * Refusals: those of a symmetric matrix, with 3 for the slices of the choice; 5 for a choice above 4; then for MC64
 * at each entry 9, then 8, as in suontarvi_symmetric_graph. The external choice: 1, 2, 12, and no other. */
uint32_t suontarvi_scaling(uint32_t choice, uint32_t n, const uint32_t *col_ptr, size_t col_ptr_len,
                           const uint32_t *row_idx, size_t row_idx_len,
                           const double *values, size_t values_len,
                           const double *external, size_t external_len,
                           const double *logs, size_t logs_len,
                           double *factors, size_t factors_len,
                           double *maxima, size_t maxima_len,
                           uint32_t *graph_ptr, size_t graph_ptr_len,
                           uint32_t *graph_rows, size_t graph_rows_len,
                           double *cost, size_t cost_len,
                           double *cmax, size_t cmax_len,
                           uint32_t *graph_work, size_t graph_work_len,
                           uint32_t *perm, size_t perm_len,
                           double *u, size_t u_len,
                           double *v, size_t v_len,
                           uint32_t *match_work, size_t match_work_len,
                           double *distances, size_t distances_len,
                           uint32_t *factor_work, size_t factor_work_len,
                           uint32_t *info, size_t info_len);

#ifdef __cplusplus
}
#endif

#endif
