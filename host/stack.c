/* How much stack each call takes, at the limits: each runs on a thread of its own that paints its stack below where it
 * stands, makes the call, and looks for the deepest byte that changed. (The first memcpy may take 3 KB more, if it is
 * bound lazily.) A line for each call, then the largest of the calls on bytes with check_largest, and of the others.
 *   cc -O2 -I../include stack.c ../target/staticlib/libsuontarvi.a -lpthread -o stack && ./stack
 * tests/header.rs compares the last two lines with the header. */
#define _GNU_SOURCE
#include <pthread.h>
#include <stdio.h>
#include <stdlib.h>
#include <string.h>
#include <sys/mman.h>

#include "suontarvi.h"

#define N SUONTARVI_MAX_N
#define SMALL SUONTARVI_MAX_N_BYTES
#define MANY SUONTARVI_MAX_ENTRIES
#define HALF SUONTARVI_MAX_SYMMETRIC_ENTRIES
#define FEW SUONTARVI_MAX_ENTRIES_BYTES
#define STACK (1 << 20)
#define PAINT 0xA5

static uint32_t col_ptr[N + 1], row_idx[MANY], lower_ptr[N + 1], lower_idx[HALF], triplet_cols[MANY];
static double values[MANY], logs[MANY], cost[MANY];
static uint32_t graph_ptr[N + 1], graph_rows[MANY], cols[MANY], places[MANY], perm[N], info[2], one[1];
static double graph_cost[MANY], cmax[N], u[N], v[N], factors[N], other[N], maxima[N], fwork[2 * N], built[MANY];
static uint32_t work[2 * N + 2 + MANY], match_work[12 * N + 1], factor_work[N], lower_count, used;
static uint64_t answer[8], gap[1];
static int32_t rows_by[N], columns_by[N];
static uint32_t matched_rows[N], marked_columns[N], marked_rows[N];
static uint8_t sheet[2 + 29 * N], small_ptr[4 * (SMALL + 1)], small_idx[4 * FEW], small_cost[8 * FEW], bytes[8 * SMALL];
static uint8_t small_perm[4 * SMALL], small_u[8 * SMALL], small_v[8 * SMALL], small_answer[64], root[8], four[4];
static uint32_t status;

/* 64 entries in each of n columns, rows rising, with whole costs; a lower triangle of 32 entries in a column. */
static void make_inputs(void) {
    uint32_t seed = 1, count = 0;
    for (uint32_t j = 0; j < N; j++) {
        col_ptr[j] = 64 * j;
        for (uint32_t k = 0; k < 64; k++) {
            seed = seed * 1664525u + 1013904223u;
            row_idx[64 * j + k] = 64 * k + (seed >> 16) % 64;
            triplet_cols[64 * j + k] = j;
            cost[64 * j + k] = (double)(seed >> 12);
            values[64 * j + k] = 1.0 + (double)(seed >> 8);
            logs[64 * j + k] = (double)(seed % 1000) - 500.0;
        }
        lower_ptr[j] = count;
        for (uint32_t i = j; i < N && i < j + 32; i++) lower_idx[count++] = i;
    }
    col_ptr[N] = MANY;
    lower_ptr[N] = lower_count = count;
}

static void put(uint8_t *to, uint64_t number, int length) {
    for (int k = 0; k < length; k++) to[k] = (uint8_t)(number >> (8 * k));
}

/* 8 entries in each of 256 columns. */
static void make_bytes(void) {
    for (uint32_t j = 0; j <= SMALL; j++) put(small_ptr + 4 * j, 8 * j, 4);
    for (uint32_t k = 0; k < FEW; k++) {
        double number = (double)((k * 2654435761u) >> 8);
        uint64_t bits;
        memcpy(&bits, &number, 8);
        put(small_idx + 4 * k, 32 * (k % 8) + (k * 7919u) % 32, 4);
        put(small_cost + 8 * k, bits, 8);
    }
}

#define GRAPH N, col_ptr, N + 1, row_idx, MANY
#define LOWER N, lower_ptr, N + 1, lower_idx, lower_count, values, lower_count
#define INTO graph_ptr, N + 1, graph_rows
#define DUALS u, N, v, N, cmax, N
#define CALL(name, ...) \
    static void call_##name(void) { \
        status = suontarvi_##name(__VA_ARGS__); \
    }

CALL(sqrt, 2.0, root, 8)
CALL(whole_log, 2.0, rows_by, 1)
CALL(validate_symmetric, LOWER)
CALL(validate_general, GRAPH, values, MANY)
CALL(triplets_symmetric, N, lower_idx, lower_count, lower_idx, lower_count, values, lower_count, INTO, lower_count,
     graph_cost, lower_count, work, SUONTARVI_TRIPLETS_WORK_LEN(N, lower_count))
CALL(triplets_general, N, row_idx, MANY, triplet_cols, MANY, values, MANY, INTO, MANY, graph_cost, MANY, work,
     SUONTARVI_TRIPLETS_WORK_LEN(N, MANY))
CALL(match, GRAPH, cost, MANY, perm, N, u, N, v, N, match_work, SUONTARVI_MATCH_WORK_LEN(N), fwork,
     SUONTARVI_MATCH_FWORK_LEN(N), answer, SUONTARVI_MATCH_ANSWER_LEN)
CALL(check_match, GRAPH, cost, MANY, perm, N, u, N, v, N)
CALL(match_gap, N, 0, col_ptr, N + 1, row_idx, MANY, cost, MANY, perm, N, u, N, v, N, gap, 1)
CALL(check_largest, GRAPH, matched_rows, N, marked_columns, N, marked_rows, N, one, 1)
CALL(row_index, GRAPH, cost, MANY, graph_ptr, N + 1, cols, MANY, places, MANY, factor_work, N)
CALL(write_sheet, N, (uint32_t)answer[0], perm, N, DUALS, sheet, SUONTARVI_SHEET_LEN(N), one, 1)
CALL(read_sheet, sheet, used, perm, N, DUALS, info, 2)
CALL(read_canonical_sheet, sheet, used, perm, N, DUALS, info, 2)
CALL(symmetric_graph, LOWER, logs, lower_count, INTO, 2 * lower_count, graph_cost, 2 * lower_count, cmax, N, work,
     SUONTARVI_GRAPH_WORK_LEN(N, lower_count))
CALL(general_graph, GRAPH, values, MANY, logs, MANY, INTO, MANY, graph_cost, MANY, cmax, N, work,
     SUONTARVI_GRAPH_WORK_LEN(N, MANY))
CALL(whole_symmetric_graph, LOWER, INTO, 2 * lower_count, graph_cost, 2 * lower_count, cmax, N, work,
     SUONTARVI_GRAPH_WORK_LEN(N, lower_count))
CALL(whole_general_graph, GRAPH, values, MANY, INTO, MANY, graph_cost, MANY, cmax, N, work,
     SUONTARVI_GRAPH_WORK_LEN(N, MANY))
CALL(log_factors, N, N, perm, N, DUALS, factors, N, factor_work, N, one, 1)
CALL(log_factors_by_rule, SUONTARVI_RULE_FLAT, N, N, perm, N, DUALS, lower_ptr, N + 1, lower_idx, lower_count, values,
     lower_count, logs, lower_count, factors, N, factor_work, N, one, 1)
CALL(unsymmetric_factors, N, DUALS, factors, N, other, N)
CALL(exponents, N, DUALS, rows_by, N, columns_by, N)
CALL(apply_exponents, GRAPH, rows_by, N, columns_by, N, built, MANY)
CALL(infnorm, LOWER, factors, N, maxima, N)
CALL(onepass, LOWER, factors, N)
CALL(scaling, SUONTARVI_CHOICE_MC64, LOWER, NULL, 0, logs, lower_count, factors, N, maxima, N, INTO,
     2 * lower_count, graph_cost, 2 * lower_count, cmax, N, work, SUONTARVI_GRAPH_WORK_LEN(N, lower_count), perm, N,
     u, N, v, N, match_work, SUONTARVI_MATCH_WORK_LEN(N), fwork, SUONTARVI_MATCH_FWORK_LEN(N), factor_work, N, info, 2)
CALL(match_bytes, SMALL, small_ptr, sizeof small_ptr, small_idx, sizeof small_idx, small_cost, sizeof small_cost,
     small_perm, sizeof small_perm, small_u, sizeof small_u, small_v, sizeof small_v, small_answer, 64)
CALL(log_factors_bytes, SMALL, SMALL, small_perm, sizeof small_perm, small_u, sizeof small_u, small_v, sizeof small_v,
     small_cost, sizeof bytes, bytes, sizeof bytes, four, 4)
CALL(unsymmetric_factors_bytes, SMALL, small_u, sizeof small_u, small_v, sizeof small_v, small_cost, sizeof bytes,
     small_idx, sizeof bytes, bytes, sizeof bytes)

struct probe {
    volatile uint8_t *stack;
    void (*call)(void);
    size_t taken;
};

/* Where the caller's stack ends. */
static __attribute__((noinline)) volatile uint8_t *below(void) {
    return __builtin_frame_address(0);
}

static void *probed(void *given) {
    struct probe *probe = given;
    volatile uint8_t *top = below(), *at;
    for (at = probe->stack; at < top; at++) *at = PAINT;
    probe->call();
    for (at = probe->stack; at < top && *at == PAINT;) at++;
    probe->taken = (size_t)(top - at);
    return NULL;
}

/* A line; the larger of `most` and what this call takes. */
static size_t measured(const char *name, void (*call)(void), size_t most) {
    pthread_attr_t attributes;
    pthread_t thread;
    void *stack = mmap(NULL, STACK, PROT_READ | PROT_WRITE, MAP_PRIVATE | MAP_ANONYMOUS, -1, 0);
    struct probe probe = {stack, call, 0};
    if (stack == MAP_FAILED || pthread_attr_init(&attributes) != 0) exit(2);
    if (pthread_attr_setstack(&attributes, stack, STACK) != 0) exit(2);
    if (pthread_create(&thread, &attributes, probed, &probe) != 0) exit(2);
    pthread_join(thread, NULL);
    munmap(stack, STACK);
    printf("%-26s %7zu%s\n", name, probe.taken, status == 0 ? "" : " REFUSED");
    return status != 0 ? STACK : probe.taken > most ? probe.taken : most;
}
#define MEASURE(name) most = measured(#name, call_##name, most)

static size_t measure_native(size_t most) {
    MEASURE(sqrt), MEASURE(whole_log), MEASURE(validate_symmetric), MEASURE(validate_general);
    MEASURE(triplets_symmetric), MEASURE(triplets_general), MEASURE(general_graph);
    MEASURE(symmetric_graph), MEASURE(whole_symmetric_graph), MEASURE(whole_general_graph);
    MEASURE(match), MEASURE(check_match), MEASURE(match_gap), MEASURE(row_index), MEASURE(write_sheet);
    memcpy(matched_rows, perm, sizeof perm);
    used = one[0];
    MEASURE(read_sheet), MEASURE(read_canonical_sheet), MEASURE(log_factors), MEASURE(log_factors_by_rule);
    MEASURE(unsymmetric_factors), MEASURE(exponents);
    memcpy(built, values, sizeof built);
    MEASURE(apply_exponents), MEASURE(infnorm), MEASURE(onepass), MEASURE(scaling);
    return most;
}

static size_t measure_large(size_t most) {
    MEASURE(check_largest), MEASURE(match_bytes), MEASURE(log_factors_bytes), MEASURE(unsymmetric_factors_bytes);
    return most;
}

int main(void) {
    make_inputs();
    make_bytes();
    size_t native = measure_native(0), large = measure_large(0);
    printf("largest of the calls on bytes and check_largest %zu\n", large);
    printf("largest of the others %zu\n", native);
    return 0;
}
