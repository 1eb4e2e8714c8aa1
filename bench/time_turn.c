// time_turn HALLS SWEEPS RULE NUMBER RANK CALLS: nanoseconds of a turn that so many runs share, and of the same sweeps by a `sweep` call for each run; every run is over
// the hall and goes on from the factor of standard input, as `oracle problem` prints them. Each is the least over batches, the two taken in turn.
#include <string.h>
#include "timed.h"
#include "wagonplan.h"

enum { RUNS = WAGONPLAN_RUNS_MOST, ENTRIES = WAGONPLAN_ENTRIES_MOST, FACTOR = WAGONPLAN_FACTOR_MOST };
static uint16_t rows[RUNS * ENTRIES], cols[RUNS * ENTRIES];
static int64_t values[RUNS * ENTRIES], c[RUNS * WAGONPLAN_WAGONS_MOST];
static double factors[RUNS * FACTOR];
static wagonplan_hall halls[RUNS];
static wagonplan_run runs[RUNS];
static size_t n, count, size, hall_count;

static void read_hall(void) {
    n = word(), count = word();
    if (WAGONPLAN_WAGONS_MOST < n || ENTRIES < count) exit(2);
    for (size_t k = 0; k < count; k++) rows[k] = (uint16_t)word(), cols[k] = (uint16_t)word(), values[k] = (int64_t)word();
    if (word() != n) exit(2);
    for (size_t i = 0; i < n; i++) c[i] = (int64_t)word();
}

// The first hall again behind itself.
static void repeat(void) {
    for (size_t i = 1; i < hall_count; i++) {
        memcpy(rows + i * count, rows, 2 * count), memcpy(cols + i * count, cols, 2 * count), memcpy(values + i * count, values, 8 * count);
        memcpy(c + i * n, c, 8 * n), memcpy(factors + i * size, factors, 8 * size);
    }
    for (size_t i = 0; i < hall_count; i++) halls[i].n = n, halls[i].count = count;
}

static void shared(uint32_t sweeps) {
    wagonplan_tables t = {halls, {rows, hall_count * count}, {cols, hall_count * count}, {values, hall_count * count}, {c, hall_count * n}};
    wagonplan_f64_mut lent = {factors, hall_count * size};
    wagonplan_run again[RUNS];
    memcpy(again, runs, sizeof again);
    if (wagonplan_turn(&t, hall_count, again, sweeps, lent)) exit(3);
}

static void one_by_one(uint32_t sweeps) {
    for (size_t i = 0; i < hall_count; i++) {
        wagonplan_table t = {n, count, {rows + i * count, count}, {cols + i * count, count}, {values + i * count, count}, {c + i * n, n}};
        wagonplan_f64_mut lent = {factors + i * size, size};
        wagonplan_run again = runs[i];
        if (wagonplan_sweep(&again, &t, (uint32_t)(sweeps / hall_count + (i < sweeps % hall_count)), lent)) exit(3);
    }
}

static double batch(void (*made)(uint32_t), uint32_t sweeps, size_t calls) {
    double started = now();
    for (size_t k = 0; k < calls; k++) made(sweeps);
    return 1e9 * (now() - started) / (double)calls;
}

int main(int argc, char **argv) {
    double turn = 1e18, alone = 1e18;
    if (argc != 7) return 2;
    hall_count = (size_t)atoi(argv[1]);
    uint32_t sweeps = (uint32_t)atoi(argv[2]);
    size_t rank = (size_t)atoi(argv[5]), calls = (size_t)atoi(argv[6]);
    read_hall();
    size = (n + 1) * rank;
    if (hall_count < 1 || RUNS < hall_count || word() != size || FACTOR < size) return 2;
    for (size_t k = 0; k < size; k++) {
        uint64_t bits = word();
        memcpy(&factors[k], &bits, 8);
    }
    repeat();
    // behind a check, no tolerance stops it
    wagonplan_run run = {n + 1, rank, (uint64_t)atoi(argv[3]), atof(argv[4]), 1001, 1e300, -1.0, -1.0, UINT32_MAX, 0, WAGONPLAN_OPEN, WAGONPLAN_ALL_SWEEPS, 0};
    for (size_t i = 0; i < RUNS; i++) runs[i] = run;
    for (int b = 0; b < BATCHES; b++) {
        double a = batch(shared, sweeps, calls), s = batch(one_by_one, sweeps, calls);
        if (a < turn) turn = a;
        if (s < alone) alone = s;
    }
    printf("%.0f %.0f\n", turn, alone);
    return 0;
}
