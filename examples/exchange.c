// A run that starts with gradient steps and goes over to momentum without losing its factor: rule and number are exchanged, all else carries over.
#include <stdio.h>
#include "wagonplan.h"

enum { WAGONS = 5, SIGNS = WAGONS + 1, ENTRIES = 10, RANK = 3, FACTOR = SIGNS * RANK, FIRST = 6, WIDTH = 8 };

// Five wagons in a ring.
static const uint16_t rows[ENTRIES] = {0, 0, 1, 1, 2, 2, 3, 3, 4, 4};
static const uint16_t cols[ENTRIES] = {1, 4, 0, 2, 1, 3, 2, 4, 0, 3};
static const int64_t values[ENTRIES] = {5, 1, 5, 2, 2, 3, 3, 4, 1, 4};
static const int64_t c[WAGONS] = {-2, -3, -1, -2, -3};
static const wagonplan_table table = {WAGONS, ENTRIES, {rows, ENTRIES}, {cols, ENTRIES}, {values, ENTRIES}, {c, WAGONS}};

static double normals[FACTOR];
static uint64_t levels[WAGONPLAN_SEARCH_WORKSPACE];
static int failures = 0;

static void expect(const char *what, int holds) {
    if (!holds) printf("  %s: NO\n", what), failures++;
}

static void sweep(wagonplan_run *run, uint32_t k, double *factor) {
    wagonplan_f64_mut lent = {factor, FACTOR};
    expect("swept", wagonplan_sweep(run, &table, k, lent) == 0);
}

// Gradient steps, so many sweeps a call; then momentum to the end.
static void made(wagonplan_run *run, double *factor, uint32_t at_once) {
    const wagonplan_settings settings = {RANK, WAGONPLAN_GRAD, 0.05, 400, 10, 0.0, 1e-6, WAGONPLAN_START_RANDOM};
    wagonplan_f64 numbers = {normals, FACTOR};
    wagonplan_f64_mut to = {factor, FACTOR};
    expect("opened", wagonplan_open(&table, &settings, numbers, to, run) == 0);
    for (uint32_t k = 0; k < FIRST; k += at_once) sweep(run, at_once, factor);
    expect("exchanged", wagonplan_exchange_rule(run, WAGONPLAN_COORD_MOMENTUM, 0.5) == 0);
    while (run->stage == WAGONPLAN_OPEN && !failures) sweep(run, at_once, factor);
}

// What is refused leaves the record; what is accepted changes rule and number alone.
static void held(void) {
    wagonplan_run run, before, back;
    double factor[FACTOR] = {0};
    memset(&run, 0, sizeof run);
    made(&run, factor, FIRST);
    before = run;
    expect("a stopped run is refused by 32", wagonplan_exchange_rule(&run, WAGONPLAN_GRAD, 0.05) == 32);
    run.stage = WAGONPLAN_OPEN, run.status = 0, run.most = run.sweeps + 1;
    back = run;
    expect("rule 5 by 18", wagonplan_exchange_rule(&run, 5, 0.0) == 18);
    expect("a momentum of 1 by 18", wagonplan_exchange_rule(&run, WAGONPLAN_COORD_MOMENTUM, 1.0) == 18);
    expect("a refused exchange leaves the record", memcmp(&run, &back, sizeof run) == 0);
    expect("an exchange", wagonplan_exchange_rule(&run, WAGONPLAN_GRAD, 0.25) == 0);
    expect("has its rule and number", run.rule == WAGONPLAN_GRAD && run.rule_number == 0.25);
    run.rule = back.rule, run.rule_number = back.rule_number;
    expect("all else carries over", memcmp(&run, &back, sizeof run) == 0);
    expect("sweeps done stay", run.sweeps == before.sweeps);
}

int main(void) {
    static const char *const statuses[] = {"all sweeps made", "stopped at a tolerance", "stopped as the objective rose"};
    wagonplan_run run, other;
    wagonplan_result x;
    double factor[FACTOR] = {0}, single[FACTOR] = {0}, multipliers[SIGNS];
    uint8_t b[WAGONS] = {0};
    wagonplan_f64 draws = {normals, RANK}, lent = {factor, FACTOR};
    wagonplan_f64_mut duals = {multipliers, SIGNS};
    wagonplan_u8_mut choice = {b, WAGONS};
    wagonplan_u64_mut room = {levels, WAGONPLAN_SEARCH_WORKSPACE};
    uint32_t seed = 2026;
    memset(&run, 0, sizeof run), memset(&other, 0, sizeof other), memset(&x, 0, sizeof x);
    expect("header and archive belong together", wagonplan_fits());
    for (int k = 0; k < FACTOR; k++) seed = seed * 1664525 + 1013904223, normals[k] = (double)(seed >> 8) / (1 << 23) - 1.0;
    made(&run, factor, FIRST);
    made(&other, single, 1);
    expect("sweep by sweep it is the same run", memcmp(&run, &other, sizeof run) == 0 && memcmp(factor, single, sizeof factor) == 0);
    held();
    expect("finished", wagonplan_finish(&run, &table, WIDTH, 1, draws, lent, choice, duals, room, &x) == 0);
    printf("%d sweeps by gradient, then momentum: %s after %d sweeps, cost %.3f, no choice costs less than %.3f, stores", FIRST, statuses[x.status % 3], (int)x.sweeps,
           wagonplan_eighth(x.cost), wagonplan_eighth(x.floor));
    for (int k = 0; k < WAGONS; k++) printf(" %d", b[k]);
    printf("\nanother rule while running: %s\n", failures ? "FAILED" : "ok");
    return failures != 0;
}
