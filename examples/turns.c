// Three halls share one machine: turns of 8 sweeps until every run has stopped, then each hall's answer. Each hall's run alone must give the same.
#include <stdio.h>
#include "wagonplan.h"

enum { HALLS = 3, SWEEPS = 8, ENTRIES = 20, WAGONS = 11, FACTORS = 3 * 64, WIDTH = 8 };

// Entries and costs hall after hall: three wagons in a row, three that all touch one another, five in a ring.
static const wagonplan_hall halls[HALLS] = {{3, 4}, {3, 6}, {5, 10}};
static const uint16_t rows[ENTRIES] = {0, 1, 1, 2, 0, 0, 1, 1, 2, 2, 0, 0, 1, 1, 2, 2, 3, 3, 4, 4};
static const uint16_t cols[ENTRIES] = {1, 0, 2, 1, 1, 2, 0, 2, 0, 1, 1, 4, 0, 2, 1, 3, 2, 4, 0, 3};
static const int64_t values[ENTRIES] = {2, 2, 3, 3, 4, 4, 4, 4, 4, 4, 5, 1, 5, 2, 2, 3, 3, 4, 1, 4};
static const int64_t c[WAGONS] = {-1, -2, -1, -3, -3, -3, -2, -3, -1, -2, -3};

// Another rule, number, most sweeps and tolerance for each.
static const wagonplan_settings settings[HALLS] = {
    {0, WAGONPLAN_COORD_NO_STEP, 0.0, 23, 0, 0.0, -1.0, WAGONPLAN_START_RANDOM},
    {2, WAGONPLAN_GRAD, 0.01, 5, 0, -1.0, -1.0, WAGONPLAN_START_RANDOM},
    {0, WAGONPLAN_COORD_MOMENTUM, 0.3, 500, 10, 0.0, 1e-6, WAGONPLAN_START_RANDOM}};

static double normals[64];
static uint64_t levels[WAGONPLAN_SEARCH_WORKSPACE];
static int failures = 0;

static void expect(const char *what, int holds) {
    if (!holds) printf("  %s: NO\n", what), failures++;
}

// Where the entries and the costs of a hall start: behind those of the halls before it.
static wagonplan_table table_of(int hall) {
    size_t entries = 0, costs = 0;
    wagonplan_table t;
    for (int i = 0; i < hall; i++) entries += halls[i].count, costs += halls[i].n;
    t.n = halls[hall].n, t.count = halls[hall].count;
    t.rows.at = rows + entries, t.cols.at = cols + entries, t.values.at = values + entries, t.c.at = c + costs;
    t.rows.len = t.cols.len = t.values.len = t.count, t.c.len = t.n;
    return t;
}

static void open_run(int hall, double *factor, size_t room, wagonplan_run *run) {
    wagonplan_table t = table_of(hall);
    wagonplan_f64 numbers = {normals, 64};
    wagonplan_f64_mut to = {factor, room};
    expect("opened", wagonplan_open(&t, &settings[hall], numbers, to, run) == 0);
}

static void finish_run(int hall, const wagonplan_run *run, const double *factor, wagonplan_result *x, uint8_t *b) {
    wagonplan_table t = table_of(hall);
    double multipliers[WAGONS + 1];
    wagonplan_f64 draws = {normals, 32}, rows_of_it = {factor, (size_t)(run->size * run->rank)};
    wagonplan_f64_mut duals = {multipliers, WAGONS + 1};
    wagonplan_u8_mut choice = {b, WAGONS};
    wagonplan_u64_mut room = {levels, WAGONPLAN_SEARCH_WORKSPACE};
    memset(x, 0, sizeof *x);
    expect("finished", wagonplan_finish(run, &t, WIDTH, 1, draws, rows_of_it, choice, duals, room, x) == 0);
}

static int any_open(const wagonplan_run *runs) {
    for (int i = 0; i < HALLS; i++)
        if (runs[i].stage == WAGONPLAN_OPEN) return 1;
    return 0;
}

// Turns until none is open; how many there were.
static int share(wagonplan_run *runs, double *factors, size_t length) {
    const wagonplan_tables t = {halls, {rows, ENTRIES}, {cols, ENTRIES}, {values, ENTRIES}, {c, WAGONS}};
    wagonplan_f64_mut lent = {factors, length};
    int turns = 0;
    expect("a turn of 7 sweeps is refused by 25", wagonplan_turn(&t, HALLS, runs, 7, lent) == 25);
    expect("a turn of no run by 26", wagonplan_turn(&t, 0, runs, SWEEPS, lent) == 26);
    while (any_open(runs) && !failures) {
        expect("a turn", wagonplan_turn(&t, HALLS, runs, SWEEPS, lent) == 0);
        printf("turn %2d: sweeps done", ++turns);
        for (int i = 0; i < HALLS; i++) printf(" %3d%s", (int)runs[i].sweeps, runs[i].stage == WAGONPLAN_OPEN ? " " : ".");
        printf("\n");
    }
    return turns;
}

// The hall's run alone gives the same record, factor and answer.
static void alone(int hall, const wagonplan_run *run, const double *factor, const wagonplan_result *x, const uint8_t *b) {
    wagonplan_table t = table_of(hall);
    wagonplan_run by_itself;
    wagonplan_result y;
    double own[64] = {0};
    uint8_t chosen[WAGONS] = {0};
    wagonplan_f64_mut lent = {own, 64};
    memset(&by_itself, 0, sizeof by_itself);
    open_run(hall, own, 64, &by_itself);
    expect("swept", wagonplan_sweep(&by_itself, &t, (uint32_t)settings[hall].most, lent) == 0);
    finish_run(hall, &by_itself, own, &y, chosen);
    expect("the run alone has the same record", memcmp(run, &by_itself, sizeof *run) == 0);
    expect("the same factor", memcmp(factor, own, (size_t)(run->size * run->rank) * sizeof *own) == 0);
    expect("the same answer", memcmp(x, &y, sizeof y) == 0 && memcmp(b, chosen, t.n) == 0);
}

int main(void) {
    static const char *const statuses[] = {"all sweeps made", "stopped at a tolerance", "stopped as the objective rose"};
    wagonplan_run runs[HALLS];
    double factors[FACTORS] = {0};
    size_t length = 0;
    uint32_t seed = 2026;
    memset(runs, 0, sizeof runs);
    expect("header and archive belong together", wagonplan_fits());
    for (int k = 0; k < 64; k++) seed = seed * 1664525 + 1013904223, normals[k] = (double)(seed >> 8) / (1 << 23) - 1.0;
    for (int i = 0; i < HALLS; i++) {
        open_run(i, factors + length, FACTORS - length, &runs[i]);
        length += (size_t)(runs[i].size * runs[i].rank);
    }
    printf("%d turns of %d sweeps; a dot is a run that has stopped\n", share(runs, factors, length), SWEEPS);
    length = 0;
    for (int i = 0; i < HALLS && !failures; i++) {
        wagonplan_result x;
        uint8_t b[WAGONS] = {0};
        finish_run(i, &runs[i], factors + length, &x, b);
        printf("hall %d: %s after %d sweeps, cost %.3f, no choice costs less than %.3f, stores", i + 1, statuses[x.status], (int)x.sweeps, wagonplan_eighth(x.cost),
               wagonplan_eighth(x.floor));
        for (size_t k = 0; k < halls[i].n; k++) printf(" %d", b[k]);
        printf("\n");
        alone(i, &runs[i], factors + length, &x, b);
        length += (size_t)(runs[i].size * runs[i].rank);
    }
    printf("three halls: %s\n", failures ? "FAILED" : "ok");
    return failures != 0;
}
