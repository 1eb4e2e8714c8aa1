// time_step RULE NUMBER RANK CALLS: nanoseconds of a `sweep` of one step, and of a step alone, on the hall and from the factor of standard input, as `oracle
// problem` prints them; each goes on with the factor of the one before. A sweep of one step takes the numbers of the table, makes the sign table, sets its diagonal
// aside and makes one step. A step alone is the difference of a sweep of 18 steps and of one, divided by 17; between them no check is due.
#include <string.h>
#include "timed.h"
#include "wagonplan.h"

enum { ROOM = WAGONPLAN_ENTRIES_MOST, STEPS = 18 };
static uint16_t rows[ROOM], cols[ROOM];
static int64_t values[ROOM], c[WAGONPLAN_WAGONS_MOST];
static double factor[WAGONPLAN_FACTOR_MOST];

static wagonplan_table hall(void) {
    size_t n = word(), count = word();
    if (WAGONPLAN_WAGONS_MOST < n || ROOM < count) exit(2);
    for (size_t k = 0; k < count; k++) rows[k] = (uint16_t)word(), cols[k] = (uint16_t)word(), values[k] = (int64_t)word();
    if (word() != n) exit(2);
    for (size_t i = 0; i < n; i++) c[i] = (int64_t)word();
    wagonplan_table t = {n, count, {rows, count}, {cols, count}, {values, count}, {c, n}};
    return t;
}

// The least nanoseconds of a sweep of k steps, over batches of so many.
static double least(const wagonplan_table *t, wagonplan_run run, uint32_t k, size_t calls) {
    wagonplan_f64_mut lent = {factor, (size_t)(run.size * run.rank)};
    double best = 1e9;
    for (int b = 0; b < BATCHES; b++) {
        double started = now(), took;
        for (size_t made = 0; made < calls; made++) {
            wagonplan_run again = run;
            if (wagonplan_sweep(&again, t, k, lent)) exit(3);
        }
        took = (now() - started) / (double)calls;
        if (took < best) best = took;
    }
    return 1e9 * best;
}

int main(int argc, char **argv) {
    if (argc != 5) return 2;
    size_t rank = (size_t)atoi(argv[3]), calls = (size_t)atoi(argv[4]);
    wagonplan_table t = hall();
    // behind a check, so that the next is due 19 sweeps later; no tolerance stops it
    wagonplan_run run = {t.n + 1, rank, (uint64_t)atoi(argv[1]), atof(argv[2]), 1001, 1e300, -1.0, -1.0, UINT32_MAX, 0, WAGONPLAN_OPEN, WAGONPLAN_ALL_SWEEPS, 0};
    if (word() != run.size * rank || WAGONPLAN_FACTOR_MOST < run.size * rank || calls < 1) return 2;
    for (size_t k = 0; k < run.size * rank; k++) {
        uint64_t bits = word();
        memcpy(&factor[k], &bits, 8);
    }
    double one = least(&t, run, 1, calls), many = least(&t, run, STEPS, calls);
    printf("%.0f %.0f\n", one, (many - one) / (STEPS - 1));
    return 0;
}
