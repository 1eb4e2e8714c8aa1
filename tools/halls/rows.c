// Makes the run of a job without pins, of version 1 or 3 (standard input), again by the library's open, sweep and finish, and writes what the finish gives, a line `name=value`
// for each; `standing`, the rows that the sweeps left as they were, is what the answer record doesn't hold. With --ranges the low ends of the costs follow the job, 8 bytes for
// each entry and each wagon: the job's own costs are then the high ends, the finish is the one over ranges, and its figures are written too. Ends with 1 and a sentence where a call refuses.
#include <stdio.h>
#include <stdlib.h>
#include <string.h>
#include "wagonplan.h"

// Arrays hold as many as a job's bytes can say, so that reading can't pass them; the calls refuse what is above their own limits.
enum { ENTRIES = WAGONPLAN_JOB_MOST / 10, NUMBERS = WAGONPLAN_JOB_MOST / 8, BYTE_MOST = 255 };
static uint8_t job[WAGONPLAN_JOB_MOST + 8 * (ENTRIES + BYTE_MOST) + 1], choice[BYTE_MOST];
static uint64_t workspace[WAGONPLAN_SEARCH_WORKSPACE];
static uint16_t rows[ENTRIES], cols[ENTRIES];
static int64_t values[ENTRIES], costs[BYTE_MOST], low_values[ENTRIES], low_costs[BYTE_MOST];
static double start[NUMBERS], draws[NUMBERS], factor[WAGONPLAN_FACTOR_MOST], duals[WAGONPLAN_SIGNS_MOST];
static size_t length, at;

static void end(const char *sentence) {
    fprintf(stderr, "%s\n", sentence);
    exit(1);
}

static void held(const char *call, uint8_t number) {
    if (number == 0) return;
    fprintf(stderr, "The call %s was refused by %d: ", call, number);
    end(wagonplan_sentence(number));
}

// ---- the job

static uint64_t take(size_t bytes) {
    uint64_t x = 0;
    for (; bytes > 0; bytes--) {
        if (at == length) end("The job is cut short.");
        x = x << 8 | job[at++];
    }
    return x;
}

static double take_double(void) { return wagonplan_double_of(take(8)); }

static wagonplan_f64 take_doubles(double *to, size_t many) {
    wagonplan_f64 taken = {to, many};
    for (size_t k = 0; k < many; k++) to[k] = take_double();
    return taken;
}

// The frame; answers the version.
static uint64_t take_frame(int ranges) {
    length = fread(job, 1, sizeof job, stdin);
    size_t said = take(4) + 4;
    if ((ranges ? said : length) > WAGONPLAN_JOB_MOST) end("The job is too long.");
    if (ranges ? length < said : length != said) end("The job has another length than it says.");
    uint64_t version = take(1);
    if (version != 1 && version != 3) end("The job isn't of version 1 or 3.");
    return version;
}

static wagonplan_table take_table(void) {
    size_t n = take(1), count = take(2);
    wagonplan_table table = {n, count, {rows, count}, {cols, count}, {values, count}, {costs, n}};
    for (size_t k = 0; k < count; k++) {
        rows[k] = (uint16_t)take(1);
        cols[k] = (uint16_t)take(1);
        values[k] = (int64_t)take(8);
    }
    for (size_t i = 0; i < n; i++) costs[i] = (int64_t)take(8);
    return table;
}

// The settings, with the width that stands among them.
static wagonplan_settings take_settings(size_t *width) {
    wagonplan_settings s;
    s.rank = take(1), s.rule = take(1), s.rule_number = take_double();
    s.most = take(4), s.minimum = take(4);
    s.objective_tolerance = take_double(), s.stationarity_tolerance = take_double();
    *width = take(1), s.start = take(1);
    return s;
}

// How many doubles the start has.
static size_t start_count(const wagonplan_settings *s, size_t m, size_t rank) {
    if (s->start != WAGONPLAN_START_SIGNS) return m * rank;
    return s->most > 0 && rank > 1 ? m + m * rank : m;
}

// ---- the run

static void print(const wagonplan_run *run, const wagonplan_result *x) {
    printf("size=%llu\nrule=%llu\n", (unsigned long long)run->size, (unsigned long long)run->rule);
    printf("status=%llu\nrank=%llu\n", (unsigned long long)x->status, (unsigned long long)x->rank);
    printf("sweeps=%llu\nstanding=%llu\n", (unsigned long long)x->sweeps, (unsigned long long)x->standing);
    printf("relaxed=%.17g\nbound=%.17g\n", x->relaxed_objective, x->float_bound);
    printf("floor=%lld\nrounded=%lld\ncost=%lld\n", (long long)x->floor, (long long)x->rounded_cost, (long long)x->cost);
    printf("rounds=%llu\nchoice=", (unsigned long long)x->rounds);
    for (uint64_t i = 0; i < x->n; i++) putchar('0' + choice[i]);
    putchar('\n');
}

static void finish_ranged(const wagonplan_run *run, const wagonplan_table *t, size_t width, size_t draw_count, wagonplan_f64 drawn, wagonplan_f64 swept,
                          wagonplan_u8_mut chosen, wagonplan_f64_mut multipliers, wagonplan_u64_mut room, wagonplan_result *result) {
    wagonplan_ranged_table ranged = {t->n, t->count, t->rows, t->cols, {low_values, t->count}, t->values, {low_costs, t->n}, t->c};
    wagonplan_ranged_result x;
    for (size_t k = 0; k < t->count; k++) low_values[k] = (int64_t)take(8);
    for (size_t i = 0; i < t->n; i++) low_costs[i] = (int64_t)take(8);
    held("finish_ranged", wagonplan_finish_ranged(run, &ranged, width, draw_count, drawn, swept, chosen, multipliers, room, &x));
    printf("low=%lld\nhigh=%lld\nlow_floor=%lld\n", (long long)x.low, (long long)x.high, (long long)x.low_floor);
    *result = x.result;
}

int main(int argc, char **argv) {
    int ranges = argc == 2 && !strcmp(argv[1], "--ranges");
    wagonplan_f64_mut rewritten = {factor, WAGONPLAN_FACTOR_MOST}, multipliers = {duals, WAGONPLAN_SIGNS_MOST};
    wagonplan_f64 swept = {factor, WAGONPLAN_FACTOR_MOST};
    wagonplan_u8_mut chosen = {choice, BYTE_MOST};
    wagonplan_u64_mut room = {workspace, WAGONPLAN_SEARCH_WORKSPACE};
    wagonplan_run run;
    wagonplan_result result;
    size_t width;
    if (!wagonplan_fits()) end("The archive isn't the header's.");
    uint64_t version = take_frame(ranges);
    wagonplan_table table = take_table();
    if (version > 1 && take(1) != 0) end("The job has pins.");
    wagonplan_settings settings = take_settings(&width);
    size_t m = table.n + 1, rank = settings.rank ? settings.rank : wagonplan_default_sdp_rank((uint16_t)m);
    wagonplan_f64 from = take_doubles(start, start_count(&settings, m, rank));
    size_t draw_count = take(2);
    wagonplan_f64 drawn = take_doubles(draws, draw_count * rank);
    if (!ranges && at != length) end("The job has bytes left over.");
    held("open", wagonplan_open(&table, &settings, from, rewritten, &run));
    if (run.stage == WAGONPLAN_OPEN) held("sweep", wagonplan_sweep(&run, &table, (uint32_t)settings.most, rewritten));
    if (ranges) finish_ranged(&run, &table, width, draw_count, drawn, swept, chosen, multipliers, room, &result);
    else held("finish", wagonplan_finish(&run, &table, width, draw_count, drawn, swept, chosen, multipliers, room, &result));
    if (at != length) end("The job has bytes left over.");
    print(&run, &result);
    return fflush(stdout) != 0;
}
