// The calls as a controller's host uses them: 01's worked example by the record call, with a refusal and slices that are too short, two wagons of which
// one is pinned, then the first problem by open, sweep and finish, a search from signs of its own, and how far the choices of two answers are apart.
#include <pthread.h>
#include <stdio.h>
#include <stdlib.h>
#include "wagonplan.h"

static int failures = 0;

static void expect(const char *what, int holds) {
    printf("  %s: %s\n", what, holds ? "yes" : "NO");
    failures += !holds;
}

static uint8_t said(uint8_t number) {
    printf("  returned %d. %s\n", number, wagonplan_sentence(number));
    return number;
}

// ---- the record call

// One wagon: H_00 = 2, c_0 = -3.
static const uint8_t example[] = {
    0, 0, 0, 92, 1,                                                        // length of the rest, version
    1, 0, 1, 0, 0, 0, 0, 0, 0, 0, 0, 0, 2,                                 // n, entry count, H_00
    0xFF, 0xFF, 0xFF, 0xFF, 0xFF, 0xFF, 0xFF, 0xFD,                        // c_0
    0, 3, 0, 0, 0, 0, 0, 0, 0, 0,                                          // rank, rule and its number
    0, 0, 0, 0, 0, 0, 0, 0,                                                // most sweeps, minimum
    0, 0, 0, 0, 0, 0, 0, 0, 0, 0, 0, 0, 0, 0, 0, 0,                        // tolerances
    1, 2, 0x3F, 0xF0, 0, 0, 0, 0, 0, 0, 0x3F, 0xF0, 0, 0, 0, 0, 0, 0,      // W, start by signs 1.0 1.0
    0, 1, 0x3F, 0xF0, 0, 0, 0, 0, 0, 0, 0, 0, 0, 0, 0, 0, 0, 0             // one draw, 1.0 0.0
};
static const uint8_t example_answer[] = {
    0, 0, 0, 0x39, 1, 0, 2, 1, 0, 0, 0, 0,                                 // length, version, status, rank, n, sweeps
    0, 0, 0, 0, 0, 0, 0, 0, 0xC0, 0, 0, 0, 0, 0, 0, 0x28,                  // relaxed objective, float bound
    0xFF, 0xFF, 0xFF, 0xFF, 0xFF, 0xFF, 0xFF, 0xF0, 0, 0, 0, 0, 0, 0, 0, 0, // floor, rounded cost
    0xFF, 0xFF, 0xFF, 0xFF, 0xFF, 0xFF, 0xFF, 0xF0, 0, 0, 0, 0, 0, 0, 0, 1, // cost, rounds
    1                                                                      // the wagon's store
};

// Two wagons of which the first may not move: H_01 = H_10 = 3, c = -1, -1, wagon 0 pinned to store 0.
static const uint8_t pinned_job[] = {
    0, 0, 0, 113, 2,                                                       // length of the rest, version 2
    2, 0, 2, 0, 1, 0, 0, 0, 0, 0, 0, 0, 3, 1, 0, 0, 0, 0, 0, 0, 0, 0, 3,   // n, entry count, H_01, H_10
    0xFF, 0xFF, 0xFF, 0xFF, 0xFF, 0xFF, 0xFF, 0xFF,                        // c_0
    0xFF, 0xFF, 0xFF, 0xFF, 0xFF, 0xFF, 0xFF, 0xFF,                        // c_1
    1, 0, 0,                                                               // one pin: wagon 0 in store 0
    0, 3, 0, 0, 0, 0, 0, 0, 0, 0,                                          // from here on as for one wagon: rank, rule and its number
    0, 0, 0, 0, 0, 0, 0, 0,                                                // most sweeps, minimum
    0, 0, 0, 0, 0, 0, 0, 0, 0, 0, 0, 0, 0, 0, 0, 0,                        // tolerances
    1, 2, 0x3F, 0xF0, 0, 0, 0, 0, 0, 0, 0x3F, 0xF0, 0, 0, 0, 0, 0, 0,      // W, start by signs 1.0 1.0: wagon 1 and the anchor
    0, 1, 0x3F, 0xF0, 0, 0, 0, 0, 0, 0, 0, 0, 0, 0, 0, 0, 0, 0             // one draw, 1.0 0.0
};
static const uint8_t pinned_answer[] = {
    0, 0, 0, 0x3A, 1, 0, 2, 2, 0, 0, 0, 0,                                 // length, version, status, rank, n, sweeps
    0, 0, 0, 0, 0, 0, 0, 0, 0xBF, 0xF0, 0, 0, 0, 0, 0, 0x28,               // relaxed objective, float bound
    0xFF, 0xFF, 0xFF, 0xFF, 0xFF, 0xFF, 0xFF, 0xF8, 0, 0, 0, 0, 0, 0, 0, 0, // floor, rounded cost
    0xFF, 0xFF, 0xFF, 0xFF, 0xFF, 0xFF, 0xFF, 0xF8, 0, 0, 0, 0, 0, 0, 0, 1, // cost, rounds
    0, 1                                                                   // the wagons' stores
};
enum { STORE_OF_THE_PIN = 46 }; // where its byte stands in the job

enum { UNWRITTEN = 0xA5, TAIL = 13, SLICE = WAGONPLAN_ANSWER + TAIL };
static uint8_t *workspace, *answer;

static int unwritten(const uint8_t *bytes, size_t from, size_t to) {
    while (from < to && bytes[from] == UNWRITTEN) from++;
    return from == to;
}

// The call on fresh slices, of which so many bytes are lent.
static uint8_t call(const uint8_t *job, size_t job_len, size_t workspace_len, size_t answer_len) {
    wagonplan_u8 lent = {job, job_len};
    wagonplan_u8_mut room = {workspace, workspace_len}, to = {answer, answer_len};
    memset(workspace, UNWRITTEN, WAGONPLAN_WORKSPACE);
    memset(answer, UNWRITTEN, SLICE);
    return said(wagonplan_answer(lent, room, to));
}

static uint64_t number_at(const uint8_t *bytes, size_t at, size_t count) {
    uint64_t x = 0;
    for (size_t k = 0; k < count; k++) x = x << 8 | bytes[at + k];
    return x;
}

static double double_at(const uint8_t *bytes, size_t at) { return wagonplan_double_of(number_at(bytes, at, 8)); }
static double cost_at(const uint8_t *bytes, size_t at) { return wagonplan_eighth((int64_t)number_at(bytes, at, 8)); }

static void print_answer(const uint8_t *a) {
    static const char *const statuses[] = {"all sweeps made", "stopped at a tolerance", "stopped as the objective rose"};
    printf("  status %d (%s), rank %d, sweeps %u\n", a[WAGONPLAN_AT_STATUS], statuses[a[WAGONPLAN_AT_STATUS]], a[WAGONPLAN_AT_RANK],
           (unsigned)number_at(a, WAGONPLAN_AT_SWEEPS, 4));
    printf("  relaxed objective %.17g, float bound %.17g\n", double_at(a, WAGONPLAN_AT_RELAXED), double_at(a, WAGONPLAN_AT_BOUND));
    printf("  cost %.3f, searched from %.3f in %llu round(s); no choice costs less than %.3f\n", cost_at(a, WAGONPLAN_AT_COST),
           cost_at(a, WAGONPLAN_AT_ROUNDED_COST), (unsigned long long)number_at(a, WAGONPLAN_AT_ROUNDS, 8), cost_at(a, WAGONPLAN_AT_FLOOR));
    for (int i = 0; i < a[WAGONPLAN_AT_WAGONS]; i++) printf("  wagon %d goes into store %d\n", i, a[WAGONPLAN_AT_CHOICE + i]);
}

static void accepted(void) {
    printf("the worked example\n");
    expect("accepted", call(example, sizeof example, WAGONPLAN_WORKSPACE, SLICE) == 0);
    expect("the answer is 01's", memcmp(answer, example_answer, sizeof example_answer) == 0);
    expect("the rest of the answer slice is kept", unwritten(answer, sizeof example_answer, SLICE));
    if (!failures) print_answer(answer);
}

static void pinned(void) {
    printf("two wagons, the first pinned to store 0\n");
    expect("accepted", call(pinned_job, sizeof pinned_job, WAGONPLAN_WORKSPACE, SLICE) == 0);
    expect("the answer is the one worked by hand", memcmp(answer, pinned_answer, sizeof pinned_answer) == 0);
    if (!failures) print_answer(answer);
}

// The job with one byte changed: what is said, and nothing else is written.
static void refused(const char *what, const uint8_t *from, size_t length, size_t at, uint8_t byte, uint8_t number) {
    uint8_t job[sizeof pinned_job], refusal[WAGONPLAN_REFUSAL] = {0, 0, 0, 2, 1, 0};
    memcpy(job, from, length);
    job[at] = byte, refusal[5] = number;
    printf("%s: refused by %d\n", what, number);
    expect("so it is", call(job, length, WAGONPLAN_WORKSPACE, SLICE) == number);
    expect("the six bytes are written", memcmp(answer, refusal, sizeof refusal) == 0);
    expect("the rest of the answer slice is kept", unwritten(answer, sizeof refusal, SLICE));
    expect("the workspace is kept", unwritten(workspace, 0, WAGONPLAN_WORKSPACE));
}

static void too_short(const char *what, size_t job_len, size_t workspace_len, size_t answer_len) {
    printf("%s\n", what);
    expect("refused by 31", call(example, job_len, workspace_len, answer_len) == 31);
    expect("nothing is written", unwritten(answer, 0, SLICE) && unwritten(workspace, 0, WAGONPLAN_WORKSPACE));
}

// ---- the same run by its steps

static uint64_t levels[WAGONPLAN_SEARCH_WORKSPACE];

static const uint16_t at_0[] = {0};
static const int64_t h_00[] = {2}, c_0[] = {-3};
static const wagonplan_table table = {1, 1, {at_0, 1}, {at_0, 1}, {h_00, 1}, {c_0, 1}};
static const int64_t no_c[] = {0};
static const wagonplan_table no_cost = {1, 0, {at_0, 0}, {at_0, 0}, {h_00, 0}, {no_c, 1}};

static void run_steps(void) {
    static const double signs[] = {1.0, 1.0}, draw[] = {1.0, 0.0};
    wagonplan_settings settings = {0, WAGONPLAN_COORD_NO_STEP, 0.0, 0, 0, 0.0, 0.0, WAGONPLAN_START_SIGNS};
    wagonplan_f64 numbers = {signs, 2}, draws = {draw, 2};
    double rows[4], multipliers[2];
    uint8_t b[1];
    wagonplan_f64_mut factor = {rows, 4}, duals = {multipliers, 2};
    wagonplan_f64 factor_read = {rows, 4};
    wagonplan_u8_mut choice = {b, 1};
    wagonplan_u64_mut room = {levels, WAGONPLAN_SEARCH_WORKSPACE};
    wagonplan_run run;
    wagonplan_result x;
    memset(&run, 0, sizeof run), memset(&x, 0, sizeof x);
    printf("the same by open, sweep and finish\n");
    expect("opened", said(wagonplan_open(&table, &settings, numbers, factor, &run)) == 0);
    expect("of rank 2, stopped at once", run.rank == 2 && run.size == 2 && run.stage == WAGONPLAN_STOPPED);
    expect("a sweep is refused by 32", said(wagonplan_sweep(&run, &table, 1, factor)) == 32);
    expect("finished", said(wagonplan_finish(&run, &table, 1, 1, draws, factor_read, choice, duals, room, &x)) == 0);
    expect("with the figures of the record", x.status == WAGONPLAN_ALL_SWEEPS && x.n == 1 && x.cost == -16 && x.rounded_cost == 0 && x.floor == -16
           && x.rounds == 1 && b[0] == 1 && wagonplan_bits_of(x.relaxed_objective) == 0);
    printf("  cost %.3f, relaxed objective %.17g\n", wagonplan_eighth(x.cost), x.relaxed_objective);
    settings.most = 3, settings.minimum = 3;
    numbers.len = 2;
    expect("with sweeps a start by signs takes draws too: 31", said(wagonplan_open(&table, &settings, numbers, factor, &run)) == 31);
    settings.start = WAGONPLAN_START_FACTOR, settings.rank = 1;
    expect("opened with 3 sweeps, of rank 1", said(wagonplan_open(&table, &settings, numbers, factor, &run)) == 0);
    expect("one sweep", said(wagonplan_sweep(&run, &table, 1, factor)) == 0 && run.sweeps == 1);
    expect("a finish before the stop is refused by 32", said(wagonplan_finish(&run, &table, 1, 1, draws, factor_read, choice, duals, room, &x)) == 32);
    expect("the others", said(wagonplan_sweep(&run, &table, 9, factor)) == 0 && run.stage == WAGONPLAN_STOPPED);
    expect("in which every row moved", run.standing == 0);
    expect("finished", said(wagonplan_finish(&run, &table, 1, 1, draws, factor_read, choice, duals, room, &x)) == 0);
    expect("opened over a table of no cost", said(wagonplan_open(&no_cost, &settings, numbers, factor, &run)) == 0);
    expect("swept", said(wagonplan_sweep(&run, &no_cost, 9, factor)) == 0 && run.sweeps == 3);
    expect("finished", said(wagonplan_finish(&run, &no_cost, 1, 1, draws, factor_read, choice, duals, room, &x)) == 0);
    expect("no row moved: 2 stood in each of 3 sweeps", run.standing == 6 && x.standing == 6);
    printf("  %d rows left standing in %d sweeps\n", (int)x.standing, (int)x.sweeps);
}

static void search_alone(void) {
    uint16_t rows[5], cols[5];
    int64_t values[5], objective = 0, cost = 0, floor = 0;
    uint64_t rounds = 0;
    size_t entries = 0;
    static const uint8_t start[] = {0, 0};
    uint8_t signs[2], b[1];
    wagonplan_entries out = {{rows, 5}, {cols, 5}, {values, 5}};
    wagonplan_u8 from = {start, 2}, found = {signs, 2}, chosen = {b, 1};
    wagonplan_u8_mut to = {signs, 2}, choice = {b, 1};
    wagonplan_u64_mut room = {levels, WAGONPLAN_SEARCH_WORKSPACE};
    wagonplan_sign_table t = {2, 0, {rows, 5}, {cols, 5}, {values, 5}};
    printf("the sign table of the same, and a search from the signs + +\n");
    expect("made", said(wagonplan_qubo_sign_table(&table, out, &entries)) == 0);
    t.count = entries;
    expect("searched", said(wagonplan_beam_search(&t, 1, from, to, room, &objective, &rounds)) == 0);
    expect("to the cost of the record", objective == -16 && rounds == 1);
    expect("which the signs have", wagonplan_obj_rounded(&t, found, &objective) == 0 && objective == -16);
    expect("and their choice", wagonplan_qubo_binary_from_sign_solution(2, found, choice) == 0 && b[0] == 1);
    expect("whose cost it is", wagonplan_eval_qubo_objective(&table, chosen, &cost) == 0 && cost == -16);
    expect("above the floor", wagonplan_floor_eighths(&t, &floor) == 0 && floor <= cost);
}

// ---- two answers compared

// The choice of an answer record in words. Stores are bytes as signs are; the wagons are all there is, without an anchor.
static uint8_t choice_of(const uint8_t *record, uint64_t *words) {
    wagonplan_u8 stores = {record + WAGONPLAN_AT_CHOICE, record[WAGONPLAN_AT_WAGONS]};
    wagonplan_u64_mut to = {words, WAGONPLAN_SIGN_WORDS};
    return wagonplan_pack_signs(stores.len, stores, to);
}

static void compared(void) {
    uint8_t other[sizeof pinned_answer];
    uint64_t x[WAGONPLAN_SIGN_WORDS], y[WAGONPLAN_SIGN_WORDS], apart = 9;
    wagonplan_u64 one = {x, WAGONPLAN_SIGN_WORDS}, two = {y, WAGONPLAN_SIGN_WORDS}, cut = {y, wagonplan_sign_words(2) - 1};
    memcpy(other, pinned_answer, sizeof other);
    other[WAGONPLAN_AT_CHOICE + 1] = 0;
    printf("the answer with pins, and one with wagon 1 in the other store\n");
    expect("packed", said(choice_of(pinned_answer, x)) == 0 && said(choice_of(other, y)) == 0);
    expect("wagon 1 alone is in store 1", x[0] == 2 && x[1] == 0 && y[0] == 0 && y[1] == 0);
    expect("one wagon differs", said(wagonplan_distance(2, one, two, &apart)) == 0 && apart == 1);
    expect("none from itself", wagonplan_distance(2, one, one, &apart) == 0 && apart == 0);
    expect("a choice of one word is refused by 31", said(wagonplan_distance(2, one, cut, &apart)) == 31 && apart == 0);
    expect("a choice of no wagons by 13", said(wagonplan_distance(0, one, two, &apart)) == 13 && apart == 0);
}

// ---- on a stack of the size that the header names

static void *everything(void *unused) {
    expect("header and archive belong together", wagonplan_fits());
    accepted();
    pinned();
    refused("version 0", example, sizeof example, 4, 0, 12);
    refused("a pin to store 2", pinned_job, sizeof pinned_job, STORE_OF_THE_PIN, 2, 21);
    too_short("an answer slice of 314 bytes", sizeof example, WAGONPLAN_WORKSPACE, WAGONPLAN_ANSWER - 1);
    too_short("a workspace of 16,383 bytes", sizeof example, WAGONPLAN_WORKSPACE - 1, SLICE);
    too_short("the same with a job cut short: 31 comes first", 3, WAGONPLAN_WORKSPACE - 1, SLICE);
    run_steps();
    search_alone();
    compared();
    return unused;
}

int main(void) {
    enum { OWN = 65536 }; // what printf and the thread take
    pthread_attr_t attr;
    pthread_t thread;
    workspace = malloc(WAGONPLAN_WORKSPACE), answer = malloc(SLICE);
    if (!workspace || !answer || pthread_attr_init(&attr) || pthread_attr_setstacksize(&attr, WAGONPLAN_STACK + OWN)) return 1;
    if (pthread_create(&thread, &attr, everything, 0) || pthread_join(thread, 0)) return 1;
    free(workspace), free(answer);
    printf("example host: %s\n", failures ? "FAILED" : "ok");
    return failures != 0;
}
