// Every call of the solver for C and C++. Link with libwagonplan.a (tools/archive.sh builds it).
//
// Which of two stores does each of n wagons go into? A choice b (a byte for each wagon, 0 or 1) costs half the sum of H_ij * b_i * b_j, plus the sum of
// c_i * b_i. `wagonplan_answer` takes a problem as a record of bytes and answers with one. `wagonplan_open`, `wagonplan_sweep` and `wagonplan_finish` are
// the steps of the same run. The others are the parts of it that stand alone.
//
// Every call answers a number: 0 where it is accepted, else that of the first thing that is wrong (`wagonplan_sentence`). A refused call writes nothing, but
// for `wagonplan_answer`, which writes the refusal's six bytes. An accepted call writes the front of a slice that is longer than it needs, and leaves the rest.
//
// The caller's duties, which no number can tell:
//  - A slice's pointer has as many elements as its length says, aligned as C wants it. It may be null only where the length is 0.
//  - A slice or struct that is written overlaps no other argument, and no one else reads or writes it during the call. What is only read may be shared.
//  - A run and its factor are changed by the calls alone: what else changes them is either seen (33) or gives the answer of the run that they then are.
//  - The stack has WAGONPLAN_STACK bytes left.
//
// The calls keep no state, take no lock, allocate nothing and make no system call, so they may be made from any thread, also at the same time. They are
// built for x86-64, System V. Each function below runs in the IEEE floating-point mode (MXCSR 1F80: round to nearest, subnormals kept, no traps) and then puts the
// caller's mode back, flags included; the wagonplan_raw_* functions do not, and in another mode their answers are not the ones that are proved.
#ifndef WAGONPLAN_H
#define WAGONPLAN_H

#if !defined(__x86_64__) || defined(_WIN32)
#error "libwagonplan.a is built for x86-64, System V"
#endif

#include <stddef.h>
#include <stdint.h>
#include <string.h>
#include <xmmintrin.h>

#ifdef __cplusplus
extern "C" {
#endif

// ---- sizes --------------------------------------------------------------------------------------

enum {
    WAGONPLAN_VERSION = 12, // of these declarations; `wagonplan_version` answers the archive's

    WAGONPLAN_JOB_MOST = 65536,         // bytes of a job record
    WAGONPLAN_WAGONS_MOST = 255,        // n; 127 in jobs of version 1 or 2
    WAGONPLAN_ENTRIES_MOST = 4096,      // entries of H
    WAGONPLAN_SIGNS_MOST = 256,         // m of a sign table
    WAGONPLAN_SIGN_ENTRIES_MOST = 4862, // entries of a sign table, and of a reduced problem's
    WAGONPLAN_RANK_MOST = 32,           //
    WAGONPLAN_WIDTH_MOST = 128,         // W, the width of the search
    WAGONPLAN_DRAWS_MOST = 1000,        //
    WAGONPLAN_START_MOST = 8448,        // doubles that a start takes
    WAGONPLAN_FACTOR_MOST = 8192,       // doubles of a factor: m * rank
    WAGONPLAN_WORKSPACE = 16384,        // bytes of workspace to lend with a job record, at least
    WAGONPLAN_SEARCH_WORKSPACE = 1024,  // words of 64 bits of workspace to lend to a finish or a search of any kind, at least
    WAGONPLAN_ANSWER = 315,             // bytes of answer slice to lend, at least: a record of 255 wagons
    WAGONPLAN_REFUSAL = 6,              // bytes of a refusal: 00 00 00 02 01 and the number
    WAGONPLAN_REDUCED_MOST = 1024,      // original size of a reduced problem
    WAGONPLAN_WALKED_MOST = 16,         // n of a house that is walked in full
    WAGONPLAN_SIGN_WORDS = 4,           // words of a choice of signs, at most (wagonplan_sign_words)
    WAGONPLAN_BLOCKS_MOST = 16,         // blocks of one call
    WAGONPLAN_RUN_WORDS = 13,           // words of a run record, of settings and of a result, as the raw functions take them
    WAGONPLAN_SETTING_WORDS = 8,
    WAGONPLAN_RESULT_WORDS = 11,
    WAGONPLAN_RANGED_WORDS = WAGONPLAN_RESULT_WORDS + 3, // words of a ranged result: three more than a result has
    WAGONPLAN_RUNS_MOST = 8,      // runs that share a turn
    WAGONPLAN_TURN_LEAST = 8,     // sweeps of a turn
    WAGONPLAN_TURN_MOST = 10000,  //
    WAGONPLAN_HALL_WORDS = 2,     // words of a hall's sizes, as the raw function takes them

    WAGONPLAN_STACK = 589824 // bytes of stack that a call may take
};

// What `wagonplan_size` can be asked for.
enum wagonplan_sizes {
    WAGONPLAN_SIZE_JOB,
    WAGONPLAN_SIZE_WAGONS,
    WAGONPLAN_SIZE_ENTRIES,
    WAGONPLAN_SIZE_SIGNS,
    WAGONPLAN_SIZE_SIGN_ENTRIES,
    WAGONPLAN_SIZE_RANK,
    WAGONPLAN_SIZE_WIDTH,
    WAGONPLAN_SIZE_DRAWS,
    WAGONPLAN_SIZE_START,
    WAGONPLAN_SIZE_WORKSPACE,
    WAGONPLAN_SIZE_ANSWER,
    WAGONPLAN_SIZE_REDUCED,
    WAGONPLAN_SIZE_RUN_WORDS,
    WAGONPLAN_SIZE_SETTING_WORDS,
    WAGONPLAN_SIZE_RESULT_WORDS,
    WAGONPLAN_SIZE_SEARCH_WORKSPACE,
    WAGONPLAN_SIZE_SIGN_WORDS,
    WAGONPLAN_SIZE_BLOCKS,
    WAGONPLAN_SIZE_RUNS,
    WAGONPLAN_SIZE_TURN_LEAST,
    WAGONPLAN_SIZE_TURN,
    WAGONPLAN_SIZE_HALL_WORDS
};

// ---- slices and tables --------------------------------------------------------------------------

typedef struct { const uint8_t *at; size_t len; } wagonplan_u8;
typedef struct { const uint16_t *at; size_t len; } wagonplan_u16;
typedef struct { const int64_t *at; size_t len; } wagonplan_i64;
typedef struct { const uint64_t *at; size_t len; } wagonplan_u64;
typedef struct { const double *at; size_t len; } wagonplan_f64;
typedef struct { uint8_t *at; size_t len; } wagonplan_u8_mut;
typedef struct { uint16_t *at; size_t len; } wagonplan_u16_mut;
typedef struct { int64_t *at; size_t len; } wagonplan_i64_mut;
typedef struct { uint64_t *at; size_t len; } wagonplan_u64_mut;
typedef struct { double *at; size_t len; } wagonplan_f64_mut;

// (H, c): n wagons, `count` entries of H in the first places of rows, cols and values, rising by row and column, each with its mirror; c in the first n of c.
typedef struct {
    size_t n, count;
    wagonplan_u16 rows, cols;
    wagonplan_i64 values, c;
} wagonplan_table;

// (H, c) known within ranges: a table's places once, and for each entry and each wagon a low and a high number.
typedef struct {
    size_t n, count;
    wagonplan_u16 rows, cols;
    wagonplan_i64 low, high, low_c, high_c;
} wagonplan_ranged_table;

// A sign table of m signs, the last of them the anchor; values in eighths.
typedef struct {
    size_t m, count;
    wagonplan_u16 rows, cols;
    wagonplan_i64 values;
} wagonplan_sign_table;

// Room for a table that a call writes.
typedef struct {
    wagonplan_u16_mut rows, cols;
    wagonplan_i64_mut values;
} wagonplan_entries;

// ---- a run --------------------------------------------------------------------------------------

enum { WAGONPLAN_GRAD, WAGONPLAN_GRAD_ADV, WAGONPLAN_COORD, WAGONPLAN_COORD_NO_STEP, WAGONPLAN_COORD_MOMENTUM }; // rules
enum { WAGONPLAN_START_RANDOM, WAGONPLAN_START_FACTOR, WAGONPLAN_START_SIGNS };
enum { WAGONPLAN_OPEN, WAGONPLAN_STOPPED }; // stages; any other than 0 is stopped
enum { WAGONPLAN_ALL_SWEEPS, WAGONPLAN_AT_TOLERANCE, WAGONPLAN_ROSE }; // statuses: all sweeps made, stopped at a tolerance, stopped as the objective rose

// What an open takes. A field that is above what a job record can hold is refused as the largest that it can (the counts are of 32 bits, rule and start of 8).
typedef struct {
    uint64_t rank;      // 0 means the least r with r * r >= 2m, plus 1, at most m, at least 1
    uint64_t rule;      //
    double rule_number; // step of rules 0 to 2, momentum of rule 4; rule 3 uses none
    uint64_t most;      // sweeps
    uint64_t minimum;
    double objective_tolerance;
    double stationarity_tolerance;
    uint64_t start;
} wagonplan_settings;

// A run between its calls.
typedef struct {
    uint64_t size; // m, n + 1
    uint64_t rank;
    uint64_t rule;
    double rule_number;
    uint64_t sweeps; // made
    double last_objective;
    double objective_tolerance;
    double stationarity_tolerance;
    uint64_t most;
    uint64_t minimum;
    uint64_t stage;
    uint64_t status;
    uint64_t standing; // rows that a sweep left as they were, counted over all sweeps under rules 3 and 4: their gradient's norm wasn't 1E-24 or more
} wagonplan_run;

// What a finish gives; costs in eighths.
typedef struct {
    uint64_t status;
    uint64_t rank;
    uint64_t n;
    uint64_t sweeps;
    double relaxed_objective;
    double float_bound;   // finite, and no choice costs less
    int64_t floor;        // no choice costs less
    int64_t rounded_cost; // of the choice that the search started from
    int64_t cost;         // of the choice in b
    uint64_t rounds;      // of the search
    uint64_t standing;    // the run's
} wagonplan_result;

// What a ranged finish gives: a finish's result on the high table, then three figures in eighths. Whatever costs within the ranges turn out to hold, the choice in b
// costs at least `low` and at most `high`, and no choice costs less than `low_floor`. result.floor is the high table's, and none for the others.
typedef struct {
    wagonplan_result result;
    int64_t low, high, low_floor;
} wagonplan_ranged_result;

// The tables of up to WAGONPLAN_RUNS_MOST runs: n and count of each, and their entries and costs one after the other, with nothing between: those of a run
// start behind those of the runs before it.
typedef struct {
    uint64_t n, count;
} wagonplan_hall;
typedef struct {
    const wagonplan_hall *halls; // as many as there are runs
    wagonplan_u16 rows, cols;
    wagonplan_i64 values, c;
} wagonplan_tables;

typedef char wagonplan_hall_is_words[sizeof(wagonplan_hall) == 8 * WAGONPLAN_HALL_WORDS ? 1 : -1];
typedef char wagonplan_run_is_words[sizeof(wagonplan_run) == 8 * WAGONPLAN_RUN_WORDS ? 1 : -1];
typedef char wagonplan_settings_are_words[sizeof(wagonplan_settings) == 8 * WAGONPLAN_SETTING_WORDS ? 1 : -1];
typedef char wagonplan_result_is_words[sizeof(wagonplan_result) == 8 * WAGONPLAN_RESULT_WORDS ? 1 : -1];
typedef char wagonplan_ranged_result_is_words[sizeof(wagonplan_ranged_result) == 8 * WAGONPLAN_RANGED_WORDS ? 1 : -1];

// ---- the archive's functions --------------------------------------------------------------------

// A slice is a pointer and the length behind it. Run record, settings and result are words of 64 bits in the order of the structs above: signed numbers in two's
// complement, doubles as their bits. For the floating-point mode see the top.
uint8_t wagonplan_raw_answer(const uint8_t *job, size_t, uint8_t *workspace, size_t, uint8_t *answer, size_t);
uint8_t wagonplan_raw_open(size_t n, size_t count, const uint16_t *rows, size_t, const uint16_t *cols, size_t, const int64_t *values, size_t, const int64_t *c,
                           size_t, const uint64_t *settings, size_t, const double *numbers, size_t, double *factor, size_t, uint64_t *words, size_t);
uint8_t wagonplan_raw_sweep(uint64_t *words, size_t, size_t n, size_t count, const uint16_t *rows, size_t, const uint16_t *cols, size_t, const int64_t *values,
                            size_t, const int64_t *c, size_t, uint32_t k, double *factor, size_t);
uint8_t wagonplan_raw_exchange_rule(uint64_t *words, size_t, uint64_t rule, double number);
uint8_t wagonplan_raw_finish(const uint64_t *words, size_t, size_t n, size_t count, const uint16_t *rows, size_t, const uint16_t *cols, size_t,
                             const int64_t *values, size_t, const int64_t *c, size_t, size_t width, size_t draw_count, const double *draws, size_t,
                             const double *factor, size_t, uint8_t *b, size_t, double *dual_variables, size_t, uint64_t *workspace, size_t, uint64_t *result,
                             size_t);
uint8_t wagonplan_raw_finish_ranged(const uint64_t *words, size_t, size_t n, size_t count, const uint16_t *rows, size_t, const uint16_t *cols, size_t,
                                    const int64_t *low, size_t, const int64_t *high, size_t, const int64_t *low_c, size_t, const int64_t *high_c, size_t,
                                    size_t width, size_t draw_count, const double *draws, size_t, const double *factor, size_t, uint8_t *b, size_t,
                                    double *dual_variables, size_t, uint64_t *workspace, size_t, uint64_t *result, size_t);
uint8_t wagonplan_raw_turn(size_t run_count, uint64_t *words, size_t, const uint64_t *sizes, size_t, uint32_t sweeps, const uint16_t *rows, size_t,
                           const uint16_t *cols, size_t, const int64_t *values, size_t, const int64_t *c, size_t, double *factors, size_t);
uint8_t wagonplan_raw_beam_search(size_t m, size_t count, const uint16_t *rows, size_t, const uint16_t *cols, size_t, const int64_t *values, size_t,
                                  size_t width, const uint8_t *start, size_t, uint8_t *out, size_t, uint64_t *workspace, size_t, int64_t *objective,
                                  uint64_t *rounds);
uint8_t wagonplan_raw_compute_rounded_sol(size_t m, size_t count, const uint16_t *rows, size_t, const uint16_t *cols, size_t, const int64_t *values, size_t,
                                          size_t rank, const double *factor, size_t, size_t draw_count, const double *draws, size_t, uint8_t *out, size_t,
                                          int64_t *objective);
uint8_t wagonplan_raw_dual_variables(size_t m, size_t count, const uint16_t *rows, size_t, const uint16_t *cols, size_t, const int64_t *values, size_t,
                                     size_t rank, const double *factor, size_t, double *out, size_t);
uint8_t wagonplan_raw_dual_variables_divided(size_t m, size_t count, const uint16_t *rows, size_t, const uint16_t *cols, size_t, const int64_t *values,
                                             size_t, size_t rank, const double *factor, size_t, double *out, size_t);
uint8_t wagonplan_raw_obj_rounded(size_t m, size_t count, const uint16_t *rows, size_t, const uint16_t *cols, size_t, const int64_t *values, size_t,
                                  const uint8_t *signs, size_t, int64_t *value);
uint8_t wagonplan_raw_floor_eighths(size_t m, size_t count, const uint16_t *rows, size_t, const uint16_t *cols, size_t, const int64_t *values, size_t,
                                    int64_t *value);
uint8_t wagonplan_raw_entrywise_lower_bound(size_t m, size_t count, const uint16_t *rows, size_t, const uint16_t *cols, size_t, const int64_t *values, size_t,
                                            double *value);
uint8_t wagonplan_raw_eval_qubo_objective(size_t n, size_t count, const uint16_t *rows, size_t, const uint16_t *cols, size_t, const int64_t *values, size_t,
                                          const int64_t *c, size_t, const uint8_t *b, size_t, int64_t *value);
uint8_t wagonplan_raw_least_choice(size_t n, size_t count, const uint16_t *rows, size_t, const uint16_t *cols, size_t, const int64_t *values, size_t,
                                   const int64_t *c, size_t, uint8_t *b, size_t, int64_t *cost, uint64_t *visited);
uint8_t wagonplan_raw_qubo_sign_table(size_t n, size_t count, const uint16_t *rows, size_t, const uint16_t *cols, size_t, const int64_t *values, size_t,
                                      const int64_t *c, size_t, uint16_t *to_rows, size_t, uint16_t *to_cols, size_t, int64_t *to_values, size_t,
                                      size_t *entries);
uint8_t wagonplan_raw_qubo_binary_from_sign_solution(size_t m, const uint8_t *signs, size_t, uint8_t *b, size_t);
uint8_t wagonplan_raw_distance(size_t m, const uint64_t *x, size_t, const uint64_t *y, size_t, uint64_t *signs);
uint8_t wagonplan_raw_pack_signs(size_t m, const uint8_t *signs, size_t, uint64_t *words, size_t);
uint8_t wagonplan_raw_from_principal_submatrix(size_t size, size_t count, const uint16_t *rows, size_t, const uint16_t *cols, size_t, const int64_t *values,
                                               size_t, const uint16_t *variable_map, size_t, const uint16_t *fixed_index, size_t, uint16_t *out_rows, size_t,
                                               uint16_t *out_cols, size_t, int64_t *out_values, size_t, size_t *entries);
uint8_t wagonplan_raw_lift_solution(size_t size, const uint16_t *variable_map, size_t, const uint16_t *fixed_index, size_t, const double *fixed_value, size_t,
                                    const double *reduced_solution, size_t, double *lifted, size_t);
uint8_t wagonplan_raw_block_search(size_t n, size_t count, const uint16_t *rows, size_t, const uint16_t *cols, size_t, const int64_t *values, size_t,
                                   const int64_t *c, size_t, const uint16_t *pinned, size_t, const uint8_t *stores, size_t, const uint8_t *present, size_t,
                                   const uint16_t *block_sizes, size_t, const uint16_t *block_wagons, size_t, size_t width, uint8_t *choice, size_t,
                                   int64_t *falls, size_t, uint64_t *workspace, size_t);
uint8_t wagonplan_raw_limited_search(size_t n, size_t count, const uint16_t *rows, size_t, const uint16_t *cols, size_t, const int64_t *values, size_t,
                                     const int64_t *c, size_t, const uint8_t *present, size_t, size_t k, size_t width, uint8_t *choice, size_t,
                                     uint64_t *workspace, size_t, int64_t *cost, uint64_t *rounds);
double wagonplan_raw_sqrt(double x);
double wagonplan_raw_eighth(int64_t v);
double wagonplan_raw_double_of(uint64_t bits);
uint64_t wagonplan_raw_bits_of(double x);
uint16_t wagonplan_raw_default_sdp_rank(uint16_t m);
uint32_t wagonplan_raw_version(void);
size_t wagonplan_raw_size(uint32_t which);

// ---- the calls ----------------------------------------------------------------------------------

// The floating-point mode is set to IEEE's and put back as it was.
enum { WAGONPLAN_IEEE_MODE = 0x1F80 };
static inline unsigned wagonplan_enter(void) {
    unsigned mode = _mm_getcsr();
    _mm_setcsr(WAGONPLAN_IEEE_MODE);
    return mode;
}
static inline uint8_t wagonplan_leave(unsigned mode, uint8_t number) {
    _mm_setcsr(mode);
    return number;
}

// The archive's version and sizes; 0 for a size that it doesn't know. A host that is built with this header holds them to the constants above.
static inline uint32_t wagonplan_version(void) { return wagonplan_raw_version(); }
static inline size_t wagonplan_size(enum wagonplan_sizes which) { return wagonplan_raw_size((uint32_t)which); }

// Whether archive and header belong together.
static inline int wagonplan_fits(void) {
    return wagonplan_version() == WAGONPLAN_VERSION && wagonplan_size(WAGONPLAN_SIZE_JOB) == WAGONPLAN_JOB_MOST
           && wagonplan_size(WAGONPLAN_SIZE_WAGONS) == WAGONPLAN_WAGONS_MOST && wagonplan_size(WAGONPLAN_SIZE_ENTRIES) == WAGONPLAN_ENTRIES_MOST
           && wagonplan_size(WAGONPLAN_SIZE_SIGNS) == WAGONPLAN_SIGNS_MOST && wagonplan_size(WAGONPLAN_SIZE_SIGN_ENTRIES) == WAGONPLAN_SIGN_ENTRIES_MOST
           && wagonplan_size(WAGONPLAN_SIZE_RANK) == WAGONPLAN_RANK_MOST && wagonplan_size(WAGONPLAN_SIZE_WIDTH) == WAGONPLAN_WIDTH_MOST
           && wagonplan_size(WAGONPLAN_SIZE_DRAWS) == WAGONPLAN_DRAWS_MOST && wagonplan_size(WAGONPLAN_SIZE_START) == WAGONPLAN_START_MOST
           && wagonplan_size(WAGONPLAN_SIZE_WORKSPACE) == WAGONPLAN_WORKSPACE && wagonplan_size(WAGONPLAN_SIZE_ANSWER) == WAGONPLAN_ANSWER
           && wagonplan_size(WAGONPLAN_SIZE_REDUCED) == WAGONPLAN_REDUCED_MOST && wagonplan_size(WAGONPLAN_SIZE_RUN_WORDS) == WAGONPLAN_RUN_WORDS
           && wagonplan_size(WAGONPLAN_SIZE_SETTING_WORDS) == WAGONPLAN_SETTING_WORDS
           && wagonplan_size(WAGONPLAN_SIZE_RESULT_WORDS) == WAGONPLAN_RESULT_WORDS && wagonplan_size(WAGONPLAN_SIZE_SIGN_WORDS) == WAGONPLAN_SIGN_WORDS
           && wagonplan_size(WAGONPLAN_SIZE_SEARCH_WORKSPACE) == WAGONPLAN_SEARCH_WORKSPACE && wagonplan_size(WAGONPLAN_SIZE_BLOCKS) == WAGONPLAN_BLOCKS_MOST
           && wagonplan_size(WAGONPLAN_SIZE_RUNS) == WAGONPLAN_RUNS_MOST
           && wagonplan_size(WAGONPLAN_SIZE_TURN_LEAST) == WAGONPLAN_TURN_LEAST && wagonplan_size(WAGONPLAN_SIZE_TURN) == WAGONPLAN_TURN_MOST
           && wagonplan_size(WAGONPLAN_SIZE_HALL_WORDS) == WAGONPLAN_HALL_WORDS;
}

// A job record. Numbers are big-endian, doubles are their bits; m is one more than the free wagons, which are n less the pins; r is the rank (see below).
//
//   bytes       field
//   4           length of the rest
//   1           version: 1, 2 with pins, or 3 with pins and up to 255 wagons
//   1           n, wagons; up to 127 in versions 1 and 2
//   2           count of entries
//   count * 10  entries, rising: row (1), column (1), value H_ij (8, signed); each has its mirror, equal
//   n * 8       c_i (8, signed)
//   1           from version 2 on: count of pins
//   pins * 2    from version 2 on: pins, in any order: wagon (1), its store, 0 or 1 (1); no wagon twice
//   1           rank; 0 means the least r with r * r >= 2m, plus 1, at most m, at least 1
//   1           rule, 0 to 4: Grad, GradAdv, Coord, CoordNoStep, CoordMomentum
//   8           the rule's number (a double; rule 3 reads it and uses none)
//   4, 4        most sweeps, minimum
//   8, 8        objective tolerance, stationarity tolerance (doubles)
//   1           W, the width of the search
//   1           start: 0 random, 1 factor, 2 signs
//   ..          the start's doubles: m * r for 0 and 1; for 2: m, then m * r more if most > 0 and r > 1
//   2           count of draws
//   ..          draws: count * r doubles
//
// A pinned wagon stays in its store. The run is that of the free wagons' table: H without the rows and columns of pinned ones, c_i with H_ij added for each j
// pinned to 1; start and draws are for its m, the start's rows in the free wagons' order. Status, rank, sweeps, relaxed objective, float bound and rounds of the
// answer are its own; floor and costs have the pinned wagons' own cost added; n and the choice are of all wagons.
//
// Where the fields of an answer record stand; the record has WAGONPLAN_AT_CHOICE + n bytes.
enum {
    WAGONPLAN_AT_LENGTH = 0,        // 4: length of the rest, 56 + n
    WAGONPLAN_AT_VERSION = 4,       // 1: 1, for jobs of every version
    WAGONPLAN_AT_STATUS = 5,        // 1: 0 all sweeps made, 1 stopped at a tolerance, 2 stopped as the objective rose
    WAGONPLAN_AT_RANK = 6,          // 1
    WAGONPLAN_AT_WAGONS = 7,        // 1: n
    WAGONPLAN_AT_SWEEPS = 8,        // 4: sweeps made
    WAGONPLAN_AT_RELAXED = 12,      // 8: relaxed objective, a double
    WAGONPLAN_AT_BOUND = 20,        // 8: float bound, a double: finite, and no choice of the free wagons costs less by the run's table
    WAGONPLAN_AT_FLOOR = 28,        // 8, signed eighths: no choice that keeps the pins costs less
    WAGONPLAN_AT_ROUNDED_COST = 36, // 8, signed eighths: cost of the choice that the search started from
    WAGONPLAN_AT_COST = 44,         // 8, signed eighths: cost of the choice below
    WAGONPLAN_AT_ROUNDS = 52,       // 8: rounds of the search
    WAGONPLAN_AT_CHOICE = 60        // n bytes, 0 or 1: the store of each wagon
};

// Answers the job: 0 and the answer record, or the number of the refusal and its six bytes over the front of the answer slice. 31 (a workspace of fewer than
// WAGONPLAN_WORKSPACE bytes, an answer slice of fewer than WAGONPLAN_ANSWER) writes nothing at all; only an accepted job writes the workspace.
static inline uint8_t wagonplan_answer(wagonplan_u8 job, wagonplan_u8_mut workspace, wagonplan_u8_mut answer) {
    unsigned mode = wagonplan_enter();
    return wagonplan_leave(mode, wagonplan_raw_answer(job.at, job.len, workspace.at, workspace.len, answer.at, answer.len));
}

// Opens a run over (H, c). `numbers` are the start's, as in a job record; the factor takes m * rank doubles, 8,192 at most.
static inline uint8_t wagonplan_open(const wagonplan_table *t, const wagonplan_settings *settings, wagonplan_f64 numbers, wagonplan_f64_mut factor,
                                     wagonplan_run *run) {
    uint64_t given[WAGONPLAN_SETTING_WORDS], words[WAGONPLAN_RUN_WORDS] = {0};
    unsigned mode = wagonplan_enter();
    uint8_t number;
    memcpy(given, settings, sizeof given);
    number = wagonplan_raw_open(t->n, t->count, t->rows.at, t->rows.len, t->cols.at, t->cols.len, t->values.at, t->values.len, t->c.at, t->c.len, given,
                                WAGONPLAN_SETTING_WORDS, numbers.at, numbers.len, factor.at, factor.len, words, WAGONPLAN_RUN_WORDS);
    if (number == 0) memcpy(run, words, sizeof words);
    return wagonplan_leave(mode, number);
}

// Up to k sweeps over the table given, which may be another than before, of as many wagons.
static inline uint8_t wagonplan_sweep(wagonplan_run *run, const wagonplan_table *t, uint32_t k, wagonplan_f64_mut factor) {
    uint64_t words[WAGONPLAN_RUN_WORDS];
    unsigned mode = wagonplan_enter();
    uint8_t number;
    memcpy(words, run, sizeof words);
    number = wagonplan_raw_sweep(words, WAGONPLAN_RUN_WORDS, t->n, t->count, t->rows.at, t->rows.len, t->cols.at, t->cols.len, t->values.at, t->values.len,
                                 t->c.at, t->c.len, k, factor.at, factor.len);
    if (number == 0) memcpy(run, words, sizeof words);
    return wagonplan_leave(mode, number);
}

// Another rule for a run that is open, with its number as in `wagonplan_settings`: sweeps made, last objective, tolerances, limits and rows left standing carry
// over, the factor isn't touched, and from the next sweep on the run goes by the new rule. A rule above 4 is 18, and so is a bad momentum, the new or the old;
// a stopped run is 32.
static inline uint8_t wagonplan_exchange_rule(wagonplan_run *run, uint64_t rule, double number) {
    uint64_t words[WAGONPLAN_RUN_WORDS];
    unsigned mode = wagonplan_enter();
    uint8_t answer;
    memcpy(words, run, sizeof words);
    answer = wagonplan_raw_exchange_rule(words, WAGONPLAN_RUN_WORDS, rule, number);
    if (answer == 0) memcpy(run, words, sizeof words);
    return wagonplan_leave(mode, answer);
}

// A turn of so many sweeps, 8 to 10,000, that up to eight runs share, each over its own table; their factors lie one after the other, as the tables do. With a
// runs not stopped each of them gets sweeps / a, the first sweeps % a of them one more; what a run doesn't use lapses. 25, then 26, then the first run that its
// own number (31, 33, 13 to 16, 18) refuses turns the whole turn down, and no run moves. `runs` and `t->halls` have run_count elements, up to eight.
static inline uint8_t wagonplan_turn(const wagonplan_tables *t, size_t run_count, wagonplan_run *runs, uint32_t sweeps, wagonplan_f64_mut factors) {
    uint64_t words[WAGONPLAN_RUNS_MOST * WAGONPLAN_RUN_WORDS] = {0}, sizes[WAGONPLAN_RUNS_MOST * WAGONPLAN_HALL_WORDS] = {0};
    size_t held = run_count <= WAGONPLAN_RUNS_MOST ? run_count : 0;
    unsigned mode = wagonplan_enter();
    uint8_t number;
    if (held) memcpy(words, runs, held * sizeof *runs);
    if (held) memcpy(sizes, t->halls, held * sizeof *t->halls);
    number = wagonplan_raw_turn(run_count, words, held * WAGONPLAN_RUN_WORDS, sizes, held * WAGONPLAN_HALL_WORDS, sweeps, t->rows.at, t->rows.len, t->cols.at,
                                t->cols.len, t->values.at, t->values.len, t->c.at, t->c.len, factors.at, factors.len);
    if (number == 0) memcpy(runs, words, held * sizeof *runs);
    return wagonplan_leave(mode, number);
}

// Rounds and searches from the factor of a stopped run, over the table given: draw_count * rank doubles of draws; n bytes of choice to b, m doubles to dual_variables.
// The workspace is WAGONPLAN_SEARCH_WORKSPACE words, which then hold anything. It changes neither run nor factor and may be repeated.
static inline uint8_t wagonplan_finish(const wagonplan_run *run, const wagonplan_table *t, size_t width, size_t draw_count, wagonplan_f64 draws,
                                       wagonplan_f64 factor, wagonplan_u8_mut b, wagonplan_f64_mut dual_variables, wagonplan_u64_mut workspace,
                                       wagonplan_result *result) {
    uint64_t words[WAGONPLAN_RUN_WORDS], given[WAGONPLAN_RESULT_WORDS] = {0};
    unsigned mode = wagonplan_enter();
    uint8_t number;
    memcpy(words, run, sizeof words);
    number = wagonplan_raw_finish(words, WAGONPLAN_RUN_WORDS, t->n, t->count, t->rows.at, t->rows.len, t->cols.at, t->cols.len, t->values.at, t->values.len,
                                  t->c.at, t->c.len, width, draw_count, draws.at, draws.len, factor.at, factor.len, b.at, b.len, dual_variables.at,
                                  dual_variables.len, workspace.at, workspace.len, given, WAGONPLAN_RESULT_WORDS);
    if (number == 0) memcpy(result, given, sizeof given);
    return wagonplan_leave(mode, number);
}

// The finish where costs are known within ranges: all that wagonplan_finish does, on the high table, and the figures of wagonplan_ranged_result. 23 where a low number
// is above its high one; 15 where either end's mirror is unequal; 16 by the larger absolute value of each range. The slices are a finish's, low and high `count`
// entries each, low_c and high_c n each.
static inline uint8_t wagonplan_finish_ranged(const wagonplan_run *run, const wagonplan_ranged_table *t, size_t width, size_t draw_count, wagonplan_f64 draws,
                                              wagonplan_f64 factor, wagonplan_u8_mut b, wagonplan_f64_mut dual_variables, wagonplan_u64_mut workspace,
                                              wagonplan_ranged_result *result) {
    uint64_t words[WAGONPLAN_RUN_WORDS], given[WAGONPLAN_RANGED_WORDS] = {0};
    unsigned mode = wagonplan_enter();
    uint8_t number;
    memcpy(words, run, sizeof words);
    number = wagonplan_raw_finish_ranged(words, WAGONPLAN_RUN_WORDS, t->n, t->count, t->rows.at, t->rows.len, t->cols.at, t->cols.len, t->low.at, t->low.len,
                                         t->high.at, t->high.len, t->low_c.at, t->low_c.len, t->high_c.at, t->high_c.len, width, draw_count, draws.at,
                                         draws.len, factor.at, factor.len, b.at, b.len, dual_variables.at, dual_variables.len, workspace.at, workspace.len,
                                         given, WAGONPLAN_RANGED_WORDS);
    if (number == 0) memcpy(result, given, sizeof given);
    return wagonplan_leave(mode, number);
}

// The local search alone, from the first m signs of `start` (0 for +, any other byte for -): the signs it ends at, as 0 and 1, their objective in eighths, and
// its rounds. The workspace is that of a finish.
static inline uint8_t wagonplan_beam_search(const wagonplan_sign_table *t, size_t width, wagonplan_u8 start, wagonplan_u8_mut out, wagonplan_u64_mut workspace,
                                            int64_t *objective, uint64_t *rounds) {
    unsigned mode = wagonplan_enter();
    return wagonplan_leave(mode, wagonplan_raw_beam_search(t->m, t->count, t->rows.at, t->rows.len, t->cols.at, t->cols.len, t->values.at, t->values.len, width,
                                                           start.at, start.len, out.at, out.len, workspace.at, workspace.len, objective, rounds));
}

// The first draw of least objective: its signs to `out`, the objective in eighths. A rank of 0 means the default rank of m.
static inline uint8_t wagonplan_compute_rounded_sol(const wagonplan_sign_table *t, size_t rank, wagonplan_f64 factor, size_t draw_count, wagonplan_f64 draws,
                                                    wagonplan_u8_mut out, int64_t *objective) {
    unsigned mode = wagonplan_enter();
    return wagonplan_leave(mode, wagonplan_raw_compute_rounded_sol(t->m, t->count, t->rows.at, t->rows.len, t->cols.at, t->cols.len, t->values.at,
                                                                   t->values.len, rank, factor.at, factor.len, draw_count, draws.at, draws.len, out.at,
                                                                   out.len, objective));
}

// The multipliers of the factor's m rows over the table, to the first m places of `out`.
static inline uint8_t wagonplan_dual_variables(const wagonplan_sign_table *t, size_t rank, wagonplan_f64 factor, wagonplan_f64_mut out) {
    unsigned mode = wagonplan_enter();
    return wagonplan_leave(mode, wagonplan_raw_dual_variables(t->m, t->count, t->rows.at, t->rows.len, t->cols.at, t->cols.len, t->values.at, t->values.len,
                                                              rank, factor.at, factor.len, out.at, out.len));
}

// The same, each divided by its row's product with itself: equation 8 of arXiv 0807.4423. The rank is given, 1 to WAGONPLAN_RANK_MOST; 0 is 17. A row that is
// zero, or whose squares are too small or too large for a double, gives what the division gives: NaN, an infinity or 0.
static inline uint8_t wagonplan_dual_variables_divided(const wagonplan_sign_table *t, size_t rank, wagonplan_f64 factor, wagonplan_f64_mut out) {
    unsigned mode = wagonplan_enter();
    return wagonplan_leave(mode, wagonplan_raw_dual_variables_divided(t->m, t->count, t->rows.at, t->rows.len, t->cols.at, t->cols.len, t->values.at,
                                                                      t->values.len, rank, factor.at, factor.len, out.at, out.len));
}

// The objective of m signs, in eighths.
static inline uint8_t wagonplan_obj_rounded(const wagonplan_sign_table *t, wagonplan_u8 signs, int64_t *value) {
    unsigned mode = wagonplan_enter();
    return wagonplan_leave(mode, wagonplan_raw_obj_rounded(t->m, t->count, t->rows.at, t->rows.len, t->cols.at, t->cols.len, t->values.at, t->values.len,
                                                           signs.at, signs.len, value));
}

// The floor under every objective, in eighths.
static inline uint8_t wagonplan_floor_eighths(const wagonplan_sign_table *t, int64_t *value) {
    unsigned mode = wagonplan_enter();
    return wagonplan_leave(mode, wagonplan_raw_floor_eighths(t->m, t->count, t->rows.at, t->rows.len, t->cols.at, t->cols.len, t->values.at, t->values.len,
                                                             value));
}

// The floor as a double, less a margin: finite, and no objective is less.
static inline uint8_t wagonplan_entrywise_lower_bound(const wagonplan_sign_table *t, double *value) {
    unsigned mode = wagonplan_enter();
    return wagonplan_leave(mode, wagonplan_raw_entrywise_lower_bound(t->m, t->count, t->rows.at, t->rows.len, t->cols.at, t->cols.len, t->values.at,
                                                                     t->values.len, value));
}

// The cost of a choice, in eighths: n bytes, 0 for 0 and any other for 1.
static inline uint8_t wagonplan_eval_qubo_objective(const wagonplan_table *t, wagonplan_u8 b, int64_t *value) {
    unsigned mode = wagonplan_enter();
    return wagonplan_leave(mode, wagonplan_raw_eval_qubo_objective(t->n, t->count, t->rows.at, t->rows.len, t->cols.at, t->cols.len, t->values.at,
                                                                   t->values.len, t->c.at, t->c.len, b.at, b.len, value));
}

// The choice of least cost: all 2^n are walked, choice k with the binary digit i of k at wagon i, and the first of least cost goes to the first n bytes of b,
// with its cost in eighths and how many choices were visited. No choice costs less, and each before it costs more. 24 where n is above WAGONPLAN_WALKED_MOST;
// then neither c nor b is asked for n places, and 16 counts a c that isn't there as 0.
static inline uint8_t wagonplan_least_choice(const wagonplan_table *t, wagonplan_u8_mut b, int64_t *cost, uint64_t *visited) {
    unsigned mode = wagonplan_enter();
    return wagonplan_leave(mode, wagonplan_raw_least_choice(t->n, t->count, t->rows.at, t->rows.len, t->cols.at, t->cols.len, t->values.at, t->values.len,
                                                            t->c.at, t->c.len, b.at, b.len, cost, visited));
}

// The sign table of (H, c), whose objective is the cost: count + 3n + 1 entries of room; how many there are goes to `entries`.
static inline uint8_t wagonplan_qubo_sign_table(const wagonplan_table *t, wagonplan_entries out, size_t *entries) {
    unsigned mode = wagonplan_enter();
    return wagonplan_leave(mode, wagonplan_raw_qubo_sign_table(t->n, t->count, t->rows.at, t->rows.len, t->cols.at, t->cols.len, t->values.at, t->values.len,
                                                               t->c.at, t->c.len, out.rows.at, out.rows.len, out.cols.at, out.cols.len, out.values.at,
                                                               out.values.len, entries));
}

// The choice of m signs: wagon i is 1 where its sign differs from the anchor's, the last.
static inline uint8_t wagonplan_qubo_binary_from_sign_solution(size_t m, wagonplan_u8 signs, wagonplan_u8_mut b) {
    unsigned mode = wagonplan_enter();
    return wagonplan_leave(mode, wagonplan_raw_qubo_binary_from_sign_solution(m, signs.at, signs.len, b.at, b.len));
}

// How many words a choice of m signs takes.
static inline size_t wagonplan_sign_words(size_t m) { return m <= 128 ? 2 : WAGONPLAN_SIGN_WORDS; }

// The first m of `signs` (0 for +, any other byte for -) as a choice in words: wagonplan_sign_words(m) of them, bit i % 64 of word i / 64 set where sign i is
// -, the bits behind the last sign 0. 13 where m is 0 or above WAGONPLAN_SIGNS_MOST.
static inline uint8_t wagonplan_pack_signs(size_t m, wagonplan_u8 signs, wagonplan_u64_mut words) {
    unsigned mode = wagonplan_enter();
    return wagonplan_leave(mode, wagonplan_raw_pack_signs(m, signs.at, signs.len, words.at, words.len));
}

// How many ones the exclusive or of two choices of m signs has, over the first wagonplan_sign_words(m) words of each: of packed choices, in how many signs
// they differ. Bits behind the last sign count as they are; words behind those are not read.
static inline uint8_t wagonplan_distance(size_t m, wagonplan_u64 x, wagonplan_u64 y, uint64_t *signs) {
    unsigned mode = wagonplan_enter();
    return wagonplan_leave(mode, wagonplan_raw_distance(m, x.at, x.len, y.at, y.len, signs));
}

// The table over the mapped indices alone: t->m is the original size, `count` entries of room; how many there are goes to `entries`.
static inline uint8_t wagonplan_from_principal_submatrix(const wagonplan_sign_table *t, wagonplan_u16 variable_map, wagonplan_u16 fixed_index,
                                                         wagonplan_entries out, size_t *entries) {
    unsigned mode = wagonplan_enter();
    return wagonplan_leave(mode, wagonplan_raw_from_principal_submatrix(
                                     t->m, t->count, t->rows.at, t->rows.len, t->cols.at, t->cols.len, t->values.at, t->values.len, variable_map.at,
                                     variable_map.len, fixed_index.at, fixed_index.len, out.rows.at, out.rows.len, out.cols.at, out.cols.len,
                                     out.values.at, out.values.len, entries));
}

// 0.0 at each of `size` places, over it the fixed values, over them the reduced solution, each at its index.
static inline uint8_t wagonplan_lift_solution(size_t size, wagonplan_u16 variable_map, wagonplan_u16 fixed_index, wagonplan_f64 fixed_value,
                                              wagonplan_f64 reduced_solution, wagonplan_f64_mut lifted) {
    unsigned mode = wagonplan_enter();
    return wagonplan_leave(mode, wagonplan_raw_lift_solution(size, variable_map.at, variable_map.len, fixed_index.at, fixed_index.len, fixed_value.at,
                                                             fixed_value.len, reduced_solution.at, reduced_solution.len, lifted.at, lifted.len));
}

// A house that is cleared block by block. The wagons of `pinned` may not move: each has a store, 0 or 1, in the same place of `stores`. `present` has a byte 0 or 1
// for each of n wagons, where they stand; pinned wagons are first set to their stores. There are as many blocks as `block_sizes` has places, at most
// WAGONPLAN_BLOCKS_MOST; block k has block_sizes[k] wagons, which stand in `block_wagons` behind those of block k - 1, in any order, each once. Blocks may share
// wagons, be empty, and name pinned wagons, which stay in their stores all the same.
typedef struct {
    wagonplan_u16 pinned;
    wagonplan_u8 stores, present;
    wagonplan_u16 block_sizes, block_wagons;
} wagonplan_house;

// Searches each block in turn with all other wagons held where they are, then all wagons that aren't pinned, each time by the local search of width 1 to
// WAGONPLAN_WIDTH_MOST from where the wagons stand. n bytes of choice, where they stand in the end; into falls[k] by how many eighths block k lowered the cost, 0 or more.
// The workspace is that of a finish.
static inline uint8_t wagonplan_block_search(const wagonplan_table *t, const wagonplan_house *house, size_t width, wagonplan_u8_mut choice,
                                             wagonplan_i64_mut falls, wagonplan_u64_mut workspace) {
    unsigned mode = wagonplan_enter();
    return wagonplan_leave(mode, wagonplan_raw_block_search(
                                     t->n, t->count, t->rows.at, t->rows.len, t->cols.at, t->cols.len, t->values.at, t->values.len, t->c.at, t->c.len,
                                     house->pinned.at, house->pinned.len, house->stores.at, house->stores.len, house->present.at, house->present.len,
                                     house->block_sizes.at, house->block_sizes.len, house->block_wagons.at, house->block_wagons.len, width, choice.at,
                                     choice.len, falls.at, falls.len, workspace.at, workspace.len));
}

// Rolls at most k of the n wagons: the local search of width 1 to WAGONPLAN_WIDTH_MOST from where they stand, `present`, a byte 0 or 1 for each, by single wagons, over
// choices in which at most k wagons stand in another store than there. n bytes of choice, where they stand in the end, with its cost in eighths and the search's
// rounds. It costs no more than `present`, and no choice that differs from it in one wagon and from `present` in at most k costs less. k is 0 to n; 0 gives
// `present` back. The workspace is that of a finish.
static inline uint8_t wagonplan_limited_search(const wagonplan_table *t, wagonplan_u8 present, size_t k, size_t width, wagonplan_u8_mut choice,
                                               wagonplan_u64_mut workspace, int64_t *cost, uint64_t *rounds) {
    unsigned mode = wagonplan_enter();
    return wagonplan_leave(mode, wagonplan_raw_limited_search(t->n, t->count, t->rows.at, t->rows.len, t->cols.at, t->cols.len, t->values.at, t->values.len,
                                                              t->c.at, t->c.len, present.at, present.len, k, width, choice.at, choice.len, workspace.at,
                                                              workspace.len, cost, rounds));
}

// The correctly rounded square root; NaN below 0.
static inline double wagonplan_sqrt(double x) {
    unsigned mode = wagonplan_enter();
    double root = wagonplan_raw_sqrt(x);
    _mm_setcsr(mode);
    return root;
}

// v eighths, rounded once where v has more than 53 digits.
static inline double wagonplan_eighth(int64_t v) {
    unsigned mode = wagonplan_enter();
    double x = wagonplan_raw_eighth(v);
    _mm_setcsr(mode);
    return x;
}

// A double of its bits and back, as records hold them: every NaN is 7FF8000000000000.
static inline double wagonplan_double_of(uint64_t bits) {
    unsigned mode = wagonplan_enter();
    double x = wagonplan_raw_double_of(bits);
    _mm_setcsr(mode);
    return x;
}
static inline uint64_t wagonplan_bits_of(double x) {
    unsigned mode = wagonplan_enter();
    uint64_t bits = wagonplan_raw_bits_of(x);
    _mm_setcsr(mode);
    return bits;
}

// The rank that 0 means for m signs.
static inline uint16_t wagonplan_default_sdp_rank(uint16_t m) { return wagonplan_raw_default_sdp_rank(m); }

// What a number says.
static inline const char *wagonplan_sentence(uint8_t number) {
    switch (number) {
    case 0: return "The call is accepted.";
    case 11: return "The frame is wrong: above 65,536 bytes, another length than the record says, a field past the end, or bytes left over.";
    case 12: return "The version is none of 1 to 3.";
    case 13: return "There are more than 255 wagons, more than 127 in a job of version 1 or 2, or more than 4,096 entries; for a sign table, no sign, more than 256, or more than 4,862 entries.";
    case 14: return "An entry is out of range, or not above the one before it.";
    case 15: return "An entry's mirror is absent or unequal.";
    case 16: return "The magnitude is above 2^40: the entries' absolute values, plus twice those of c; for a sign table above 2^42 eighths.";
    case 17: return "The rank is above 32, or 0 where it must be given: with a start by a factor, and for divided multipliers.";
    case 18: return "The rule is above 4, or the momentum is not a finite number from 0 to below 1.";
    case 19: return "W is above 128, or 0 where blocks are searched or at most k wagons may move, the start is none of 0 to 2, or the draws are not 1 to 1,000.";
    case 20: return "The original size is above 1,024, or a map or fixed index is out of range or mapped twice.";
    case 21: return "A pinned wagon is out of range or pinned twice, or its store is above 1.";
    case 22: return "A byte of the present choice is above 1, there are more than 16 blocks, or a wagon is out of range or twice within a block.";
    case 23: return "The low end of a range is above its high end.";
    case 24: return "There are more than 16 wagons, too many to walk every choice.";
    case 25: return "A turn has fewer than 8 sweeps, or more than 10,000.";
    case 26: return "A turn has no run, or more than 8.";
    case 27: return "A byte of the present choice is above 1, where at most k wagons may move.";
    case 28: return "k, how many wagons may move, is above the number of wagons.";
    case 31: return "A lent slice is too short.";
    case 32: return "The stage is wrong: a sweep or an exchange of the rule when stopped, or a finish before.";
    case 33: return "The run record contradicts itself or the table.";
    default: return "No such number.";
    }
}

#ifdef __cplusplus
}
#endif

#endif
