// The calls of include/wagonplan.h, each with the kinds of its arguments: for programs that make calls from what they read (replay.c, fuzz_calls.c).
#include <string.h>
#include "wagonplan.h"

enum { ARGUMENTS = 20 };

// ---- arguments --------------------------------------------------------------------------------------

// Kinds. In a line stand: of `n` a word; of slices that are read (b, h, i, d, c: bytes, 16 bits, whole numbers, doubles, words; j, k: bytes and 16 bits whose
// length is part of what is asked) the slice; of those that are lent to be written (B, H, I, D, C, W the workspace of a job, w that of a search, A the answer record)
// the length; of the factor (F, f where it is only read) the length; of settings (S) eight words. The run (R, r) is the one that the last line left. Of the runs
// that share a turn (P) and their factors (G) the length stands in a line, what they hold is what the last left; of the sizes of their tables (Z) the slice. Given
// back are B, H, I, D, C, A, F, R, P, G, the words `v` and `e` (a double), and U, the result, or V, a ranged one.
typedef struct {
    char kind;
    size_t length;           // elements that are lent
    size_t known;            // of them said by the line or left by the last
    const uint64_t *words;   // those
    size_t count;            // elements that are given back
    const uint64_t *wanted;  // those
    uint8_t *block, *before; // the memory, now and before the call
    size_t size;             // its bytes
    uint8_t *at;             // where the slice stands in it
    size_t lent;             // the slice's length in this call
} Argument;

typedef struct {
    const char *name, *kinds;
    uint8_t (*call)(Argument *);
    uint8_t (*raw)(Argument *); // where run, settings and result are slices of words
} Call;

static int is_one_of(char kind, const char *kinds) { return strchr(kinds, kind) != NULL; }
static size_t element(char kind) { return is_one_of(kind, "bjBAW") ? 1 : is_one_of(kind, "hkH") ? 2 : 8; }
static int is_written(char kind) { return is_one_of(kind, "BHIDCAFRPGveUV"); }
static int grows(char kind) { return is_one_of(kind, "bhidcBHIDCWwAFfRrSUVPGZ"); } // words only as raw functions take them

// ---- the calls --------------------------------------------------------------------------------------

static size_t number(const Argument *a) { return (size_t)a->words[0]; }
static double double_of(const Argument *a) {
    double x;
    memcpy(&x, a->words, 8);
    return x;
}

#define SLICE(TYPE, NAME) \
    static wagonplan_##NAME NAME(const Argument *a) { \
        wagonplan_##NAME slice = {(const TYPE *)(const void *)a->at, a->lent}; \
        return slice; \
    } \
    static wagonplan_##NAME##_mut NAME##_mut(const Argument *a) { \
        wagonplan_##NAME##_mut slice = {(TYPE *)(void *)a->at, a->lent}; \
        return slice; \
    }
SLICE(uint8_t, u8)
SLICE(uint16_t, u16)
SLICE(int64_t, i64)
SLICE(uint64_t, u64)
SLICE(double, f64)

static wagonplan_table table(const Argument *a) {
    wagonplan_table t = {number(a), number(a + 1), u16(a + 2), u16(a + 3), i64(a + 4), i64(a + 5)};
    return t;
}
static wagonplan_sign_table sign_table(const Argument *a) {
    wagonplan_sign_table t = {number(a), number(a + 1), u16(a + 2), u16(a + 3), i64(a + 4)};
    return t;
}
static wagonplan_entries entries(const Argument *a) {
    wagonplan_entries room = {u16_mut(a), u16_mut(a + 1), i64_mut(a + 2)};
    return room;
}
static void *place(const Argument *a) { return a->at; }

static uint8_t answer(Argument *a) { return wagonplan_answer(u8(a), u8_mut(a + 1), u8_mut(a + 2)); }
static uint8_t open_run(Argument *a) {
    wagonplan_table t = table(a);
    return wagonplan_open(&t, place(a + 6), f64(a + 7), f64_mut(a + 8), place(a + 9));
}
static uint8_t sweep(Argument *a) {
    wagonplan_table t = table(a + 1);
    return wagonplan_sweep(place(a), &t, (uint32_t)number(a + 7), f64_mut(a + 8));
}
static uint8_t exchange_rule(Argument *a) { return wagonplan_exchange_rule(place(a), number(a + 1), double_of(a + 2)); }
static uint8_t raw_exchange_rule(Argument *a) { return wagonplan_raw_exchange_rule(place(a), a->lent, number(a + 1), double_of(a + 2)); }
static uint8_t finish(Argument *a) {
    wagonplan_table t = table(a + 1);
    return wagonplan_finish(place(a), &t, number(a + 7), number(a + 8), f64(a + 9), f64(a + 10), u8_mut(a + 11), f64_mut(a + 12), u64_mut(a + 13), place(a + 14));
}
static uint8_t raw_open(Argument *a) {
    wagonplan_table t = table(a);
    return wagonplan_raw_open(t.n, t.count, t.rows.at, t.rows.len, t.cols.at, t.cols.len, t.values.at, t.values.len, t.c.at, t.c.len, place(a + 6), a[6].lent,
                              place(a + 7), a[7].lent, place(a + 8), a[8].lent, place(a + 9), a[9].lent);
}
static uint8_t raw_sweep(Argument *a) {
    wagonplan_table t = table(a + 1);
    return wagonplan_raw_sweep(place(a), a->lent, t.n, t.count, t.rows.at, t.rows.len, t.cols.at, t.cols.len, t.values.at, t.values.len, t.c.at, t.c.len,
                               (uint32_t)number(a + 7), place(a + 8), a[8].lent);
}
static uint8_t raw_finish(Argument *a) {
    wagonplan_table t = table(a + 1);
    return wagonplan_raw_finish(place(a), a->lent, t.n, t.count, t.rows.at, t.rows.len, t.cols.at, t.cols.len, t.values.at, t.values.len, t.c.at, t.c.len,
                                number(a + 7), number(a + 8), place(a + 9), a[9].lent, place(a + 10), a[10].lent, place(a + 11), a[11].lent, place(a + 12),
                                a[12].lent, place(a + 13), a[13].lent, place(a + 14), a[14].lent);
}
static wagonplan_ranged_table ranged_table(const Argument *a) {
    wagonplan_ranged_table t = {number(a), number(a + 1), u16(a + 2), u16(a + 3), i64(a + 4), i64(a + 5), i64(a + 6), i64(a + 7)};
    return t;
}
static uint8_t finish_ranged(Argument *a) {
    wagonplan_ranged_table t = ranged_table(a + 1);
    return wagonplan_finish_ranged(place(a), &t, number(a + 9), number(a + 10), f64(a + 11), f64(a + 12), u8_mut(a + 13), f64_mut(a + 14), u64_mut(a + 15),
                                   place(a + 16));
}
static uint8_t raw_finish_ranged(Argument *a) {
    wagonplan_ranged_table t = ranged_table(a + 1);
    return wagonplan_raw_finish_ranged(place(a), a->lent, t.n, t.count, t.rows.at, t.rows.len, t.cols.at, t.cols.len, t.low.at, t.low.len, t.high.at, t.high.len,
                                       t.low_c.at, t.low_c.len, t.high_c.at, t.high_c.len, number(a + 9), number(a + 10), place(a + 11), a[11].lent,
                                       place(a + 12), a[12].lent, place(a + 13), a[13].lent, place(a + 14), a[14].lent, place(a + 15), a[15].lent,
                                       place(a + 16), a[16].lent);
}
static wagonplan_tables tables(const Argument *a) {
    wagonplan_tables t = {(const wagonplan_hall *)(const void *)a->at, u16(a + 1), u16(a + 2), i64(a + 3), i64(a + 4)};
    return t;
}
static uint8_t turn(Argument *a) {
    wagonplan_tables t = tables(a);
    return wagonplan_turn(&t, number(a + 5), place(a + 6), (uint32_t)number(a + 7), f64_mut(a + 8));
}
static uint8_t raw_turn(Argument *a) {
    wagonplan_tables t = tables(a);
    return wagonplan_raw_turn(number(a + 5), place(a + 6), a[6].lent, place(a), a->lent, (uint32_t)number(a + 7), t.rows.at, t.rows.len, t.cols.at, t.cols.len,
                              t.values.at, t.values.len, t.c.at, t.c.len, place(a + 8), a[8].lent);
}
static uint8_t beam_search(Argument *a) {
    wagonplan_sign_table t = sign_table(a);
    return wagonplan_beam_search(&t, number(a + 5), u8(a + 6), u8_mut(a + 7), u64_mut(a + 8), place(a + 9), place(a + 10));
}
static uint8_t compute_rounded_sol(Argument *a) {
    wagonplan_sign_table t = sign_table(a);
    return wagonplan_compute_rounded_sol(&t, number(a + 5), f64(a + 6), number(a + 7), f64(a + 8), u8_mut(a + 9), place(a + 10));
}
static uint8_t dual_variables(Argument *a) {
    wagonplan_sign_table t = sign_table(a);
    return wagonplan_dual_variables(&t, number(a + 5), f64(a + 6), f64_mut(a + 7));
}
static uint8_t dual_variables_divided(Argument *a) {
    wagonplan_sign_table t = sign_table(a);
    return wagonplan_dual_variables_divided(&t, number(a + 5), f64(a + 6), f64_mut(a + 7));
}
static uint8_t obj_rounded(Argument *a) {
    wagonplan_sign_table t = sign_table(a);
    return wagonplan_obj_rounded(&t, u8(a + 5), place(a + 6));
}
static uint8_t floor_eighths(Argument *a) {
    wagonplan_sign_table t = sign_table(a);
    return wagonplan_floor_eighths(&t, place(a + 5));
}
static uint8_t entrywise_lower_bound(Argument *a) {
    wagonplan_sign_table t = sign_table(a);
    return wagonplan_entrywise_lower_bound(&t, place(a + 5));
}
static uint8_t eval_qubo_objective(Argument *a) {
    wagonplan_table t = table(a);
    return wagonplan_eval_qubo_objective(&t, u8(a + 6), place(a + 7));
}
static uint8_t least_choice(Argument *a) {
    wagonplan_table t = table(a);
    return wagonplan_least_choice(&t, u8_mut(a + 6), place(a + 7), place(a + 8));
}
static uint8_t qubo_sign_table(Argument *a) {
    wagonplan_table t = table(a);
    return wagonplan_qubo_sign_table(&t, entries(a + 6), place(a + 9));
}
static uint8_t qubo_binary_from_sign_solution(Argument *a) { return wagonplan_qubo_binary_from_sign_solution(number(a), u8(a + 1), u8_mut(a + 2)); }
static uint8_t distance(Argument *a) { return wagonplan_distance(number(a), u64(a + 1), u64(a + 2), place(a + 3)); }
static uint8_t pack_signs(Argument *a) { return wagonplan_pack_signs(number(a), u8(a + 1), u64_mut(a + 2)); }
static uint8_t from_principal_submatrix(Argument *a) {
    wagonplan_sign_table t = sign_table(a);
    return wagonplan_from_principal_submatrix(&t, u16(a + 5), u16(a + 6), entries(a + 7), place(a + 10));
}
static uint8_t lift_solution(Argument *a) { return wagonplan_lift_solution(number(a), u16(a + 1), u16(a + 2), f64(a + 3), f64(a + 4), f64_mut(a + 5)); }

static uint8_t block_search(Argument *a) {
    wagonplan_table t = table(a);
    wagonplan_house house = {u16(a + 6), u8(a + 7), u8(a + 8), u16(a + 9), u16(a + 10)};
    return wagonplan_block_search(&t, &house, number(a + 11), u8_mut(a + 12), i64_mut(a + 13), u64_mut(a + 14));
}

static uint8_t limited_search(Argument *a) {
    wagonplan_table t = table(a);
    return wagonplan_limited_search(&t, u8(a + 6), number(a + 7), number(a + 8), u8_mut(a + 9), u64_mut(a + 10), place(a + 11), place(a + 12));
}

static uint8_t give_double(Argument *a, double x) { return memcpy(a->at, &x, 8), 0; }
static uint8_t give_word(Argument *a, uint64_t x) { return memcpy(a->at, &x, 8), 0; }
static uint8_t root(Argument *a) { return give_double(a + 1, wagonplan_sqrt(double_of(a))); }
static uint8_t eighth(Argument *a) { return give_double(a + 1, wagonplan_eighth((int64_t)number(a))); }
static uint8_t double_from(Argument *a) { return give_double(a + 1, wagonplan_double_of(number(a))); }
static uint8_t bits_from(Argument *a) { return give_word(a + 1, wagonplan_bits_of(double_of(a))); }
static uint8_t default_sdp_rank(Argument *a) { return give_word(a + 1, wagonplan_default_sdp_rank((uint16_t)number(a))); }

// Kinds in the order of the header's wrapper; T is a table (n, count, rows, columns, values, c), L a ranged one (n, count, rows, columns, low, high, low c, high c), Q a sign
// table (m, count, rows, columns, values), M the tables of several runs (sizes, rows, columns, values, c).
static const Call calls[] = {
    {"answer", "jWA", answer, 0},
    {"open", "TSdFR", open_run, raw_open},
    {"sweep", "RTnF", sweep, raw_sweep},
    {"exchange_rule", "Rnn", exchange_rule, raw_exchange_rule},
    {"finish", "rTnndfBDwU", finish, raw_finish},
    {"finish_ranged", "rLnndfBDwV", finish_ranged, raw_finish_ranged},
    {"turn", "MnPnG", turn, raw_turn},
    {"beam_search", "QnbBwvv", beam_search, 0},
    {"compute_rounded_sol", "QndndBv", compute_rounded_sol, 0},
    {"dual_variables", "QndD", dual_variables, 0},
    {"dual_variables_divided", "QndD", dual_variables_divided, 0},
    {"obj_rounded", "Qbv", obj_rounded, 0},
    {"floor_eighths", "Qv", floor_eighths, 0},
    {"entrywise_lower_bound", "Qe", entrywise_lower_bound, 0},
    {"eval_qubo_objective", "Tbv", eval_qubo_objective, 0},
    {"least_choice", "TBvv", least_choice, 0},
    {"qubo_sign_table", "THHIv", qubo_sign_table, 0},
    {"qubo_binary_from_sign_solution", "nbB", qubo_binary_from_sign_solution, 0},
    {"distance", "nccv", distance, 0},
    {"pack_signs", "nbC", pack_signs, 0},
    {"from_principal_submatrix", "QkkHHIv", from_principal_submatrix, 0},
    {"lift_solution", "nkkddD", lift_solution, 0},
    {"block_search", "TkbbkhnBIw", block_search, 0},
    {"limited_search", "TbnnBwvv", limited_search, 0},
    {"sqrt", "ne", root, 0},
    {"eighth", "ne", eighth, 0},
    {"double_of", "ne", double_from, 0},
    {"bits_of", "nv", bits_from, 0},
    {"default_sdp_rank", "nv", default_sdp_rank, 0},
};
enum { CALLS = sizeof calls / sizeof *calls };

// What a group holds: a table, a job; NULL for other kinds.
static const char *group_of(char kind) {
    switch (kind) {
    case 'T': return "nnhhii";
    case 'L': return "nnhhiiii";
    case 'Q': return "nnhhi";
    case 'M': return "Zhhii";
    case 'j': return "j";
    default: return NULL;
    }
}
