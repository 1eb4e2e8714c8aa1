// time_blocks WIDTH CALLS: nanoseconds of a `block_search` with sixteen blocks, every sixteenth wagon one, on the hall of standard input, as `oracle problem` prints it, from a present choice of zeros; then
// of its seventeen searches alone, by `beam_search` on the sign tables that they run on, from the same signs.
#include <string.h>
#include "timed.h"
#include "wagonplan.h"

enum { ROOM = WAGONPLAN_SIGN_ENTRIES_MOST, BLOCKS = WAGONPLAN_BLOCKS_MOST, SEARCHES = BLOCKS + 1, WAGONS = WAGONPLAN_WAGONS_MOST };
static uint16_t rows[ROOM], cols[ROOM], sizes[BLOCKS], wagons[WAGONS];
static int64_t values[ROOM], c[WAGONS], falls[BLOCKS];
static uint8_t present[WAGONS], choice[WAGONS];
static uint64_t workspace[WAGONPLAN_SEARCH_WORKSPACE];

// A search alone.
typedef struct {
    uint16_t rows[ROOM], cols[ROOM];
    int64_t values[ROOM];
    uint8_t start[WAGONPLAN_SIGNS_MOST];
    wagonplan_sign_table table;
} Search;
static Search searches[SEARCHES];
static uint8_t out[WAGONPLAN_SIGNS_MOST];
static const wagonplan_u64_mut room = {workspace, WAGONPLAN_SEARCH_WORKSPACE};

static wagonplan_table hall(void) {
    size_t n = word(), count = word();
    if (WAGONS < n || ROOM < count) exit(2);
    for (size_t k = 0; k < count; k++) rows[k] = (uint16_t)word(), cols[k] = (uint16_t)word(), values[k] = (int64_t)word();
    if (word() != n) exit(2);
    for (size_t i = 0; i < n; i++) c[i] = (int64_t)word();
    wagonplan_table t = {n, count, {rows, count}, {cols, count}, {values, count}, {c, n}};
    return t;
}

static uint8_t searched(Search *s, size_t width) {
    wagonplan_u8 from = {s->start, s->table.m};
    wagonplan_u8_mut to = {out, s->table.m};
    int64_t objective;
    uint64_t rounds;
    return wagonplan_beam_search(&s->table, width, from, to, room, &objective, &rounds);
}

// The free wagons' (H, c) beside the others, which stand where `choice` has them; its sign table and signs; and the choice that the search leads to.
static void prepare(Search *s, const wagonplan_table *t, const uint16_t *free, size_t f, size_t width) {
    static uint16_t to_rows[ROOM], to_cols[ROOM];
    static int64_t to_values[ROOM];
    int64_t costs[WAGONS];
    uint8_t moves[WAGONS] = {0}, found[WAGONS];
    size_t entries, sign_entries;
    for (size_t k = 0; k < f; k++) moves[free[k]] = 1;
    for (size_t k = 0; k < f; k++) costs[k] = c[free[k]], s->start[k] = choice[free[k]];
    s->start[f] = 0;
    for (size_t l = 0; l < t->count; l++)
        for (size_t k = 0; k < f; k++)
            if (rows[l] == free[k] && !moves[cols[l]] && choice[cols[l]]) costs[k] += values[l];
    wagonplan_sign_table whole = {t->n, t->count, t->rows, t->cols, t->values};
    wagonplan_u16 map = {free, f}, none = {0, 0};
    wagonplan_entries small = {{to_rows, ROOM}, {to_cols, ROOM}, {to_values, ROOM}}, signs = {{s->rows, ROOM}, {s->cols, ROOM}, {s->values, ROOM}};
    if (wagonplan_from_principal_submatrix(&whole, map, none, small, &entries)) exit(3);
    wagonplan_table part = {f, entries, {to_rows, entries}, {to_cols, entries}, {to_values, entries}, {costs, f}};
    if (wagonplan_qubo_sign_table(&part, signs, &sign_entries)) exit(3);
    wagonplan_sign_table table = {f + 1, sign_entries, {s->rows, sign_entries}, {s->cols, sign_entries}, {s->values, sign_entries}};
    wagonplan_u8 ended = {out, f + 1};
    wagonplan_u8_mut decoded = {found, f};
    s->table = table;
    if (searched(s, width) || wagonplan_qubo_binary_from_sign_solution(f + 1, ended, decoded)) exit(3);
    for (size_t k = 0; k < f; k++) choice[free[k]] = found[k];
}

int main(int argc, char **argv) {
    if (argc != 3) return 2;
    size_t width = (size_t)atoi(argv[1]), calls = (size_t)atoi(argv[2]), at = 0;
    wagonplan_table table = hall();
    for (size_t k = 0; k < BLOCKS; k++) {
        for (size_t i = k; i < table.n; i += BLOCKS) wagons[at++] = (uint16_t)i, sizes[k]++;
        prepare(searches + k, &table, wagons + at - sizes[k], sizes[k], width);
    }
    uint16_t all[WAGONS];
    uint8_t last[WAGONS], refused = 0;
    for (size_t i = 0; i < table.n; i++) all[i] = (uint16_t)i;
    prepare(searches + BLOCKS, &table, all, table.n, width);
    memcpy(last, choice, sizeof last);
    wagonplan_house house = {{0, 0}, {0, 0}, {present, table.n}, {sizes, BLOCKS}, {wagons, at}};
    wagonplan_u8_mut to = {choice, table.n};
    wagonplan_i64_mut fallen = {falls, BLOCKS};
    if (calls < 1 || wagonplan_block_search(&table, &house, width, to, fallen, room) || memcmp(last, choice, table.n)) return 2;
    TIMED(calls, refused |= wagonplan_block_search(&table, &house, width, to, fallen, room));
    TIMED(calls, for (size_t k = 0; k < SEARCHES; k++) refused |= searched(searches + k, width));
    return refused;
}
