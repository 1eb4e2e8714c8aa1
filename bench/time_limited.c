// time_limited WIDTH CALLS SEED [K]: nanoseconds of a `limited_search` of at most K wagons, n where none is given, on the hall of standard input, as `oracle problem` prints it, from a present choice of
// the seed; then of `beam_search` alone on the hall's sign table, from the same signs.
#include "timed.h"
#include "wagonplan.h"

enum { ROOM = WAGONPLAN_SIGN_ENTRIES_MOST, WAGONS = WAGONPLAN_WAGONS_MOST };
static uint16_t rows[ROOM], cols[ROOM], sign_rows[ROOM], sign_cols[ROOM];
static int64_t values[ROOM], sign_values[ROOM], c[WAGONS];
static uint8_t present[WAGONS + 1], choice[WAGONS], out[WAGONPLAN_SIGNS_MOST];
static uint64_t workspace[WAGONPLAN_SEARCH_WORKSPACE];

static wagonplan_table hall(void) {
    size_t n = word(), count = word();
    if (WAGONS < n || ROOM < count) exit(2);
    for (size_t k = 0; k < count; k++) rows[k] = (uint16_t)word(), cols[k] = (uint16_t)word(), values[k] = (int64_t)word();
    if (word() != n) exit(2);
    for (size_t i = 0; i < n; i++) c[i] = (int64_t)word();
    wagonplan_table t = {n, count, {rows, count}, {cols, count}, {values, count}, {c, n}};
    return t;
}

int main(int argc, char **argv) {
    if (argc != 4 && argc != 5) return 2;
    size_t width = (size_t)atoi(argv[1]), calls = (size_t)atoi(argv[2]), entries;
    uint64_t seed = (uint64_t)atoi(argv[3]), rounds, base_rounds;
    wagonplan_table table = hall();
    size_t k = argc == 5 ? (size_t)atoi(argv[4]) : table.n;
    for (size_t i = 0; i < table.n; i++) seed = seed * 6364136223846793005u + 1442695040888963407u, present[i] = (uint8_t)(seed >> 63);
    wagonplan_entries room = {{sign_rows, ROOM}, {sign_cols, ROOM}, {sign_values, ROOM}};
    if (calls < 1 || wagonplan_qubo_sign_table(&table, room, &entries)) return 2;
    wagonplan_sign_table signs = {table.n + 1, entries, {sign_rows, entries}, {sign_cols, entries}, {sign_values, entries}};
    wagonplan_u8 from = {present, table.n}, start = {present, table.n + 1};
    wagonplan_u8_mut to = {choice, table.n}, ended = {out, table.n + 1};
    wagonplan_u64_mut work = {workspace, WAGONPLAN_SEARCH_WORKSPACE};
    int64_t cost, objective;
    uint8_t refused = 0;
    TIMED(calls, refused |= wagonplan_limited_search(&table, from, k, width, to, work, &cost, &rounds));
    TIMED(calls, refused |= wagonplan_beam_search(&signs, width, start, ended, work, &objective, &base_rounds));
    printf("rounds %llu %llu\n", (unsigned long long)rounds, (unsigned long long)base_rounds);
    return refused;
}
