// time_search WIDTH CALLS: nanoseconds of a `beam_search` on the table and from the signs of standard input, as `oracle problem` prints them.
#include "timed.h"
#include "wagonplan.h"

static uint16_t rows[5000], cols[5000];
static int64_t values[5000];
static uint8_t start[WAGONPLAN_SIGNS_MOST], out[WAGONPLAN_SIGNS_MOST];
static uint64_t workspace[WAGONPLAN_SEARCH_WORKSPACE];

int main(int argc, char **argv) {
    if (argc != 3) return 2;
    size_t width = atoi(argv[1]), calls = atoi(argv[2]), m = word(), count = word();
    if (WAGONPLAN_SIGNS_MOST < m || 5000 < count || calls < 1) return 2;
    for (size_t k = 0; k < count; k++) rows[k] = word(), cols[k] = word(), values[k] = (int64_t)word();
    if (word() != m) return 2;
    for (size_t i = 0; i < m; i++) start[i] = word();
    wagonplan_sign_table table = {m, count, {rows, count}, {cols, count}, {values, count}};
    wagonplan_u8 from = {start, m};
    wagonplan_u8_mut to = {out, m};
    wagonplan_u64_mut room = {workspace, WAGONPLAN_SEARCH_WORKSPACE};
    uint8_t refused = 0;
    int64_t objective;
    uint64_t rounds;
    TIMED(calls, refused |= wagonplan_beam_search(&table, width, from, to, room, &objective, &rounds));
    return refused;
}
