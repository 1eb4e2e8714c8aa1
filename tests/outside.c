// A host that knows the installed files alone (tests/check_install.sh builds it outside the tree): archive and header belong together, 01's worked example
// gives its answer, and a hall of two wagons the least of its four choices. Prints the version of the calls.
#include <stdio.h>
#include <string.h>
#include <wagonplan.h>

static const uint8_t job[96] = {
    0, 0, 0, 92, 1, 1, 0, 1,                   // length, version, wagons, entries
    0, 0, 0, 0, 0, 0, 0, 0, 0, 2,              // H_00 = 2
    255, 255, 255, 255, 255, 255, 255, 253,    // c_0 = -3
    0, 3, 0, 0, 0, 0, 0, 0, 0, 0,              // rank, rule and its number
    0, 0, 0, 0, 0, 0, 0, 0,                    // sweeps
    0, 0, 0, 0, 0, 0, 0, 0,                    // tolerances
    0, 0, 0, 0, 0, 0, 0, 0,                    //
    1, 2,                                      // W, start by signs
    63, 240, 0, 0, 0, 0, 0, 0,                 // 1.0 1.0
    63, 240, 0, 0, 0, 0, 0, 0,                 //
    0, 1,                                      // one draw: 1.0 0.0
    63, 240, 0, 0, 0, 0, 0, 0,                 //
    0, 0, 0, 0, 0, 0, 0, 0,
};
static const uint8_t meant[61] = {
    0, 0, 0, 57, 1, 0, 2, 1, 0, 0, 0, 0,       // length, version, status, rank, n, sweeps
    0, 0, 0, 0, 0, 0, 0, 0,                    // relaxed objective
    192, 0, 0, 0, 0, 0, 0, 40,                 // float bound
    255, 255, 255, 255, 255, 255, 255, 240,    // floor, -16 eighths
    0, 0, 0, 0, 0, 0, 0, 0,                    // rounded cost
    255, 255, 255, 255, 255, 255, 255, 240,    // cost
    0, 0, 0, 0, 0, 0, 0, 1, 1,                 // rounds, the choice
};

int main(void) {
    static uint8_t workspace[WAGONPLAN_WORKSPACE], answer[WAGONPLAN_ANSWER];
    uint8_t number = wagonplan_answer((wagonplan_u8){job, sizeof job}, (wagonplan_u8_mut){workspace, sizeof workspace}, (wagonplan_u8_mut){answer, sizeof answer});
    if (!wagonplan_fits() || number != 0 || memcmp(answer, meant, sizeof meant) != 0) {
        fprintf(stderr, "fits %d, number %u: %s\n", wagonplan_fits(), number, wagonplan_sentence(number));
        return 1;
    }

    const uint16_t rows[] = {0, 1}, cols[] = {1, 0};
    const int64_t values[] = {3, 3}, c[] = {-1, -1};
    const wagonplan_table doorway = {2, 2, {rows, 2}, {cols, 2}, {values, 2}, {c, 2}};
    uint8_t b[2];
    int64_t cost;
    uint64_t visited;
    number = wagonplan_least_choice(&doorway, (wagonplan_u8_mut){b, 2}, &cost, &visited);
    if (number != 0 || cost != -8 || visited != 4 || b[0] != 1 || b[1] != 0) {
        fprintf(stderr, "least choice: number %u, cost %lld\n", number, (long long)cost);
        return 1;
    }
    printf("%u\n", wagonplan_version());
    return 0;
}
