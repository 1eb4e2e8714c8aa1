// Which wagons to roll, at most k of them, by the library's call. Standard input has whole numbers: n, how many entries, row, column and value of each, n costs, n bytes
// of where the wagons stand, k, the width. Writes `choice=` with a digit for each wagon, `cost=` in eighths and `rounds=`. Ends with 1 and a sentence where the call refuses.
#include <stdio.h>
#include <stdlib.h>
#include "wagonplan.h"

enum { LONG = 1 << 16 }; // more than any list that is accepted has

static void end(const char *sentence) {
    fprintf(stderr, "%s\n", sentence);
    exit(1);
}

static long long number(void) {
    long long x;
    if (scanf("%lld", &x) != 1) end("A number is missing.");
    return x;
}

static size_t count(void) {
    long long x = number();
    if (x < 0 || LONG < x) end("A count is out of range.");
    return (size_t)x;
}

static uint16_t rows[LONG], cols[LONG];
static int64_t values[LONG], costs[LONG];
static uint8_t present[LONG], choice[LONG];
static uint64_t workspace[WAGONPLAN_SEARCH_WORKSPACE];

static wagonplan_table table(void) {
    size_t n = count(), entries = count();
    wagonplan_table t = {n, entries, {rows, entries}, {cols, entries}, {values, entries}, {costs, n}};
    for (size_t k = 0; k < entries; k++) rows[k] = (uint16_t)count(), cols[k] = (uint16_t)count(), values[k] = number();
    for (size_t i = 0; i < n; i++) costs[i] = number();
    return t;
}

int main(void) {
    wagonplan_u64_mut room = {workspace, WAGONPLAN_SEARCH_WORKSPACE};
    wagonplan_u8_mut chosen = {choice, LONG};
    int64_t cost;
    uint64_t rounds;
    if (!wagonplan_fits()) end("The archive isn't the header's.");
    wagonplan_table t = table();
    wagonplan_u8 standing = {present, t.n};
    for (size_t i = 0; i < t.n; i++) present[i] = (uint8_t)count();
    size_t k = count(), width = count();
    uint8_t refused = wagonplan_limited_search(&t, standing, k, width, chosen, room, &cost, &rounds);
    if (refused) {
        fprintf(stderr, "The call limited_search was refused by %d: ", refused);
        end(wagonplan_sentence(refused));
    }
    printf("choice=");
    for (size_t i = 0; i < t.n; i++) putchar('0' + choice[i]);
    printf("\ncost=%lld\nrounds=%llu\n", (long long)cost, (unsigned long long)rounds);
    return fflush(stdout) != 0;
}
