// Clears a house block by block by the library's call. Standard input has whole numbers: n, how many entries, row, column and value of each, n costs; how many wagons are
// pinned, each with its store; n bytes of the present choice; how many blocks, of each its size and its wagons; the width. Writes `choice=` with a digit for each
// wagon and `falls=` with the fall of each block in eighths. Ends with 1 and a sentence where the call refuses.
#include <stdio.h>
#include <stdlib.h>
#include "wagonplan.h"

enum { LONG = 1 << 16 }; // more than any list that is accepted has

static void end(const char *sentence) {
    fprintf(stderr, "%s\n", sentence);
    exit(1);
}

static long long number(void) {
    long long x;
    if (scanf("%lld", &x) != 1) end("A number is missing.");
    return x;
}

static size_t count(void) {
    long long x = number();
    if (x < 0 || LONG < x) end("A count is out of range.");
    return (size_t)x;
}

static uint16_t rows[LONG], cols[LONG], pinned[LONG], sizes[LONG], wagons[LONG];
static int64_t values[LONG], costs[LONG], falls[LONG];
static uint8_t stores[LONG], present[LONG], choice[LONG];
static uint64_t workspace[WAGONPLAN_SEARCH_WORKSPACE];

static wagonplan_table table(void) {
    size_t n = count(), entries = count();
    wagonplan_table t = {n, entries, {rows, entries}, {cols, entries}, {values, entries}, {costs, n}};
    for (size_t k = 0; k < entries; k++) rows[k] = (uint16_t)count(), cols[k] = (uint16_t)count(), values[k] = number();
    for (size_t i = 0; i < n; i++) costs[i] = number();
    return t;
}

static wagonplan_house house(size_t n) {
    size_t pins = count(), blocks, named = 0;
    for (size_t k = 0; k < pins; k++) pinned[k] = (uint16_t)count(), stores[k] = (uint8_t)count();
    for (size_t i = 0; i < n; i++) present[i] = (uint8_t)count();
    blocks = count();
    for (size_t k = 0; k < blocks; k++) {
        size_t size = count();
        if (LONG < named + size) end("The blocks have too many wagons.");
        sizes[k] = (uint16_t)size;
        for (size_t i = 0; i < size; i++) wagons[named++] = (uint16_t)count();
    }
    wagonplan_house all = {{pinned, pins}, {stores, pins}, {present, n}, {sizes, blocks}, {wagons, named}};
    return all;
}

int main(void) {
    wagonplan_u64_mut room = {workspace, WAGONPLAN_SEARCH_WORKSPACE};
    wagonplan_u8_mut chosen = {choice, LONG};
    wagonplan_i64_mut fallen = {falls, LONG};
    if (!wagonplan_fits()) end("The archive isn't the header's.");
    wagonplan_table t = table();
    wagonplan_house all = house(t.n);
    uint8_t refused = wagonplan_block_search(&t, &all, count(), chosen, fallen, room);
    if (refused) {
        fprintf(stderr, "The call block_search was refused by %d: ", refused);
        end(wagonplan_sentence(refused));
    }
    printf("choice=");
    for (size_t i = 0; i < t.n; i++) putchar('0' + choice[i]);
    printf("\nfalls=");
    for (size_t k = 0; k < all.block_sizes.len; k++) printf("%s%lld", k ? " " : "", (long long)falls[k]);
    putchar('\n');
    return fflush(stdout) != 0;
}
