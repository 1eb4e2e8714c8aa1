// Walks every choice of a small hall by the library's call: standard input has n and the count of entries, each entry's row, column and value, and the costs of the
// wagons, as whole numbers. Writes the least cost in eighths, how many choices were visited and the first of least cost, a line `name=value` for each. Ends with 1 and
// a sentence where the call refuses.
#include <stdio.h>
#include <stdlib.h>
#include "wagonplan.h"

static uint16_t rows[WAGONPLAN_ENTRIES_MOST], cols[WAGONPLAN_ENTRIES_MOST];
static int64_t values[WAGONPLAN_ENTRIES_MOST], costs[WAGONPLAN_WALKED_MOST];
static uint8_t choice[WAGONPLAN_WALKED_MOST];

static void end(const char *sentence) {
    fprintf(stderr, "%s\n", sentence);
    exit(1);
}

static long long take(long long least, long long most) {
    long long x;
    if (scanf("%lld", &x) != 1 || x < least || x > most) end("The hall is cut short, or a number of it is out of range.");
    return x;
}

int main(void) {
    int64_t cost;
    uint64_t visited;
    if (!wagonplan_fits()) end("The archive isn't the header's.");
    size_t n = (size_t)take(0, WAGONPLAN_WALKED_MOST), count = (size_t)take(0, WAGONPLAN_ENTRIES_MOST);
    for (size_t k = 0; k < count; k++) {
        rows[k] = (uint16_t)take(0, UINT16_MAX);
        cols[k] = (uint16_t)take(0, UINT16_MAX);
        values[k] = take(INT64_MIN, INT64_MAX);
    }
    for (size_t i = 0; i < n; i++) costs[i] = take(INT64_MIN, INT64_MAX);
    wagonplan_table table = {n, count, {rows, count}, {cols, count}, {values, count}, {costs, n}};
    wagonplan_u8_mut chosen = {choice, n};
    uint8_t number = wagonplan_least_choice(&table, chosen, &cost, &visited);
    if (number != 0) end(wagonplan_sentence(number));
    printf("cost=%lld\nvisited=%llu\nchoice=", (long long)cost, (unsigned long long)visited);
    for (size_t i = 0; i < n; i++) putchar('0' + choice[i]);
    putchar('\n');
    return fflush(stdout) != 0;
}
