// What the measurements share: words as the oracle prints them, the clock, as the oracle reads it, and the middle and the fastest of 100 batches.
#include <stdint.h>
#include <stdio.h>
#include <stdlib.h>
#include <time.h>

enum { BATCHES = 100 };

static inline uint64_t word(void) {
    unsigned long long x;
    if (scanf("%llx", &x) != 1) {
        fprintf(stderr, "a word is missing\n");
        exit(1);
    }
    return x;
}

static inline double now(void) {
    struct timespec t;
    clock_gettime(CLOCK_MONOTONIC, &t);
    return t.tv_sec + 1e-9 * t.tv_nsec;
}

static inline int by_time(const void *a, const void *b) {
    double x = *(const double *)a, y = *(const double *)b;
    return (x > y) - (x < y);
}

// Prints the nanoseconds of a call: in the middle one of the batches, of so many calls each, and in the fastest.
#define TIMED(calls, call)                                        \
    do {                                                          \
        double batch[BATCHES];                                    \
        for (int b = 0; b < BATCHES; b++) {                       \
            double t = now();                                     \
            for (size_t c = 0; c < (calls); c++) { call; }        \
            batch[b] = (now() - t) / (calls);                     \
        }                                                         \
        qsort(batch, BATCHES, sizeof batch[0], by_time);          \
        printf("%.0f %.0f\n", 1e9 * batch[BATCHES / 2], 1e9 * batch[0]);\
    } while (0)
