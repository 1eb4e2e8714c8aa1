// time_walk: nanoseconds of `least_choice` on 16 wagons with 256 entries and of a plain loop that works out the cost of each of the 65,536 choices anew, by products
// and by tests, one batch of each in turn. A line to each: the middle and the fastest of 100 batches. Ends with 1 where their answers differ.
#include "timed.h"
#include "wagonplan.h"

enum { WAGONS = WAGONPLAN_WALKED_MOST, ENTRIES = WAGONS * WAGONS, CHOICES = 1 << WAGONS };
static uint16_t rows[ENTRIES], cols[ENTRIES];
static int64_t values[ENTRIES], c[WAGONS];

typedef struct {
    int64_t cost;
    uint32_t number;
} Least;

static __attribute__((noinline)) int64_t by_products(const uint8_t *b) {
    int64_t quadratic = 0, linear = 0;
    for (int k = 0; k < ENTRIES; k++) quadratic += values[k] * b[rows[k]] * b[cols[k]];
    for (int i = 0; i < WAGONS; i++) linear += c[i] * b[i];
    return 4 * quadratic + 8 * linear;
}

static __attribute__((noinline)) int64_t by_tests(const uint8_t *b) {
    int64_t quadratic = 0, linear = 0;
    for (int k = 0; k < ENTRIES; k++)
        if (b[rows[k]] && b[cols[k]]) quadratic += values[k];
    for (int i = 0; i < WAGONS; i++)
        if (b[i]) linear += c[i];
    return 4 * quadratic + 8 * linear;
}

static Least plain(int64_t (*cost)(const uint8_t *)) {
    Least least = {0, 0};
    for (uint32_t k = 0; k < CHOICES; k++) {
        uint8_t b[WAGONS];
        for (int i = 0; i < WAGONS; i++) b[i] = k >> i & 1;
        int64_t this = cost(b);
        if (k == 0 || this < least.cost) least.cost = this, least.number = k;
    }
    return least;
}

static Least walked(void) {
    wagonplan_table t = {WAGONS, ENTRIES, {rows, ENTRIES}, {cols, ENTRIES}, {values, ENTRIES}, {c, WAGONS}};
    uint8_t b[WAGONS];
    uint64_t visited = 0;
    Least least = {0, 0};
    if (wagonplan_least_choice(&t, (wagonplan_u8_mut){b, WAGONS}, &least.cost, &visited) || visited != CHOICES) exit(1);
    for (int i = 0; i < WAGONS; i++) least.number |= (uint32_t)b[i] << i;
    return least;
}

static double timed(Least (*call)(int64_t (*)(const uint8_t *)), int64_t (*cost)(const uint8_t *), Least *least) {
    double t = now();
    *least = call ? call(cost) : walked();
    return 1e9 * (now() - t);
}

int main(void) {
    double ours[BATCHES], products[BATCHES], tests[BATCHES];
    Least a, p, q;
    srand(1);
    for (int i = 0; i < WAGONS; i++)
        for (int j = 0; j < WAGONS; j++) {
            rows[WAGONS * i + j] = (uint16_t)i, cols[WAGONS * i + j] = (uint16_t)j;
            values[WAGONS * i + j] = j < i ? values[WAGONS * j + i] : rand() % 2001 - 1000;
        }
    for (int i = 0; i < WAGONS; i++) c[i] = rand() % 2001 - 1000;
    for (int k = 0; k < BATCHES; k++) {
        ours[k] = timed(0, 0, &a), products[k] = timed(plain, by_products, &p), tests[k] = timed(plain, by_tests, &q);
        if (a.cost != p.cost || a.number != p.number || a.cost != q.cost || a.number != q.number) return 1;
    }
    qsort(ours, BATCHES, sizeof *ours, by_time), qsort(products, BATCHES, sizeof *products, by_time), qsort(tests, BATCHES, sizeof *tests, by_time);
    printf("least_choice                 %10.0f %10.0f ns\n", ours[BATCHES / 2], ours[0]);
    printf("plain loop, by products      %10.0f %10.0f ns   times slower %6.2f %6.2f\n", products[BATCHES / 2], products[0], products[BATCHES / 2] / ours[BATCHES / 2], products[0] / ours[0]);
    printf("plain loop, by tests         %10.0f %10.0f ns   times slower %6.2f %6.2f\n", tests[BATCHES / 2], tests[0], tests[BATCHES / 2] / ours[BATCHES / 2], tests[0] / ours[0]);
    return 0;
}
