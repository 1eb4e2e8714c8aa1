// The proved root against the machine's: that both agree on many patterns, and the time of a call, as a ratio of one run.
#include <math.h>
#include <stdint.h>
#include <stdio.h>
#include <string.h>
#include <time.h>
#include "wagonplan.h"

static uint64_t state = 88172645463325252ull;
static uint64_t next(void) { state ^= state << 13; state ^= state >> 7; state ^= state << 17; return state; }
static double of(uint64_t b) { double d; memcpy(&d, &b, 8); return d; }
static uint64_t bits(double d) { uint64_t b; memcpy(&b, &d, 8); return b; }
static double now(void) { struct timespec t; clock_gettime(CLOCK_PROCESS_CPUTIME_ID, &t); return t.tv_sec + t.tv_nsec * 1e-9; }
static double machine(double x) { double y; __asm__ volatile("sqrtsd %1, %0" : "=x"(y) : "x"(x)); return y; }

enum { SIZE = 1 << 16, CALLS = 10000000 };
static double numbers[SIZE];

static int differs(uint64_t b) {
    double a = wagonplan_raw_sqrt(of(b)), c = sqrt(of(b));
    return !(isnan(a) && isnan(c)) && bits(a) != bits(c);
}

// Whether the code's guess (crates/ieee/src/root.rt), copied here, misses the root of a normal number.
static int missed(uint64_t b) {
    uint64_t digits = b & 0x1fffffffffffff;
    double x = of(digits + 0x3fe0000000000000), scale = of((b / 0x10000000000000 + 1024) / 2 * 0x10000000000000), half = x * 0.5;
    double y = of(0x3ff6eb50c7b537a9 - digits / 2);
    y = y * 1.5008789 - half * y * (y * y);
    y = y * 1.50000057 - half * y * (y * y);
    double near = x * y, high = near + 100663296.0 - 100663296.0, slope = y * 0.5, last = 1.5 - near * slope, low = near * last - high;
    return high * scale + (x - high * high + low * low) * (slope * last * scale) != sqrt(of(b));
}

// Nanoseconds a call: of calls that don't wait for each other, and of calls whose argument takes a product and a sum of the result before.
static double apart(double (*root)(double)) {
    volatile double sink;
    double sum = 0, start = now();
    for (int i = 0; i < CALLS; i++) sum += root(numbers[i & (SIZE - 1)]);
    sink = sum;
    (void)sink;
    return (now() - start) * 1e9 / CALLS;
}

static double chained(double (*root)(double)) {
    volatile double sink;
    double x = 0, start = now();
    for (int i = 0; i < CALLS; i++) x = root(numbers[i & (SIZE - 1)] + x * 0x1p-1000);
    sink = x;
    (void)sink;
    return (now() - start) * 1e9 / CALLS;
}

static void row(const char *name) {
    double a = apart(wagonplan_raw_sqrt), b = apart(machine), c = chained(wagonplan_raw_sqrt), d = chained(machine);
    printf("%-26s apart %6.1f ns, sqrtsd %5.1f, ratio %4.1f   chained %6.1f ns, sqrtsd %5.1f, ratio %4.1f\n", name, a, b, a / b, c, d, c / d);
}

int main(void) {
    long bad = 0, many = 20000000;
    for (long i = 0; i < many; i++) {
        uint64_t b = next();
        if (i & 1) b &= 0x7fffffffffffffff;
        if ((i & 15) == 3) b >>= 12 + (next() & 31);
        bad += differs(b);
    }
    printf("%ld patterns, %ld differ from the C library's root\n", many, bad);
    for (int i = 0; i < SIZE; i++) numbers[i] = 1.0 + (next() >> 11) * 0x1p-53 * 1e6;
    row("numbers from 1 to 10^6");
    for (int i = 0; i < SIZE; i++) numbers[i] = of(next() & 0x7fefffffffffffff);
    row("any positive double");
    for (int i = 0; i < SIZE; i++) {
        uint64_t b;
        do b = 0x3fe0000000000000 + (next() & 0x1fffffffffffff); while (!missed(b));
        numbers[i] = of(b);
    }
    row("what the guess misses");
    for (int i = 0; i < SIZE; i++) numbers[i] = of(next() >> (12 + (next() & 31)));
    row("subnormals");
    return bad != 0;
}
