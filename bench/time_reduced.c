// time_reduced submatrix|lift CALLS: nanoseconds of a `from_principal_submatrix`, or of a `lift_solution`, on the problem of standard input, as `oracle problem reduced` prints it.
#include <string.h>
#include "timed.h"
#include "wagonplan.h"

static uint16_t rows[5000], cols[5000], out_rows[5000], out_cols[5000], map[1024], fixed[1024];
static int64_t values[5000], out_values[5000];
static double fixed_values[1024], solution[1024], lifted[1024];

static size_t length(void) {
    size_t n = word();
    if (1024 < n) exit(2);
    return n;
}

static size_t indices(uint16_t *to) {
    size_t n = length();
    for (size_t k = 0; k < n; k++) to[k] = word();
    return n;
}

static size_t doubles(double *to) {
    size_t n = length();
    for (size_t k = 0; k < n; k++) {
        uint64_t bits = word();
        memcpy(&to[k], &bits, 8);
    }
    return n;
}

int main(int argc, char **argv) {
    if (argc != 3) return 2;
    size_t calls = atoi(argv[2]), size = length(), count = word();
    if (5000 < count || calls < 1) return 2;
    for (size_t k = 0; k < count; k++) rows[k] = word(), cols[k] = word(), values[k] = (int64_t)word();
    size_t mapped = indices(map), fixes = indices(fixed), fixed_to = doubles(fixed_values), solved = doubles(solution), entries = 0;
    wagonplan_sign_table table = {size, count, {rows, count}, {cols, count}, {values, count}};
    wagonplan_u16 to = {map, mapped}, at = {fixed, fixes};
    wagonplan_entries out = {{out_rows, count}, {out_cols, count}, {out_values, count}};
    wagonplan_f64 values_at = {fixed_values, fixed_to}, solved_to = {solution, solved};
    wagonplan_f64_mut whole = {lifted, size};
    uint8_t refused = 0;
    if (!strcmp(argv[1], "submatrix"))
        TIMED(calls, refused |= wagonplan_from_principal_submatrix(&table, to, at, out, &entries));
    else if (!strcmp(argv[1], "lift"))
        TIMED(calls, refused |= wagonplan_lift_solution(size, to, at, values_at, solved_to, whole));
    else
        return 2;
    return refused;
}
