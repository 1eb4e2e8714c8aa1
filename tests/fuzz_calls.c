// For libFuzzer: every exported call but the record call, on what an input holds (tests/fuzz.sh calls). Its first byte names the call, its second says what is
// mended first; then stands each argument: a word as eight bytes, a slice as its length in two bytes and, where the call reads it, its elements. Each slice is a
// block of its own, of just that size. A call is made on two fills of the memory lent to it, then with every slice longer. Checked are that it answers the same,
// that nothing is written that is only read, that a refusal writes nothing, and that each element lent is either kept in all calls or written alike in all.
#include <stdio.h>
#include <stdlib.h>
#include "calls.h"

enum { FILLS = 3, LONGER = 2, MORE = 5, MENDED = 600, SWEEPS = 40 };
enum { MIRRORED = 1, SMALL = 2 };

typedef struct {
    uint8_t *given, *after[FILLS], *lent[FILLS]; // elements of the input, the block after each call and before it
    uint64_t word;
} Held;

static Argument arguments[ARGUMENTS];
static Held held[ARGUMENTS];
static size_t count;
static unsigned long calls_made[CALLS][256];

// What an input reached, beside the coverage of the archive: each number of each call.
__attribute__((section("__libfuzzer_extra_counters"), used)) static uint8_t reached[CALLS * 64];

static const char *call_name = "";
static void must(int holds, const char *what) {
    if (holds) return;
    fprintf(stderr, "broken: %s: %s\n", call_name, what);
    abort();
}

static void *block_of(size_t size) {
    void *block = malloc(size ? size : 1);
    must(block != NULL, "no memory");
    return block;
}

// ---- the input --------------------------------------------------------------------------------------

static const uint8_t *data;
static size_t left;

// The next bytes; zeros behind the end.
static void take(void *to, size_t bytes) {
    size_t there = bytes < left ? bytes : left;
    memset(to, 0, bytes);
    memcpy(to, data, there);
    data += there, left -= there;
}

static int is_read(char kind) { return is_one_of(kind, "bjhkidcZSRrFfPG"); }

static void take_argument(char kind) {
    Argument *a = arguments + count;
    Held *h = held + count++;
    uint16_t length = 1;
    memset(a, 0, sizeof *a), memset(h, 0, sizeof *h);
    a->kind = kind;
    if (kind == 'n') {
        take(&h->word, 8);
        a->words = &h->word;
        return;
    }
    if (!is_one_of(kind, "ve")) take(&length, 2);
    a->length = length;
    h->given = block_of(a->length * element(kind));
    if (is_read(kind)) take(h->given, a->length * element(kind));
}

static void take_arguments(const char *kinds) {
    count = 0;
    for (; *kinds; kinds++) {
        const char *group = group_of(*kinds);
        for (size_t k = 0; group && group[k]; k++) take_argument(group[k]);
        if (!group) take_argument(*kinds);
    }
}

// ---- mending ----------------------------------------------------------------------------------------

static uint16_t index_at(size_t k, size_t l) { return ((const uint16_t *)(const void *)held[k].given)[l]; }
static int64_t *whole_at(size_t k, size_t l) { return (int64_t *)(void *)held[k].given + l; }

// So that an input that was changed in one place isn't always refused: each entry of the table takes the value of its mirror before it.
static void mirror(size_t rows, size_t values) {
    size_t most = arguments[rows].length;
    if (arguments[rows + 1].length < most) most = arguments[rows + 1].length;
    if (arguments[values].length < most) most = arguments[values].length;
    for (size_t k = 0; k < most && k < MENDED; k++)
        for (size_t l = 0; l < k; l++)
            if (index_at(rows, k) == index_at(rows + 1, l) && index_at(rows + 1, k) == index_at(rows, l)) *whole_at(values, k) = *whole_at(values, l);
}

static void make_small(size_t k) {
    for (size_t l = 0; l < arguments[k].length; l++) *whole_at(k, l) %= 1 << 20;
}

// Few sweeps: millions would be kept to.
static void few_sweeps(const Call *call) {
    size_t at = !strcmp(call->name, "sweep") ? 7 : !strcmp(call->name, "turn") ? 7 : count;
    if (at < count && held[at].word > SWEEPS) held[at].word %= SWEEPS;
}

static void mend(const Call *call, uint8_t flags) {
    for (size_t k = 0; k + 1 < count; k++) {
        if (arguments[k].kind != 'h' || arguments[k + 1].kind != 'h') continue;
        for (size_t l = k + 2; l < count && arguments[l].kind == 'i'; l++) {
            if (flags & SMALL) make_small(l);
            if (flags & MIRRORED) mirror(k, l);
        }
    }
    few_sweeps(call);
}

// ---- a call -----------------------------------------------------------------------------------------

static void lend(int fill) {
    for (size_t k = 0; k < count; k++) {
        Argument *a = arguments + k;
        size_t bytes = element(a->kind);
        if (a->kind == 'n') continue;
        a->lent = a->length + (fill == LONGER && grows(a->kind) ? MORE : 0);
        a->size = a->lent * bytes;
        a->block = block_of(a->size);
        for (size_t b = 0; b < a->size; b++) a->block[b] = (uint8_t)(0xA5 + 0x35 * fill + 7 * b);
        if (is_read(a->kind)) memcpy(a->block, held[k].given, a->length * bytes);
        held[k].lent[fill] = block_of(a->size);
        memcpy(held[k].lent[fill], a->block, a->size);
        a->at = a->size ? a->block : NULL;
    }
}

static int is_workspace(char kind) { return is_one_of(kind, "Ww"); }

static uint8_t made(const Call *call, int fill) {
    uint8_t got;
    lend(fill);
    got = (call->raw ? call->raw : call->call)(arguments);
    for (size_t k = 0; k < count; k++) {
        Argument *a = arguments + k;
        if (a->kind == 'n') continue;
        if (got || !(is_written(a->kind) || is_workspace(a->kind)))
            must(memcmp(a->block, held[k].lent[fill], a->size) == 0, got ? "a refusal writes" : "what is only read is written");
        held[k].after[fill] = a->block;
    }
    return got;
}

// Each element is what all calls left alike, or was kept in all; behind the shorter slice it was kept.
static void compare(size_t k, int fill) {
    size_t bytes = element(arguments[k].kind), all = arguments[k].length * bytes;
    for (size_t at = 0; at < all; at += bytes) {
        int alike = !memcmp(held[k].after[0] + at, held[k].after[fill] + at, bytes);
        int kept = !memcmp(held[k].after[0] + at, held[k].lent[0] + at, bytes) && !memcmp(held[k].after[fill] + at, held[k].lent[fill] + at, bytes);
        must(alike || kept, "two calls differ");
    }
    if (fill == LONGER) must(!memcmp(held[k].after[fill] + all, held[k].lent[fill] + all, arguments[k].size - all), "the tail is written");
}

static void release(void) {
    for (size_t k = 0; k < count; k++) {
        free(held[k].given);
        for (int fill = 0; fill < FILLS; fill++) free(held[k].after[fill]), free(held[k].lent[fill]);
    }
}

static void check(const Call *call) {
    uint8_t number = made(call, 0);
    must(made(call, 1) == number, "another number from another fill");
    int longer = number != 31 && number != 24;
    if (longer) must(made(call, LONGER) == number, "another number from longer slices");
    for (size_t k = 0; k < count && !number; k++)
        if (is_written(arguments[k].kind)) compare(k, 1), compare(k, LONGER);
    calls_made[call - calls][number]++;
    reached[(call - calls) * 64 + (number < 63 ? number : 63)] = 1;
}

static void print_calls(void) {
    for (size_t k = 0; k < CALLS; k++)
        for (size_t number = 0; number < 256; number++)
            if (calls_made[k][number]) fprintf(stderr, "number %zu of %s: %lu calls\n", number, calls[k].name, calls_made[k][number]);
}

int LLVMFuzzerTestOneInput(const uint8_t *given, size_t size) {
    static int begun;
    if (!begun) begun = 1, atexit(print_calls);
    if (size < 2) return 0;
    const Call *call = calls + given[0] % CALLS;
    if (!strcmp(call->name, "answer")) return 0;
    call_name = call->name;
    data = given + 2, left = size - 2;
    take_arguments(call->kinds);
    mend(call, given[1]);
    check(call);
    release();
    return 0;
}
