// For libFuzzer: the record call on any bytes (tests/fuzz.sh). The first byte of an input says how slices are lent, the rest is the job. Each slice
// stands against a page that may not be touched, at its end or at its start. Checked are the number, the bytes that must stay, and of an accepted
// job the figures that can be worked out from the record: cost by the whole table, floor, rounds, that pinned wagons stay in their stores, and that
// no other choice of one wagon that isn't pinned costs less, nor that of all of them.
#include <stdio.h>
#include <stdlib.h>
#include <sys/mman.h>
#include <unistd.h>
#include "wagonplan.h"

enum { PAGE = 4096, ROOM = 20 * PAGE, SHORT_ANSWER = 6, SHORT_WORKSPACE = 7, UNWRITTEN = 0xA5 };
static uint8_t *job_room, *workspace_room, *answer_room;
static unsigned long calls[32]; // by number

// What an input reached, beside the coverage of the archive, so that libFuzzer keeps inputs whose answers differ in kind.
__attribute__((section("__libfuzzer_extra_counters"), used)) static uint8_t reached[4096];

static void must(int holds, const char *what) {
    if (holds) return;
    fprintf(stderr, "broken: %s\n", what);
    abort();
}

// Writable bytes between two pages that may not be touched.
static uint8_t *guarded(void) {
    uint8_t *all = mmap(0, ROOM + 2 * PAGE, PROT_NONE, MAP_PRIVATE | MAP_ANONYMOUS, -1, 0);
    must(all != MAP_FAILED && mprotect(all + PAGE, ROOM, PROT_READ | PROT_WRITE) == 0, "no memory");
    return all + PAGE;
}

static uint8_t *slice(uint8_t *room, size_t length, int at_start) { return at_start ? room : room + ROOM - length; }

static int unwritten(const uint8_t *bytes, size_t from, size_t to) {
    while (from < to && bytes[from] == UNWRITTEN) from++;
    return from == to;
}

static uint8_t answered(const uint8_t *job, size_t length, uint8_t *workspace, size_t workspace_len, uint8_t *answer, size_t answer_len) {
    wagonplan_u8 lent = {job, length};
    wagonplan_u8_mut room = {workspace, workspace_len}, written = {answer, answer_len};
    return wagonplan_answer(lent, room, written);
}

static uint64_t number_at(const uint8_t *bytes, size_t at, size_t count) {
    uint64_t x = 0;
    for (size_t k = 0; k < count; k++) x = x << 8 | bytes[at + k];
    return x;
}

static int64_t whole_at(const uint8_t *bytes, size_t at) { return (int64_t)number_at(bytes, at, 8); }

// Where the costs stand in a job, its pins (from version 2 on: their count, then wagon and store of each), and its rank; the limit of sweeps stands 10 bytes
// behind the rank, W 34, the start 35.
static size_t costs_at(const uint8_t *job) { return 8 + 10 * number_at(job, 6, 2); }
static size_t pins_at(const uint8_t *job) { return costs_at(job) + 8 * (size_t)job[5]; }
static size_t pins_of(const uint8_t *job) { return job[4] > 1 ? job[pins_at(job)] : 0; }
static size_t rank_at(const uint8_t *job) { return pins_at(job) + (job[4] > 1 ? 1 + 2 * pins_of(job) : 0); }

// A limit of millions of sweeps would be kept to, so it is made small.
static void few_sweeps(uint8_t *job, size_t length) {
    if (length < 8 || length <= pins_at(job) || length < rank_at(job) + 14) return;
    uint8_t *most = job + rank_at(job) + 10;
    if (number_at(most, 0, 4) > 50) most[0] = most[1] = most[2] = 0, most[3] %= 50;
}

// Eighths: 4 b·H·b + 8 c·b.
static int64_t cost(const uint8_t *job, const uint8_t *b) {
    int64_t sum = 0;
    for (size_t at = 8; at < costs_at(job); at += 10)
        if (b[job[at]] && b[job[at + 1]]) sum += 4 * whole_at(job, at + 2);
    for (size_t i = 0; i < job[5]; i++)
        if (b[i]) sum += 8 * whole_at(job, costs_at(job) + 8 * i);
    return sum;
}

// Each pinned wagon is in its store; all of them are marked.
static void check_pins(const uint8_t *job, const uint8_t *b, uint8_t *pinned) {
    const uint8_t *pin = job + pins_at(job) + 1;
    for (size_t k = 0; k < pins_of(job); k++, pin += 2) {
        must(pin[0] < job[5] && pin[1] <= 1 && !pinned[pin[0]], "a pin that is accepted");
        must(b[pin[0]] == pin[1], "a pinned wagon stays in its store");
        pinned[pin[0]] = 1;
    }
}

// Where all wagons are pinned their cost is floor and cost, and no round is made.
static void check_still(const uint8_t *answer) {
    must(memcmp(answer + WAGONPLAN_AT_FLOOR, answer + WAGONPLAN_AT_COST, 8) == 0, "all pinned: the floor is the cost");
    must(memcmp(answer + WAGONPLAN_AT_ROUNDED_COST, answer + WAGONPLAN_AT_COST, 8) == 0, "all pinned: the rounded cost is the cost");
    must(number_at(answer, WAGONPLAN_AT_ROUNDS, 8) == 0, "all pinned: no round");
}

static void check_accepted(const uint8_t *job, const uint8_t *answer) {
    size_t n = job[5], width = job[rank_at(job) + 34];
    int64_t floor = whole_at(answer, WAGONPLAN_AT_FLOOR), rounded = whole_at(answer, WAGONPLAN_AT_ROUNDED_COST), own = whole_at(answer, WAGONPLAN_AT_COST);
    uint64_t rounds = number_at(answer, WAGONPLAN_AT_ROUNDS, 8);
    uint8_t b[WAGONPLAN_WAGONS_MOST + 1], pinned[256] = {0};
    must(job[4] == 3 || ((job[4] == 1 || job[4] == 2) && n <= 127), "a version that is known, with no more wagons than it has");
    must(number_at(answer, 0, 4) == 56 + n && answer[4] == 1 && answer[WAGONPLAN_AT_WAGONS] == n, "length, version, n");
    must(answer[WAGONPLAN_AT_STATUS] <= 2 && 1 <= answer[WAGONPLAN_AT_RANK] && answer[WAGONPLAN_AT_RANK] <= 32, "status, rank");
    memcpy(b, answer + WAGONPLAN_AT_CHOICE, n);
    for (size_t i = 0; i < n; i++) must(b[i] <= 1, "a byte of the choice");
    must(cost(job, b) == own, "the cost is the choice's own");
    must(floor <= own && own <= rounded, "floor, cost, rounded cost");
    must(4 * rounds <= (uint64_t)(rounded - own), "rounds within the fall");
    check_pins(job, b, pinned);
    if (pins_of(job) == n) check_still(answer);
    for (size_t i = 0; i < n && width > 0; i++) {
        b[i] ^= !pinned[i];
        must(own <= cost(job, b), "no other choice of one wagon costs less");
        b[i] ^= !pinned[i];
    }
    for (size_t i = 0; i < n; i++) b[i] ^= !pinned[i];
    must(width == 0 || own <= cost(job, b), "the other choice of all wagons doesn't cost less");
    reached[2400 + (job[4] > 1 ? 1 + pins_of(job) : 0)] = 1;
    reached[256 + answer[WAGONPLAN_AT_STATUS]] = reached[300 + answer[WAGONPLAN_AT_RANK]] = reached[400 + n] = 1;
    reached[700 + (rounds < 200 ? rounds : 200)] = reached[1000 + job[rank_at(job) + 1] * 256 + job[rank_at(job) + 35]] = 1;
}

static void check_call(const uint8_t *job, size_t length, uint8_t flags, uint8_t *first) {
    static const size_t longer[] = {0, 0, 1, 300};
    size_t more = longer[flags >> 5 & 3];
    size_t workspace_len = (flags & 7) == SHORT_WORKSPACE ? WAGONPLAN_WORKSPACE - 1 - more : WAGONPLAN_WORKSPACE + more;
    size_t answer_len = (flags & 7) == SHORT_ANSWER ? (WAGONPLAN_ANSWER - 1) / (1 + more) : WAGONPLAN_ANSWER + more;
    uint8_t *workspace = slice(workspace_room, workspace_len, flags & 16), *answer = slice(answer_room, answer_len, flags & 16);
    memset(workspace, UNWRITTEN, workspace_len);
    memset(answer, UNWRITTEN, answer_len);
    uint8_t number = answered(job, length, workspace, workspace_len, answer, answer_len);
    must((number == 31) == ((flags & 7) >= SHORT_ANSWER), "31 where a slice is too short, and only there");
    must(number == 0 || number == 31 || number == 21 || (11 <= number && number <= 19), "the number");
    must(number != 21 || job[4] == 2 || job[4] == 3, "21 in versions 2 and 3 alone");
    reached[number] = 1, calls[number]++;
    size_t written = number == 31 ? 0 : number ? WAGONPLAN_REFUSAL : WAGONPLAN_AT_CHOICE + (size_t)answer[WAGONPLAN_AT_WAGONS];
    must(written <= answer_len && unwritten(answer, written, answer_len), "the rest of the answer slice is kept");
    must(unwritten(workspace, number ? 0 : WAGONPLAN_WORKSPACE, workspace_len), "the workspace of a refusal is kept, and behind its size");
    if (number && written) must(number_at(answer, 0, 4) == 2 && answer[4] == 1 && answer[5] == number, "the refusal's bytes");
    if (number) return;
    check_accepted(job, answer);
    memcpy(first, answer, written);
    memset(workspace, 0xFF, workspace_len);
    answered(job, length, workspace, workspace_len, answer, answer_len);
    must(memcmp(first, answer, written) == 0, "the same answer from another workspace");
}

static void print_calls(void) {
    for (int k = 0; k < 32; k++)
        if (calls[k]) fprintf(stderr, "number %d: %lu calls\n", k, calls[k]);
}

int LLVMFuzzerTestOneInput(const uint8_t *data, size_t size) {
    static uint8_t copy[ROOM], first[WAGONPLAN_ANSWER];
    if (!job_room) job_room = guarded(), workspace_room = guarded(), answer_room = guarded(), atexit(print_calls);
    if (size < 1 || ROOM < size) return 0;
    uint8_t flags = data[0];
    size_t length = size - 1;
    uint8_t *job = slice(job_room, length, flags & 16);
    memcpy(job, data + 1, length);
    few_sweeps(job, length);
    if (flags & 8 && length >= 4)
        for (int k = 0; k < 4; k++) job[k] = (uint8_t)((length - 4) >> (24 - 8 * k));
    memcpy(copy, job, length);
    check_call(job, length, flags, first);
    must(memcmp(copy, job, length) == 0, "the job is kept");
    return 0;
}
