// Makes the stored calls of lists (docs/REPLAY.md) and compares all that they give back: replay [--short BYTES] [--stack] [--seeds FOLDER] [LIST]...
//
// Each line is called several times, on fresh memory that is filled with NaNs of many patterns and with other numbers: as it is stored, in blocks of just that
// size (a slice of length 0 is null); between guards, in four other floating-point modes; with every slice longer (not where 31 or 24 is answered, which say what
// a longer one would change); and, where run, settings or result are words, with
// each of them a word too short. With --short lines of more bytes, and those that go on with them, are passed over; with --stack each line is called once, on a
// painted stack, and the most that each call took is printed and held to the header's; with --seeds each call is also written as an input of fuzz_calls.c. The exit status is 0 where nothing differs.
#include <pthread.h>
#include <stdio.h>
#include <stdlib.h>
#include <string.h>
#include "calls.h"

enum { TABLE = 8, GUARD = 8, MORE = 5, NUMBERS = 256, STACK = 2 << 20, SEED_MOST = 4000 };
enum { AS_STORED, GUARDED, LONGER, A_WORD_SHORT };

static _Noreturn void give_up(const char *why);

// ---- a line -------------------------------------------------------------------------------------------

// Words of a line; there is room for as many as it has bytes.
typedef struct {
    uint64_t *at;
    size_t used;
} Words;

static const char *list_name, *text;
static size_t line_at, line_length;
static Words line_words, group_words;
static Argument group[TABLE]; // the last table or job, for `~`
static int lost, lost_run;    // whether a line with one, or one that leaves a run, was passed over since
static Argument arguments[ARGUMENTS];
static size_t argument_count;

// The run and factor that the last line left.
static uint64_t run[WAGONPLAN_RUN_WORDS];
static uint64_t *factor;
static size_t factor_count;

// The runs that share turns, and their factors, as the last line left them.
typedef struct {
    uint64_t *at;
    size_t count;
} Kept;
static Kept runs, factors;

static _Noreturn void give_up(const char *why) {
    fprintf(stderr, "%s, line %zu: %s\n", list_name, line_at, why);
    exit(2);
}

static void *block_of(size_t size) {
    void *block = malloc(size ? size : 1);
    if (!block) give_up("no memory");
    return block;
}

static void room_for_line(Words *w) {
    free(w->at);
    w->at = block_of(8 * (line_length + WAGONPLAN_RUN_WORDS));
    w->used = 0;
}

static void pass_blanks(void) { text += strspn(text, " "); }
static int mark(char c) {
    pass_blanks();
    if (*text != c) return 0;
    text++;
    return 1;
}

static int digit(char c) {
    if ('0' <= c && c <= '9') return c - '0';
    return 'A' <= c && c <= 'F' ? c - 'A' + 10 : -1;
}

static uint64_t word(void) {
    uint64_t x = 0;
    pass_blanks();
    if (digit(*text) < 0) give_up("a word is missing");
    for (; digit(*text) >= 0; text++) x = x << 4 | (uint64_t)digit(*text);
    return x;
}

static const uint64_t *read_words(Words *w, size_t count) {
    uint64_t *at = w->at + w->used;
    if (line_length < w->used + count) give_up("a length is wrong");
    for (size_t k = 0; k < count; k++) at[k] = word();
    w->used += count;
    return at;
}

// Bytes, two digits each; `-` where there is none.
static const uint64_t *read_bytes(Words *w, size_t *count) {
    uint64_t *at = w->at + w->used;
    *count = 0;
    if (mark('-')) return at;
    pass_blanks();
    for (; digit(text[0]) >= 0 && digit(text[1]) >= 0; text += 2) at[(*count)++] = (uint64_t)(digit(text[0]) << 4 | digit(text[1]));
    if (*count == 0) give_up("bytes are missing");
    w->used += *count;
    return at;
}

static const uint64_t *read_slice(Words *w, char kind, size_t *count) {
    if (element(kind) == 1) return read_bytes(w, count);
    *count = word();
    return read_words(w, *count);
}

// What a line says of an argument before its `=`.
static Argument read_argument(Words *w, char kind) {
    Argument a = {.kind = kind};
    if (kind == 'n') a.words = read_words(w, 1);
    else if (is_one_of(kind, "bjhkidcZ")) a.words = read_slice(w, kind, &a.length), a.known = a.length;
    else if (kind == 'S') a.words = read_words(w, WAGONPLAN_SETTING_WORDS), a.length = a.known = WAGONPLAN_SETTING_WORDS;
    else if (is_one_of(kind, "Rr")) a.words = run, a.length = a.known = WAGONPLAN_RUN_WORDS;
    else if (is_one_of(kind, "ve")) a.length = 1;
    else if (kind == 'U') a.length = WAGONPLAN_RESULT_WORDS;
    else if (kind == 'V') a.length = WAGONPLAN_RANGED_WORDS;
    else a.length = word();
    if (is_one_of(kind, "Ff")) a.words = factor, a.known = factor_count < a.length ? factor_count : a.length;
    if (kind == 'P') a.words = runs.at, a.known = runs.count < a.length ? runs.count : a.length;
    if (kind == 'G') a.words = factors.at, a.known = factors.count < a.length ? factors.count : a.length;
    return a;
}

// A table, a sign table or a job, or the last one.
static void read_group(const char *kinds) {
    size_t count = strlen(kinds);
    if (!mark('~')) {
        lost = 0;
        room_for_line(&group_words);
        for (size_t k = 0; k < count; k++) group[k] = read_argument(&group_words, kinds[k]);
    }
    memcpy(arguments + argument_count, group, count * sizeof *group);
    argument_count += count;
}

static void read_arguments(const char *kinds) {
    argument_count = 0;
    for (; *kinds; kinds++) {
        const char *held = group_of(*kinds);
        if (held) read_group(held);
        else arguments[argument_count++] = read_argument(&line_words, *kinds);
    }
}

// What must be given back: all of an accepted call, the record of a refused job.
static void read_wanted(Argument *a, uint8_t refused) {
    if (!is_written(a->kind) || (refused && a->kind != 'A')) return;
    if (is_one_of(a->kind, "RveUV")) a->count = a->length, a->wanted = read_words(&line_words, a->count);
    else a->wanted = read_slice(&line_words, a->kind, &a->count);
    if (a->length < a->count) give_up("more is given back than there is room for");
}

// ---- memory -------------------------------------------------------------------------------------------

// Numbers that no call gives: NaNs, quiet and signalling, of both signs and with payloads, beside others; at a place they are of another kind in each of seven fills.
static uint64_t filler(size_t at, size_t fill) {
    static const uint64_t kinds[7] = {0x7FF8000000000000, 0x4321876500000000, 0x7FF0000000000000, 0xFFF8000000000000,
                                      0x0000876500000000, 0xFFF0000000000000, 0x7FFFFFFF87650000};
    return kinds[(at + fill) % 7] + 1 + at;
}

static void put(Argument *a, size_t at, uint64_t x) { memcpy(a->at + at * element(a->kind), &x, element(a->kind)); } // the low bytes of x

static uint64_t get(const Argument *a, size_t at) {
    uint64_t x = 0;
    memcpy(&x, a->at + at * element(a->kind), element(a->kind));
    return x;
}

// A refused call leaves any run and factor: there stand other doubles where none is judged.
static int is_judged(const Argument *a, size_t at) {
    if (is_one_of(a->kind, "FfG")) return 0;
    if (!is_one_of(a->kind, "RP")) return 1;
    size_t field = at % WAGONPLAN_RUN_WORDS;
    return !(5 <= field && field <= 7) && !(field == 3 && a->words[at - 1] < 3);
}

static void make(Argument *a, int trial, size_t lent, size_t fill, int others) {
    size_t guard = trial == AS_STORED ? 0 : GUARD, bytes = element(a->kind);
    a->lent = lent;
    a->size = (2 * guard + lent) * bytes;
    a->block = block_of(a->size), a->before = block_of(a->size);
    a->at = a->block + guard * bytes;
    for (size_t k = 0; k < a->size; k++) a->block[k] = (uint8_t)(bytes == 8 ? filler(k / 8, fill) >> 8 * (k % 8) : 161 + 7 * k + 13 * fill);
    for (size_t k = 0; k < a->known && k < lent; k++)
        if (!others || is_judged(a, k)) put(a, k, a->words[k]);
    memcpy(a->before, a->block, a->size);
    if (a->size == 0) a->at = NULL;
}

// ---- comparing ----------------------------------------------------------------------------------------

static int is_zero(uint64_t bits) { return bits << 1 == 0; }
static int is_nan(uint64_t bits) { return bits << 1 > (uint64_t)0x7FF << 53; }

// The doubles of run, result and answer record: zeros of either sign are equal, a NaN is 7FF8000000000000. Elsewhere all NaNs are equal too.
static int same_double(char kind, uint64_t got, uint64_t wanted) {
    return got == wanted || (is_zero(got) && is_zero(wanted)) || (is_one_of(kind, "DFGe") && is_nan(got) && is_nan(wanted));
}

static int holds_double(char kind, size_t at) {
    if (kind == 'P') kind = 'R', at %= WAGONPLAN_RUN_WORDS;
    return is_one_of(kind, "DFGe") || (kind == 'R' && (at == 3 || (5 <= at && at <= 7))) || (is_one_of(kind, "UV") && (at == 4 || at == 5));
}

// Whether the eight bytes from here are a double of the answer record, zero in both.
static int zeros_at(const Argument *a, size_t at) {
    uint64_t got = 0, wanted = 0;
    if ((at != WAGONPLAN_AT_RELAXED && at != WAGONPLAN_AT_BOUND) || a->count < WAGONPLAN_AT_CHOICE) return 0;
    for (size_t k = at; k < at + 8; k++) got = got << 8 | get(a, k), wanted = wanted << 8 | a->wanted[k];
    return is_zero(got) && is_zero(wanted);
}

static const char *fault_of(Argument *a, uint8_t refused) {
    size_t bytes = element(a->kind), written = a->count, scratch = a->kind == 'W' ? WAGONPLAN_WORKSPACE : a->kind == 'w' ? WAGONPLAN_SEARCH_WORKSPACE : 0;
    for (size_t k = 0; k < a->count; k++) {
        if (a->kind == 'A' && zeros_at(a, k)) k += 7;
        else if (holds_double(a->kind, k) ? !same_double(a->kind, get(a, k), a->wanted[k]) : get(a, k) != a->wanted[k]) return "another value is written";
    }
    if (scratch && !refused) written = a->lent < scratch ? a->lent : scratch;
    if (a->at) memcpy(a->before + (a->at - a->block), a->at, written * bytes);
    if (memcmp(a->block, a->before, a->size)) return "something is written that must stay";
    return 0;
}

// ---- a call -------------------------------------------------------------------------------------------

static size_t made;
static int on_stack; // --stack
static size_t stack_of[CALLS];
static uint8_t *stack;

typedef struct {
    uint8_t (*call)(Argument *);
    uint8_t number;
} OnThread;

static void *on_thread(void *given) {
    OnThread *t = given;
    t->number = t->call(arguments);
    return given;
}

// The call on a thread whose stack is painted: the lowest byte that changed tells how much it took.
static uint8_t painted(uint8_t (*call)(Argument *), size_t *most) {
    OnThread made = {call, 0};
    pthread_attr_t attributes;
    pthread_t thread;
    size_t low = 0;
    uint8_t paint = line_at % 2 ? 0xA5 : 0x5A;
    memset(stack, paint, STACK);
    pthread_attr_init(&attributes);
    if (pthread_attr_setstack(&attributes, stack, STACK) || pthread_create(&thread, &attributes, on_thread, &made)) give_up("no thread");
    pthread_join(thread, 0);
    while (low < STACK && stack[low] == paint) low++;
    if (*most < STACK - low) *most = STACK - low;
    return made.number;
}

// Rounding down, up, toward zero, to nearest; subnormals flushed, some flags set.
static const unsigned odd_modes[] = {0xBFE1, 0xDFD4, 0xFFE1, 0x9FC0};
enum { ODD_MODES = sizeof odd_modes / sizeof *odd_modes };
static size_t odd_mode;

// The call in this mode, which must stand afterwards; `stands` says whether it does. Where the machine doesn't keep the mode as set, what it keeps counts.
static uint8_t in_mode(unsigned mode, uint8_t (*call)(Argument *), int *stands) {
    unsigned before = _mm_getcsr(), kept;
    uint8_t got;
    _mm_setcsr(mode);
    kept = _mm_getcsr();
    got = call(arguments);
    *stands = _mm_getcsr() == kept;
    _mm_setcsr(before);
    return got;
}

// Guarded, in an odd mode; a raw function, which sets no mode, in IEEE's; otherwise in the mode that this program was started in.
static uint8_t called(const Call *call, int trial, int *stands) {
    int as_raw = trial >= LONGER && call->raw;
    uint8_t (*made)(Argument *) = as_raw ? call->raw : call->call;
    if (on_stack) return painted(made, stack_of + (call - calls));
    if (trial == GUARDED) return in_mode(odd_modes[odd_mode], made, stands);
    if (as_raw) return in_mode(WAGONPLAN_IEEE_MODE, made, &(int){0});
    return in_mode(_mm_getcsr(), made, stands);
}

static int differs(size_t k, const char *what) {
    printf("%s, line %zu: ", list_name, line_at);
    if (k < argument_count) printf("argument %zu (%c): ", k + 1, arguments[k].kind);
    printf("%s\n", what);
    return 1;
}

static const char *seeds; // --seeds

// The bytes of an argument as fuzz_calls.c reads it.
static size_t seed_bytes(const Argument *a) { return a->kind == 'n' ? 8 : 2 + a->length * (is_one_of(a->kind, "bhkidcZSRrFfPG") ? element(a->kind) : 0); }

// The arguments as it reads them, where they aren't many and the call isn't the record call.
static void write_seed(const Call *call) {
    char name[4096];
    size_t bytes = 2;
    for (size_t k = 0; k < argument_count; k++) bytes += seed_bytes(arguments + k);
    if (SEED_MOST < bytes || arguments[0].kind == 'j') return;
    snprintf(name, sizeof name, "%s/%s-%zu-%zu", seeds, call->name, made, line_at);
    FILE *to = fopen(name, "wb");
    if (!to) give_up("no seed can be written");
    fputc((int)(call - calls), to), fputc(0, to);
    for (size_t k = 0; k < argument_count; k++) {
        const Argument *a = arguments + k;
        uint16_t length = (uint16_t)a->length;
        if (a->kind == 'n') fwrite(a->words, 8, 1, to);
        else if (!is_one_of(a->kind, "ve")) fwrite(&length, 2, 1, to);
        if (is_one_of(a->kind, "bhkidcZSRrFfPG") && a->length) fwrite(a->at, element(a->kind), a->length, to);
    }
    fclose(to);
}

// The call once; 1 where something differs. Argument `cut`, if there is one, is a word too short.
static int tried(const Call *call, int trial, uint8_t wanted, size_t cut) {
    int bad = 0, stands = 1;
    uint8_t got;
    for (size_t k = 0; k < argument_count; k++) {
        Argument *a = arguments + k;
        size_t lent = a->length + (trial == LONGER && grows(a->kind) ? MORE : 0) - (k == cut);
        make(a, trial, lent, line_at + (size_t)trial, wanted != 0 && trial != AS_STORED);
    }
    if (seeds && trial == AS_STORED) write_seed(call);
    got = called(call, trial, &stands);
    if (got != wanted) bad |= differs(argument_count, "another number is answered");
    if (!stands) bad |= differs(argument_count, "the floating-point mode is another");
    for (size_t k = 0; k < argument_count; k++) {
        const char *fault = got == wanted ? fault_of(arguments + k, wanted) : 0;
        if (fault) bad |= differs(k, fault);
    }
    return bad;
}

static void free_memory(void) {
    for (size_t k = 0; k < argument_count; k++) free(arguments[k].block), free(arguments[k].before);
}

// Runs and factors go on as the call left them, or, where it differed, as they should be.
static void go_on(const Argument *a, int bad) {
    if (a->count == 0 || !is_one_of(a->kind, "RFPG")) return;
    if (is_one_of(a->kind, "PG")) {
        Kept *kept = a->kind == 'P' ? &runs : &factors;
        for (size_t k = 0; k < a->count && k < kept->count; k++) kept->at[k] = bad ? a->wanted[k] : get(a, k);
        return;
    }
    uint64_t *to = a->kind == 'R' ? run : (factor = realloc(factor, 8 * a->count));
    if (!to) give_up("no memory");
    for (size_t k = 0; k < a->count; k++) to[k] = bad ? a->wanted[k] : get(a, k);
    if (a->kind == 'F') factor_count = a->count;
}

// What is lent a word too short is 31; before it come the two numbers that a turn is judged by first.
static int with_a_word_short(const Call *call, uint8_t wanted) {
    Argument kept[ARGUMENTS];
    int bad = 0;
    memcpy(kept, arguments, sizeof kept);
    for (size_t k = 0; k < argument_count; k++) arguments[k].count = 0;
    for (size_t k = 0; k < argument_count; k++) {
        if (!is_one_of(arguments[k].kind, "RrSUVPZ") || arguments[k].length == 0) continue;
        bad |= tried(call, A_WORD_SHORT, wanted == 25 || wanted == 26 ? wanted : 31, k);
        free_memory();
    }
    memcpy(arguments, kept, sizeof kept);
    return bad;
}

static int replayed(const Call *call, uint8_t wanted) {
    int bad = 0;
    if (!on_stack) {
        for (odd_mode = 0; odd_mode < ODD_MODES; odd_mode++) bad |= tried(call, GUARDED, wanted, ARGUMENTS), free_memory();
        if (wanted != 31 && wanted != 24) bad |= tried(call, LONGER, wanted, ARGUMENTS), free_memory();
        if (call->raw) bad |= with_a_word_short(call, wanted);
    }
    bad |= tried(call, AS_STORED, wanted, ARGUMENTS);
    for (size_t k = 0; k < argument_count; k++) go_on(arguments + k, bad);
    free_memory();
    return bad;
}

// ---- lists --------------------------------------------------------------------------------------------

static size_t differences, counts[CALLS][NUMBERS];

static const Call *named(const char *name, size_t length) {
    for (size_t k = 0; k < CALLS; k++)
        if (strlen(calls[k].name) == length && !memcmp(calls[k].name, name, length)) return calls + k;
    give_up("no call has this name");
}

// `run`, thirteen words and a factor: what the next line goes on with.
static void set_run(void) {
    size_t count;
    memcpy(run, read_words(&line_words, WAGONPLAN_RUN_WORDS), sizeof run);
    const uint64_t *words = read_slice(&line_words, 'F', &count);
    free(factor);
    factor = block_of(8 * count);
    memcpy(factor, words, 8 * count);
    factor_count = count;
}

static void keep(Kept *kept) {
    const uint64_t *words = read_slice(&line_words, 'F', &kept->count);
    free(kept->at);
    kept->at = block_of(8 * kept->count);
    memcpy(kept->at, words, 8 * kept->count);
}

static void replay_line(const char *line) {
    size_t length = strcspn(line, " ");
    room_for_line(&line_words);
    text = line + length;
    if (length == 3 && !memcmp(line, "run", 3)) {
        set_run();
    } else if (length == 4 && !memcmp(line, "runs", 4)) {
        keep(&runs), keep(&factors); // what the next turn goes on with
    } else {
        const Call *call = named(line, length);
        read_arguments(call->kinds);
        if (!mark('=')) give_up("a word too many");
        uint64_t wanted = word();
        if (NUMBERS <= wanted) give_up("no such number");
        for (size_t k = 0; k < argument_count; k++) read_wanted(arguments + k, (uint8_t)wanted);
        made++, counts[call - calls][wanted]++;
        differences += (size_t)replayed(call, (uint8_t)wanted);
    }
    pass_blanks();
    if (*text) give_up("a word too many");
}

static int begins(const char *line, const char *name) { return !strncmp(line, name, strlen(name)); }

// Passes over a line that is too long, or that goes on with one that was: by its table or job, or by the run.
static int passed_over(const char *line, size_t longest) {
    int leans = strstr(line, " ~ ") != 0, of_run = begins(line, "sweep ") || begins(line, "exchange") || begins(line, "finish") || begins(line, "turn ");
    int passed = longest < line_length || (lost && leans) || (lost_run && of_run);
    if (passed && !leans) lost = 1;
    if (begins(line, "open ") || begins(line, "run ") || begins(line, "runs ")) lost_run = passed;
    else if (passed && of_run) lost_run = 1;
    return passed;
}

static void replay_list(FILE *list, size_t longest) {
    char *line = 0;
    size_t room = 0;
    ssize_t length;
    for (line_at = 1; (length = getline(&line, &room, list)) > 0; line_at++) {
        line[strcspn(line, "\n")] = 0;
        if (!*line || *line == '#') continue;
        line_length = (size_t)length;
        if (!passed_over(line, longest)) replay_line(line);
    }
    free(line);
}

static void print_counts(void) {
    for (size_t k = 0; k < CALLS; k++) {
        const char *before = ": ";
        for (size_t n = 0; n < NUMBERS; n++) {
            if (!counts[k][n]) continue;
            printf("%s%s%zu by %zu", *before == ':' ? calls[k].name : "", before, counts[k][n], n);
            before = ", ";
        }
        if (*before == ',') printf("%s", on_stack ? ", " : "\n");
        if (*before == ',' && on_stack) printf("at most %zu bytes of stack\n", stack_of[k]);
        if (WAGONPLAN_STACK < stack_of[k]) differences++, printf("%s takes more stack than the header says\n", calls[k].name);
    }
    printf("calls %zu, differences %zu\n", made, differences);
}

int main(int argc, char **argv) {
    size_t longest = (size_t)-1;
    int at = 1;
    for (; at < argc && !strncmp(argv[at], "--", 2); at++) {
        if (!strcmp(argv[at], "--stack")) on_stack = 1, stack = aligned_alloc(4096, STACK);
        else if (!strcmp(argv[at], "--seeds") && at + 1 < argc) seeds = argv[++at];
        else if (!strcmp(argv[at], "--short") && at + 1 < argc) longest = strtoul(argv[++at], 0, 10);
        else return fprintf(stderr, "replay [--short BYTES] [--stack] [--seeds FOLDER] [LIST]...\n"), 2;
    }
    list_name = "standard input";
    if (!wagonplan_fits()) give_up("the archive is of another header");
#ifdef __FAST_MATH__
    if ((_mm_getcsr() & 0x8040) != 0x8040) give_up("not linked with -ffast-math: subnormals are kept");
#endif
    if (at == argc) replay_list(stdin, longest);
    for (; at < argc; at++) {
        FILE *list = fopen(list_name = argv[at], "r");
        if (!list) give_up("it can't be read");
        replay_list(list, longest);
        fclose(list);
    }
    print_counts();
    free(line_words.at), free(group_words.at), free(factor), free(runs.at), free(factors.at), free(stack);
    return made == 0 || differences != 0;
}
