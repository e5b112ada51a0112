/* Inputs without libFuzzer. See README.md.
 *   plain seeds QUESTIONS ANSWERS SCRIPTS ANSWERS FOLDER
 *                                                  makes inputs of stored questions, some of each call, type and refusal, and of stored scripts
 *   plain random SEEDS SEED COUNT QUESTIONS PROVED tries COUNT inputs, which are seeds with random changes, and writes questions and answers
 *   plain reached CORPUS                           tries a corpus, and counts the edges of the proved library that it reaches
 * The last wants a library that was compiled with counters. */
#include "plain.h"
#include "boe.h"
#include "fuzz.h"
#include <dirent.h>
#include <stdlib.h>
#include <string.h>

enum { MOST_SEEDS = 1 << 16 };

void fail(const char *what) {
    perror(what);
    exit(2);
}

FILE *file(const char *path, const char *mode) {
    FILE *opened = fopen(path, mode);
    if (!opened) fail(path);
    return opened;
}

/* ---- what is asked is written, where it is to be compared by another program */

static FILE *questions_out, *proved_out;
static unsigned long asked;

void compare(const char *questions, const char *proved) {
    asked++;
    if (!questions_out) return;
    fputs(questions, questions_out);
    fputs(proved, proved_out);
}

uint8_t input[8 * MOST_INPUT];
size_t input_len;

/* ---- a folder's inputs */

static uint8_t *held[MOST_SEEDS];
static size_t held_len[MOST_SEEDS], inputs;

/* By name, so that the same folder gives the same inputs in the same order. */
static int by_name(const struct dirent **a, const struct dirent **b) { return strcmp((*a)->d_name, (*b)->d_name); }

static void take_folder(const char *folder) {
    struct dirent **found;
    int n = scandir(folder, &found, NULL, by_name);
    if (n < 0) fail(folder);
    for (int i = 0; i < n && inputs < MOST_SEEDS; i++) {
        char path[4096];
        if (found[i]->d_name[0] == '.') continue;
        snprintf(path, sizeof path, "%s/%s", folder, found[i]->d_name);
        FILE *from = file(path, "rb");
        held_len[inputs] = fread(input, 1, MOST_INPUT, from);
        fclose(from);
        if (!(held[inputs] = malloc(held_len[inputs] + 1))) fail("malloc");
        memcpy(held[inputs], input, held_len[inputs]);
        inputs++;
    }
    if (inputs == 0) {
        fprintf(stderr, "plain: no inputs in %s\n", folder);
        exit(2);
    }
}

/* ---- random changes */

/* A message is read, or a record written, as of the other market's member: the directions of members are 0 and 2. A New Order's record may become
 * one of that market, too. */
static void change_market(void) {
    enum { DIRECTION_AT = 1, RECORD_AT = 5 };
    unsigned call = input[0] % CALLS;
    if ((call != READ && call != WRITE) || input_len <= DIRECTION_AT) return;
    input[DIRECTION_AT] ^= BOE_FROM_MEMBER ^ BOE_FROM_OPTIONS_MEMBER;
    if (call == READ || input_len <= RECORD_AT || below(2) == 0) return;
    if (input[RECORD_AT] == BOE_NEW_ORDER || input[RECORD_AT] == BOE_OPTIONS_NEW_ORDER) input[RECORD_AT] ^= BOE_NEW_ORDER ^ BOE_OPTIONS_NEW_ORDER;
}

/* One change of the input: bytes set, added to, left out, put in, taken from another seed, or the market. */
static void change(void) {
    static const uint8_t ends[] = {0x00, 0x01, 0x20, 0x41, 0x7F, 0x80, 0xBA, 0xFF};
    size_t at = below(input_len), n = 1 + below(8), from, other = below(inputs);
    if (n > input_len - at) n = input_len - at;
    switch (below(7)) {
    case 0: input[at] = (uint8_t)below(256); break;
    case 1: input[at] = ends[below(sizeof ends)]; break;
    case 2: input[at] = (uint8_t)(input[at] + 1 - 2 * (int)below(2)); break;
    case 3:
        memmove(input + at, input + at + n, input_len - at - n);
        input_len -= n;
        break;
    case 4:
        if (input_len + n > MOST_INPUT) break;
        memmove(input + at + n, input + at, input_len - at);
        for (size_t i = 0; i < n; i++) input[at + i] = (uint8_t)below(256);
        input_len += n;
        break;
    case 5:
        if (held_len[other] == 0) break;
        from = below(held_len[other]);
        n = 1 + below(held_len[other] - from);
        if (at + n > MOST_INPUT) n = MOST_INPUT - at;
        memcpy(input + at, held[other] + from, n);
        if (at + n > input_len) input_len = at + n;
        break;
    case 6: change_market(); break;
    }
}

static int try_random(unsigned long count) {
    for (unsigned long i = 0; i < count; i++) {
        size_t seed = below(inputs), call = below(CALLS);
        for (size_t tries = inputs; tries > 0 && (held_len[seed] == 0 || held[seed][0] % CALLS != call); tries--) seed = below(inputs);
        input_len = held_len[seed];
        memcpy(input, held[seed], input_len);
        for (size_t changes = below(5); changes > 0 && input_len > 0; changes--) change();
        while (call == STEPS && below(2) == 0) input_len = put_step_in(input, input_len, MOST_INPUT);
        if (below(2) == 0) mend(input, input_len);
        try_input(input, input_len);
    }
    if (fclose(questions_out) != 0 || fclose(proved_out) != 0) fail("plain");
    printf("%lu inputs tried, %lu asked\n", count, asked);
    return asked > 0 ? 0 : 1;
}

/* ---- the edges of the proved library: what clang's counters call */

static char *counters, *counters_end;

void __sanitizer_cov_8bit_counters_init(char *start, char *end);
void __sanitizer_cov_pcs_init(const uintptr_t *start, const uintptr_t *end);
void __sanitizer_cov_8bit_counters_init(char *start, char *end) {
    counters = start;
    counters_end = end;
}
void __sanitizer_cov_pcs_init(const uintptr_t *start, const uintptr_t *end) {
    (void)start;
    (void)end;
}
#define COMPARED(NAME, TYPE) \
    void NAME(TYPE a, TYPE b); \
    void NAME(TYPE a, TYPE b) { (void)a; (void)b; }
COMPARED(__sanitizer_cov_trace_cmp1, uint8_t)
COMPARED(__sanitizer_cov_trace_cmp2, uint16_t)
COMPARED(__sanitizer_cov_trace_cmp4, uint32_t)
COMPARED(__sanitizer_cov_trace_cmp8, uint64_t)
COMPARED(__sanitizer_cov_trace_const_cmp1, uint8_t)
COMPARED(__sanitizer_cov_trace_const_cmp2, uint16_t)
COMPARED(__sanitizer_cov_trace_const_cmp4, uint32_t)
COMPARED(__sanitizer_cov_trace_const_cmp8, uint64_t)
void __sanitizer_cov_trace_switch(uint64_t value, const uint64_t *cases);
void __sanitizer_cov_trace_switch(uint64_t with, const uint64_t *cases) {
    (void)with;
    (void)cases;
}

static int reached(void) {
    if (counters == counters_end) {
        fprintf(stderr, "plain: the library has no counters\n");
        return 2;
    }
    /* a counter is a byte and comes round to zero: what it has seen is taken after each input */
    size_t all = (size_t)(counters_end - counters), seen = 0;
    char *ever = calloc(all, 1);
    if (!ever) fail("calloc");
    for (size_t i = 0; i < inputs; i++) {
        memset(counters, 0, all);
        try_input(held[i], held_len[i]);
        for (size_t edge = 0; edge < all; edge++) ever[edge] |= counters[edge] != 0;
    }
    for (size_t edge = 0; edge < all; edge++) seen += (size_t)ever[edge];
    printf("%zu inputs reach %zu of %zu edges of the proved library\n", inputs, seen, all);
    free(ever);
    return 0;
}

int main(int argc, char **argv) {
    if (argc == 7 && strcmp(argv[1], "seeds") == 0) {
        unsigned long kinds, made = question_seeds(argv[2], argv[3], argv[6], &kinds), played = script_seeds(argv[4], argv[5], argv[6]);
        printf("%lu inputs of %lu kinds, and %lu of scripts\n", made, kinds, played);
        return made > 0 && played > 0 ? 0 : 1;
    }
    if (argc == 7 && strcmp(argv[1], "random") == 0) {
        take_folder(argv[2]);
        random_state = strtoull(argv[3], NULL, 10);
        questions_out = file(argv[5], "w");
        proved_out = file(argv[6], "w");
        return try_random(strtoul(argv[4], NULL, 10));
    }
    if (argc == 3 && strcmp(argv[1], "reached") == 0) {
        take_folder(argv[2]);
        return reached();
    }
    fprintf(stderr, "usage: plain seeds QUESTIONS ANSWERS SCRIPTS ANSWERS FOLDER | plain random SEEDS SEED COUNT QUESTIONS PROVED | plain reached CORPUS\n");
    return 2;
}
