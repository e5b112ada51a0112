/* Checks the C entry points: hand-made cases, every stored question on framing, table steps, reading, writing, the day book and the last message of a
 * unit in it, every field by its name, and the stored scripts of the session and the bench venue.
 * usage: test_gateway QUESTIONS ANSWERS SCRIPTS ANSWERS */
#include "test_gateway.h"

#include <stdlib.h>
#include <string.h>

static unsigned long checks, failures;

void check(int ok, const char *what) {
    checks++;
    if (!ok) {
        failures++;
        printf("test_gateway: FAILED: %s\n", what);
    }
}

void check_answer(unsigned long line, const char *expected, const char *got) {
    checks++;
    if (strcmp(got, expected) != 0) {
        failures++;
        printf("test_gateway: FAILED: line %lu: expected %.80s, got %.80s\n", line, expected, got);
    }
}

uint32_t number_at(const uint8_t *p) {
    return p[0] | (uint32_t)p[1] << 8 | (uint32_t)p[2] << 16 | (uint32_t)p[3] << 24;
}

void put(uint8_t *at, unsigned len, uint64_t value) {
    for (unsigned i = 0; i < len; i++, value >>= 8) at[i] = (uint8_t)value;
}

uint32_t entry(const uint8_t *table, unsigned unit) {
    return number_at(table + 4 * (unit - 1));
}

size_t record_len(uint8_t type) {
    switch (type) {
    case BOE_NEW_ORDER:
    case BOE_OPTIONS_NEW_ORDER:
    case BOE_CANCEL_ORDER:
    case BOE_MODIFY_ORDER:
    case BOE_PURGE_ORDERS:
    case BOE_ACKNOWLEDGMENT:
    case BOE_EXECUTION:
    case BOE_REJECTION:
    case BOE_CANCEL_REJECTION:
    case BOE_MODIFY_REJECTION:
        return BOE_ORDER_RECORD_LEN;
    default:
        return BOE_RECORD_LEN;
    }
}

int all_are(const uint8_t *bytes, size_t len, uint8_t byte) {
    for (size_t i = 0; i < len; i++)
        if (bytes[i] != byte) return 0;
    return 1;
}

int same_bytes(const uint8_t *a, const uint8_t *b, size_t n) { return memcmp(a, b, n) == 0; }

uint32_t refused_at(enum boe_refusal number, unsigned place) { return number + 256u * place; }

static const char digits[] = "0123456789ABCDEF";

long bytes_of(const char *word, uint8_t *out, size_t most) {
    size_t n = strlen(word);
    if (strcmp(word, "-") == 0) return 0;
    if (n == 0 || n % 2 || n / 2 > most || strspn(word, digits) != n) return -1;
    for (size_t i = 0; i < n; i += 2) out[i / 2] = (uint8_t)(16 * (strchr(digits, word[i]) - digits) + (strchr(digits, word[i + 1]) - digits));
    return (long)(n / 2);
}

int hex_word(const uint8_t *bytes, size_t n, char *out) {
    if (n == 0) return sprintf(out, "-");
    for (size_t i = 0; i < n; i++) {
        out[2 * i] = digits[bytes[i] / 16];
        out[2 * i + 1] = digits[bytes[i] % 16];
    }
    out[2 * n] = 0;
    return (int)(2 * n);
}

int refusal_word(uint32_t refusal, char *out) { return sprintf(out, BOE_PLACE(refusal) ? "%u@%u" : "%u", BOE_NUMBER(refusal), BOE_PLACE(refusal)); }

static FILE *opened(const char *path) {
    FILE *file = fopen(path, "r");
    if (file) return file;
    perror(path);
    exit(2);
}

int main(int argc, char **argv) {
    if (argc != 5) {
        fprintf(stderr, "usage: test_gateway QUESTIONS ANSWERS SCRIPTS ANSWERS\n");
        return 2;
    }
    FILE *questions = opened(argv[1]), *answers = opened(argv[2]), *scripts = opened(argv[3]), *told = opened(argv[4]);
    hand_made_cases();
    last_messages();
    stored_questions(questions, answers);
    fields_by_name(questions, answers);
    pulse_and_version();
    stored_scripts(scripts, told);
    printf("test_gateway: %lu checks, %lu failed\n", checks, failures);
    return failures == 0 ? 0 : 1;
}
