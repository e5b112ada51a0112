/* The stored questions that a C entry point answers. */
#include "test_gateway.h"

#include <stdlib.h>
#include <string.h>

enum { LONGEST = 13000, MOST_BYTES = 6200 };

static int nibble(int c) {
    if (c >= '0' && c <= '9') return c - '0';
    if (c >= 'A' && c <= 'F') return c - 'A' + 10;
    return -1;
}

/* The bytes of a word, or -1 where it is none. */
static long unhex(const char *word, uint8_t *out) {
    size_t n = strlen(word);
    if (strcmp(word, "-") == 0) return 0;
    if (n == 0 || n % 2 || n / 2 > MOST_BYTES) return -1;
    for (size_t i = 0; i < n; i += 2) {
        int high = nibble(word[i]), low = nibble(word[i + 1]);
        if (high < 0 || low < 0) return -1;
        out[i / 2] = (uint8_t)(high * 16 + low);
    }
    return (long)(n / 2);
}

static void tohex(const uint8_t *bytes, long n, char *out) {
    static const char digits[] = "0123456789ABCDEF";
    if (n == 0) *out++ = '-';
    for (long i = 0; i < n; i++) {
        *out++ = digits[bytes[i] / 16];
        *out++ = digits[bytes[i] % 16];
    }
    *out = 0;
}

/* A refusal as the answers have it: its number, and after an @ its place where it has one. The text stays until the next is made. */
static const char *told(uint32_t refusal) {
    static char text[24];
    sprintf(text, BOE_PLACE(refusal) ? "%u@%u" : "%u", BOE_NUMBER(refusal), BOE_PLACE(refusal));
    return text;
}

/* A book restarted for a date, in a buffer with `room` bytes FF after it. */
static uint32_t restarted(const char *date, const uint8_t *book, size_t n, struct boe_state *state, uint8_t *buffer, size_t room) {
    memcpy(buffer, book, n);
    memset(buffer + n, 0xFF, room);
    memset(state, 0x5A, sizeof *state);
    return boe_restart((uint32_t)strtoul(date, NULL, 10), buffer, n, state, sizeof *state);
}

/* How many questions asked for the last message of a unit and were answered one. */
static unsigned long lasts;

/* The last message of a unit as an answer has it: the refusal, its place and its bytes. */
static int told_last(const char *unit, const uint8_t *book, size_t n, const struct boe_state *state, size_t state_len, char *out) {
    static char hex[2 * MOST_BYTES + 2];
    uint8_t of = (uint8_t)atoi(unit);
    uint32_t refusal = boe_last_refusal(of, book, n, state, state_len);
    size_t at = boe_last_at(of, book, n, state, state_len), length = boe_last_length(of, book, n, state, state_len);
    lasts += refusal == 0;
    if (at > n || length > n - at) return sprintf(out, "a message past the book");
    tohex(book + at, (long)length, hex);
    return sprintf(out, "%s %zu %s", told(refusal), at, hex);
}

/* What the C entry points answer to a question for the last message of a unit, or 0 where it is none. */
static int last_answer(const char *call, const char *first, const char *unit, const char *book, char *out) {
    static uint8_t bytes[MOST_BYTES], given[MOST_BYTES], buffer[MOST_BYTES];
    struct boe_state state;
    int of_state = strcmp(call, "last-state") == 0;
    if (!of_state && strcmp(call, "last") != 0) return 0;
    long n = book ? unhex(book, bytes) : -1, k = of_state ? unhex(first, given) : 0;
    if (n < 0 || k < 0) return 0;
    if (of_state) return told_last(unit, bytes, (size_t)n, (struct boe_state *)given, (size_t)k, out);
    uint32_t refusal = restarted(first, bytes, (size_t)n, &state, buffer, 0);
    int told_first = sprintf(out, "%s", told(refusal));
    if (refusal) return told_first;
    out[told_first] = ' ';
    return told_last(unit, buffer, (size_t)n, &state, sizeof state, out + told_first + 1);
}

/* What the C entry points answer to a question on the day book, or 0 where it is none. */
static int book_answer(const char *call, const char *date, const char *book, const char *third, const char *fourth, char *out) {
    static uint8_t bytes[MOST_BYTES], given[MOST_BYTES], buffer[2 * MOST_BYTES];
    static char hex[2 * MOST_BYTES + 2], places[2 * BOE_TABLE_BYTES + 1];
    struct boe_state state;
    long n = book ? unhex(book, bytes) : -1;
    size_t room = third ? strtoul(third, NULL, 10) : 0;
    if (n < 0 || (size_t)n + room > MOST_BYTES) return 0;
    size_t end = (size_t)n + room;
    if (strcmp(call, "open") == 0 && !third) {
        uint32_t refusal = boe_book_open((uint32_t)strtoul(date, NULL, 10), bytes, (size_t)n, &state, sizeof state);
        tohex(bytes, n, hex);
        sprintf(out, "%s %s", told(refusal), hex);
        return 1;
    }
    if (strcmp(call, "restart") == 0 && !third) {
        uint32_t refusal = restarted(date, bytes, (size_t)n, &state, buffer, 0);
        tohex(state.bytes + BOE_STATE_TABLE_AT, BOE_TABLE_BYTES, hex);
        tohex(state.bytes + BOE_STATE_PLACES_AT, BOE_TABLE_BYTES, places);
        if (refusal)
            sprintf(out, all_are(state.bytes, sizeof state, 0x5A) ? "%s" : "a refused restart has stored: %s", told(refusal));
        else
            sprintf(out, "0 %lu %lu %lu %s %s", (unsigned long)number_at(state.bytes + BOE_STATE_LENGTH_AT), (unsigned long)number_at(state.bytes + BOE_STATE_LAST_MARK_AT),
                    (unsigned long)number_at(state.bytes + BOE_STATE_MESSAGES_AT), hex, places);
        return 1;
    }
    if (strcmp(call, "append") == 0 && fourth) {
        long k = unhex(fourth, given);
        if (k < 0) return 0;
        uint32_t refusal = restarted(date, bytes, (size_t)n, &state, buffer, room);
        if (refusal) return sprintf(out, "%s", told(refusal));
        refusal = boe_book_append(given, (size_t)k, buffer, end, &state, sizeof state);
        tohex(buffer, (long)end, hex);
        sprintf(out, "0 %s %lu %s", told(refusal), (unsigned long)number_at(state.bytes + BOE_STATE_LENGTH_AT), hex);
        return 1;
    }
    if (strcmp(call, "close") == 0 && third && !fourth) {
        uint32_t refusal = restarted(date, bytes, (size_t)n, &state, buffer, room);
        if (refusal) return sprintf(out, "%s", told(refusal));
        refusal = boe_book_close(buffer, end, &state, sizeof state);
        tohex(buffer, (long)end, hex);
        sprintf(out, "%s %lu %s", told(refusal), (unsigned long)number_at(state.bytes + BOE_STATE_LENGTH_AT), hex);
        return 1;
    }
    return 0;
}

/* How many questions asked for a type's fate. */
static unsigned long fates;

/* What the C entry points answer to a question, or 0 where they answer no such question. */
static int answer(char *question, char *out) {
    static uint8_t bytes[MOST_BYTES];
    static char hex[2 * MOST_BYTES + 2];
    char *call = strtok(question, " "), *first = strtok(NULL, " "), *second = strtok(NULL, " "), *third = strtok(NULL, " ");
    char *fourth = strtok(NULL, " ");
    if (!call || !first || (fourth && strtok(NULL, " "))) return 0;
    if (second && !fourth && last_answer(call, first, second, third, out)) return 1;
    if (book_answer(call, first, second, third, fourth, out)) return 1;
    if (strcmp(call, "told") == 0 && !second) {
        fates++;
        sprintf(out, "%u", boe_told((uint8_t)atoi(first)));
        return 1;
    }
    if (strcmp(call, "frame") == 0) {
        long n = unhex(first, bytes);
        if (n < 0 || second) return 0;
        size_t total = boe_frame_length(bytes, (size_t)n);
        uint32_t refusal = boe_frame_refusal(bytes, (size_t)n);
        if (refusal == 0)
            sprintf(out, "0 %zu %u %u %lu", total, bytes[4], bytes[5], (unsigned long)number_at(bytes + 6));
        else
            sprintf(out, total == 0 ? "%s" : "a refused message has a length: %s", told(refusal));
        return 1;
    }
    if (strcmp(call, "step") == 0 && second && third && !fourth) {
        long n = unhex(first, bytes);
        if (n < 0) return 0;
        uint32_t refusal = boe_table_step((uint8_t)atoi(second), (uint32_t)strtoul(third, NULL, 10), bytes, (size_t)n);
        tohex(bytes, n, hex);
        sprintf(out, "%s %s", told(refusal), hex);
        return 1;
    }
    if (strcmp(call, "read") == 0 && second && !third) {
        uint8_t record[BOE_RECORD_LEN + 1];
        long n = unhex(second, bytes);
        if (n < 0) return 0;
        memset(record, 0x5A, sizeof record);
        uint32_t refusal = boe_read((uint8_t)atoi(first), bytes, (size_t)n, (struct boe_record *)record, sizeof record);
        size_t own = refusal ? 0 : record_len(record[BOE_RECORD_TYPE_AT]);
        if (!all_are(record + own, sizeof record - own, 0x5A)) {
            sprintf(out, "bytes past the record have changed: %s", told(refusal));
        } else if (refusal) {
            sprintf(out, "%s", told(refusal));
        } else {
            tohex(record, (long)own, hex);
            sprintf(out, "0 %s", hex);
        }
        return 1;
    }
    int writes = strcmp(call, "write") == 0;
    if ((writes || strcmp(call, "read-into") == 0) && second && third && !fourth) {
        static uint8_t given[MOST_BYTES];
        uint8_t direction = (uint8_t)atoi(first);
        long k = unhex(second, given), n = unhex(third, bytes);
        if (k < 0 || n < 0) return 0;
        uint32_t refusal = writes ? boe_write(direction, (struct boe_record *)given, (size_t)k, bytes, (size_t)n)
                                  : boe_read(direction, given, (size_t)k, (struct boe_record *)bytes, (size_t)n);
        tohex(bytes, n, hex);
        sprintf(out, "%s %s", told(refusal), hex);
        return 1;
    }
    return 0;
}

void stored_questions(FILE *questions, FILE *answers) {
    static char question[LONGEST], expected[LONGEST + 8], got[LONGEST + 8];
    unsigned long line = 0, asked = 0, placed = 0, conflicts = 0, options = 0;
    while (fgets(question, sizeof question, questions)) {
        line++;
        if (!fgets(expected, sizeof expected, answers)) {
            check(0, "fewer answers than questions");
            return;
        }
        question[strcspn(question, "\n")] = 0;
        expected[strcspn(expected, "\n")] = 0;
        if (strcmp(expected, "?") == 0 || !answer(question, got)) continue;
        asked++;
        placed += strchr(expected, '@') != NULL;
        conflicts += strncmp(expected, "23", 2) == 0;
        options += strncmp(expected, "0 B8", 4) == 0;
        check_answer(line, expected, got);
    }
    check(fgets(expected, sizeof expected, answers) == NULL, "more answers than questions");
    check(asked > 50000, "the stored questions were asked, those on the day book too");
    check(placed > 4000, "and those whose refusal has a place");
    check(conflicts > 100, "and those whose fields do not go together");
    check(options > 200, "and those on an options order that is read");
    check(fates >= 256, "and those on a type's fate");
    check(lasts > 150, "and those on the last message of a unit");
}
