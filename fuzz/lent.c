/* What is asked, what was answered, and the buffers that the calls are lent. See lent.h. */
#define _DEFAULT_SOURCE
#include "lent.h"
#include "fuzz.h"
#include <stdio.h>
#include <stdlib.h>
#include <string.h>
#include <sys/mman.h>

enum {
    LONGEST = 8000, /* the most characters of a question */
    FRONT = 64      /* the bytes looked at before a buffer */
};

/* ---- the question and the answer */

struct text question, proved;

static void put_text(struct text *text, const char *from, size_t n) {
    if (text->len + n >= MOST_TEXT) abort();
    memcpy(text->at + text->len, from, n);
    text->len += n;
    text->at[text->len] = 0;
}

void word(struct text *text, const char *from, size_t n) {
    if (text->len > 0 && text->at[text->len - 1] != '\n') put_text(text, " ", 1);
    put_text(text, from, n);
}

void name(struct text *text, const char *from) { word(text, from, strlen(from)); }

void number(struct text *text, uint64_t value) {
    char digits[24];
    word(text, digits, (size_t)sprintf(digits, "%llu", (unsigned long long)value));
}

void hex(struct text *text, const uint8_t *bytes, size_t n) {
    static const char digits[] = "0123456789ABCDEF";
    static char out[2 * MOST_BUFFER];
    for (size_t i = 0; i < n; i++) {
        out[2 * i] = digits[bytes[i] / 16];
        out[2 * i + 1] = digits[bytes[i] % 16];
    }
    if (n == 0) name(text, "-");
    else word(text, out, 2 * n);
}

void end_line(struct text *text) { put_text(text, "\n", 1); }

void ask(void) {
    size_t line = 0;
    end_line(&question);
    end_line(&proved);
    for (size_t i = 0; i < question.len; i++) {
        line = question.at[i] == '\n' ? 0 : line + 1;
        if (line > LONGEST) return;
    }
    compare(question.at, proved.at);
}

void must(int holds, const char *what) {
    if (holds) return;
    fprintf(stderr, "fuzz: WRONG: %s\nquestion: %s\nproved:   %s\n", what, question.at, proved.at);
    abort();
}

void refused(uint32_t refusal, size_t total) {
    uint32_t code = BOE_NUMBER(refusal), place = BOE_PLACE(refusal);
    char told[24];
    word(&proved, told, (size_t)sprintf(told, place ? "%u@%u" : "%u", code, place));
    if (code < BOE_WRONG_TOTAL || code > BOE_BAD_VALUE) must(place == 0, "a place of a number that has none");
    else must(place >= 10 && (code == BOE_WRONG_TOTAL ? place == total : place < total), "a place that is not in the message");
}

/* ---- the buffers */

struct buffer bytes, record, out, state, other, more;

static uint8_t *room(struct buffer *buffer, size_t len) {
    enum { PAGE = 65536 };
    if (!buffer->end) {
        uint8_t *pages = mmap(NULL, 2 * PAGE, PROT_READ | PROT_WRITE, MAP_PRIVATE | MAP_ANONYMOUS, -1, 0);
        if (pages == MAP_FAILED || mprotect(pages + PAGE, PAGE, PROT_NONE) != 0) {
            perror("fuzz");
            exit(2);
        }
        buffer->end = pages + PAGE;
    }
    if (len > MOST_BUFFER) abort();
    buffer->at = buffer->end - len;
    buffer->len = len;
    memset(buffer->at - FRONT, FILL, FRONT);
    return buffer->at;
}

void lend(struct buffer *buffer, const uint8_t *from, size_t len) {
    room(buffer, len);
    if (len == 0) return;
    memcpy(buffer->at, from, len);
    memcpy(buffer->was, from, len);
}

void lend_filled(struct buffer *buffer, uint8_t fill, size_t len) {
    memset(room(buffer, len), fill, len);
    memset(buffer->was, fill, len);
}

int stayed_from(const struct buffer *buffer, size_t from) {
    for (size_t i = 1; i <= FRONT; i++)
        if (*(buffer->at - i) != FILL) return 0;
    return from >= buffer->len || memcmp(buffer->at + from, buffer->was + from, buffer->len - from) == 0;
}

int stayed(const struct buffer *buffer) { return stayed_from(buffer, 0); }

size_t room_by(uint8_t choice, size_t enough) { return choice < 192 ? enough + choice % 4 : (choice - 192) * enough / 64; }

/* ---- numbers */

uint32_t number_at(const uint8_t *at) { return at[0] | (uint32_t)at[1] << 8 | (uint32_t)at[2] << 16 | (uint32_t)at[3] << 24; }

uint16_t short_at(const uint8_t *at) { return (uint16_t)(at[0] | at[1] << 8); }

void put_number(uint8_t *at, uint32_t value) {
    for (int i = 0; i < 4; i++) at[i] = (uint8_t)(value >> 8 * i);
}

uint64_t sum_of(const uint8_t *numbers) {
    uint64_t sum = 0;
    for (size_t i = 0; i < BOE_TABLE_BYTES; i += 4) sum += number_at(numbers + i);
    return sum;
}

uint32_t day_of(const uint8_t *at) { return (1970 + at[0] % 130u) * 10000 + (1 + at[1] % 12u) * 100 + 1 + at[2] % 31u; }
