/* What is asked, what was answered, and the buffers that the calls are lent: what fuzz.c, steps.c and mend.c share. See README.md. */
#ifndef LENT_H
#define LENT_H

#include "boe.h"

enum {
    BENCH_BYTES = 16384,       /* the book's buffer and the log's in a script */
    MOST_BUFFER = BENCH_BYTES, /* of any buffer here */
    MOST_TEXT = 1 << 17,
    FILL = 0x5A
};

/* ---- the question and the answer: lines of the format of second/README.md */

struct text {
    size_t len;
    char at[MOST_TEXT];
};

extern struct text question, proved;

/* A word; a space stands before it unless it is its line's first. */
void word(struct text *text, const char *from, size_t n);
void name(struct text *text, const char *from);
void number(struct text *text, uint64_t value);
void hex(struct text *text, const uint8_t *bytes, size_t n);
void end_line(struct text *text);

/* Hands on the questions and the answers; a line that is too long for the format is not asked. */
void ask(void);

/* What must hold whatever the second program answers. */
void must(int holds, const char *what);

/* A refusal as a word of the answer: its number, and after an @ its place where it has one. 6 to 10 alone have one, 6 the end of the message
 * and the others a byte of it after its header; the total is the message's, or 0 where the call has none. */
void refused(uint32_t refusal, size_t total);

/* ---- the buffers */

/* A buffer that ends where a page starts that may not be touched, with what it and the bytes before it held when it was lent. */
struct buffer {
    uint8_t *end, *at;
    size_t len;
    uint8_t was[MOST_BUFFER];
};

extern struct buffer bytes, record, out, state, other, more;

void lend(struct buffer *buffer, const uint8_t *from, size_t len);
void lend_filled(struct buffer *buffer, uint8_t fill, size_t len);

/* A buffer of any length as a record's and as a state's. */
static inline struct boe_record *record_in(const struct buffer *buffer) { return (struct boe_record *)buffer->at; }
static inline struct boe_state *state_in(const struct buffer *buffer) { return (struct boe_state *)buffer->at; }
static inline struct boe_session *session_in(const struct buffer *buffer) { return (struct boe_session *)buffer->at; }
static inline struct boe_venue *venue_in(const struct buffer *buffer) { return (struct boe_venue *)buffer->at; }

/* Whether the bytes from a place on, and those before the buffer, are as they were. */
int stayed_from(const struct buffer *buffer, size_t from);
int stayed(const struct buffer *buffer);

/* A buffer's length by a byte of the input: what is enough and up to three bytes more, or less. */
size_t room_by(uint8_t choice, size_t enough);

/* ---- numbers, the lowest byte first */

uint32_t number_at(const uint8_t *at);
uint16_t short_at(const uint8_t *at);
void put_number(uint8_t *at, uint32_t value);

/* The sum of the 32 numbers of a table. */
uint64_t sum_of(const uint8_t *numbers);

/* A date made of four bytes: a day of 1970 to 2099, but for the last days of the shorter months. */
uint32_t day_of(const uint8_t *at);

/* ---- the parts of an input */

/* The bytes of a call's arguments that come before the last. */
extern const size_t before[];

/* The bytes of an append's message among those that follow its numbers. */
size_t message_len(const uint8_t *args, size_t n);

/* ---- steps.c: a script's steps, which are any bytes */

void try_steps(const uint8_t *data, size_t n);

#endif
