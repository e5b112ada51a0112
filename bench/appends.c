/* Books made by appending and by receiving, and both sides on a message, a state and their damages. */
#include "appends.h"

#include "baseline.h"
#include "compare.h"

#include <string.h>

typedef uint32_t appends(const uint8_t *bytes, size_t len, uint8_t *buffer, size_t buffer_len, uint8_t *state, size_t state_len);
typedef uint32_t receives(const uint8_t *bytes, size_t len, uint32_t *told, uint8_t *buffer, size_t buffer_len, uint8_t *state, size_t state_len);

const struct taker append = {STATE, (counted *)boe_book_append, (counted *)base_append};
const struct taker receive = {SESSION, (counted *)boe_session_receive, (counted *)base_receive};

static uint8_t appended[BOE_BOOK_MOST_BYTES];
static uint32_t told; /* what receiving tells */

/* Gives a side a message, with the arguments of its taker. */
static inline uint32_t give(const struct taker *taker, counted *side, const uint8_t *bytes, size_t len, uint8_t *buffer, size_t buffer_len,
                            uint8_t *state, size_t state_len) {
    if (taker == &receive)
        return ((receives *)side)(bytes, len, &told, buffer, buffer_len, state, state_len);
    return ((appends *)side)(bytes, len, buffer, buffer_len, state, state_len);
}

/* Opens the book, and for receiving a live session. */
static uint32_t open_taker(const struct taker *taker, uint8_t *state) {
    if (taker == &append)
        return boe_book_open(DATE, appended, sizeof appended, (struct boe_state *)state, STATE);
    uint32_t refusal = boe_session_open(DATE, BOE_EQUITIES, appended, sizeof appended, (struct boe_session *)state, SESSION);
    state[BOE_SESSION_PHASE_AT] = BOE_LIVE;
    return refusal;
}

uint32_t take_all(const struct taker *taker, counted *side, const uint8_t *bytes, size_t len, uint8_t *state) {
    uint32_t refusals = open_taker(taker, state);
    for (size_t at = BOE_MARK_BYTES, total; at < len; at += total) {
        if (bytes[at] == 0) {
            total = BOE_MARK_BYTES;
            refusals |= boe_book_close(appended, sizeof appended, (struct boe_state *)state, STATE);
        } else {
            total = 2u + bytes[at + 2] + 256u * bytes[at + 3];
            refusals |= give(taker, side, bytes + at, total, appended, sizeof appended, state, taker->state);
        }
    }
    return refusals;
}

void taken_state(const struct taker *taker, size_t len, uint8_t *state) {
    if (open_taker(taker, state) != 0 || base_restart(DATE, book, len, state, STATE) != 0)
        books_differ("a book is refused");
}

void take_book(const struct taker *taker, counted *side, size_t len) {
    uint8_t one[SESSION], other[SESSION];
    taken_state(taker, len, other);
    memset(appended, FILLING, len);
    if (take_all(taker, side, book, len, one) != 0)
        books_differ("a message is refused");
    if (memcmp(appended, book, len) != 0 || memcmp(one, other, taker->state) != 0)
        books_differ("the book that is made is not the one that its messages are of");
}

/* ---- both sides */

/* What is looked at of a buffer, and how long it is. */
enum { WINDOW = 512, WHOLE = sizeof appended };

struct call {
    const struct taker *taker;
    uint8_t message[LONGEST], state[SESSION + 8];
    size_t len, buffer_len, state_len, window;
};

/* What a side answers and tells. */
struct answer {
    uint32_t refusal, told;
};

static struct answer answer_of(const struct call *c, counted *side, uint8_t *buffer, uint8_t *state) {
    memcpy(state, c->state, sizeof c->state);
    memset(buffer + c->window, FILLING, WINDOW);
    told = FILLING;
    uint32_t refusal = give(c->taker, side, c->message, c->len, buffer, c->buffer_len, state, c->state_len);
    return (struct answer){refusal, told};
}

/* The sides write to `book` and to `appended`. */
static void ask_taker(const char *what, const struct call *c) {
    uint8_t one[sizeof c->state], other[sizeof c->state];
    if (c->taker == &receive && is_session(BOE_FROM_VENUE, c->message[4]))
        return;
    struct answer proved = answer_of(c, c->taker->proved, book, one), baseline = answer_of(c, c->taker->baseline, appended, other);
    if (proved.refusal != baseline.refusal || proved.told != baseline.told)
        books_differ(what);
    if (memcmp(one, other, sizeof one) != 0 || memcmp(book + c->window, appended + c->window, WINDOW) != 0)
        books_differ(what);
}

/* Each byte with each of its values. */
static void ask_damaged(const char *what, const struct call *c, uint8_t *bytes, size_t n) {
    for (size_t at = 0; at < n; at++) {
        uint8_t kept = bytes[at];
        for (unsigned other = 0; other < 256; other++) {
            bytes[at] = (uint8_t)other;
            ask_taker(what, c);
        }
        bytes[at] = kept;
    }
}

/* A number of the state with values about a limit. */
static void ask_about(const char *what, const struct call *c, uint8_t *number, uint32_t limit) {
    uint8_t kept[4];
    memcpy(kept, number, sizeof kept);
    for (uint32_t value = limit - 2; value != limit + 3; value++) {
        put_number(number, value);
        ask_taker(what, c);
    }
    memcpy(number, kept, sizeof kept);
}

/* A message, every cut of it, and every byte with each of its values. */
static void ask_message(struct call *c, size_t total) {
    for (c->len = 0; c->len < total; c->len++)
        ask_taker("the sides differ on a cut message", c);
    ask_taker("the sides differ on a message", c);
    ask_damaged("the sides differ on a damaged message", c, c->message, total);
}

static void compare_taker(const struct taker *taker, const struct workload *w) {
    static struct call c;
    uint8_t unit = w->message[5] == 0 ? 1 : w->message[5];
    c.taker = taker;
    memcpy(c.message, w->message, w->total);
    memset(c.state, FILLING, sizeof c.state);
    if (w->message[5] != 0)
        put_number(c.message + 6, 5);
    put_number(c.state + 4 * (unit - 1), 4);
    put_number(c.state + BOE_STATE_LENGTH_AT, 100);
    put_number(c.state + BOE_STATE_LAST_MARK_AT, 80);
    put_number(c.state + BOE_STATE_MESSAGES_AT, 7);
    c.window = 0;
    c.state_len = taker->state;
    c.buffer_len = WINDOW;
    for (uint8_t phase = taker == &receive ? BOE_CLOSED : BOE_LIVE; phase <= BOE_LIVE; phase++) {
        c.state[BOE_SESSION_PHASE_AT] = phase;
        ask_message(&c, w->total);
    }
    ask_damaged("the sides differ on a damaged state", &c, c.state, taker->state);
    for (c.state_len = 0; c.state_len < sizeof c.state; c.state_len++)
        ask_taker("the sides differ on a short state", &c);
    for (c.buffer_len = 0; c.buffer_len < WINDOW; c.buffer_len++)
        ask_taker("the sides differ on a short buffer", &c);
    ask_about("the sides differ on a number", &c, c.state + 4 * (unit - 1), 5);
    ask_about("the sides differ on the last mark", &c, c.state + BOE_STATE_LAST_MARK_AT, 100);
    ask_about("the sides differ on the messages", &c, c.state + BOE_STATE_MESSAGES_AT, BOE_BOOK_MOST_BYTES);
    c.window = WHOLE - WINDOW;
    c.buffer_len = WHOLE;
    ask_about("the sides differ at the limit", &c, c.state + BOE_STATE_LENGTH_AT, (uint32_t)(WHOLE - w->total));
}

void compare_takers(void) {
    for (size_t i = 0; i < WORKLOADS + REJECTIONS; i++)
        if (workloads[i].direction == BOE_FROM_VENUE) {
            compare_taker(&append, &workloads[i]);
            compare_taker(&receive, &workloads[i]);
        }
}
