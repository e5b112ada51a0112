/* Books made of two messages, and both sides on a small one and its damages. */
#include "books.h"

#include "baseline.h"
#include "count.h"

#include <string.h>

uint8_t book[BOE_BOOK_MOST_BYTES];

void put_number(uint8_t *at, uint32_t number) {
    for (size_t i = 0; i < 4; i++)
        at[i] = (uint8_t)(number >> 8 * i);
}

static void add_mark(struct books *b) {
    uint8_t *mark = book + b->length;
    put_number(mark, 0);
    put_number(mark + 4, DATE);
    put_number(mark + 8, (uint32_t)b->messages);
    put_number(mark + 12, (uint32_t)(b->length - b->last));
    b->last = b->length;
    b->length += BOE_MARK_BYTES;
}

/* Two messages, in which unit, number and the end of ClOrdID are set anew each time. */
static struct workload acknowledgment, execution;

void make_items(void) {
    struct workload *w = &acknowledgment;
    w->total = 0;
    ADD("\xBA\xBA\x00\x00\x25\x00\x00\x00\x00\x00", 10);
    ADD("\xE0\xFA\x20\xF7\x36\x71\xF8\x11", 8);
    ADD("ABC", 20);
    ADD("\x05\x10\x1E\xB7\x5E\x39\x2F\x02", 8);
    ADD("\x00\x03\x00\x41\x05", 5);
    ADD("MSFT", 8);  /* Symbol */
    ADD("P", 1);     /* Capacity */
    ADD("DEFG", 16); /* Account */
    ADD("123C", 4);  /* ClearingAccount */
    finish(w);
    memcpy(&execution, &workloads[4], sizeof execution);
}

static void add_message(struct books *b, const struct workload *w) {
    uint8_t *at = book + b->length, unit = (uint8_t)(1 + b->messages % 32);
    uint32_t number = ++b->numbers[unit], rest = number;
    memcpy(at, w->message, w->total);
    at[5] = unit;
    put_number(at + 6, number);
    for (size_t i = 9; i > 2; i--, rest /= 10)
        at[18 + i] = (uint8_t)('0' + rest % 10);
    b->length += w->total;
    b->messages++;
}

struct books make_book(size_t most, size_t mark_every) {
    struct books b = {0};
    add_mark(&b);
    for (;;) {
        const struct workload *w = b.messages % 10 % 3 == 2 ? &execution : &acknowledgment;
        if (most < b.length + w->total + BOE_MARK_BYTES)
            return b;
        add_message(&b, w);
        if (b.messages % mark_every == 0)
            add_mark(&b);
    }
}

void books_differ(const char *what) {
    say(2, "bench: books: ");
    say(2, what);
    say(2, "\n");
    end(1);
}

void ask_book(const char *what, uint32_t date, size_t len, size_t state_len) {
    uint8_t one[STATE + 8], other[STATE + 8];
    memset(one, FILLING, sizeof one);
    memset(other, FILLING, sizeof other);
    if (boe_restart(date, book, len, (struct boe_state *)one, state_len) != base_restart(date, book, len, other, state_len))
        books_differ(what);
    if (memcmp(one, other, sizeof one) != 0)
        books_differ(what);
}

/* No book has a rejection: a whole one is refused, whatever unit and number it carries. */
static void compare_rejected(const struct books *b, const struct workload *w) {
    uint8_t *at = book + b->length;
    size_t len = b->length + w->total;
    memcpy(at, w->message, w->total);
    for (size_t cut = b->length; cut <= len; cut++)
        ask_book("the sides differ on a book with a rejection, cut", DATE, cut, STATE);
    for (unsigned unit = 0; unit < 256; unit++)
        for (unsigned number = 0; number < 4; number++) {
            uint8_t state[STATE];
            at[5] = (uint8_t)unit;
            at[6] = (uint8_t)number;
            ask_book("the sides differ on a book with a rejection", DATE, len, STATE);
            if (base_restart(DATE, book, len, state, STATE) != BOE_BAD_BOOK)
                books_differ("a book with a rejection is taken");
        }
}

void compare_books(void) {
    struct books b = make_book(330, 2);
    for (size_t len = 0; len <= b.length; len++)
        ask_book("the sides differ on a cut book", DATE, len, STATE + 8);
    for (size_t len = 0; len <= STATE + 8; len++)
        ask_book("the sides differ on a short state", DATE, b.length, len);
    for (uint32_t date = DATE - 30; date <= DATE + 30; date++)
        ask_book("the sides differ on a date", date, b.length, STATE);
    for (size_t at = 0; at < b.length; at++) {
        uint8_t kept = book[at];
        for (unsigned other = 0; other < 256; other++) {
            book[at] = (uint8_t)other;
            ask_book("the sides differ on a damaged book", DATE, b.length, STATE);
        }
        book[at] = kept;
    }
    for (size_t i = WORKLOADS; i < WORKLOADS + REJECTIONS; i++)
        compare_rejected(&b, &workloads[i]);
}
