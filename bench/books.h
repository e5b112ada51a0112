/* The counted books. */
#ifndef BOOKS_H
#define BOOKS_H

#include "messages.h"

enum { DATE = 20250819, STATE = BOE_STATE_BYTES, MARK_EVERY = 200 };

extern uint8_t book[BOE_BOOK_MOST_BYTES];

struct books {
    size_t length, last, messages;
    uint32_t numbers[33];
};

/* Stores a number's four bytes, the lowest first. */
void put_number(uint8_t *at, uint32_t number);

/* The two messages of which books are made; make_workloads comes before it. */
void make_items(void);

/* Makes in `book` one of at most so many bytes: of ten messages seven are acknowledgments with three bitfields and three executions, and a
 * mark stands after so many of them. */
struct books make_book(size_t most, size_t mark_every);

/* Says what differs, and ends. */
void books_differ(const char *what);

/* Asks both sides for a restart of the first bytes of `book`, and compares the refusals and all bytes of the two states. */
void ask_book(const char *what, uint32_t date, size_t len, size_t state_len);

/* The same on a small book: every cut, every byte with each of its other values, other dates, every size of the state; and with each
 * rejection after its messages, whole, torn, and with a unit and a number. */
void compare_books(void);

#endif
