/* Appending and receiving: the counted books made anew of their messages. */
#ifndef APPENDS_H
#define APPENDS_H

#include "books.h"
#include "count.h"

enum { SESSION = BOE_SESSION_BYTES };

/* A call that puts a message into a book: boe_book_append, or boe_session_receive in a live session, and the plain C of each. */
struct taker {
    size_t state; /* the bytes of its state */
    counted *proved, *baseline;
};

extern const struct taker append, receive;

/* Opens a book in a buffer of its own and makes it of the bytes of another: the messages by a side, which has the arguments of the taker's, the marks
 * by closing. Answers the refusals, all together, and leaves the state. */
uint32_t take_all(const struct taker *taker, counted *side, const uint8_t *bytes, size_t len, uint8_t *state);

/* The state that a taker has to leave of the first bytes of `book`: in front that of their restart. */
void taken_state(const struct taker *taker, size_t len, uint8_t *state);

/* Makes the first bytes of `book` anew: it must be the same bytes, and the state the one above. */
void take_book(const struct taker *taker, counted *side, size_t len);

/* Both sides take a message and must answer and leave the same: every cut, every byte of the message and of the state with each of its values,
 * every size of the state and of the buffer, and the limits; so too a rejection, which no book takes. Received in every phase, but no session
 * message, which the plain C does not know. */
void compare_takers(void);

#endif
