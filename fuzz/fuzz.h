/* The comparison of one input, and the programs that make inputs. See README.md. */
#ifndef FUZZ_H
#define FUZZ_H

#include <stddef.h>
#include <stdint.h>

/* The most bytes of an input. */
#define MOST_INPUT 3900

/* The calls, by an input's first byte modulo CALLS. The arguments follow; a number of more than one byte has the lowest first. */
enum call {
    FRAME,       /* bytes */
    STEP,        /* unit, number (4), table */
    READ,        /* direction, room, bytes */
    WRITE,       /* direction, form, room (2), record */
    OPEN,        /* room of the state, date (4), buffer */
    RESTART,     /* room of the state, date (4), book */
    APPEND,      /* date (4), room (2), bytes of the message (2), message, book */
    CLOSE,       /* date (4), room (2), book */
    APPEND_ON,   /* room of the state, room (2), state (272), message */
    CLOSE_ON,    /* room of the state, room (2), state (272) */
    TOLD,        /* type */
    LAST,        /* date (4), room (2), unit, book */
    LAST_ON,     /* room of the state, unit, state (272), book */
    PULSE,       /* now (4), then (4) */
    STEPS,       /* steps of a script */
    CALLS
};

/* A step of a script: the member or the venue has a call, on what the steps before have left. In an input: which it is, modulo KINDS; how; room (2); how many
 * bytes it is given (2), and these. Room is that of the book's or the log's buffer, or of the output. */
enum step_kind {
    V_STEP,      /* given: the log's room (2), all of it without */
    V_NEW,
    V_LOG,       /* given: the message */
    V_LOGIN,     /* given: the login */
    V_ORDER,     /* given: the order */
    V_BREAK,
    V_STATE,     /* given: the state, zeros after it: any bytes */
    M_OPEN,      /* given: date (4) */
    M_RESTART,   /* given: date (4) */
    M_LOGIN,     /* given: the login, zeros after it */
    M_GET,       /* given: the message */
    M_ORDER,     /* given: the record */
    M_BEAT,
    M_BREAK,
    M_STATE,     /* given: the state, zeros after it: any bytes */
    M_LAST,      /* given: the unit */
    KINDS
};
enum { STEP_BYTES = 6, MOST_STEPS = 40 }; /* the bytes of a step before those that are given; the steps of an input */

/* How, a bit each; the two highest are how many bytes of the state's buffer are lent past it. */
enum step_how {
    OF_OPTIONS = 1, /* the market of an opening, a restart or an order to the venue */
    AS_SENT = 2,    /* a message is what the other side has sent last; a restart is from the book as long as it is, but for `room` % 64 bytes */
    MENDED = 4,     /* a date is a day, that of a restart as sent the book's own; a message has the next number */
    RESPELT = 8     /* the state's bytes that are read as one of a few, its phase among them, are others that are read alike */
};

struct step {
    enum step_kind kind;
    uint8_t how;
    uint16_t room;
    size_t n, at; /* the bytes that are given, and where they start */
};

/* The parts of a state in the order of a script's line: a byte, a number, or a table, of which an answer has the sum. */
struct part {
    size_t at, len;
};
enum { PARTS = 9 };
extern const struct part member_parts[PARTS], venue_parts[PARTS];

/* The step that starts at a place, and after it the place of the next: 0 where there is none. */
int next_step(const uint8_t *data, size_t size, size_t *at, struct step *step);

/* Puts an input's call to the C entry points, looks at every buffer they were lent, and hands on the question and what they answered. */
void try_input(const uint8_t *data, size_t size);

/* Makes parts of an input right that random changes seldom get right: a message's start and length and the count of its RiskGroupIDs, the
 * MaturityDate of an options order, the direction of a New Order's record, a book's marks and numbers, a unit's number and place in a state, the dates
 * and numbers of steps. */
void mend(uint8_t *data, size_t size);

/* Puts a random step into an input of steps, between two others; the size after it. */
size_t put_step_in(uint8_t *data, size_t size, size_t most);

/* A random number from 0 to end - 1, by a state that each program sets. */
extern uint64_t random_state;
size_t below(size_t end);

/* Questions of the format of second/README.md, each line ended by LF, and the C entry points' answers to them. Each program has its own. */
void compare(const char *questions, const char *proved);

#endif
