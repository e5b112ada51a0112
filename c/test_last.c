/* The last message of a unit: hand-made books and states, and the places that a state has of them. */
#include "test_gateway.h"

#include <string.h>

enum {
    DATE = 20250819,
    MESSAGE = 57,
    FIRST = BOE_MARK_BYTES,                    /* where the first message starts */
    SECOND = FIRST + MESSAGE + BOE_MARK_BYTES, /* and, after a mark, the second */
    END = SECOND + MESSAGE,
    BOOK = END + BOE_MARK_BYTES,
    AFTER = 4 /* bytes past a state, and past a book */
};

/* The acknowledgment of 01's listing, of unit 1 and number 1: ABC123 with Price 123.45. */
static const uint8_t acknowledgment[MESSAGE] = {
    0xBA, 0xBA, MESSAGE - 2, 0, 0x25, 1, 1, 0, 0, 0, [18] = 'A', 'B', 'C', '1', '2', '3', [47] = 1, 0x04, 0x44, 0xD6, 0x12};

/* A book in a buffer, its state, and bytes after both. */
struct kept {
    uint8_t book[BOOK + AFTER], state[BOE_STATE_BYTES + AFTER];
};

static struct boe_state *state_of(struct kept *of) { return (struct boe_state *)of->state; }
static const uint8_t *places_of(const struct kept *of) { return of->state + BOE_STATE_PLACES_AT; }
static int same(const struct kept *a, const struct kept *b) { return memcmp(a, b, sizeof *a) == 0; }

/* Appends the acknowledgment, of a unit and with a number. */
static uint32_t append(struct kept *to, uint8_t unit, uint8_t number, size_t room) {
    uint8_t message[MESSAGE];
    memcpy(message, acknowledgment, sizeof message);
    message[5] = unit;
    message[6] = number;
    return boe_book_append(message, sizeof message, to->book, room, state_of(to), sizeof to->state);
}

/* A book with its first mark, and the bytes after it and after the state 5A. */
static struct kept opened(void) {
    struct kept of;
    memset(&of, 0x5A, sizeof of);
    check(boe_book_open(DATE, of.book, BOOK, state_of(&of), sizeof of.state) == 0, "a book is opened");
    return of;
}

/* Mark, number 1, mark, number 2, mark: 162 bytes. */
static struct kept made(void) {
    struct kept of = opened();
    for (uint8_t number = 1; number <= 2; number++) {
        check(append(&of, 1, number, BOOK) == 0, "a message is booked");
        check(boe_book_close(of.book, BOOK, state_of(&of), sizeof of.state) == 0, "a session ends");
    }
    check(number_at(of.state + BOE_STATE_LENGTH_AT) == BOOK && BOOK == 162, "a book of 162 bytes");
    return of;
}

/* A question of a unit, with so many bytes of the book and of the state lent, and its answer. */
struct asked {
    unsigned unit;
    size_t lent, state_len;
    enum boe_refusal number;
    size_t at, length;
    const char *what;
};

/* The three calls answer alike and change no byte. */
static void ask(const struct kept *of, const struct asked *q) {
    struct kept copy = *of;
    const struct boe_state *state = state_of(&copy);
    uint8_t unit = (uint8_t)q->unit;
    check(boe_last_refusal(unit, copy.book, q->lent, state, q->state_len) == (uint32_t)q->number, q->what);
    check(boe_last_at(unit, copy.book, q->lent, state, q->state_len) == q->at, "where it starts, or 0");
    check(boe_last_length(unit, copy.book, q->lent, state, q->state_len) == q->length, "its bytes, or 0");
    check(same(&copy, of), "a question stores nothing");
}

static void ask_all(const struct kept *of, const struct asked *questions, size_t count) {
    for (size_t i = 0; i < count; i++) ask(of, &questions[i]);
}

enum { WHOLE = BOE_STATE_BYTES };

/* Of the book of two messages. */
static const struct asked two_messages[] = {
    {1, BOOK, WHOLE, 0, SECOND, MESSAGE, "the second is the last"},
    {1, BOOK + AFTER, WHOLE + AFTER, 0, SECOND, MESSAGE, "whatever stands after book and state"},
    {1, END, WHOLE, 0, SECOND, MESSAGE, "and in the book after it"},
    {1, END - 1, WHOLE, BOE_BAD_BOOK, 0, 0, "a byte of it is not lent"},
    {1, SECOND, WHOLE, BOE_BAD_BOOK, 0, 0, "none of it is"},
    {1, SECOND - 1, WHOLE, BOE_BAD_BOOK, 0, 0, "it starts past what is lent"},
    {1, 0, WHOLE, BOE_BAD_BOOK, 0, 0, "nothing is lent"},
    {2, BOOK, WHOLE, BOE_NONE, 0, 0, "unit 2 has no message"},
    {32, BOOK, WHOLE, BOE_NONE, 0, 0, "nor has unit 32"},
    {2, 0, WHOLE, BOE_NONE, 0, 0, "26 comes before 18"},
    {0, BOOK, WHOLE, BOE_BAD_UNIT, 0, 0, "unit 0"},
    {33, BOOK, WHOLE, BOE_BAD_UNIT, 0, 0, "unit 33"},
    {255, BOOK, WHOLE, BOE_BAD_UNIT, 0, 0, "unit 255"},
    {1, BOOK, WHOLE - 1, BOE_NO_ROOM, 0, 0, "a state a byte short"},
    {1, BOOK, BOE_STATE_PLACES_AT, BOE_NO_ROOM, 0, 0, "one without its places"},
    {1, BOOK, BOE_STATE_PLACES_AT - 1, BOE_NO_ROOM, 0, 0, "one of 143 bytes"},
    {1, BOOK, 0, BOE_NO_ROOM, 0, 0, "one of none"},
    {2, BOOK, WHOLE - 1, BOE_NO_ROOM, 0, 0, "13 comes before 26"},
    {1, 0, WHOLE - 1, BOE_NO_ROOM, 0, 0, "13 comes before 18"},
    {33, 0, 0, BOE_BAD_UNIT, 0, 0, "5 comes before 13"},
};

/* The book of two messages with a number changed, in the book or in the state, and what unit 1 then answers. */
struct changed {
    enum { IN_BOOK, IN_STATE } in;
    size_t at;
    unsigned len;
    uint32_t value;
    enum boe_refusal number;
    size_t place;
    const char *what;
};

#define BOOK_OF(at, len, value, ...) {IN_BOOK, at, len, value, __VA_ARGS__}
#define STATE_OF(at, len, value, ...) {IN_STATE, at, len, value, __VA_ARGS__}
#define PLACE_OF(value, ...) STATE_OF(BOE_STATE_PLACES_AT, 4, value, __VA_ARGS__)

static const struct changed changes[] = {
    BOOK_OF(SECOND + 5, 1, 2, BOE_BAD_BOOK, 0, "the message is unit 2's"),
    BOOK_OF(SECOND + 5, 1, 33, BOE_BAD_BOOK, 0, "or of no unit"),
    BOOK_OF(SECOND + 6, 4, 1, BOE_BAD_BOOK, 0, "it has another number"),
    BOOK_OF(SECOND + 6, 4, 0x01000002, BOE_BAD_BOOK, 0, "in its highest byte"),
    BOOK_OF(SECOND + 4, 1, 0x26, BOE_BAD_BOOK, 0, "it is a rejection"),
    BOOK_OF(SECOND + 4, 1, 0x2C, BOE_BAD_BOOK, 0, "it is no execution"),
    BOOK_OF(SECOND + 18, 1, 0, BOE_BAD_BOOK, 0, "its ClOrdID is blank"),
    BOOK_OF(SECOND + 48, 1, 0x02, BOE_BAD_BOOK, 0, "it has a bit that is not listed"),
    BOOK_OF(SECOND + 2, 2, MESSAGE - 1, BOE_BAD_BOOK, 0, "its total is wrong"),
    BOOK_OF(SECOND + 2, 2, 2000, BOE_BAD_BOOK, 0, "it ends past the book"),
    BOOK_OF(SECOND + 1, 1, 0, BOE_BAD_BOOK, 0, "it does not start with BA BA"),
    BOOK_OF(0, 4, UINT32_MAX, 0, SECOND, "the first mark plays no part"),
    BOOK_OF(FIRST, 4, UINT32_MAX, 0, SECOND, "nor does an earlier message"),
    BOOK_OF(END, 4, UINT32_MAX, 0, SECOND, "nor what follows"),
    PLACE_OF(UINT32_MAX, BOE_BAD_BOOK, 0, "the highest place"),
    PLACE_OF(UINT32_MAX - MESSAGE + 1, BOE_BAD_BOOK, 0, "one with which the message ends at 2^32"),
    PLACE_OF(BOOK, BOE_BAD_BOOK, 0, "the book's end"),
    PLACE_OF(SECOND - 1, BOE_BAD_BOOK, 0, "a byte too low"),
    PLACE_OF(SECOND + 1, BOE_BAD_BOOK, 0, "a byte too high"),
    PLACE_OF(END, BOE_BAD_BOOK, 0, "a mark"),
    PLACE_OF(0, BOE_BAD_BOOK, 0, "the first mark"),
    PLACE_OF(FIRST, BOE_BAD_BOOK, 0, "the message before"),
    STATE_OF(0, 4, 0, BOE_NONE, 0, "number 0, whatever its place"),
    STATE_OF(0, 4, 1, BOE_BAD_BOOK, 0, "number 1 at the place of number 2"),
    STATE_OF(0, 4, UINT32_MAX, BOE_BAD_BOOK, 0, "the highest number"),
    STATE_OF(BOE_STATE_LENGTH_AT, 4, END, 0, SECOND, "a book that ends with the message"),
    STATE_OF(BOE_STATE_LENGTH_AT, 4, END - 1, BOE_BAD_BOOK, 0, "a byte before"),
    STATE_OF(BOE_STATE_LENGTH_AT, 4, 0, BOE_BAD_BOOK, 0, "a book of no bytes"),
    STATE_OF(BOE_STATE_LENGTH_AT, 4, UINT32_MAX, 0, SECOND, "a book past what is lent"),
    STATE_OF(BOE_STATE_DATE_AT, 4, UINT32_MAX, 0, SECOND, "the date plays no part"),
    STATE_OF(BOE_STATE_LAST_MARK_AT, 4, UINT32_MAX, 0, SECOND, "nor does the last mark"),
    STATE_OF(BOE_STATE_MESSAGES_AT, 4, UINT32_MAX, 0, SECOND, "nor do the messages"),
    STATE_OF(4, 4, UINT32_MAX, 0, SECOND, "nor does another unit's number"),
    STATE_OF(BOE_STATE_PLACES_AT + 4, 4, UINT32_MAX, 0, SECOND, "nor its place"),
};

static void ask_changed(const struct changed *c) {
    struct kept of = made();
    put((c->in == IN_BOOK ? of.book : of.state) + c->at, c->len, c->value);
    ask(&of, &(struct asked){1, BOOK, WHOLE, c->number, c->place, c->place ? MESSAGE : 0, c->what});
}

/* A state that is none of its book's: what unit 2 has of unit 1's, and number 1 at its own place. */
static void ask_mixed(void) {
    struct kept of = made();
    put(of.state, 4, 1);
    put(of.state + BOE_STATE_PLACES_AT, 4, FIRST);
    ask(&of, &(struct asked){1, BOOK, WHOLE, 0, FIRST, MESSAGE, "number 1 at the place of number 1"});
    put(of.state + 4, 4, 1);
    put(of.state + BOE_STATE_PLACES_AT + 4, 4, FIRST);
    ask(&of, &(struct asked){2, BOOK, WHOLE, BOE_BAD_BOOK, 0, 0, "unit 1's message is not unit 2's"});
    memset(of.state, 0xFF, sizeof of.state);
    ask(&of, &(struct asked){32, BOOK, WHOLE, BOE_BAD_BOOK, 0, 0, "a state of FF"});
    memset(of.state, 0, sizeof of.state);
    ask(&of, &(struct asked){32, BOOK, WHOLE, BOE_NONE, 0, 0, "a state of zeros"});
}

/* 01's listing: the mark, the acknowledgment and a stray BA, which is a torn tail. */
static void listing(void) {
    static const struct asked questions[] = {
        {1, FIRST + MESSAGE + 1, WHOLE, 0, FIRST, MESSAGE, "unit 1 stops at 16"},
        {2, FIRST + MESSAGE + 1, WHOLE, BOE_NONE, 0, 0, "unit 2 has no message"},
        {0, FIRST + MESSAGE + 1, WHOLE, BOE_BAD_UNIT, 0, 0, "unit 0"},
        {33, FIRST + MESSAGE + 1, WHOLE, BOE_BAD_UNIT, 0, 0, "unit 33"},
    };
    struct kept of = opened();
    memcpy(of.book + FIRST, acknowledgment, MESSAGE);
    of.book[FIRST + MESSAGE] = 0xBA;
    check(boe_restart(DATE, of.book, FIRST + MESSAGE + 1, state_of(&of), sizeof of.state) == 0, "a restart from 01's book");
    ask_all(&of, questions, COUNT_OF(questions));
}

/* A restart from the book cut at each byte: the last message is the last that is whole. */
static void cuts(void) {
    struct kept whole = made();
    for (size_t cut = BOE_MARK_BYTES; cut <= BOOK; cut++) {
        struct kept of = whole;
        size_t at = cut >= END ? SECOND : cut >= FIRST + MESSAGE ? FIRST : 0;
        memset(of.state, 0x5A, sizeof of.state);
        check(boe_restart(DATE, of.book, cut, state_of(&of), sizeof of.state) == 0, "a restart from a cut book");
        check(entry(places_of(&of), 1) == at && all_are(places_of(&of) + 4, BOE_TABLE_BYTES - 4, 0), "rebuilds the places");
        check(all_are(of.state + WHOLE, AFTER, 0x5A), "and no byte past the state");
        ask(&of, &(struct asked){1, cut, WHOLE, at ? 0 : BOE_NONE, at, at ? MESSAGE : 0, "the last whole message"});
        if (cut == BOOK) check(same(&of, &whole), "the state that the book was left in");
    }
}

/* Each acceptance sets its unit's place; no refusal and no mark moves one. */
static void acceptances(void) {
    struct kept of = opened(), before, after;
    check(all_are(places_of(&of), BOE_TABLE_BYTES, 0), "a new book has no places");
    check(append(&of, 1, 1, BOOK) == 0 && entry(places_of(&of), 1) == FIRST, "the first message's place is the length before it");
    check(all_are(places_of(&of) + 4, BOE_TABLE_BYTES - 4, 0), "no other unit has one");
    before = of;
    check(append(&of, 1, 1, BOOK) == BOE_ALREADY_TAKEN && append(&of, 1, 0, BOOK) == BOE_ALREADY_TAKEN, "14");
    check(append(&of, 1, 3, BOOK) == BOE_GAP && append(&of, 2, 2, BOOK) == BOE_GAP, "15");
    check(append(&of, 33, 1, BOOK) == BOE_BAD_UNIT && append(&of, 0, 1, BOOK) == BOE_BAD_UNIT, "5");
    check(append(&of, 1, 2, FIRST + 2 * MESSAGE - 1) == BOE_NO_ROOM && append(&of, 2, 1, 0) == BOE_NO_ROOM, "13");
    for (size_t len = 0; len < WHOLE; len++)
        check(boe_book_append(acknowledgment, MESSAGE, of.book, BOOK, state_of(&of), len) == BOE_NO_ROOM &&
                  boe_book_close(of.book, BOOK, state_of(&of), len) == BOE_NO_ROOM && boe_restart(DATE, of.book, BOE_MARK_BYTES, state_of(&of), len) == BOE_NO_ROOM &&
                  boe_book_open(DATE, of.book, BOOK, state_of(&of), len) == BOE_NO_ROOM,
              "13 for a short state");
    check(boe_restart(DATE + 1, of.book, BOE_MARK_BYTES, state_of(&of), sizeof of.state) == BOE_OTHER_DATE, "17");
    check(same(&of, &before), "what is refused moves no place");
    check(boe_book_close(of.book, BOOK, state_of(&of), sizeof of.state) == 0 && same_bytes(places_of(&of), places_of(&before), BOE_TABLE_BYTES), "nor does a mark");

    /* every unit in a state that has other places: its own is set, and no other */
    for (uint8_t unit = 1; unit <= BOE_UNITS; unit++) {
        after = of;
        memset(after.state + BOE_STATE_PLACES_AT, 0xA5, BOE_TABLE_BYTES);
        before = after;
        check(append(&after, unit, unit == 1 ? 2 : 1, BOOK) == 0, "a unit's next message");
        put(before.state + BOE_STATE_PLACES_AT + 4 * (unit - 1u), 4, SECOND);
        check(same_bytes(places_of(&after), places_of(&before), BOE_TABLE_BYTES + AFTER), "sets its own place alone");
        ask(&after, &(struct asked){unit, BOOK, WHOLE, 0, SECOND, MESSAGE, "where it is found"});
    }
}

void last_messages(void) {
    struct kept of = made();
    listing();
    ask_all(&of, two_messages, COUNT_OF(two_messages));
    for (size_t i = 0; i < COUNT_OF(changes); i++) ask_changed(&changes[i]);
    ask_mixed();
    cuts();
    acceptances();
}
