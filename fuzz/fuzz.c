/* Puts an input's call to the C entry points and looks at every buffer that they were lent. See fuzz.h and README.md. */
#include "fuzz.h"
#include "lent.h"
#include <string.h>

/* ---- framing, the table, reading and writing */

static void try_frame(const uint8_t *data, size_t n) {
    lend(&bytes, data, n);
    uint32_t refusal = boe_frame_refusal(bytes.at, n);
    size_t total = boe_frame_length(bytes.at, n);
    name(&question, "frame");
    hex(&question, data, n);
    refused(refusal, 0);
    must(stayed(&bytes), "framing has stored");
    must((total == 0) == (refusal != 0) && total <= n, "the length of a whole message alone");
    if (refusal == 0) {
        number(&proved, total);
        number(&proved, data[4]);
        number(&proved, data[5]);
        number(&proved, number_at(data + 6));
    }
    ask();
}

static void try_step(uint8_t unit, uint32_t value, const uint8_t *data, size_t n) {
    lend(&bytes, data, n);
    uint32_t refusal = boe_table_step(unit, value, bytes.at, n);
    name(&question, "step");
    hex(&question, data, n);
    number(&question, unit);
    number(&question, value);
    refused(refusal, 0);
    hex(&proved, bytes.at, n);
    must(stayed_from(&bytes, refusal ? 0 : BOE_TABLE_BYTES), "a step has stored past its table, or a refused one at all");
    ask();
}

/* The bytes of a record of a type. */
static size_t record_len(uint8_t type) {
    switch (type) {
    case BOE_NEW_ORDER:
    case BOE_OPTIONS_NEW_ORDER:
    case BOE_CANCEL_ORDER:
    case BOE_MODIFY_ORDER:
    case BOE_PURGE_ORDERS:
    case BOE_ACKNOWLEDGMENT:
    case BOE_EXECUTION:
    case BOE_REJECTION:
    case BOE_CANCEL_REJECTION:
    case BOE_MODIFY_REJECTION: return BOE_ORDER_RECORD_LEN;
    default: return BOE_RECORD_LEN;
    }
}

static void try_told(uint8_t type) {
    uint32_t fate = boe_told(type);
    name(&question, "told");
    number(&question, type);
    number(&proved, fate);
    must(fate == BOE_NOTHING || fate == BOE_BOOKED || fate == BOE_HANDED, "a fate that there is not");
    ask();
}

static void try_pulse(uint32_t now, uint32_t then) {
    uint32_t due = boe_heartbeat_due(now, then), silent = boe_peer_silent(now, then);
    name(&question, "due");
    number(&question, now);
    number(&question, then);
    end_line(&question);
    name(&question, "silent");
    number(&question, now);
    number(&question, then);
    number(&proved, due);
    end_line(&proved);
    number(&proved, silent);
    must(due >= silent, "a peer is silent that needs no heartbeat yet");
    must(boe_version() == BOE_VERSION, "the library is of another version than its header");
    ask();
}

static void try_read(uint8_t direction, uint8_t choice, const uint8_t *data, size_t n) {
    lend(&bytes, data, n);
    lend_filled(&record, FILL, BOE_RECORD_LEN + 1);
    uint32_t refusal = boe_read(direction, bytes.at, n, record_in(&record), record.len);
    size_t own = refusal ? 0 : record_len(record.at[BOE_RECORD_TYPE_AT]);
    name(&question, "read");
    number(&question, direction);
    hex(&question, data, n);
    refused(refusal, boe_frame_length(bytes.at, n));
    if (refusal == 0) hex(&proved, record.at, own);
    must(stayed(&bytes), "reading has stored into the message");
    must(stayed_from(&record, own), "reading has stored past the record");

    /* the same with another buffer, which may be too short */
    lend_filled(&other, (uint8_t)~FILL, room_by(choice, BOE_RECORD_LEN));
    uint32_t again = boe_read(direction, bytes.at, n, record_in(&other), other.len);
    if (other.len < own) {
        must(again == BOE_NO_ROOM && stayed(&other), "13 for a short record, and nothing stored");
    } else {
        must(again == refusal && stayed_from(&other, own), "the buffer changes the answer");
        must(memcmp(other.at, record.at, own) == 0, "the buffer changes the record");
    }

    /* what was read is written again, of the record's own bytes alone */
    if (refusal == 0) {
        size_t total = boe_frame_length(bytes.at, n);
        lend(&other, record.at, own);
        lend_filled(&out, FILL, total);
        must(boe_write(direction, record_in(&other), own, out.at, total) == 0, "a record that was read is written");
        must(memcmp(out.at, data, total) == 0 && stayed_from(&out, total), "it is written as it was read");
        lend(&other, record.at, own - 1);
        lend_filled(&out, FILL, total);
        must(boe_write(direction, record_in(&other), own - 1, out.at, total) == BOE_NO_ROOM, "13 for a record a byte short");
        must(stayed(&out), "a short record has stored");
        lend_filled(&out, FILL, total - 1);
        must(boe_write(direction, record_in(&record), record.len, out.at, total - 1) == BOE_NO_ROOM, "13 a byte short");
        must(stayed(&out), "a write without room has stored");
    }
    ask();
}

static void try_write(uint8_t direction, uint8_t form, uint16_t out_len, const uint8_t *data, size_t n) {
    if (form & 1 && n < BOE_RECORD_LEN) {
        lend_filled(&record, 0, BOE_RECORD_LEN);
        if (n > 0) memcpy(record.at, data, n);
        memcpy(record.was, record.at, BOE_RECORD_LEN);
    } else {
        lend(&record, data, n);
    }
    lend_filled(&out, form, out_len % 512);
    name(&question, "write");
    number(&question, direction);
    hex(&question, record.at, record.len);
    hex(&question, out.at, out.len);
    uint32_t refusal = boe_write(direction, record_in(&record), record.len, out.at, out.len);
    size_t total = refusal ? 0 : 2u + out.at[2] + 256u * out.at[3];
    refused(refusal, BOE_WRITTEN_MOST_BYTES);
    hex(&proved, out.at, out.len);
    must(stayed(&record), "writing has stored into the record");
    must(stayed_from(&out, total), "writing has stored past its message");

    /* what was written is read again, into as many bytes as its record has */
    if (refusal == 0) {
        size_t own = record_len(record.at[BOE_RECORD_TYPE_AT]);
        lend_filled(&other, FILL, own);
        must(boe_read(direction, out.at, out.len, record_in(&other), other.len) == 0, "a message that was written is read");
        must(memcmp(other.at, record.at, own) == 0 && stayed_from(&other, own), "it is read as it was written");
    }
    ask();
}

/* ---- the day book */

/* The state is that of restarting from the book in the first bytes of a buffer. */
static void must_be_state_of(uint32_t date, const uint8_t *book, size_t length) {
    lend(&more, book, length);
    lend_filled(&other, FILL, BOE_STATE_BYTES);
    must(boe_restart(date, more.at, length, state_in(&other), other.len) == 0, "the book is restarted");
    must(memcmp(other.at, state.at, BOE_STATE_BYTES) == 0, "its state is the one that the call left");
}

static void try_open(uint8_t choice, uint32_t date, const uint8_t *data, size_t n) {
    lend(&out, data, n);
    lend_filled(&state, FILL, BOE_STATE_BYTES + 1);
    uint32_t refusal = boe_book_open(date, out.at, n, state_in(&state), state.len);
    name(&question, "open");
    number(&question, date);
    hex(&question, data, n);
    refused(refusal, 0);
    hex(&proved, out.at, n);
    must(stayed_from(&out, refusal ? 0 : BOE_MARK_BYTES), "opening has stored past the mark");
    must(stayed_from(&state, refusal ? 0 : BOE_STATE_BYTES), "opening has stored past the state");
    if (refusal == 0) must_be_state_of(date, out.at, BOE_MARK_BYTES);

    /* with another state's buffer, which may be too short */
    lend(&out, data, n);
    lend_filled(&other, FILL, room_by(choice, BOE_STATE_BYTES));
    uint32_t again = boe_book_open(date, out.at, n, state_in(&other), other.len);
    if (other.len < BOE_STATE_BYTES && refusal == 0)
        must(again == BOE_NO_ROOM && stayed(&out) && stayed(&other), "13 for a short state, and nothing stored");
    else
        must(again == refusal, "the state's buffer changes the answer");
    ask();
}

/* The numbers of a state's table, and its places. */
static void table_words(struct text *text) {
    hex(text, state.at + BOE_STATE_TABLE_AT, BOE_TABLE_BYTES);
    hex(text, state.at + BOE_STATE_PLACES_AT, BOE_TABLE_BYTES);
}

static void try_restart(uint8_t choice, uint32_t date, const uint8_t *data, size_t n) {
    lend(&bytes, data, n);
    lend_filled(&state, FILL, BOE_STATE_BYTES + 1);
    uint32_t refusal = boe_restart(date, bytes.at, n, state_in(&state), state.len);
    name(&question, "restart");
    number(&question, date);
    hex(&question, data, n);
    refused(refusal, 0);
    must(stayed(&bytes), "restart has stored into the book");
    must(stayed_from(&state, refusal ? 0 : BOE_STATE_BYTES), "restart has stored past the state, or a refused one at all");
    if (refusal == 0) {
        number(&proved, number_at(state.at + BOE_STATE_LENGTH_AT));
        number(&proved, number_at(state.at + BOE_STATE_LAST_MARK_AT));
        number(&proved, number_at(state.at + BOE_STATE_MESSAGES_AT));
        table_words(&proved);
        must(number_at(state.at + BOE_STATE_DATE_AT) == date, "the date of the state");
        must_be_state_of(date, bytes.at, number_at(state.at + BOE_STATE_LENGTH_AT));
    }

    lend_filled(&other, FILL, room_by(choice, BOE_STATE_BYTES));
    uint32_t again = boe_restart(date, bytes.at, n, state_in(&other), other.len);
    if (other.len < BOE_STATE_BYTES && refusal == 0)
        must(again == BOE_NO_ROOM && stayed(&other), "13 for a short state, and nothing stored");
    else
        must(again == refusal && stayed_from(&other, refusal ? 0 : BOE_STATE_BYTES), "the state's buffer changes the answer");
    ask();
}

/* Restarts from a book that stands in the front of a buffer, with some bytes FF after it. */
static uint32_t restarted(uint32_t date, const uint8_t *book, size_t n, size_t after) {
    lend_filled(&out, 0xFF, n + after);
    if (n > 0) memcpy(out.at, book, n);
    memcpy(out.was, out.at, out.len);
    lend_filled(&state, FILL, BOE_STATE_BYTES + 1);
    uint32_t refusal = boe_restart(date, out.at, n, state_in(&state), state.len);
    must(stayed(&out), "restart has stored into the book");
    memcpy(state.was, state.at, state.len);
    return refusal;
}

static void try_append(uint32_t date, uint16_t after, const uint8_t *message, size_t k, const uint8_t *book, size_t n) {
    after %= 2101;
    name(&question, "append");
    number(&question, date);
    hex(&question, book, n);
    number(&question, after);
    hex(&question, message, k);
    uint32_t refusal = restarted(date, book, n, after);
    refused(refusal, 0);
    if (refusal == 0) {
        size_t at = number_at(state.at + BOE_STATE_LENGTH_AT);
        lend(&bytes, message, k);
        refusal = boe_book_append(bytes.at, k, out.at, out.len, state_in(&state), state.len);
        size_t length = number_at(state.at + BOE_STATE_LENGTH_AT);
        refused(refusal, boe_frame_length(bytes.at, k));
        number(&proved, length);
        hex(&proved, out.at, out.len);
        must(refusal != 0 || boe_told(bytes.at[4]) == BOE_BOOKED, "a message is booked whose fate is another");
        must(stayed(&bytes), "appending has stored into the message");
        must(stayed_from(&state, refusal ? 0 : BOE_STATE_BYTES), "appending has stored past the state, or a refused one at all");
        must(memcmp(out.at, out.was, at) == 0 && stayed_from(&out, refusal ? 0 : length), "appending has stored elsewhere");
        if (refusal == 0) must_be_state_of(date, out.at, length);
    }
    ask();
}

static void try_close(uint32_t date, uint16_t after, const uint8_t *book, size_t n) {
    after %= 2101;
    name(&question, "close");
    number(&question, date);
    hex(&question, book, n);
    number(&question, after);
    uint32_t refusal = restarted(date, book, n, after);
    if (refusal != 0) {
        refused(refusal, 0);
    } else {
        size_t at = number_at(state.at + BOE_STATE_LENGTH_AT);
        refused(boe_book_close(out.at, out.len, state_in(&state), state.len), 0);
        size_t length = number_at(state.at + BOE_STATE_LENGTH_AT);
        number(&proved, length);
        hex(&proved, out.at, out.len);
        must(stayed_from(&state, BOE_STATE_BYTES), "closing has stored past the state");
        must(memcmp(out.at, out.was, at) == 0 && stayed_from(&out, length == at ? 0 : length), "closing has stored elsewhere");
        must_be_state_of(date, out.at, length);
    }
    ask();
}

/* ---- the last message of a unit */

/* What a reading from the front finds last of a unit in a book: where the message starts, or the book's length. What framing does not take is a
 * mark. */
static size_t found_last(uint8_t unit, const uint8_t *book, size_t length) {
    size_t last = length, total;
    for (size_t at = 0; at < length; at += total) {
        total = boe_frame_length(book + at, length - at);
        if (total == 0) total = BOE_MARK_BYTES;
        else if (book[at + 5] == unit) last = at;
    }
    return last;
}

/* The three calls on the book's buffer, which is in `out`, and the state: the refusal, and the answer's words. */
static uint32_t tell_last(uint8_t unit) {
    const struct boe_state *lent = state_in(&state);
    uint32_t refusal = boe_last_refusal(unit, out.at, out.len, lent, state.len);
    size_t at = boe_last_at(unit, out.at, out.len, lent, state.len), length = boe_last_length(unit, out.at, out.len, lent, state.len);
    must(stayed(&out) && stayed(&state), "a question has stored");
    must(at <= out.len && length <= out.len - at, "a message past its book");
    must(refusal ? at == 0 && length == 0 : length != 0, "a place or a length of no message, or none of one");
    refused(refusal, 0);
    number(&proved, at);
    hex(&proved, out.at + at, length);
    return refusal;
}

static void try_last(uint32_t date, uint16_t after, uint8_t unit, const uint8_t *book, size_t n) {
    after %= 2101;
    name(&question, "last");
    number(&question, date);
    number(&question, unit);
    hex(&question, book, n);
    uint32_t refusal = restarted(date, book, n, after);
    refused(refusal, 0);
    if (refusal == 0) {
        size_t length = number_at(state.at + BOE_STATE_LENGTH_AT), last = found_last(unit, out.at, length);
        refusal = tell_last(unit);
        if (unit < 1 || unit > BOE_UNITS) must(refusal == BOE_BAD_UNIT, "5 for a unit that there is not");
        else must(refusal == (last == length ? BOE_NONE : 0), "26 for a unit without a message, and no other refusal of a book's own state");
        if (refusal == 0) must(boe_last_at(unit, out.at, out.len, state_in(&state), state.len) == last, "what a reading from the front finds last");
    }
    ask();
}

/* ---- the day book with any 272 bytes as its state: asked as steps of a script, of a live member whose buffer holds FF; the member's market, 0
 * or 1, plays no part */

static unsigned market;

static void state_words(struct text *text) {
    number(text, number_at(state.at + BOE_STATE_DATE_AT));
    number(text, number_at(state.at + BOE_STATE_LENGTH_AT));
    number(text, number_at(state.at + BOE_STATE_LAST_MARK_AT));
    number(text, number_at(state.at + BOE_STATE_MESSAGES_AT));
}

static void member_words(unsigned phase) {
    number(&proved, phase);
    number(&proved, 0);
    number(&proved, market);
    state_words(&proved);
    number(&proved, sum_of(state.at + BOE_STATE_TABLE_AT));
    number(&proved, sum_of(state.at + BOE_STATE_PLACES_AT));
}

/* The member gets the state. */
static void ask_state(void) {
    name(&question, "new");
    end_line(&question);
    name(&question, "m-state");
    number(&question, 3);
    number(&question, 0);
    number(&question, market);
    state_words(&question);
    table_words(&question);
    end_line(&question);
    number(&proved, 0);
    end_line(&proved);
    member_words(3);
    end_line(&proved);
}

/* The book's bytes and table after the call; the script's buffer goes on with FF where the lent one ends. */
static void ask_book(void) {
    static uint8_t book[BENCH_BYTES];
    size_t length = number_at(state.at + BOE_STATE_LENGTH_AT);
    memset(book, 0xFF, sizeof book);
    if (out.len > 0) memcpy(book, out.at, out.len);
    end_line(&question);
    end_line(&proved);
    name(&question, "m-book");
    hex(&proved, book, length < sizeof book ? length : sizeof book);
    table_words(&proved);
}

/* The state's bytes and the member's market, which a choice gives. */
static void lend_state(const uint8_t *data, size_t n, uint8_t choice) {
    size_t len = room_by(choice, BOE_STATE_BYTES);
    market = choice / 4 % 2;
    lend_filled(&state, 0, len);
    memcpy(state.at, data, n < len ? n : len);
    memcpy(state.was, state.at, len);
}

static void try_append_on(uint8_t choice, uint16_t out_len, const uint8_t *data, size_t n) {
    static const uint8_t mark[BOE_MARK_BYTES] = {0, 0, 0, 0, 0xC3, 0, 0x35, 1};
    size_t given = n < BOE_STATE_BYTES ? n : BOE_STATE_BYTES, k = n - given;
    const uint8_t *message = data + given;
    lend_state(data, given, choice);
    lend_filled(&out, 0xFF, out_len % (BENCH_BYTES + 1));
    lend(&bytes, message, k);
    if (state.len < BOE_STATE_BYTES) {
        must(boe_book_append(bytes.at, k, out.at, out.len, state_in(&state), state.len) == BOE_NO_ROOM, "13 for a short state");
        must(stayed(&state) && stayed(&out) && stayed(&bytes), "appending with a short state has stored");
        return;
    }
    int booked = k < 5 || boe_told(message[4]) == BOE_BOOKED;
    if (booked) ask_state();
    uint32_t refusal = boe_book_append(bytes.at, k, out.at, out.len, state_in(&state), state.len);
    size_t length = number_at(state.at + BOE_STATE_LENGTH_AT), total = boe_frame_length(bytes.at, k);
    must(stayed(&bytes), "appending has stored into the message");
    must(stayed_from(&state, refusal ? 0 : BOE_STATE_BYTES), "appending has stored past the state, or a refused one at all");
    must(stayed_from(&out, refusal ? 0 : length), "appending has stored past its message, or a refused one at all");
    if (booked) {
        name(&question, "m-get");
        hex(&question, message, k);
        number(&question, out.len);
        refused(refusal, total);
        number(&proved, refusal ? BOE_NOTHING : BOE_BOOKED);
        member_words(3);
        if (refusal == 0) {
            must(length <= out.len && total <= length && memcmp(out.at, out.was, length - total) == 0, "appending has stored elsewhere");
            ask_book();
        }
    } else {
        /* a session takes other types too, a book none, whatever its state: asked of a fresh one */
        name(&question, "append 20250819");
        hex(&question, mark, sizeof mark);
        number(&question, 0);
        hex(&question, message, k);
        number(&proved, 0);
        refused(refusal, total);
        number(&proved, sizeof mark);
        hex(&proved, mark, sizeof mark);
    }
    ask();
}

static void try_close_on(uint8_t choice, uint16_t out_len, const uint8_t *data, size_t n) {
    lend_state(data, n < BOE_STATE_BYTES ? n : BOE_STATE_BYTES, choice);
    lend_filled(&out, 0xFF, out_len % (BENCH_BYTES + 1));
    if (state.len < BOE_STATE_BYTES) {
        must(boe_book_close(out.at, out.len, state_in(&state), state.len) == BOE_NO_ROOM, "13 for a short state");
        must(stayed(&state) && stayed(&out), "closing with a short state has stored");
        return;
    }
    ask_state();
    uint32_t refusal = boe_book_close(out.at, out.len, state_in(&state), state.len);
    must(refusal == 0, "closing a book with a state is not refused");
    must(stayed_from(&state, BOE_STATE_BYTES), "closing has stored past the state");
    name(&question, "m-break");
    number(&question, out.len);
    member_words(0);
    if (stayed(&state)) {
        must(stayed(&out), "a mark without room has stored");
    } else {
        size_t length = number_at(state.at + BOE_STATE_LENGTH_AT);
        must(length >= BOE_MARK_BYTES && stayed_from(&out, length), "closing has stored past the mark");
        ask_book();
    }
    ask();
}

/* Any bytes as a book and as its state: this question has a line of its own. */
static void try_last_on(uint8_t choice, uint8_t unit, const uint8_t *data, size_t n) {
    size_t given = n < BOE_STATE_BYTES ? n : BOE_STATE_BYTES;
    lend_state(data, given, choice);
    lend(&out, data + given, n - given);
    name(&question, "last-state");
    hex(&question, state.at, state.len);
    number(&question, unit);
    hex(&question, out.at, out.len);
    tell_last(unit);
    ask();
}

/* ---- an input */

const size_t before[CALLS] = {
    [FRAME] = 0, [STEP] = 5, [READ] = 2, [WRITE] = 4, [OPEN] = 5, [RESTART] = 5, [APPEND] = 8, [CLOSE] = 6, [APPEND_ON] = 3, [CLOSE_ON] = 3,
    [TOLD] = 1, [LAST] = 7, [LAST_ON] = 2, [PULSE] = 8, [STEPS] = 0,
};

size_t message_len(const uint8_t *args, size_t n) { return short_at(args + 6) % (n + 1); }

void try_input(const uint8_t *data, size_t size) {
    if (size < 1 || size > MOST_INPUT) return;
    enum call call = data[0] % CALLS;
    if (size - 1 < before[call]) return;
    const uint8_t *args = data + 1, *rest = args + before[call];
    size_t n = size - 1 - before[call], k;
    question.len = proved.len = 0;
    question.at[0] = proved.at[0] = 0;
    switch (call) {
    case FRAME: try_frame(rest, n); break;
    case STEP: try_step(args[0], number_at(args + 1), rest, n); break;
    case READ: try_read(args[0], args[1], rest, n); break;
    case WRITE: try_write(args[0], args[1], short_at(args + 2), rest, n); break;
    case OPEN: try_open(args[0], number_at(args + 1), rest, n); break;
    case RESTART: try_restart(args[0], number_at(args + 1), rest, n); break;
    case APPEND:
        k = message_len(args, n);
        try_append(number_at(args), short_at(args + 4), rest, k, rest + k, n - k);
        break;
    case CLOSE: try_close(number_at(args), short_at(args + 4), rest, n); break;
    case APPEND_ON: try_append_on(args[0], short_at(args + 1), rest, n); break;
    case CLOSE_ON: try_close_on(args[0], short_at(args + 1), rest, n); break;
    case TOLD: try_told(args[0]); break;
    case LAST: try_last(number_at(args), short_at(args + 4), args[6], rest, n); break;
    case LAST_ON: try_last_on(args[0], args[1], rest, n); break;
    case PULSE: try_pulse(number_at(args), number_at(args + 4)); break;
    case STEPS: try_steps(rest, n); break;
    case CALLS: break;
    }
}
