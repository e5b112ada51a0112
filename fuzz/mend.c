/* Makes parts of an input right that random changes seldom get right. See fuzz.h and README.md. */
#include "fuzz.h"
#include "lent.h"
#include <string.h>

/* A Purge Orders gets the next RiskGroupIDCnt with which its total is right, if there is one. */
static void mend_ids(uint8_t *message, size_t n) {
    struct boe_record unused;
    size_t at = n < 12 ? n : 12u + message[11];
    for (unsigned tries = 0; at < n && tries < 256; tries++, message[at]++)
        if (BOE_NUMBER(boe_read(BOE_FROM_MEMBER, message, n, &unused, sizeof unused)) != BOE_WRONG_TOTAL) return;
}

/* An options New Order whose MaturityDate is its first bad field gets a day there. A date is no good value of any other field that can be bad, so
 * that these stay as they are. */
static void mend_maturity(uint8_t *message, size_t n) {
    struct boe_record unused;
    uint8_t kept[4];
    uint32_t refusal = boe_read(BOE_FROM_OPTIONS_MEMBER, message, n, &unused, sizeof unused), at = BOE_PLACE(refusal);
    if (BOE_NUMBER(refusal) != BOE_BAD_VALUE || message[4] != BOE_NEW_ORDER || n - at < sizeof kept) return;
    memcpy(kept, message + at, sizeof kept);
    put_number(message + at, day_of(message + at));
    if (boe_read(BOE_FROM_OPTIONS_MEMBER, message, n, &unused, sizeof unused) == refusal) memcpy(message + at, kept, sizeof kept);
}

/* A record of a New Order gets the direction of its market, and an options one that has a MaturityDate a day. */
static void mend_record(uint8_t *direction, uint8_t *record, size_t n) {
    enum { DATE_AT = BOE_OPTIONS_NEW_ORDER_MATURITY_DATE_AT, END = DATE_AT + BOE_OPTIONS_NEW_ORDER_MATURITY_DATE_LEN };
    if (n > BOE_RECORD_TYPE_AT && record[BOE_RECORD_TYPE_AT] == BOE_NEW_ORDER) *direction = BOE_FROM_MEMBER;
    if (n < END || record[BOE_RECORD_TYPE_AT] != BOE_OPTIONS_NEW_ORDER) return;
    *direction = BOE_FROM_OPTIONS_MEMBER;
    if (number_at(record + DATE_AT) != 0) put_number(record + DATE_AT, day_of(record + DATE_AT));
}

static void mend_message(uint8_t *message, size_t n) {
    if (n < 10 || n > 2048) return;
    message[0] = message[1] = 0xBA;
    message[2] = (uint8_t)((n - 2) % 256);
    message[3] = (uint8_t)((n - 2) / 256);
    if (boe_told(message[4]) == BOE_HANDED) memset(message + 5, 0, 5); /* neither unit nor number */
    if (message[4] == BOE_PURGE_ORDERS) mend_ids(message, n);
}

/* A unit's last message in a book. */
struct reached {
    uint32_t number, place;
};

/* Marks get the date and what goes before them, messages their unit's next number; what each unit has come to is left in `reached`. */
static void mend_book(uint32_t date, uint8_t *book, size_t n, struct reached *reached) {
    size_t at = 0, last = 0, total;
    uint32_t messages = 0;
    while (n - at >= BOE_MARK_BYTES) {
        if (at == 0 || number_at(book + at) == 0) {
            put_number(book + at, 0);
            put_number(book + at + 4, date);
            put_number(book + at + 8, messages);
            put_number(book + at + 12, (uint32_t)(at - last));
            last = at;
            at += BOE_MARK_BYTES;
        } else if ((total = boe_frame_length(book + at, n - at)) != 0) {
            put_number(book + at + 6, ++reached[book[at + 5]].number);
            reached[book[at + 5]].place = (uint32_t)at;
            messages++;
            at += total;
        } else {
            return;
        }
    }
}

/* The first unit from this one on, and round, that has come to a message; where there is none, a unit of 1 to 32. */
static uint8_t mend_unit(uint8_t unit, const struct reached *reached) {
    unsigned first = (unit - 1u) % BOE_UNITS, next = first;
    do {
        if (reached[next + 1].number != 0) break;
        next = (next + 1) % BOE_UNITS;
    } while (next != first);
    return (uint8_t)(next + 1);
}

/* Each step's message gets its start and length, and dates and numbers are put right when it is taken. */
static void mend_steps(uint8_t *data, size_t n) {
    struct step step;
    uint8_t unused;
    for (size_t at = 0, from = 0; next_step(data, n, &at, &step); from = at) {
        uint8_t *given = data + step.at;
        data[from + 1] |= MENDED;
        if (step.kind == M_GET || step.kind == V_LOG || step.kind == V_LOGIN || step.kind == V_ORDER) mend_message(given, step.n);
        if (step.kind == V_ORDER && step.how & OF_OPTIONS) mend_maturity(given, step.n);
        if (step.kind == M_ORDER) mend_record(&unused, given, step.n);
    }
}

uint64_t random_state;

/* splitmix64 */
size_t below(size_t end) {
    uint64_t mixed = random_state += 0x9E3779B97F4A7C15u;
    mixed = (mixed ^ mixed >> 30) * 0xBF58476D1CE4E5B9u;
    mixed = (mixed ^ mixed >> 27) * 0x94D049BB133111EBu;
    return (size_t)((mixed ^ mixed >> 31) % end);
}

size_t put_step_in(uint8_t *data, size_t size, size_t most) {
    struct step step;
    size_t at = 1, from = 1;
    if (size < 1 || data[0] % CALLS != STEPS || most - size < STEP_BYTES) return size;
    for (size_t steps = below(20); steps > 0 && next_step(data, size, &at, &step); steps--) from = at;
    memmove(data + from + STEP_BYTES, data + from, size - from);
    data[from] = (uint8_t)below(KINDS);
    data[from + 1] = (uint8_t)(AS_SENT | MENDED | below(256));
    for (size_t i = 2; i < 4; i++) data[from + i] = (uint8_t)below(256);
    memset(data + from + 4, 0, 2); /* it is given nothing */
    return size + STEP_BYTES;
}

void mend(uint8_t *data, size_t size) {
    struct reached reached[256] = {0};
    if (size < 1) return;
    enum call call = data[0] % CALLS;
    if (size - 1 < before[call]) return;
    uint8_t *args = data + 1, *rest = args + before[call];
    size_t n = size - 1 - before[call], k;
    switch (call) {
    case FRAME: mend_message(rest, n); break;
    case READ:
        mend_message(rest, n);
        if (args[0] == BOE_FROM_OPTIONS_MEMBER) mend_maturity(rest, n);
        break;
    case WRITE: mend_record(args, rest, n); break;
    case RESTART: mend_book(number_at(args + 1), rest, n, reached); break;
    case CLOSE: mend_book(number_at(args), rest, n, reached); break;
    case APPEND:
        k = message_len(args, n);
        mend_book(number_at(args), rest + k, n - k, reached);
        mend_message(rest, k);
        if (k >= 10) put_number(rest + 6, reached[rest[5]].number + 1);
        break;
    case APPEND_ON:
        if (n < BOE_STATE_BYTES + 10) break;
        mend_message(rest + BOE_STATE_BYTES, n - BOE_STATE_BYTES);
        k = (rest[BOE_STATE_BYTES + 5] - 1u) % 32;
        put_number(rest + BOE_STATE_BYTES + 6, number_at(rest + 4 * k) + 1);
        break;
    case LAST:
        mend_book(number_at(args), rest, n, reached);
        args[6] = mend_unit(args[6], reached);
        break;
    case LAST_ON:
        if (n < BOE_STATE_BYTES) break;
        mend_book(number_at(rest + BOE_STATE_DATE_AT), rest + BOE_STATE_BYTES, n - BOE_STATE_BYTES, reached);
        args[1] = mend_unit(args[1], reached);
        k = 4 * (args[1] - 1u);
        put_number(rest + BOE_STATE_TABLE_AT + k, reached[args[1]].number);
        put_number(rest + BOE_STATE_PLACES_AT + k, reached[args[1]].place);
        put_number(rest + BOE_STATE_LENGTH_AT, (uint32_t)(n - BOE_STATE_BYTES));
        break;
    case STEPS: mend_steps(rest, n); break;
    default: break;
    }
}
