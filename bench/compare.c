/* Both sides on a message and on its damages. */
#include "compare.h"

#include "baseline.h"
#include "count.h"

#include <string.h>

enum { TYPE_AT = 4, NO_TEXT = 0x07 };

typedef uint32_t call(uint8_t direction, const uint8_t *from, size_t from_len, uint8_t *to, size_t to_len);

uint32_t proved_read(uint8_t direction, const uint8_t *bytes, size_t len, uint8_t *record, size_t record_len) {
    return boe_read(direction, bytes, len, (struct boe_record *)record, record_len);
}

uint32_t proved_write(uint8_t direction, const uint8_t *record, size_t record_len, uint8_t *out, size_t out_len) {
    return boe_write(direction, (const struct boe_record *)record, record_len, out, out_len);
}

void differ(const struct workload *w, const char *what) {
    say(2, "bench: workload ");
    say(2, w->name);
    say(2, ": ");
    say(2, what);
    say(2, "\n");
    end(1);
}

/* Asks both sides and compares the refusals, their places and all bytes of the two buffers. */
static void ask(const struct workload *w, const char *what, call *proved, call *baseline, uint8_t direction,
                const uint8_t *from, size_t from_len, size_t to_len) {
    uint8_t one[LONGEST], other[LONGEST];
    memset(one, FILLING, sizeof one);
    memset(other, FILLING, sizeof other);
    if (proved(direction, from, from_len, one, to_len) != baseline(direction, from, from_len, other, to_len))
        differ(w, what);
    if (memcmp(one, other, sizeof one) != 0)
        differ(w, what);
}

void compare_good(struct workload *w) {
    uint8_t made[LONGEST];
    memset(w->record, FILLING, RECORD);
    memset(made, FILLING, sizeof made);
    if (proved_read(w->direction, w->message, w->total, w->record, RECORD) != 0)
        differ(w, "the proved reader refuses the message");
    if (base_read(w->direction, w->message, w->total, made, RECORD) != 0)
        differ(w, "the baseline's reader refuses the message");
    if (memcmp(w->record, made, RECORD) != 0)
        differ(w, "the readers answer different records");
    memset(made, FILLING, sizeof made);
    if (proved_write(w->direction, w->record, RECORD, made, w->total) != 0)
        differ(w, "the proved writer refuses the record");
    if (memcmp(made, w->message, w->total) != 0 || made[w->total] != FILLING)
        differ(w, "the proved writer does not write the message back");
    memset(made, FILLING, sizeof made);
    if (base_write(w->direction, w->record, RECORD, made, w->total) != 0)
        differ(w, "the baseline's writer refuses the record");
    if (memcmp(made, w->message, w->total) != 0 || made[w->total] != FILLING)
        differ(w, "the baseline's writer does not write the message back");
}

int is_session(uint8_t direction, uint8_t type) {
    if (direction == BOE_FROM_VENUE)
        return type == 0x24 || type == 0x08 || type == 0x09 || type == 0x13;
    return type == 0x37 || type == 0x03;
}

/* Each two of the first bytes replaced by one that no text has: of two bad fields the first is told. */
static void ask_pairs(const struct workload *w, const char *what, call *proved, call *baseline,
                      const uint8_t *from, size_t from_len, size_t first) {
    uint8_t bytes[LONGEST];
    memcpy(bytes, from, from_len);
    for (size_t one = 0; one < first; one++)
        for (size_t other = one + 1; other < first; other++) {
            bytes[one] = bytes[other] = NO_TEXT;
            ask(w, what, proved, baseline, w->direction, bytes, from_len, LONGEST);
            bytes[one] = from[one];
            bytes[other] = from[other];
        }
}

void compare_damaged(const struct workload *w) {
    uint8_t bytes[LONGEST];
    memcpy(bytes, w->message, w->total);
    for (size_t len = 0; len <= w->total; len++)
        ask(w, "the readers differ on a cut message", proved_read, base_read, w->direction, bytes, len, RECORD);
    for (unsigned direction = 0; direction < 256; direction++) {
        ask(w, "the readers differ on a direction", proved_read, base_read, (uint8_t)direction, bytes, w->total, RECORD);
        ask(w, "the writers differ on a direction", proved_write, base_write, (uint8_t)direction, w->record, RECORD, LONGEST);
    }
    for (size_t len = 0; len <= RECORD; len++)
        ask(w, "the readers differ on a short record", proved_read, base_read, w->direction, bytes, w->total, len);
    for (size_t at = 0; at < w->total; at++) {
        uint8_t kept = bytes[at];
        for (unsigned other = 0; other < 256; other++) {
            if (at == TYPE_AT && is_session(w->direction, (uint8_t)other))
                continue;
            bytes[at] = (uint8_t)other;
            ask(w, "the readers differ on a damaged message", proved_read, base_read, w->direction, bytes, w->total, RECORD);
        }
        bytes[at] = kept;
    }
    ask_pairs(w, "the readers differ on two damages", proved_read, base_read, w->message, w->total, w->total);

    memcpy(bytes, w->record, RECORD);
    for (size_t len = 0; len <= RECORD; len++)
        ask(w, "the writers differ on a cut record", proved_write, base_write, w->direction, bytes, len, LONGEST);
    for (size_t len = 0; len <= w->total; len++)
        ask(w, "the writers differ on a short buffer", proved_write, base_write, w->direction, bytes, RECORD, len);
    for (size_t at = 0; at < RECORD; at++) {
        uint8_t kept = bytes[at];
        for (unsigned other = 0; other < 256; other++) {
            if (at == BOE_RECORD_TYPE_AT && is_session(w->direction, (uint8_t)other))
                continue;
            bytes[at] = (uint8_t)other;
            ask(w, "the writers differ on a damaged record", proved_write, base_write, w->direction, bytes, RECORD, LONGEST);
        }
        bytes[at] = kept;
    }
    ask_pairs(w, "the writers differ on two damages", proved_write, base_write, w->record, RECORD, BOE_ORDER_RECORD_LEN);
}

void compare_other_market(const struct workload *w) {
    static struct workload other;
    if (w->direction != BOE_FROM_MEMBER || boe_read(BOE_FROM_OPTIONS_MEMBER, w->message, w->total, (struct boe_record *)other.record, RECORD) != 0)
        return;
    other = *w;
    other.direction = BOE_FROM_OPTIONS_MEMBER;
    compare_good(&other);
    compare_damaged(&other);
}

void compare_ids(void) {
    const struct workload *none = &workloads[WORKLOADS + REJECTIONS + ORDERS - 1];
    static struct workload w;
    enum { IDS_AT = 14 };
    for (unsigned ids = 0; ids < (LONGEST - none->total) / BOE_RISK_GROUP_ID_LEN; ids++) {
        w.name = none->name;
        w.total = 0;
        add(&w, (const char *)none->message, IDS_AT, IDS_AT);
        w.message[IDS_AT - 1] = (uint8_t)ids;
        add(&w, "\xBF\xBE", ids > 0 ? 2 : 0, BOE_RISK_GROUP_ID_LEN * ids);
        add(&w, (const char *)none->message + IDS_AT, none->total - IDS_AT, none->total - IDS_AT);
        finish(&w);
        ask(&w, "the readers differ on RiskGroupIDs", proved_read, base_read, BOE_FROM_MEMBER, w.message, w.total, RECORD);
    }
}
