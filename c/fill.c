/* Messages from the venue by chance. */
#include "fill.h"

#include "fields.h"
#include "tell.h"

#include <stdlib.h>

/* The generator xorshift64. It would stay at 0, and is far from a seed's few bits after some steps. */
struct chance chance_from(uint64_t seed) {
    struct chance chance = {seed * 2 + 1};
    for (unsigned i = 0; i < 20; i++) below(&chance, 2);
    return chance;
}

unsigned below(struct chance *chance, unsigned n) {
    chance->at ^= chance->at << 13;
    chance->at ^= chance->at >> 7;
    chance->at ^= chance->at << 17;
    return (unsigned)((chance->at >> 32) % n);
}

/* Fills a field: with any bytes where it is no text, else with characters of its kind, up to its end or to a NUL. */
static void fill(struct chance *chance, uint8_t *place, unsigned len, char kind) {
    static const char letters[] = "ABCDEFGHIJKLMNOPQRSTUVWXYZabcdefghijklmnopqrstuvwxyz0123456789 -/";
    unsigned choice = kind == 'A' ? 52 : kind == 'N' || kind == 'I' ? 62 : kind == 'T' ? 65 : 0, used = choice ? 1 + below(chance, len) : len;
    for (unsigned i = 0; i < used; i++) place[i] = choice ? (uint8_t)letters[below(chance, choice)] : (uint8_t)below(chance, 256);
}

struct boe_record any_record(struct chance *chance, uint8_t type, unsigned bitfields) {
    struct boe_record record = boe_blank_record(type);
    size_t count;
    const struct field *fields = fields_of(type, &count);
    unsigned more = below(chance, bitfields + 1), often = 1 + below(chance, 8);
    for (const struct field *f = fields; f < fields + count; f++) {
        if (f->where.byte && below(chance, often)) continue;
        fill(chance, record.bytes + f->where.at, f->where.len, f->kind);
        boe_select_field(&record, f->where);
    }
    boe_raise(&record.bytes[BOE_RECORD_COUNT_AT], (uint8_t)more);
    return record;
}

void set_unit(struct boe_record *record, uint8_t unit, uint32_t number) {
    record->bytes[BOE_RECORD_UNIT_AT] = unit;
    for (unsigned i = 0; i < 4; i++) record->bytes[BOE_RECORD_NUMBER_AT + i] = (uint8_t)(number >> 8 * i);
}

size_t any_sequenced(struct chance *chance, uint8_t unit, uint32_t number, uint8_t *out) {
    struct boe_record record = any_record(chance, below(chance, 2) ? BOE_EXECUTION : BOE_ACKNOWLEDGMENT, 3);
    set_unit(&record, unit, number);
    return written(&record, out);
}

size_t written(const struct boe_record *record, uint8_t *out) {
    uint32_t refusal = boe_write(BOE_FROM_VENUE, record, sizeof *record, out, BOE_MESSAGE_MOST_BYTES);
    if (refusal) {
        tell("a record of type %02X is not written: %u %s at byte %u", record->bytes[BOE_RECORD_TYPE_AT], BOE_NUMBER(refusal),
             boe_refusal_name(refusal), BOE_PLACE(refusal));
        exit(SYSTEM_FAILED);
    }
    return boe_frame_length(out, BOE_MESSAGE_MOST_BYTES);
}
