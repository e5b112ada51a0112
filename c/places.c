/* A refusal in words, by the table of fields. */
#include "places.h"

#include "fields.h"

#include <string.h>

/* The field of a record that begins at a place of its message. */
static const char *field_at(unsigned place, const struct boe_record *record) {
    size_t count;
    const struct field *fields = fields_of(record->bytes[BOE_RECORD_TYPE_AT], &count);
    for (size_t i = 0; i < count; i++)
        if (has_field(record, &fields[i]) && field_place(record, &fields[i]) == place) return fields[i].name;
    return "no field";
}

/* What stands at the place of a refusal. */
static void print_at(FILE *to, uint32_t refusal, const struct boe_record *record) {
    unsigned place = BOE_PLACE(refusal), bitfield = place - count_place(record->bytes[BOE_RECORD_TYPE_AT]);
    if (BOE_NUMBER(refusal) == BOE_WRONG_TOTAL)
        fprintf(to, "the end");
    else if (BOE_NUMBER(refusal) == BOE_BAD_VALUE)
        fprintf(to, "%s", field_at(place, record));
    else if (bitfield == 0)
        fprintf(to, "the count of bitfields");
    else
        fprintf(to, "bitfield %u", bitfield);
}

/* Number and name of a refusal, and where it has a place the place. */
static void print_number(FILE *to, uint32_t refusal) {
    fprintf(to, "%u %s", BOE_NUMBER(refusal), boe_refusal_name(refusal));
    if (BOE_PLACE(refusal)) fprintf(to, " at byte %u, ", BOE_PLACE(refusal));
}

/* Puts into a record what decides where the fields of its message stand: the bitfields and, in a Purge Orders, RiskGroupIDCnt. The message has all of
 * them, and no more bitfields than a record: else it would be refused with 6 or 7. */
static void take_outline(struct boe_record *record, const uint8_t *message) {
    uint8_t type = record->bytes[BOE_RECORD_TYPE_AT];
    const uint8_t *count = message + count_place(type);
    if (count == message || *count > BOE_RECORD_BITFIELDS_LEN) return;
    memcpy(record->bytes + BOE_RECORD_COUNT_AT, count, 1u + *count);
    if (type == BOE_PURGE_ORDERS) record->bytes[BOE_PURGE_ORDERS_RISK_GROUP_ID_CNT_AT] = count[1 + *count];
}

void print_what(FILE *to, uint32_t refusal, uint8_t direction, const uint8_t *message) {
    struct boe_record record = boe_blank_record(record_type(direction, message[4]));
    if (BOE_NUMBER(refusal) == BOE_BAD_VALUE) take_outline(&record, message);
    print_at(to, refusal, &record);
}

void print_refused(FILE *to, uint32_t refusal, uint8_t direction, const uint8_t *message) {
    print_number(to, refusal);
    if (BOE_PLACE(refusal)) print_what(to, refusal, direction, message);
}

void print_unwritten(FILE *to, uint32_t refusal, const struct boe_record *record) {
    print_number(to, refusal);
    if (BOE_PLACE(refusal)) print_at(to, refusal, record);
}
