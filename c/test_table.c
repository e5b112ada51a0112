/* Holds the table of fields (fields.h) to the library, for c/test_decode: every place, width, bit and kind, and values as text.
 *
 * usage: test_table    a line for each thing that is wrong, and last how many were tried; the exit status is 1 where one is wrong */
#define _XOPEN_SOURCE 700
#include "fields.h"

#include <ctype.h>
#include <stdlib.h>
#include <string.h>

static unsigned long tried, wrong;

/* Holds or tells what does not, with ? for what a terminal would not print. */
static void check(bool holds, uint8_t type, const char *name, const char *what) {
    tried++;
    if (holds) return;
    wrong++;
    printf("%s, %s: ", type_name(type), name);
    for (; *what; what++) putchar(isprint((unsigned char)*what) ? *what : '?');
    putchar('\n');
}

/* The types of record that have fields, each with a direction in which it is written. */
static const struct {
    uint8_t type, direction;
} records[] = {{BOE_NEW_ORDER, BOE_FROM_MEMBER},       {BOE_OPTIONS_NEW_ORDER, BOE_FROM_OPTIONS_MEMBER}, {BOE_CANCEL_ORDER, BOE_FROM_MEMBER},
               {BOE_MODIFY_ORDER, BOE_FROM_MEMBER},    {BOE_PURGE_ORDERS, BOE_FROM_MEMBER},              {BOE_ACKNOWLEDGMENT, BOE_FROM_VENUE},
               {BOE_EXECUTION, BOE_FROM_VENUE},        {BOE_REJECTION, BOE_FROM_VENUE},                  {BOE_CANCEL_REJECTION, BOE_FROM_VENUE},
               {BOE_MODIFY_REJECTION, BOE_FROM_VENUE}, {BOE_LOGIN_REQUEST, BOE_FROM_MEMBER},             {BOE_LOGIN_RESPONSE, BOE_FROM_VENUE},
               {BOE_LOGOUT, BOE_FROM_VENUE}};

static bool is_named(const struct field *field, const char *name) { return strcmp(field->name, name) == 0; }

static bool is_text(const struct field *field) { return strchr("ANTI", field->kind) != NULL; }

/* Whether a field counts what follows it in the message, so that another value makes another message of it. */
static bool counts(const struct field *field) {
    return is_named(field, "RiskGroupIDCnt") || is_named(field, "NumberOfParamGroups") || is_named(field, "NumberOfUnits");
}

/* OrderQty as a fixed field is 1 to 999,999. */
static bool is_limited(const struct field *field) { return is_named(field, "OrderQty") && field->where.byte == 0; }

/* One of two good values, 1 or 2, of a field. They differ in every byte, if the field's values can. */
static const char *value_of(const struct field *field, int which) {
    static char text[80];
    uint64_t number = 0;
    for (unsigned i = 0; i < field->where.len && i < 8; i++) number = number << 8 | (unsigned)which;
    if (is_limited(field)) number &= 0xFFFFF;
    if (is_named(field, "NoUnspecifiedUnitReplay")) number--;
    if (field->kind == 'D') number = 20250800 + (unsigned)which;
    if (is_text(field)) {
        memset(text, which == 1 ? 'P' : 'Q', field->where.len);
        text[field->where.len] = 0;
    } else if (field->kind == 'P') {
        price_text((int64_t)number, text);
    } else {
        snprintf(text, sizeof text, "%llu", (unsigned long long)number);
    }
    return text;
}

/* Whether a field must be there. */
static bool is_required(const struct field *field) {
    uint8_t type = field->where.type;
    if (field->where.byte == 0) return true;
    if (is_named(field, "Price")) return type == BOE_NEW_ORDER || type == BOE_OPTIONS_NEW_ORDER || type == BOE_MODIFY_ORDER;
    if (is_named(field, "Symbol") || is_named(field, "Capacity")) return type == BOE_NEW_ORDER || type == BOE_OPTIONS_NEW_ORDER;
    if (is_named(field, "OrderQty")) return type == BOE_MODIFY_ORDER;
    return is_named(field, "MassCancelInst");
}

/* A good record: all its fields, or the required ones; a Purge Orders with two RiskGroupIDs, a Logout with two pairs, the others' counts 0. */
static struct boe_record good_record(uint8_t type, bool all) {
    struct boe_record record = boe_blank_record(type);
    size_t count;
    const struct field *fields = fields_of(type, &count);
    record.bytes[BOE_RECORD_UNIT_AT] = type == BOE_ACKNOWLEDGMENT || type == BOE_EXECUTION;
    for (size_t i = 0; i < count; i++) {
        if (counts(&fields[i]) || !(all || is_required(&fields[i]))) continue;
        check(set_value(&record, &fields[i], value_of(&fields[i], 1)), type, fields[i].name, "a good value is not set");
    }
    if (type == BOE_PURGE_ORDERS) boe_purge_orders_set_risk_group_id(&record, 1, 0xBEBF);
    if (type == BOE_LOGOUT) {
        static const uint8_t pairs[] = {2, 7, 1, 0, 0, 0, 9, 3, 0, 0, 0};
        memcpy(record.bytes + BOE_LOGOUT_NUMBER_OF_UNITS_AT, pairs, sizeof pairs);
    }
    return record;
}

/* A good record of all fields, for trying one of them. In a Purge Orders Symbol does not go with a MatchingUnit: one of them is left out. */
static struct boe_record full_record(uint8_t type, const struct field *tried_one) {
    struct boe_record record = good_record(type, true);
    const struct field *out = field_named(type, tried_one && is_named(tried_one, "Symbol") ? "MatchingUnit" : "Symbol");
    if (type != BOE_PURGE_ORDERS) return record;
    memset(record.bytes + out->where.at, 0, out->where.len);
    record.bytes[BOE_RECORD_BITFIELDS_AT + out->where.byte - 1] &= (uint8_t)~out->where.bit;
    return record;
}

/* Writes a record: its length, or 0 where it is refused. */
static size_t written(const struct boe_record *record, uint8_t direction, uint8_t out[BOE_WRITTEN_MOST_BYTES]) {
    memset(out, 0, BOE_WRITTEN_MOST_BYTES);
    if (boe_write(direction, record, sizeof *record, out, BOE_WRITTEN_MOST_BYTES) != 0) return 0;
    return boe_frame_length(out, BOE_WRITTEN_MOST_BYTES);
}

/* What print_value prints. It stays until the next is made. */
static const char *printed(const struct boe_record *record, const struct field *field, bool quoted) {
    static char text[600];
    FILE *to = fmemopen(text, sizeof text, "w");
    if (!to) exit(2);
    memset(text, 0, sizeof text);
    print_value(to, record, field, quoted);
    fclose(to);
    return text;
}

/* A field is the bytes from its place on: with one value and another, the messages differ from there on to its last byte, and nowhere else. What was
 * written is read, and has the value. */
static void try_value(const struct boe_record *base, uint8_t direction, const struct field *field) {
    uint8_t type = field->where.type, one[BOE_WRITTEN_MOST_BYTES], two[BOE_WRITTEN_MOST_BYTES];
    struct boe_record record = *base, other = *base, read;
    char value[80];
    strcpy(value, value_of(field, 1));
    check(set_value(&record, field, value) && set_value(&other, field, value_of(field, 2)), type, field->name, "a value is not set");
    size_t length = written(&record, direction, one), begin = 0, end = length, place = field_place(&record, field);
    check(length > 0 && written(&other, direction, two) == length, type, field->name, "a value is not written");
    while (begin < length && one[begin] == two[begin]) begin++;
    while (end > begin && one[end - 1] == two[end - 1]) end--;
    check(begin == place, type, field->name, "another place");
    bool narrow = is_limited(field) || field->kind == 'D';
    check(narrow ? end <= place + field->where.len : end == place + field->where.len, type, field->name, "another width");
    check(boe_read(direction, one, length, &read, sizeof read) == 0 && has_field(&read, field), type, field->name, "is not read");
    check(strcmp(printed(&read, field, false), value) == 0, type, field->name, "another value is read");
}

/* The fields of a message stand one after the other, first the fixed part from byte 10 up to the count byte, then what is behind the bitfields up to
 * the end, and have the record's bytes. */
static void try_order(const struct boe_record *record, uint8_t direction) {
    uint8_t type = record->bytes[BOE_RECORD_TYPE_AT], message[BOE_WRITTEN_MOST_BYTES];
    size_t count, length = written(record, direction, message), next = 10;
    const struct field *fields = fields_of(type, &count);
    check(length > 0, type, "the message", "is not written");
    for (size_t i = 0; i < count; i++) {
        const struct field *field = &fields[i];
        if (!has_field(record, field)) continue;
        if (next == count_place(type)) next += 1u + record->bytes[BOE_RECORD_COUNT_AT];
        check(field_place(record, field) == next, type, field->name, "not behind the one before");
        check(memcmp(message + next, record->bytes + field->where.at, field->where.len) == 0, type, field->name, "other bytes");
        next += field->where.len;
        if (is_named(field, "RiskGroupIDCnt")) next += BOE_RISK_GROUP_ID_LEN * 2;
    }
    if (next == count_place(type)) next += 1u + record->bytes[BOE_RECORD_COUNT_AT];
    if (type == BOE_LOGOUT) next += 2 * BOE_PAIR_LEN;
    if (type == BOE_LOGIN_RESPONSE) next++;
    check(next == length, type, "the message", "does not end with its last field");
}

/* The table has a row for each bit that the writer takes, one, and for no other. */
static void try_bits(uint8_t type, uint8_t direction) {
    size_t count;
    const struct field *fields = fields_of(type, &count);
    for (unsigned byte = 1; count_place(type) && byte <= BOE_RECORD_BITFIELDS_LEN; byte++) {
        for (unsigned bit = 1; bit <= 0x80; bit <<= 1) {
            struct boe_record record = good_record(type, false);
            uint8_t out[BOE_WRITTEN_MOST_BYTES];
            char name[40];
            record.bytes[BOE_RECORD_BITFIELDS_AT + byte - 1] |= (uint8_t)bit;
            boe_raise(&record.bytes[BOE_RECORD_COUNT_AT], (uint8_t)byte);
            unsigned rows = 0, refusal = BOE_NUMBER(boe_write(direction, &record, sizeof record, out, sizeof out));
            for (size_t i = 0; i < count; i++) rows += fields[i].where.byte == byte && fields[i].where.bit == bit;
            snprintf(name, sizeof name, "byte %u bit %u", byte, bit);
            check(rows == (refusal != BOE_UNLISTED_BIT && refusal != BOE_TOO_MANY_BITFIELDS), type, name, "not a row for a listed bit");
        }
    }
}

/* Whether a text of a field's kind may begin with a byte. */
static bool takes(const struct field *field, int c) {
    bool letter = (c >= 'A' && c <= 'Z') || (c >= 'a' && c <= 'z'), digit = c >= '0' && c <= '9';
    switch (field->kind) {
    case 'A': return letter;
    case 'N': return letter || digit || (c == '!' && is_named(field, "LogoutReason"));
    case 'T': return c >= 32 && c <= 126;
    default: return c >= 33 && c <= 126 && !strchr(",;|@\"", c);
    }
}

/* A field's kind is what the writer refuses of it with 10, told at its place: of a text every first byte is tried, of a number all bytes FF. */
static void try_kind(const struct boe_record *base, uint8_t direction, const struct field *field) {
    uint8_t out[BOE_WRITTEN_MOST_BYTES];
    uint32_t told = BOE_BAD_VALUE | field_place(base, field) << 8;
    for (int c = is_text(field) ? 1 : 0xFF; c <= 0xFF; c++) {
        struct boe_record record = *base;
        memset(record.bytes + field->where.at, is_text(field) ? 0 : c, field->where.len);
        record.bytes[field->where.at] = (uint8_t)c;
        bool refused = boe_write(direction, &record, sizeof record, out, sizeof out) == told;
        bool good = is_text(field) ? takes(field, c) : field->kind != 'D' && !is_limited(field) && !is_named(field, "RiskGroupIDCnt");
        check(refused != good, field->where.type, field->name, "another kind");
    }
}

/* A field is found by its name, in capital and in small letters, and no other has it. */
static void try_name(uint8_t type, const struct field *field) {
    char name[64] = "";
    for (size_t i = 0; field->name[i]; i++) name[i] = (char)toupper((unsigned char)field->name[i]);
    check(field_named(type, name) == field, type, field->name, "not found in capital letters");
    for (size_t i = 0; name[i]; i++) name[i] = (char)tolower((unsigned char)name[i]);
    check(field_named(type, name) == field, type, field->name, "not found in small letters");
    check(field_named(type, field->name) == field && field->where.type == type, type, field->name, "not its own");
}

/* What does not fit is not set, and the record is as it was; what does is printed again. */
static void try_text(uint8_t type, const char *name, const char *text, const char *expected) {
    struct boe_record record = good_record(type, true), kept = record;
    const struct field *field = field_named(type, name);
    if (!expected) {
        check(!set_value(&record, field, text) && memcmp(&record, &kept, sizeof kept) == 0, type, name, text);
    } else {
        check(set_value(&record, field, text) && strcmp(printed(&record, field, false), expected) == 0, type, name, text);
    }
}

static void try_texts(void) {
    static const char *const no_price[] = {"", "-", ".", "-.", "1.", ".5", "-.5", "1.23456", "1.00000", "1..2", "1.2.3", "+1", " 1", "1 ", "1e3",
                                           "1,000", "--1", "0x1", "922337203685477.5808", "-922337203685477.5809", "9223372036854775807",
                                           "99999999999999999999"};
    static const char *const no_number[] = {"", "-", "-1", "+1", " 1", "1 ", "1.0", "1e3", "0x1", "4294967296", "18446744073709551616",
                                            "99999999999999999999"};
    static const char *const prices[][2] = {{"12.34", "12.3400"}, {"-12.34", "-12.3400"}, {"-0.0001", "-0.0001"}, {"0", "0.0000"}, {"-0", "0.0000"},
                                            {"0001.5", "1.5000"}, {"-922337203685477.5808", "-922337203685477.5808"},
                                            {"922337203685477.5807", "922337203685477.5807"}};
    for (size_t i = 0; i < sizeof no_price / sizeof *no_price; i++) try_text(BOE_NEW_ORDER, "Price", no_price[i], NULL);
    for (size_t i = 0; i < sizeof prices / sizeof *prices; i++) try_text(BOE_NEW_ORDER, "Price", prices[i][0], prices[i][1]);
    for (size_t i = 0; i < sizeof no_number / sizeof *no_number; i++) try_text(BOE_NEW_ORDER, "OrderQty", no_number[i], NULL);
    try_text(BOE_NEW_ORDER, "OrderQty", "4294967295", "4294967295");
    try_text(BOE_NEW_ORDER, "ExpireTime", "18446744073709551615", "18446744073709551615");
    try_text(BOE_NEW_ORDER, "ExpireTime", "18446744073709551616", NULL);
    try_text(BOE_REJECTION, "DiscretionAmount", "65535", "65535");
    try_text(BOE_REJECTION, "DiscretionAmount", "65536", NULL);
    try_text(BOE_PURGE_ORDERS, "RiskGroupIDCnt", "255", "255");
    try_text(BOE_PURGE_ORDERS, "RiskGroupIDCnt", "256", NULL);
    try_text(BOE_NEW_ORDER, "Symbol", "ABCDEFGH", "ABCDEFGH");
    try_text(BOE_NEW_ORDER, "Symbol", "ABCDEFGHI", NULL);
    try_text(BOE_NEW_ORDER, "Symbol", "", "-");
    try_text(BOE_NEW_ORDER, "EchoText", " a \"b\\ ", " a \"b\\ ");
    try_text(BOE_NEW_ORDER, "EchoText", "\033[31m \037~\177\200\377", "?[31m ?~???");
}

/* A field of another type of record, and quotes. */
static void try_quotes(void) {
    struct boe_record record = good_record(BOE_NEW_ORDER, true), kept = record;
    const struct field *echo = field_named(BOE_NEW_ORDER, "EchoText"), *other = field_named(BOE_ACKNOWLEDGMENT, "Symbol");
    bool set = set_value(&record, other, "A") || memcmp(&record, &kept, sizeof kept) != 0;
    check(!set && !has_field(&record, other), BOE_NEW_ORDER, "Symbol", "set as another type's");
    set_value(&record, echo, "\033 \"a\\\200");
    check(strcmp(printed(&record, echo, true), "\"\\u001b \\\"a\\\\\\u0080\"") == 0, BOE_NEW_ORDER, "EchoText", "quoted otherwise");
    set_value(&record, echo, "");
    check(strcmp(printed(&record, echo, true), "\"\"") == 0, BOE_NEW_ORDER, "EchoText", "a blank is quoted otherwise");
    const struct field *price = field_named(BOE_NEW_ORDER, "Price"), *min_qty = field_named(BOE_NEW_ORDER, "MinQty");
    check(strcmp(printed(&record, price, true), "\"7234017283807.6673\"") == 0, BOE_NEW_ORDER, "Price", "quoted otherwise");
    check(strcmp(printed(&record, min_qty, true), "16843009") == 0, BOE_NEW_ORDER, "MinQty", "quoted otherwise");
}

/* Times, and what there is not. */
static void try_rest(void) {
    char text[40];
    size_t count = 1;
    time_text(0, text);
    check(strcmp(text, "1970-01-01T00:00:00.000000000Z") == 0, 0, text, "another time");
    time_text(1294909373757324000, text);
    check(strcmp(text, "2011-01-13T09:02:53.757324000Z") == 0, 0, text, "another time");
    time_text(UINT64_MAX, text);
    check(strcmp(text, "2554-07-21T23:34:33.709551615Z") == 0, 0, text, "another time");
    check(!fields_of(BOE_CLIENT_HEARTBEAT, &count) && count == 0, BOE_CLIENT_HEARTBEAT, "the message", "has fields");
    check(!fields_of(0x2A, &count) && count == 0 && strcmp(type_name(0x2A), "unknown") == 0, 0x2A, "the message", "is known");
    check(!field_named(BOE_NEW_ORDER, "Symbols") && !field_named(BOE_NEW_ORDER, "") && !field_named(0x2A, "Symbol"), 0, "no name", "is found");
    check(record_type(BOE_FROM_OPTIONS_MEMBER, BOE_NEW_ORDER) == BOE_OPTIONS_NEW_ORDER, BOE_OPTIONS_NEW_ORDER, "the type", "is another");
    check(record_type(BOE_FROM_MEMBER, BOE_NEW_ORDER) == BOE_NEW_ORDER, BOE_NEW_ORDER, "the type", "is another");
    check(record_type(BOE_FROM_OPTIONS_MEMBER, BOE_CANCEL_ORDER) == BOE_CANCEL_ORDER, BOE_CANCEL_ORDER, "the type", "is another");
}

/* The fields of a type of record, all of them and each. */
static void try_record(uint8_t type, uint8_t direction) {
    struct boe_record full = full_record(type, NULL), alone = good_record(type, false);
    size_t count;
    const struct field *fields = fields_of(type, &count);
    check(count > 0, type, "the message", "has no fields");
    try_order(&full, direction);
    try_order(&alone, direction);
    try_bits(type, direction);
    for (size_t i = 0; i < count; i++) {
        full = full_record(type, &fields[i]);
        try_name(type, &fields[i]);
        try_kind(&full, direction, &fields[i]);
        if (counts(&fields[i])) continue;
        try_value(&alone, direction, &fields[i]);
        try_value(&full, direction, &fields[i]);
    }
}

int main(void) {
    for (size_t i = 0; i < sizeof records / sizeof *records; i++) try_record(records[i].type, records[i].direction);
    try_texts();
    try_quotes();
    try_rest();
    printf("%lu things tried\n", tried);
    return wrong != 0;
}
