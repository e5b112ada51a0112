/* Hand-made cases of each C entry point, and the documents' examples. */
#include "test_gateway.h"

#include <string.h>

/* 000's examples, texts filled with NULs to their width. */
static const uint8_t new_order[76] = {
    0xBA, 0xBA, 0x4A, 0, 0x38, 0, 0x64, 0, 0, 0, 'A', 'B', 'C', '1', '2', '3', 0, 0, 0, 0, 0, 0, 0, 0, 0, 0, 0, 0, 0, 0,
    '1', 0xE8, 0x03, 0, 0, 3, 0x04, 0xC1, 0x01, 0x44, 0xD6, 0x12, 0, 0, 0, 0, 0, 'M', 'S', 'F', 'T', 0, 0, 0, 0, 'P',
    'R', 0, 0, 0, 'D', 'E', 'F', 'G'};
static const uint8_t cancel_order[36] = {
    0xBA, 0xBA, 0x22, 0, 0x39, 0, 0x64, 0, 0, 0, 'A', 'B', 'C', '1', '2', '3', 0, 0, 0, 0, 0, 0, 0, 0, 0, 0, 0, 0, 0, 0,
    1, 0x01, 'T', 'E', 'S', 'T'};
/* tables 29, 31 and 32; the purges, by RiskGroupID and by symbol, with the lengths of their bytes */
static const uint8_t modify_order[64] = {
    0xBA, 0xBA, 0x3E, 0, 0x3A, 0, 0x64, 0, 0, 0, 'A', 'B', 'C', '1', '2', '4', [30] = 'A', 'B', 'C', '1', '2', '3',
    [50] = 1, 0x0C, 0xE0, 0x2E, 0, 0, 0x08, 0xE2, 0x01};
static const uint8_t purge_orders[58] = {
    0xBA, 0xBA, 0x38, 0, 0x47, 0, 0x64, 0, 0, 0, 0, 1, 0x15, 2, 0xBF, 0xBE, 0xC0, 0xBE, 'T', 'E', 'S', 'T', 'F', 'S', 'L',
    [38] = 'A', 'B', 'C', '1', '2', '3'};
static const uint8_t purge_symbol[63] = {
    0xBA, 0xBA, 0x3D, 0, 0x47, 0, 0x64, 0, 0, 0, 0, 2, 0x15, 0x01, 0, 'T', 'E', 'S', 'T', 'F', 'S', 'L',
    [35] = 'A', 'B', 'C', '1', '2', '3', [55] = 'A', 'B', 'C', 'D', 'E'};
static const uint8_t acknowledgment[80] = {
    0xBA, 0xBA, 0x4E, 0, 0x25, 0x03, 0x64, 0, 0, 0, 0xE0, 0xFA, 0x20, 0xF7, 0x36, 0x71,
    0xF8, 0x11, 0x41, 0x42, 0x43, 0x31, 0x32, 0x33, 0, 0, 0, 0, 0, 0, 0, 0,
    0, 0, 0, 0, 0, 0, 0x05, 0x10, 0x1E, 0xB7, 0x5E, 0x39, 0x2F, 0x02, 0, 0x03,
    0, 0x41, 0x05, 0x4D, 0x53, 0x46, 0x54, 0, 0, 0, 0, 0x50, 0x41, 0x42, 0x43, 0,
    0, 0, 0, 0, 0, 0, 0, 0, 0, 0, 0, 0, 0, 0, 0, 0};
static const uint8_t execution[85] = {
    0xBA, 0xBA, 0x53, 0, 0x2C, 0x03, 0x64, 0, 0, 0, 0xE0, 0xFA, 0x20, 0xF7, 0x36, 0x71,
    0xF8, 0x11, 0x41, 0x42, 0x43, 0x31, 0x32, 0x33, 0, 0, 0, 0, 0, 0, 0, 0,
    0, 0, 0, 0, 0, 0, 0x01, 0xF0, 0xB7, 0xD9, 0x71, 0x21, 0, 0, 0x64, 0,
    0, 0, 0x08, 0xE2, 0x01, 0, 0, 0, 0, 0, 0x14, 0, 0, 0, 0x41, 0,
    0x42, 0x41, 0x54, 0x53, 0, 0x03, 0, 0, 0x46, 0x54, 0x45, 0x53, 0x54, 0x31, 0x32, 0x33,
    0x43, 0x78, 0, 0, 0};
/* 000's rejections, tables 37, 43 and 47, texts filled to their width. */
static const uint8_t rejection[120] = {
    0xBA, 0xBA, 0x76, 0, 0x26, 0, 0, 0, 0, 0, 0xE0, 0xFA, 0x20, 0xF7, 0x36, 0x71, 0xF8, 0x11, 'A', 'B', 'C', '1', '2', '3',
    [38] = 'D', 'D', 'u', 'p', 'l', 'i', 'c', 'a', 't', 'e', ' ', 'C', 'l', 'O', 'r', 'd', 'I', 'D',
    [100] = 3, 0, 0x01, 0x06, 'M', 'S', 'F', 'T', [112] = 'T', 'E', 'S', 'T'};
static const uint8_t cancel_rejection[101] = {
    0xBA, 0xBA, 0x63, 0, 0x2B, 0, 0, 0, 0, 0, 0xE0, 0xFA, 0x20, 0xF7, 0x36, 0x71, 0xF8, 0x11, 'A', 'B', 'C', '1', '2', '3',
    [38] = 'J', 'T', 'O', 'O', ' ', 'L', 'A', 'T', 'E'};
static const uint8_t modify_rejection[101] = {
    0xBA, 0xBA, 0x63, 0, 0x29, 0, 0, 0, 0, 0, 0xE0, 0xFA, 0x20, 0xF7, 0x36, 0x71, 0xF8, 0x11, 'A', 'B', 'C', '1', '2', '3',
    [38] = 'P', 'P', 'e', 'n', 'd', 'i', 'n', 'g'};

/* 000's session examples: its login, its response with the units of its notes, and its Logout with the length of its bytes. */
static const uint8_t login[69] = {
    0xBA, 0xBA, 0x43, 0, 0x37, 0, 0, 0, 0, 0, '0', '0', '0', '1', 'T', 'E', 'S', 'T', 'T', 'E', 'S', 'T', 'I', 'N', 'G', 0, 0, 0,
    3, 0x14, 0, 0x80, 1, 3, 1, 0x4A, 0xBB, 0x01, 0, 2, 0, 0, 0, 0, 4, 0x79, 0xA1, 0, 0, 0x08, 0, 0x81, 0x25, 3, 0, 0x41, 0x05,
    0x0C, 0, 0x81, 0x2C, 7, 0, 0x41, 0x07, 0, 0x40, 0, 0x01};
static const uint8_t login_response[138] = {
    0xBA, 0xBA, 0x88, 0, 0x24, 0, 0, 0, 0, 0, 'A', 'A', 'c', 'c', 'e', 'p', 't', 'e', 'd', 0, 0, 0, 0, 0, 0, 0, 0, 0, 0, 0,
    0, 0, 0, 0, 0, 0, 0, 0, 0, 0, 0, 0, 0, 0, 0, 0, 0, 0, 0, 0, 0, 0, 0, 0, 0, 0, 0, 0, 0, 0, 0, 0, 0, 0, 0, 0, 0, 0, 0, 0, 0,
    1, 0x54, 0x4A, 0x02, 0, 4, 1, 0x4A, 0xBB, 0x01, 0, 2, 0, 0, 0, 0, 3, 0, 0, 0, 0, 4, 0x79, 0xA1, 0, 0,
    3, 0x14, 0, 0x80, 1, 3, 1, 0x4A, 0xBB, 0x01, 0, 2, 0, 0, 0, 0, 4, 0x79, 0xA1, 0, 0, 0x08, 0, 0x81, 0x25, 3, 0, 0x41, 0x05,
    0x0C, 0, 0x81, 0x2C, 7, 0, 0x41, 0x07, 0, 0x40, 0, 0x01};
static const uint8_t logout[91] = {
    0xBA, 0xBA, 0x59, 0, 0x08, 0, 0, 0, 0, 0, 'U', 'U', 's', 'e', 'r', 0, 0, 0, 0, 0, 0, 0, 0, 0, 0, 0, 0, 0, 0, 0,
    0, 0, 0, 0, 0, 0, 0, 0, 0, 0, 0, 0, 0, 0, 0, 0, 0, 0, 0, 0, 0, 0, 0, 0, 0, 0, 0, 0, 0, 0, 0, 0, 0, 0, 0, 0, 0, 0, 0, 0, 0,
    0x54, 0x5A, 0x02, 0, 3, 1, 0x4A, 0xBB, 0x01, 0, 2, 0, 0, 0, 0, 4, 0x79, 0xA1, 0, 0};
static const uint8_t client_heartbeat[10] = {0xBA, 0xBA, 8, 0, 0x03};
static const uint8_t server_heartbeat[10] = {0xBA, 0xBA, 8, 0, 0x09};
static const uint8_t replay_complete[10] = {0xBA, 0xBA, 8, 0, 0x13};
/* 002's New Order, and its login */
static const uint8_t options_order[91] = {
    0xBA, 0xBA, 0x59, 0, 0x38, 0, 1, 0, 0, 0, 'A', 'B', 'C', '1', '2', '3', [30] = '1', 0x0A, 0, 0, 0, 4, 0x04, 0xC1, 0x01, 0x17, 0x70, 0x17,
    [48] = 'M', 'S', 'F', 'T', [56] = 'C', 'R', [61] = 'D', 'E', 'F', 'G', [77] = 0xEF, 0xDB, 0x32, 0x01, 0x98, 0xAB, 0x02, [89] = '1', 'O'};
static const uint8_t options_login[63] = {
    0xBA, 0xBA, 0x3D, 0, 0x37, 0, 0, 0, 0, 0, '0', '0', '0', '1', 'T', 'E', 'S', 'T', 'T', 'E', 'S', 'T', 'I', 'N', 'G', 0, 0, 0,
    3, 0x0F, 0, 0x80, 1, 2, 1, 0x4A, 0xBB, 0x01, 0, 2, 0, 0, 0, 0, 0x08, 0, 0x81, 0x25, 3, 0, 0x41, 0x05,
    0x0B, 0, 0x81, 0x2C, 6, 0, 0x41, 0x07, 0, 0x40, 0};

static void framing(void) {
    static const uint8_t whole[] = {0xBA, 0xBA, 8, 0, 0x03, 0, 0, 0, 0, 0, 0xFF};
    check(boe_frame_refusal(whole, 0) == BOE_INCOMPLETE, "no bytes");
    check(boe_frame_refusal(whole, 3) == BOE_INCOMPLETE, "three bytes");
    check(boe_frame_refusal(whole, 9) == BOE_INCOMPLETE, "one byte short");
    check(boe_frame_length(whole, 9) == 0, "a refused message has no length");
    check(boe_frame_refusal(whole, 10) == 0, "a whole message");
    check(boe_frame_length(whole, 10) == 10, "its length");
    check(boe_frame_length(whole, sizeof whole) == 10, "bytes after it play no part");
    static const uint8_t bad_start[] = {0xBA, 0x00};
    check(boe_frame_refusal(bad_start, 2) == BOE_BAD_START, "BA 00");
    static const uint8_t bad_length[] = {0xBA, 0xBA, 7, 0};
    check(boe_frame_refusal(bad_length, 4) == BOE_BAD_LENGTH, "length 7");
    static const uint8_t too_long[] = {0xBA, 0xBA, 0xFF, 0x07};
    check(boe_frame_refusal(too_long, 4) == BOE_BAD_LENGTH, "length 2047");
    static const uint8_t longest[] = {0xBA, 0xBA, 0xFE, 0x07};
    check(boe_frame_refusal(longest, 4) == BOE_INCOMPLETE, "length 2046, cut");
}

static void steps(void) {
    uint8_t table[BOE_TABLE_BYTES + 4];
    uint8_t before[sizeof table];
    memset(table, 0, BOE_TABLE_BYTES);
    memset(table + BOE_TABLE_BYTES, 0x5A, 4);
    memcpy(before, table, sizeof table);
    check(boe_table_step(0, 1, table, sizeof table) == BOE_BAD_UNIT, "unit 0");
    check(boe_table_step(33, 1, table, sizeof table) == BOE_BAD_UNIT, "unit 33");
    check(boe_table_step(33, 1, table, 127) == BOE_BAD_UNIT, "5 comes before 13");
    check(boe_table_step(1, 0, table, 127) == BOE_NO_ROOM, "13 comes before 14");
    check(boe_table_step(32, 0, table, sizeof table) == BOE_ALREADY_TAKEN, "number 0");
    check(boe_table_step(32, 2, table, sizeof table) == BOE_GAP, "number 2 first");
    check(memcmp(table, before, sizeof table) == 0, "refusals changed no byte");
    check(boe_table_step(32, 1, table, sizeof table) == 0, "number 1");
    check(entry(table, 32) == 1 && entry(table, 31) == 0, "unit 32 alone has risen");
    check(boe_table_step(32, 2, table, BOE_TABLE_BYTES) == 0, "number 2");
    check(entry(table, 32) == 2, "and again");
    check(memcmp(table + BOE_TABLE_BYTES, before + BOE_TABLE_BYTES, 4) == 0, "bytes past the table stay");
    memset(table, 0xFF, 4);
    check(boe_table_step(1, 0, table, sizeof table) == BOE_ALREADY_TAKEN, "a full entry takes nothing");
    check(boe_table_step(1, UINT32_MAX, table, sizeof table) == BOE_ALREADY_TAKEN, "not even its own number");
}

/* ---- the directions */

/* The members of both markets. */
static const uint8_t members[] = {BOE_FROM_MEMBER, BOE_FROM_OPTIONS_MEMBER};

/* Whether a direction has records of a type. */
static int has_record(uint8_t direction, uint8_t type) {
    switch (type) {
    case BOE_NEW_ORDER:
        return direction == BOE_FROM_MEMBER;
    case BOE_OPTIONS_NEW_ORDER:
        return direction == BOE_FROM_OPTIONS_MEMBER;
    case BOE_CANCEL_ORDER:
    case BOE_MODIFY_ORDER:
    case BOE_PURGE_ORDERS:
    case BOE_LOGIN_REQUEST:
    case BOE_CLIENT_HEARTBEAT:
        return direction == BOE_FROM_MEMBER || direction == BOE_FROM_OPTIONS_MEMBER;
    case BOE_ACKNOWLEDGMENT:
    case BOE_EXECUTION:
    case BOE_REJECTION:
    case BOE_CANCEL_REJECTION:
    case BOE_MODIFY_REJECTION:
    case BOE_LOGIN_RESPONSE:
    case BOE_LOGOUT:
    case BOE_SERVER_HEARTBEAT:
    case BOE_REPLAY_COMPLETE:
        return direction == BOE_FROM_VENUE;
    default:
        return 0;
    }
}

/* Whether it has messages of a type: on the wire a New Order of either market has the same. */
static int has_message(uint8_t direction, uint8_t type) {
    if (type == BOE_NEW_ORDER) return has_record(direction, BOE_NEW_ORDER) || has_record(direction, BOE_OPTIONS_NEW_ORDER);
    return type != BOE_OPTIONS_NEW_ORDER && has_record(direction, type);
}

/* The types that are read and written, in every direction. */
static void types(void) {
    for (unsigned direction = 0; direction < 256; direction++) {
        for (unsigned type = 0; type < 256; type++) {
            uint8_t header[10] = {0xBA, 0xBA, 8, 0, (uint8_t)type};
            struct boe_record record;
            uint32_t refusal = boe_read((uint8_t)direction, header, sizeof header, &record, sizeof record);
            check((BOE_NUMBER(refusal) != BOE_UNKNOWN_TYPE) == has_message((uint8_t)direction, (uint8_t)type), "what is read in a direction");
            memset(&record, 0, sizeof record);
            record.bytes[BOE_RECORD_TYPE_AT] = (uint8_t)type;
            refusal = boe_write((uint8_t)direction, &record, sizeof record, header, 0);
            check((BOE_NUMBER(refusal) != BOE_UNKNOWN_TYPE) == has_record((uint8_t)direction, (uint8_t)type), "and written");
        }
    }
}

/* A message and its record are 4 in every direction that has no such type, and nothing is stored. */
static void unknown_elsewhere(const uint8_t *message, size_t len, const struct boe_record *record) {
    uint8_t read[BOE_RECORD_LEN], out[600];
    memset(read, 0x5A, sizeof read);
    memset(out, 0x5A, sizeof out);
    for (unsigned direction = 0; direction < 256; direction++) {
        uint8_t of = (uint8_t)direction;
        if (!has_message(of, message[4]))
            check(boe_read(of, message, len, (struct boe_record *)read, sizeof read) == BOE_UNKNOWN_TYPE, "read in a direction without its type");
        if (!has_record(of, record->bytes[BOE_RECORD_TYPE_AT]))
            check(boe_write(of, record, BOE_RECORD_LEN, out, len) == BOE_UNKNOWN_TYPE, "its record, written in such a direction");
    }
    check(all_are(read, sizeof read, 0x5A) && all_are(out, sizeof out, 0x5A), "refusals stored nothing");
}

/* A direction without the types of another, and one that is none. */
static uint8_t opposite(uint8_t direction) { return direction == BOE_FROM_VENUE ? BOE_FROM_MEMBER : BOE_FROM_VENUE; }
enum { NO_DIRECTION = 3 };

/* A record is as long as its own type's, whatever the other types have: buffers and records of each of these lengths, for both kinds. */
static void sizes(uint8_t direction, const uint8_t *message, size_t len) {
    static const size_t lengths[] = {0, 1, BOE_ORDER_RECORD_LEN - 1, BOE_ORDER_RECORD_LEN, BOE_RECORD_LEN - 1, BOE_RECORD_LEN};
    uint8_t whole[BOE_RECORD_LEN], record[BOE_RECORD_LEN + 1], out[600];
    const struct boe_record *given = (const struct boe_record *)whole;
    size_t own = record_len(message[4]);
    memset(whole, 0x5A, sizeof whole);
    check(boe_read(direction, message, len, (struct boe_record *)whole, own) == 0, "a buffer of the record's own size is enough");
    for (size_t i = 0; i < sizeof lengths / sizeof *lengths; i++) {
        size_t n = lengths[i];
        unsigned expected = n < own ? BOE_NO_ROOM : 0;
        memset(record, 0x5A, sizeof record);
        check(boe_read(direction, message, len, (struct boe_record *)record, n) == expected, "13 for a buffer under the record's own size, and no other");
        check(expected || memcmp(record, whole, own) == 0, "the record, whatever the buffer's length");
        check(all_are(record + (expected ? 0 : own), sizeof record - (expected ? 0 : own), 0x5A), "no byte past it, and none where it is refused");
        memset(out, 0x5A, sizeof out);
        check(boe_write(opposite(direction), given, n, out, len) == (n ? BOE_UNKNOWN_TYPE : BOE_NO_ROOM), "4 comes before 13 where there is a type");
        check(boe_write(NO_DIRECTION, given, n, out, len) == (n ? BOE_UNKNOWN_TYPE : BOE_NO_ROOM), "13 comes first where there is none");
        check(all_are(out, sizeof out, 0x5A), "refusals stored nothing");
        check(boe_write(direction, given, n, out, len) == expected, "13 for a record under its own size, and no other");
        check(expected || memcmp(out, message, len) == 0, "the message, whatever the record's length");
        check(all_are(out + (expected ? 0 : len), sizeof out - (expected ? 0 : len), 0x5A), "no byte past it, and none where it is refused");
    }
}

/* A message read and written again: the same bytes, and bytes after them untouched. */
static void again(uint8_t direction, const uint8_t *message, size_t len) {
    uint8_t bytes[600], record[BOE_RECORD_LEN + 3], out[600];
    struct boe_record *lent = (struct boe_record *)record;
    size_t own = record_len(message[4]);
    memcpy(bytes, message, len);
    memset(bytes + len, 0xEE, sizeof bytes - len);
    memset(record, 0x5A, sizeof record);
    memset(out, 0x5A, sizeof out);
    check(boe_read(direction, bytes, sizeof bytes, lent, sizeof record) == 0, "an example is read, whatever follows it");
    check(all_are(record + own, sizeof record - own, 0x5A), "bytes past the record stay");
    check(boe_write(direction, lent, sizeof record, out, len) == 0, "its record is written into a buffer of its length");
    check(memcmp(out, message, len) == 0 && out[len] == 0x5A, "as the same bytes, and no byte more");
    memset(out, 0x5A, sizeof out);
    check(boe_write(direction, lent, BOE_RECORD_LEN, out, len - 1) == BOE_NO_ROOM, "one byte short");
    check(all_are(out, sizeof out, 0x5A), "refusals stored nothing");
    unknown_elsewhere(message, len, lent);
    memset(record, 0x5A, sizeof record);
    check(boe_read(direction, bytes, len - 1, lent, sizeof record) == BOE_INCOMPLETE, "a cut message");
    check(boe_read(direction, bytes, 9, lent, 0) == BOE_INCOMPLETE, "13 comes after the message's refusals");
    check(all_are(record, sizeof record, 0x5A), "refusals stored nothing");
    sizes(direction, message, len);
}

/* What members of both markets send alike: the same record. */
static void again_in_both(const uint8_t *message, size_t len) {
    struct boe_record one, other;
    memset(&one, 0x5A, sizeof one);
    other = one;
    for (size_t i = 0; i < sizeof members; i++) again(members[i], message, len);
    check(boe_read(BOE_FROM_MEMBER, message, len, &one, sizeof one) == 0 && boe_read(BOE_FROM_OPTIONS_MEMBER, message, len, &other, sizeof other) == 0,
          "a member's message in both markets");
    check(memcmp(&one, &other, sizeof one) == 0, "and its record is the same");
}

static void messages(void) {
    struct boe_record record;
    uint8_t out[600];
    again(BOE_FROM_MEMBER, new_order, sizeof new_order);
    again_in_both(cancel_order, sizeof cancel_order);
    again(BOE_FROM_VENUE, acknowledgment, sizeof acknowledgment);
    again(BOE_FROM_VENUE, execution, sizeof execution);
    check(boe_read(BOE_FROM_MEMBER, new_order, sizeof new_order, &record, sizeof record) == 0, "New Order");
    check(record.bytes[BOE_RECORD_TYPE_AT] == BOE_NEW_ORDER && record.bytes[BOE_RECORD_COUNT_AT] == 3, "its type and count");
    check(memcmp(record.bytes + BOE_NEW_ORDER_CL_ORD_ID_AT, new_order + 10, BOE_NEW_ORDER_CL_ORD_ID_LEN) == 0, "ClOrdID");
    check(memcmp(record.bytes + BOE_NEW_ORDER_PRICE_AT, new_order + 39, BOE_NEW_ORDER_PRICE_LEN) == 0, "Price is at 39");
    check(memcmp(record.bytes + BOE_NEW_ORDER_SYMBOL_AT, new_order + 47, BOE_NEW_ORDER_SYMBOL_LEN) == 0, "Symbol is at 47");
    check(memcmp(record.bytes + BOE_NEW_ORDER_CAPACITY_AT, new_order + 55, BOE_NEW_ORDER_CAPACITY_LEN) == 0, "Capacity is at 55");
    check(memcmp(record.bytes + BOE_NEW_ORDER_ROUTING_INST_AT, new_order + 56, BOE_NEW_ORDER_ROUTING_INST_LEN) == 0, "RoutingInst is at 56");
    check(memcmp(record.bytes + BOE_NEW_ORDER_ACCOUNT_AT, new_order + 60, BOE_NEW_ORDER_ACCOUNT_LEN) == 0, "Account is at 60");
    record.bytes[BOE_NEW_ORDER_STOP_PX_AT] = 1;
    check(boe_write(BOE_FROM_MEMBER, &record, sizeof record, out, sizeof out) == BOE_NOT_ZERO, "a field that is not selected");
    record.bytes[BOE_NEW_ORDER_STOP_PX_AT] = 0;
    record.bytes[BOE_RECORD_BITFIELDS_AT + BOE_NEW_ORDER_SYMBOL_BYTE - 1] &= (uint8_t)~BOE_NEW_ORDER_SYMBOL_BIT;
    check(boe_write(BOE_FROM_MEMBER, &record, sizeof record, out, sizeof out) == refused_at(BOE_NOT_SELECTED, 38), "Symbol is required");
}

/* ---- the optional fields by their names */

/* In the order of the message. A field that is a calendar day has the one that it is given here, any other 0. */
struct optional {
    uint16_t at;
    uint8_t len, byte, bit;
    uint32_t day;
};
#define OPTIONAL(message, name) OPTIONAL_DAY(message, name, 0)
#define OPTIONAL_DAY(message, name, day) \
    {BOE_##message##_##name##_AT, BOE_##message##_##name##_LEN, BOE_##message##_##name##_BYTE, BOE_##message##_##name##_BIT, day}

/* The record of an example without its fields, and with so many bitfields. */
static struct boe_record without_fields(uint8_t direction, const uint8_t *message, size_t len, uint8_t bitfields) {
    struct boe_record bare;
    check(boe_read(direction, message, len, &bare, sizeof bare) == 0, "an example");
    memset(bare.bytes + BOE_RECORD_COUNT_AT, 0, sizeof bare - BOE_RECORD_COUNT_AT);
    bare.bytes[BOE_RECORD_COUNT_AT] = bitfields;
    return bare;
}

static uint8_t *bitfield_of(struct boe_record *record, const struct optional *f) { return record->bytes + BOE_RECORD_BITFIELDS_AT + f->byte - 1; }

/* Gives the field that stands so many places after the first its value: its letter in each byte, or its day. */
static void fill_field(const struct optional *f, size_t which, uint8_t *at) {
    memset(at, 'A' + (int)which, f->len);
    if (f->day) put(at, f->len, f->day);
}

/* Whether a field has that value. */
static int field_holds(const struct optional *f, size_t which, const uint8_t *at) {
    uint8_t value[BOE_RECORD_FIELDS_LEN];
    fill_field(f, which, value);
    return memcmp(at, value, f->len) == 0;
}

/* A record that has the required fields alone, and the place of the first: each other field is tried without its bit, which is 12, and with it. Then
 * all of them: each stands where the widths before it put it, the message reads back, and a byte less of room is 13. Answers this message's
 * length. */
static size_t by_name(uint8_t direction, struct boe_record bare, size_t first, const struct optional *fields, size_t count) {
    struct boe_record record = bare, some, back;
    uint8_t out[600];
    size_t place = first, slot = BOE_RECORD_FIELDS_AT, before = first, least = first;
    for (size_t i = 0; i < count; i++)
        if (*bitfield_of(&bare, &fields[i]) & fields[i].bit) least += fields[i].len;
    for (size_t i = 0; i < count; i++) {
        const struct optional *f = &fields[i];
        check(f->at == slot, "the fields fill the full layout, in their order");
        slot += f->len;
        fill_field(f, i, record.bytes + f->at);
        *bitfield_of(&record, f) |= f->bit;
        if (*bitfield_of(&bare, f) & f->bit) {
            before += f->len;
            continue;
        }

        some = bare;
        fill_field(f, i, some.bytes + f->at);
        check(boe_write(direction, &some, sizeof some, out, sizeof out) == BOE_NOT_ZERO, "a field without its bit");
        *bitfield_of(&some, f) |= f->bit;
        check(boe_write(direction, &some, sizeof some, out, sizeof out) == 0, "a field with its bit");
        check(boe_frame_length(out, sizeof out) == least + f->len, "is so much longer");
        check(field_holds(f, i, out + before), "and has it behind the required ones before it");
    }
    size_t total = first + slot - BOE_RECORD_FIELDS_AT;
    memset(out, 0x5A, sizeof out);
    check(boe_write(direction, &record, BOE_ORDER_RECORD_LEN, out, total - 1) == BOE_NO_ROOM && all_are(out, sizeof out, 0x5A), "one byte short");
    check(boe_write(direction, &record, BOE_ORDER_RECORD_LEN, out, total) == 0, "all fields");
    check(boe_frame_length(out, sizeof out) == total && all_are(out + total, sizeof out - total, 0x5A), "their widths, and no byte more");
    for (size_t i = 0; i < count; place += fields[i++].len) check(field_holds(&fields[i], i, out + place), "each at its place");
    check(boe_read(direction, out, total, &back, sizeof back) == 0, "read again");
    check(memcmp(back.bytes, record.bytes, BOE_ORDER_RECORD_LEN) == 0, "as they were");
    return total;
}

/* ---- Modify Order and Purge Orders */

/* The rest of an order from its count byte on, with zeros up to the total, and how it is refused. */
struct rest {
    const char *bytes;
    size_t len, total;
    enum boe_refusal number;
    unsigned place;
    const char *what;
};
#define REST(bytes, ...) {bytes, sizeof bytes - 1, __VA_ARGS__}

static const struct rest modified[] = {
#define QTY "\xE0\x2E\0\0"
#define PX "\x08\xE2\x01\0\0\0\0\0"
    REST("\x01\x0C" QTY PX, 64, 0, 0, "OrderQty and Price"),
    REST("\x01\x14" QTY "1", 57, 0, 0, "no Price, at the market"),
    REST("\x01\x14" QTY "2", 57, BOE_NOT_SELECTED, 51, "no Price, and another OrdType"),
    REST("\x01\x14" QTY "\0", 57, BOE_NOT_SELECTED, 51, "no Price, and a blank OrdType"),
    REST("\x01\x14" QTY "-", 57, BOE_BAD_VALUE, 56, "10 comes before the late 9"),
    REST("\x01\x14" QTY "2", 58, BOE_WRONG_TOTAL, 58, "6 too"),
    REST("\x01\x04" QTY, 56, BOE_NOT_SELECTED, 51, "neither Price nor OrdType"),
    REST("\x01\x04" QTY, 59, BOE_NOT_SELECTED, 51, "this 9 comes before 6"),
    REST("\x01\x18" PX "1", 61, BOE_NOT_SELECTED, 51, "no OrderQty"),
    REST("\x01\x1C" QTY PX "1", 65, 0, 0, "Price, at the market"),
    REST("\x01\x1C" QTY PX "2", 65, 0, 0, "Price, and another OrdType"),
    REST("\x01\x0C", 64, 0, 0, "no shares, and no price"),
    REST("\x01\x0C\xFF\xFF\xFF\xFF", 64, 0, 0, "OrderQty has no range"),
    REST("\x01\x94" QTY "1", 58, 0, 0, "Side may be blank"),
    REST("\x01\x8C" QTY PX "1", 65, 0, 0, "Side has digits"),
    REST("\x01\x8C" QTY PX "-", 65, BOE_BAD_VALUE, 64, "and nothing else"),
    REST("\x01\x4C" QTY PX " ", 65, 0, 0, "ExecInst is a text"),
    REST("\x01\x4C" QTY PX "\x07", 65, BOE_BAD_VALUE, 64, "of characters"),
    REST("\x01\x2C" QTY PX "z", 65, 0, 0, "CancelOrigOnReject is a letter"),
    REST("\x01\x2C" QTY PX "1", 65, BOE_BAD_VALUE, 64, "and no digit"),
    REST("\x01\x0D" "TES1" QTY PX, 68, BOE_BAD_VALUE, 52, "a ClearingFirm with a digit"),
    REST("\x02\x0C\x80" QTY PX "ABC1", 69, BOE_BAD_VALUE, 65, "a LocateBroker with a digit"),
    REST("\x02\x0C\0" QTY PX, 65, 0, 0, "a bitfield of zeros"),
    REST("\x02\x14\0" QTY "2", 58, BOE_NOT_SELECTED, 52, "the late 9 is at the last bitfield"),
    REST("\x02\x14\x83" QTY "1", 74, 0, 0, "all of the second bitfield"),
    REST("\x02\x0C\x04" QTY PX, 69, BOE_UNLISTED_BIT, 52, "an unlisted bit"),
    REST("\0", 51, BOE_NOT_SELECTED, 50, "no bitfields"),
    REST("\x03", 54, BOE_TOO_MANY_BITFIELDS, 50, "three bitfields"),
};

static const struct rest purged[] = {
#define ALL "A\0\0\0\0\0\0\0\0\0\0\0\0\0\0\0"
#define TEN_IDS "0123456789ABCDEFGHIJ"
    REST("\x01\x04\0" "A", 30, 0, 0, "all orders"),
    REST("\x01\x04\0", 30, BOE_BAD_VALUE, 14, "a blank MassCancelInst"),
    REST("\x01\x04\0\0AM", 30, BOE_BAD_VALUE, 14, "one that begins with NUL"),
    REST("\x01\x04\0" " ", 30, 0, 0, "a space is a character"),
    REST("\x01\x04\0" "A\x07", 30, BOE_BAD_VALUE, 14, "what is no character"),
    REST("\x01\x14\0" ALL "a b", 50, 0, 0, "MassCancelID is a text"),
    REST("\x01\x14\0" ALL "\x7F", 50, BOE_BAD_VALUE, 30, "of characters"),
    REST("\x02\x04\x02\0" ALL "A-", 39, BOE_BAD_VALUE, 31, "a SymbolSfx with a hyphen"),
    REST("\x01\x04\0" "F", 30, BOE_NOT_SELECTED, 12, "F without ClearingFirm"),
    REST("\x01\x04\0" "AS", 30, BOE_NOT_SELECTED, 12, "S without MassCancelID"),
    REST("\x01\x04\0" "AB", 30, BOE_NOT_SELECTED, 12, "B without MassCancelID"),
    REST("\x01\x04\0" "AML", 30, BOE_CONFLICT, 0, "L without F"),
    REST("\x01\x04\0" "ASL", 30, BOE_NOT_SELECTED, 12, "the late 9 comes before 23"),
    REST("\x01\x04\0" "FML", 30, BOE_NOT_SELECTED, 12, "L with F, but without ClearingFirm"),
    REST("\x01\x04\0" "fsl", 30, 0, 0, "other characters mean nothing"),
    REST("\x01\x04\0" "XXNFSBL", 30, 0, 0, "nor do those after the third"),
    REST("\x01\x05\0\0\0\0\0F", 34, 0, 0, "F with a blank ClearingFirm"),
    REST("\x01\x05\0TESTFML", 34, 0, 0, "L with F"),
    REST("\x01\x05\0TESTAML", 34, BOE_CONFLICT, 0, "L without F, with ClearingFirm"),
    REST("\x01\x05\0TESTFS", 34, BOE_NOT_SELECTED, 12, "F with it, and S without MassCancelID"),
    REST("\x01\x05\0T1STFS", 34, BOE_BAD_VALUE, 14, "10 comes before the late 9"),
    REST("\x01\x14\0" "AS", 50, 0, 0, "S with a blank MassCancelID"),
    REST("\x01\x14\0" "AB", 50, 0, 0, "B with it"),
    REST("\x02\x04\x81\0" ALL "ABC", 40, 0, 0, "Symbol, and unit 0"),
    REST("\x02\x04\x81\0" ALL "ABC\0\0\0\0\0\x03", 40, BOE_CONFLICT, 0, "Symbol, and unit 3"),
    REST("\x02\x04\x81\0" ALL "\0\0\0\0\0\0\0\0\x03", 40, BOE_CONFLICT, 0, "a blank Symbol, and unit 3"),
    REST("\x02\x04\x81\0" ALL "A-C\0\0\0\0\0\x03", 40, BOE_BAD_VALUE, 31, "10 comes before 23"),
    REST("\x02\x04\x81\0" "F\0\0\0\0\0\0\0\0\0\0\0\0\0\0\0" "ABC\0\0\0\0\0\x03", 40, BOE_NOT_SELECTED, 13, "the late 9 too"),
    REST("\x02\x04\x82\0" ALL "ABC\0\0\0\0\0\x03", 40, 0, 0, "SymbolSfx, and unit 3"),
    REST("\x02\x04\x80\0" ALL "\x03", 32, 0, 0, "unit 3 alone"),
    REST("\x02\x04\x80\0" ALL "\xFF", 32, 0, 0, "any unit"),
    REST("\x02\x04\x01\x01\xBF\xBE" ALL "ABC", 41, 0, 0, "Symbol, and a RiskGroupID"),
    REST("\x01\x04\x0A" TEN_IDS ALL, 50, 0, 0, "ten RiskGroupIDs"),
    REST("\x01\x04\x0B" TEN_IDS "KL" ALL, 52, BOE_BAD_VALUE, 13, "eleven"),
    REST("\x02\x04\0\x0B" TEN_IDS "KL" ALL, 53, BOE_BAD_VALUE, 14, "eleven, behind two bitfields"),
    REST("\x01\x04\x0B" TEN_IDS "KL", 52, BOE_BAD_VALUE, 13, "they are told before a later field"),
    REST("\x01\x04\x0B" TEN_IDS "KL" ALL, 51, BOE_WRONG_TOTAL, 51, "and after the total"),
    REST("\x01\x04\xFF", 540, BOE_BAD_VALUE, 13, "255"),
    REST("\x01\x04", 13, BOE_WRONG_TOTAL, 13, "no RiskGroupIDCnt"),
    REST("\x01\x04\x02\xBF\xBE\xC0", 17, BOE_WRONG_TOTAL, 17, "one and a half of two"),
    REST("\x01\x01", 13, BOE_NOT_SELECTED, 12, "9 comes before this 6"),
    REST("\x01\x0C", 13, BOE_UNLISTED_BIT, 12, "8 too"),
    REST("\0", 12, BOE_NOT_SELECTED, 11, "no bitfields"),
};

/* An order that has the front of an example before its count byte: how it is refused, and that nothing is stored then; else it is written again as it
 * was. Into a buffer without room it is refused alike. */
static void try_rest(uint8_t direction, const uint8_t *front, size_t count_at, const struct rest *r) {
    uint8_t bytes[600] = {0}, out[600];
    struct boe_record record, filled;
    memcpy(bytes, front, count_at);
    memcpy(bytes + count_at, r->bytes, r->total - count_at < r->len ? r->total - count_at : r->len);
    bytes[2] = (uint8_t)((r->total - 2) % 256);
    bytes[3] = (uint8_t)((r->total - 2) / 256);
    memset(&filled, 0x5A, sizeof filled);
    record = filled;
    uint32_t expected = refused_at(r->number, r->place);
    check(boe_read(direction, bytes, r->total, &record, 0) == (expected ? expected : BOE_NO_ROOM), r->what);
    check(memcmp(&record, &filled, sizeof record) == 0, "no room, and nothing stored");
    check(boe_read(direction, bytes, r->total, &record, sizeof record) == expected, r->what);
    if (expected) {
        check(memcmp(&record, &filled, sizeof record) == 0, "refused, and nothing stored");
        return;
    }
    memset(out, 0x5A, sizeof out);
    check(boe_write(direction, &record, BOE_ORDER_RECORD_LEN, out, sizeof out) == 0, "written again");
    check(memcmp(out, bytes, r->total) == 0 && all_are(out + r->total, sizeof out - r->total, 0x5A), "as the same bytes, and no byte more");
}

/* The unit of a member's order is 0; its number is any. No book has it. */
static void member_header(uint8_t direction, const uint8_t *message, size_t len) {
    uint8_t bytes[600], buffer[BOE_MARK_BYTES + 100], out[600];
    struct boe_record record;
    struct boe_state state;
    memcpy(bytes, message, len);
    bytes[5] = 1;
    check(boe_read(direction, bytes, len, &record, sizeof record) == BOE_BAD_UNIT, "a unit");
    bytes[5] = 0;
    memset(bytes + 6, 0xFF, 4);
    check(boe_read(direction, bytes, len, &record, sizeof record) == 0, "any number");
    check(boe_write(direction, &record, sizeof record, out, sizeof out) == 0 && memcmp(out, bytes, len) == 0, "written again");
    record.bytes[BOE_RECORD_UNIT_AT] = 1;
    check(boe_write(direction, &record, sizeof record, out, sizeof out) == BOE_BAD_UNIT, "its record with a unit");
    check(boe_book_open(20250819, buffer, sizeof buffer, &state, sizeof state) == 0, "a book is opened");
    check(boe_book_append(message, len, buffer, sizeof buffer, &state, sizeof state) == BOE_UNKNOWN_TYPE, "an order is not booked");
}

static const struct optional modify_fields[] = {
    OPTIONAL(MODIFY_ORDER, CLEARING_FIRM), OPTIONAL(MODIFY_ORDER, ORDER_QTY), OPTIONAL(MODIFY_ORDER, PRICE), OPTIONAL(MODIFY_ORDER, ORD_TYPE),
    OPTIONAL(MODIFY_ORDER, CANCEL_ORIG_ON_REJECT), OPTIONAL(MODIFY_ORDER, EXEC_INST), OPTIONAL(MODIFY_ORDER, SIDE),
    OPTIONAL(MODIFY_ORDER, MAX_FLOOR), OPTIONAL(MODIFY_ORDER, STOP_PX), OPTIONAL(MODIFY_ORDER, LOCATE_BROKER)};
/* MatchingUnit, the last, does not go with Symbol, and is tried by itself. */
static const struct optional purge_fields[] = {
    OPTIONAL(PURGE_ORDERS, CLEARING_FIRM), OPTIONAL(PURGE_ORDERS, MASS_CANCEL_INST), OPTIONAL(PURGE_ORDERS, MASS_CANCEL_ID),
    OPTIONAL(PURGE_ORDERS, SYMBOL), OPTIONAL(PURGE_ORDERS, SYMBOL_SFX)};

/* A live session of a market, in which the last order had a number: any bytes are a state. */
static struct boe_session live_session(uint8_t market, uint32_t outgoing) {
    struct boe_session state = {{0}};
    put(state.bytes + BOE_SESSION_OUTGOING_AT, 4, outgoing);
    state.bytes[BOE_SESSION_PHASE_AT] = BOE_LIVE;
    state.bytes[BOE_SESSION_MARKET_AT] = market;
    return state;
}

/* docs/GUIDE.md's modify, 000's example: by the fields' names, as an order of a session. */
static uint32_t modify_by_name(struct boe_session *state, uint8_t *out, size_t out_len) {
    struct boe_record record = boe_blank_record(BOE_MODIFY_ORDER);
    boe_modify_order_set_cl_ord_id(&record, "ABC124");
    boe_modify_order_set_orig_cl_ord_id(&record, "ABC123");
    boe_modify_order_set_order_qty(&record, 12000);
    boe_modify_order_set_price(&record, 123400);
    return boe_session_order(&record, sizeof record, out, out_len, state, sizeof *state);
}

/* The same by the fields' places, and written under a number of the caller's. */
static uint32_t modify_as_told(uint32_t number, uint8_t *out, size_t out_len) {
    struct boe_record record = {{0}};
    uint8_t *r = record.bytes;
    r[BOE_RECORD_TYPE_AT] = BOE_MODIFY_ORDER;
    put(r + BOE_RECORD_NUMBER_AT, 4, number);
    memcpy(r + BOE_MODIFY_ORDER_CL_ORD_ID_AT, "ABC124", 6);
    memcpy(r + BOE_MODIFY_ORDER_ORIG_CL_ORD_ID_AT, "ABC123", 6);
    r[BOE_RECORD_COUNT_AT] = 1;
    r[BOE_RECORD_BITFIELDS_AT] = BOE_MODIFY_ORDER_ORDER_QTY_BIT | BOE_MODIFY_ORDER_PRICE_BIT;
    put(r + BOE_MODIFY_ORDER_ORDER_QTY_AT, BOE_MODIFY_ORDER_ORDER_QTY_LEN, 12000);
    put(r + BOE_MODIFY_ORDER_PRICE_AT, BOE_MODIFY_ORDER_PRICE_LEN, 123400);
    return boe_write(BOE_FROM_MEMBER, &record, sizeof record, out, out_len);
}

static void modifies(void) {
    uint8_t told[sizeof modify_order];
    struct boe_session state = live_session(BOE_EQUITIES, 99);
    check(modify_by_name(&state, told, sizeof told) == 0 && memcmp(told, modify_order, sizeof told) == 0, "the guide's modify is the example");
    memset(told, 0, sizeof told);
    check(modify_as_told(100, told, sizeof told) == 0 && memcmp(told, modify_order, sizeof told) == 0, "by its places too");
    struct boe_record record;
    uint8_t bytes[sizeof modify_order];
    again_in_both(modify_order, sizeof modify_order);
    for (size_t m = 0; m < COUNT_OF(members); m++) {
        member_header(members[m], modify_order, sizeof modify_order);
        for (size_t i = 0; i < COUNT_OF(modified); i++) try_rest(members[m], modify_order, 50, &modified[i]);
    }
    memcpy(bytes, modify_order, sizeof bytes);
    memset(bytes + 30, 0, 20);
    check(boe_read(BOE_FROM_MEMBER, bytes, sizeof bytes, &record, sizeof record) == refused_at(BOE_BAD_VALUE, 30), "a blank OrigClOrdID");
    memset(bytes + 10, 0, 20);
    check(boe_read(BOE_FROM_MEMBER, bytes, sizeof bytes, &record, sizeof record) == refused_at(BOE_BAD_VALUE, 10), "both blank");
    check(boe_read(BOE_FROM_MEMBER, modify_order, sizeof modify_order, &record, sizeof record) == 0, "Modify Order");
    check(record.bytes[BOE_RECORD_TYPE_AT] == BOE_MODIFY_ORDER && record.bytes[BOE_RECORD_COUNT_AT] == 1, "its type and count");
    check(memcmp(record.bytes + BOE_MODIFY_ORDER_CL_ORD_ID_AT, modify_order + 10, BOE_MODIFY_ORDER_CL_ORD_ID_LEN) == 0, "ClOrdID is at 10");
    check(memcmp(record.bytes + BOE_MODIFY_ORDER_ORIG_CL_ORD_ID_AT, modify_order + 30, BOE_MODIFY_ORDER_ORIG_CL_ORD_ID_LEN) == 0, "OrigClOrdID is at 30");
    check(number_at(record.bytes + BOE_MODIFY_ORDER_ORDER_QTY_AT) == 12000, "OrderQty is at 52");
    check(memcmp(record.bytes + BOE_MODIFY_ORDER_PRICE_AT, modify_order + 56, BOE_MODIFY_ORDER_PRICE_LEN) == 0, "Price is at 56");
    record = without_fields(BOE_FROM_MEMBER, modify_order, sizeof modify_order, 2);
    record.bytes[BOE_RECORD_BITFIELDS_AT] = BOE_MODIFY_ORDER_ORDER_QTY_BIT | BOE_MODIFY_ORDER_PRICE_BIT;
    for (size_t m = 0; m < COUNT_OF(members); m++)
        check(by_name(members[m], record, 53, modify_fields, COUNT_OF(modify_fields)) == 89, "the longest Modify Order");
}

/* Tries a record of either market's members that is refused without a place: nothing is stored, with room or without. */
static void unwritten(const struct boe_record *record, enum boe_refusal number, const char *what) {
    uint8_t out[600];
    memset(out, 0x5A, sizeof out);
    for (size_t m = 0; m < COUNT_OF(members); m++) {
        check(boe_write(members[m], record, sizeof *record, out, sizeof out) == number, what);
        check(boe_write(members[m], record, sizeof *record, out, 0) == number, "it comes before 13");
    }
    check(all_are(out, sizeof out, 0x5A), "and nothing is stored");
}

/* In writing selected fields alone speak, and of what is left over 12 comes after 23. */
static void purge_conflicts(struct boe_record record) {
    uint8_t *second = record.bytes + BOE_RECORD_BITFIELDS_AT + BOE_PURGE_ORDERS_MATCHING_UNIT_BYTE - 1, out[600];
    record.bytes[BOE_PURGE_ORDERS_MATCHING_UNIT_AT] = 3;
    unwritten(&record, BOE_NOT_ZERO, "MatchingUnit without its bit");
    *second = BOE_PURGE_ORDERS_SYMBOL_BIT;
    unwritten(&record, BOE_NOT_ZERO, "beside a Symbol that is selected");
    *second |= BOE_PURGE_ORDERS_MATCHING_UNIT_BIT;
    unwritten(&record, BOE_CONFLICT, "both selected");
    record.bytes[BOE_RECORD_COUNT_AT] = 1;
    unwritten(&record, BOE_NOT_ZERO, "by a bitfield that is past the last");
    record.bytes[BOE_RECORD_COUNT_AT] = 2;
    record.bytes[BOE_PURGE_ORDERS_SYMBOL_SFX_AT] = 'A';
    unwritten(&record, BOE_CONFLICT, "23 comes before 12");
    *second = BOE_PURGE_ORDERS_MATCHING_UNIT_BIT;
    unwritten(&record, BOE_NOT_ZERO, "12 for SymbolSfx, without Symbol's bit");
    record.bytes[BOE_PURGE_ORDERS_SYMBOL_SFX_AT] = 0;
    record.bytes[BOE_PURGE_ORDERS_MASS_CANCEL_INST_AT + 2] = 'L';
    record.bytes[BOE_PURGE_ORDERS_MASS_CANCEL_INST_AT + 1] = 'M';
    unwritten(&record, BOE_CONFLICT, "L without F");
    record.bytes[BOE_PURGE_ORDERS_MASS_CANCEL_INST_AT + 1] = 'S';
    check(boe_write(BOE_FROM_MEMBER, &record, sizeof record, out, sizeof out) == refused_at(BOE_NOT_SELECTED, 13), "the late 9 comes before 23");
    record.bytes[BOE_PURGE_ORDERS_SYMBOL_AT] = 'A';
    check(boe_write(BOE_FROM_MEMBER, &record, sizeof record, out, sizeof out) == refused_at(BOE_NOT_SELECTED, 13), "and before 12");
    record.bytes[BOE_PURGE_ORDERS_MASS_CANCEL_INST_AT + 2] = 0x07;
    check(boe_write(BOE_FROM_MEMBER, &record, sizeof record, out, sizeof out) == refused_at(BOE_BAD_VALUE, 15), "10 comes before it");
}

/* A Purge Orders of all its fields and so many RiskGroupIDs, made by name. */
static void purge_by_name(struct boe_record bare, unsigned n) {
    uint8_t out[600], *bitfields = bare.bytes + BOE_RECORD_BITFIELDS_AT, *ids = bare.bytes + BOE_PURGE_ORDERS_RISK_GROUP_IDS_AT;
    size_t first = 15 + (size_t)BOE_RISK_GROUP_ID_LEN * n;
    memset(ids, 0, BOE_RISK_GROUP_IDS_MOST * BOE_RISK_GROUP_ID_LEN);
    for (unsigned i = 0; i < n; i++) memset(ids + BOE_RISK_GROUP_ID_LEN * i, 0xE0 + (int)i, BOE_RISK_GROUP_ID_LEN);
    bare.bytes[BOE_PURGE_ORDERS_RISK_GROUP_ID_CNT_AT] = (uint8_t)n;
    for (size_t m = 0; m < COUNT_OF(members); m++)
        check(by_name(members[m], bare, first, purge_fields, COUNT_OF(purge_fields)) == first + 56, "all fields but MatchingUnit");
    if (n) {
        bare.bytes[BOE_PURGE_ORDERS_RISK_GROUP_ID_CNT_AT]--;
        unwritten(&bare, BOE_NOT_ZERO, "a RiskGroupID after the last");
        bare.bytes[BOE_PURGE_ORDERS_RISK_GROUP_ID_CNT_AT]++;
    }

    bitfields[0] |= BOE_PURGE_ORDERS_CLEARING_FIRM_BIT | BOE_PURGE_ORDERS_MASS_CANCEL_ID_BIT;
    bitfields[BOE_PURGE_ORDERS_MATCHING_UNIT_BYTE - 1] =
        BOE_PURGE_ORDERS_SYMBOL_BIT | BOE_PURGE_ORDERS_SYMBOL_SFX_BIT | BOE_PURGE_ORDERS_MATCHING_UNIT_BIT;
    check(boe_write(BOE_FROM_MEMBER, &bare, sizeof bare, out, sizeof out) == 0, "all fields, the unit 0");
    check(boe_frame_length(out, sizeof out) == first + 57, "up to 92 bytes, the longest");
    check(out[10] == 0xA5 && out[14] == n, "the reserved byte as it was, and RiskGroupIDCnt behind the bitfields");
    for (unsigned i = 0; i < n; i++) check(all_are(out + 15 + BOE_RISK_GROUP_ID_LEN * i, BOE_RISK_GROUP_ID_LEN, (uint8_t)(0xE0 + i)), "each id at its place");
    bitfields[BOE_PURGE_ORDERS_MATCHING_UNIT_BYTE - 1] = BOE_PURGE_ORDERS_MATCHING_UNIT_BIT;
    bare.bytes[BOE_PURGE_ORDERS_MATCHING_UNIT_AT] = 33;
    check(boe_write(BOE_FROM_MEMBER, &bare, sizeof bare, out, sizeof out) == 0, "MatchingUnit without Symbol");
    check(boe_frame_length(out, sizeof out) == first + 41 && out[first + 40] == 33, "is the last");
}

static void purges(void) {
    struct boe_record record, bare;
    const uint8_t *ids = record.bytes + BOE_PURGE_ORDERS_RISK_GROUP_IDS_AT;
    again_in_both(purge_orders, sizeof purge_orders);
    again_in_both(purge_symbol, sizeof purge_symbol);
    for (size_t m = 0; m < COUNT_OF(members); m++) {
        member_header(members[m], purge_orders, sizeof purge_orders);
        for (size_t i = 0; i < COUNT_OF(purged); i++) try_rest(members[m], purge_orders, 11, &purged[i]);
    }
    check(boe_read(BOE_FROM_MEMBER, purge_orders, sizeof purge_orders, &record, sizeof record) == 0, "Purge Orders by RiskGroupID");
    check(record.bytes[BOE_RECORD_TYPE_AT] == BOE_PURGE_ORDERS && record.bytes[BOE_RECORD_COUNT_AT] == 1, "its type and count");
    check(record.bytes[BOE_PURGE_ORDERS_RISK_GROUP_ID_CNT_AT] == 2 && BOE_PURGE_ORDERS_RISK_GROUP_ID_CNT_LEN == 1, "RiskGroupIDCnt is at 13");
    check(memcmp(ids, purge_orders + 14, 2 * BOE_RISK_GROUP_ID_LEN) == 0 && all_are(ids + 4, BOE_RECORD_COUNT_AT - 12, 0), "the ids at 14, then zeros");
    check(ids[BOE_RISK_GROUP_ID_LEN] + 256 * ids[BOE_RISK_GROUP_ID_LEN + 1] == 48832, "the second, its lowest byte first");
    check(memcmp(record.bytes + BOE_PURGE_ORDERS_CLEARING_FIRM_AT, purge_orders + 18, BOE_PURGE_ORDERS_CLEARING_FIRM_LEN) == 0, "ClearingFirm is at 18");
    check(memcmp(record.bytes + BOE_PURGE_ORDERS_MASS_CANCEL_INST_AT, purge_orders + 22, BOE_PURGE_ORDERS_MASS_CANCEL_INST_LEN) == 0,
          "MassCancelInst is at 22");
    check(memcmp(record.bytes + BOE_PURGE_ORDERS_MASS_CANCEL_ID_AT, purge_orders + 38, BOE_PURGE_ORDERS_MASS_CANCEL_ID_LEN) == 0, "MassCancelID is at 38");
    check(boe_read(BOE_FROM_MEMBER, purge_symbol, sizeof purge_symbol, &record, sizeof record) == 0, "Purge Orders by symbol");
    check(all_are(ids - 1, BOE_RECORD_COUNT_AT - 7, 0), "RiskGroupIDCnt is at 14, and there are no ids");
    check(memcmp(record.bytes + BOE_PURGE_ORDERS_SYMBOL_AT, purge_symbol + 55, BOE_PURGE_ORDERS_SYMBOL_LEN) == 0, "Symbol is at 55");

    bare = without_fields(BOE_FROM_MEMBER, purge_orders, sizeof purge_orders, 2);
    bare.bytes[BOE_RECORD_FIXED_AT] = 0xA5;
    bare.bytes[BOE_PURGE_ORDERS_MASS_CANCEL_INST_AT] = 'A';
    bare.bytes[BOE_RECORD_BITFIELDS_AT] = BOE_PURGE_ORDERS_MASS_CANCEL_INST_BIT;
    for (unsigned n = 0; n <= BOE_RISK_GROUP_IDS_MOST; n++) purge_by_name(bare, n);
    memset(bare.bytes + BOE_PURGE_ORDERS_RISK_GROUP_ID_CNT_AT, 0, 1 + BOE_RISK_GROUP_IDS_MOST * BOE_RISK_GROUP_ID_LEN);
    purge_conflicts(bare);
}

/* ---- options New Order */

static const struct rest optioned[] = {
#define LIMIT "\x70\x17\0\0\0\0\0\0"
#define MSFT "MSFT\0\0\0\0"
#define DAY "\xEF\xDB\x32\x01"
    REST("\x02\x04\x41" LIMIT MSFT "C", 55, 0, 0, "what is required"),
    REST("\x02\x10\x41" "1" MSFT "C", 48, 0, 0, "OrdType in the place of Price"),
    REST("\x02\x04\x41", 55, 0, 0, "no price, and a blank Symbol and Capacity"),
    REST("\x02\x03\x41", 55, BOE_NOT_SELECTED, 37, "neither Price nor OrdType"),
    REST("\x02\x04\x40" LIMIT "C", 47, BOE_NOT_SELECTED, 37, "no Symbol"),
    REST("\x02\x04\x01" LIMIT MSFT, 54, BOE_NOT_SELECTED, 37, "no Capacity"),
    REST("\x01\x04" LIMIT, 45, BOE_NOT_SELECTED, 36, "a bitfield"),
    REST("\x04\x04\x40\0\x17" LIMIT "C", 66, BOE_NOT_SELECTED, 39, "9 comes before 6"),
    REST("\0", 36, BOE_NOT_SELECTED, 35, "no bitfields"),
    REST("\x0B", 47, BOE_TOO_MANY_BITFIELDS, 35, "eleven bitfields"),
    REST("\x0A\x04\x41\0\0\0\0\0\0\0\0" LIMIT MSFT "C", 63, 0, 0, "ten, eight of zeros"),
    REST("\x0A\x04\x41\0\0\0\0\0\0\0\x02" LIMIT MSFT "C", 67, BOE_UNLISTED_BIT, 45, "the equities order's LocateBroker"),
    REST("\x06\x04\x41\0\0\0\x02" LIMIT MSFT "C", 67, BOE_UNLISTED_BIT, 41, "its StopPx"),
    REST("\x03\x04\x41\x80" LIMIT MSFT "C", 64, BOE_UNLISTED_BIT, 38, "its ExpireTime"),
    REST("\x02\x04\x43" LIMIT MSFT "\0\0\0\0\0\0\0\0" "C", 63, BOE_UNLISTED_BIT, 37, "its SymbolSfx"),
    REST("\x04\x04\x41\0\x08" LIMIT MSFT "C", 57, BOE_UNLISTED_BIT, 39, "a bit between PutOrCall and OpenClose"),
    REST("\x04\x04\x41\0\x01" LIMIT MSFT "C" DAY, 61, 0, 0, "MaturityDate alone"),
    REST("\x04\x04\x41\0\x01" LIMIT MSFT "C", 61, BOE_BAD_VALUE, 57, "which is 0"),
    REST("\x04\x04\x41\0\x01" LIMIT MSFT "C" DAY, 60, BOE_WRONG_TOTAL, 60, "a byte less"),
    REST("\x04\x04\x41\0\x01" LIMIT "MS-T\0\0\0\0" "C", 61, BOE_BAD_VALUE, 48, "Symbol comes before it"),
    REST("\x04\x04\x41\0\x05" LIMIT MSFT "C\0\0\0\0-", 62, BOE_BAD_VALUE, 57, "and it before PutOrCall"),
    REST("\x04\x04\x41\0\x02" LIMIT MSFT "C\xFF\xFF\xFF\xFF\xFF\xFF\xFF\xFF", 65, 0, 0, "any StrikePrice"),
    REST("\x04\x04\x41\0\x04" LIMIT MSFT "C0", 58, 0, 0, "PutOrCall has digits"),
    REST("\x04\x04\x41\0\x04" LIMIT MSFT "C", 58, 0, 0, "or is blank"),
    REST("\x04\x04\x41\0\x04" LIMIT MSFT "C ", 58, BOE_BAD_VALUE, 57, "and is no space"),
    REST("\x04\x04\x41\0\x10" LIMIT MSFT "CC", 58, 0, 0, "OpenClose has letters"),
    REST("\x04\x04\x41\0\x10" LIMIT MSFT "C-", 58, BOE_BAD_VALUE, 57, "and no hyphen"),
};

static const struct optional options_fields[] = {
    OPTIONAL(OPTIONS_NEW_ORDER, CLEARING_FIRM), OPTIONAL(OPTIONS_NEW_ORDER, CLEARING_ACCOUNT), OPTIONAL(OPTIONS_NEW_ORDER, PRICE),
    OPTIONAL(OPTIONS_NEW_ORDER, EXEC_INST), OPTIONAL(OPTIONS_NEW_ORDER, ORD_TYPE), OPTIONAL(OPTIONS_NEW_ORDER, TIME_IN_FORCE),
    OPTIONAL(OPTIONS_NEW_ORDER, MIN_QTY), OPTIONAL(OPTIONS_NEW_ORDER, MAX_FLOOR), OPTIONAL(OPTIONS_NEW_ORDER, SYMBOL),
    OPTIONAL(OPTIONS_NEW_ORDER, CAPACITY), OPTIONAL(OPTIONS_NEW_ORDER, ROUTING_INST), OPTIONAL(OPTIONS_NEW_ORDER, ACCOUNT),
    OPTIONAL_DAY(OPTIONS_NEW_ORDER, MATURITY_DATE, 20110319), OPTIONAL(OPTIONS_NEW_ORDER, STRIKE_PRICE), OPTIONAL(OPTIONS_NEW_ORDER, PUT_OR_CALL),
    OPTIONAL(OPTIONS_NEW_ORDER, OPEN_CLOSE)};

/* docs/GUIDE.md's options order, 002's example: 10 calls MSFT of 19 March 2011 with strike 17.50, to open, at 0.60. */
static uint32_t option_as_told(struct boe_session *state, uint8_t *out, size_t out_len) {
    struct boe_record record = boe_blank_record(BOE_OPTIONS_NEW_ORDER);
    boe_options_new_order_set_cl_ord_id(&record, "ABC123");
    boe_options_new_order_set_side(&record, '1');
    boe_options_new_order_set_order_qty(&record, 10);
    boe_options_new_order_set_price(&record, 6000);
    boe_options_new_order_set_symbol(&record, "MSFT");
    boe_options_new_order_set_capacity(&record, 'C');
    boe_options_new_order_set_routing_inst(&record, "R");
    boe_options_new_order_set_account(&record, "DEFG");
    boe_options_new_order_set_maturity_date(&record, 20110319);
    boe_options_new_order_set_strike_price(&record, 175000);
    boe_options_new_order_set_put_or_call(&record, '1');
    boe_options_new_order_set_open_close(&record, 'O');
    return boe_session_order(&record, sizeof record, out, out_len, state, sizeof *state);
}

/* The options order with other maturities, read and written: a calendar day of 1970 to 2099 is taken, and for any other number nothing stored. */
static void maturities(void) {
    static const struct {
        uint32_t number;
        int is_day;
    } cases[] = {{20110319, 1}, {20110229, 0}, {0, 0}, {20120229, 1}, {20000229, 1}, {19700101, 1}, {19691231, 0}, {20991231, 1}, {21000101, 0},
                 {20110431, 0}, {20111301, 0}, {20110001, 0}, {20110300, 0}, {20110332, 0}, {20111231, 1}, {110319, 0}, {UINT32_MAX, 0}};
    for (size_t i = 0; i < COUNT_OF(cases); i++) {
        uint8_t bytes[sizeof options_order], out[600];
        struct boe_record good, record, filled;
        uint32_t expected = cases[i].is_day ? 0 : refused_at(BOE_BAD_VALUE, 77);
        memcpy(bytes, options_order, sizeof bytes);
        put(bytes + 77, 4, cases[i].number);
        memset(&filled, 0x5A, sizeof filled);
        record = filled;
        check(boe_read(BOE_FROM_OPTIONS_MEMBER, bytes, sizeof bytes, &record, sizeof record) == expected, "a MaturityDate that is a day, and no other");
        if (expected) check(memcmp(&record, &filled, sizeof record) == 0, "refused, and nothing stored");
        else check(number_at(record.bytes + BOE_OPTIONS_NEW_ORDER_MATURITY_DATE_AT) == cases[i].number, "as it was");
        check(boe_read(BOE_FROM_OPTIONS_MEMBER, options_order, sizeof options_order, &good, sizeof good) == 0, "the example");
        put(good.bytes + BOE_OPTIONS_NEW_ORDER_MATURITY_DATE_AT, BOE_OPTIONS_NEW_ORDER_MATURITY_DATE_LEN, cases[i].number);
        memset(out, 0x5A, sizeof out);
        check(boe_write(BOE_FROM_OPTIONS_MEMBER, &good, sizeof good, out, sizeof out) == expected, "its record");
        if (expected) check(all_are(out, sizeof out, 0x5A), "refused, and nothing stored");
        else check(memcmp(out, bytes, sizeof bytes) == 0, "written as it was read");
    }
}

/* The New Orders of one market in the other: the direction tells how a message is read, and a record tells its own market. */
static void other_market(void) {
    uint8_t bytes[sizeof new_order + BOE_NEW_ORDER_SYMBOL_SFX_LEN], out[600];
    struct boe_record record, filled, order;
    memset(&filled, 0x5A, sizeof filled);
    memset(out, 0x5A, sizeof out);
    record = filled;
    check(boe_read(BOE_FROM_MEMBER, options_order, sizeof options_order, &record, sizeof record) == refused_at(BOE_UNLISTED_BIT, 39),
          "the options order's fourth bitfield in an equities order");
    check(memcmp(&record, &filled, sizeof record) == 0, "refused, and nothing stored");

    again(BOE_FROM_OPTIONS_MEMBER, new_order, sizeof new_order);
    check(boe_read(BOE_FROM_OPTIONS_MEMBER, new_order, sizeof new_order, &order, sizeof order) == 0, "000's order, whose bits both markets have");
    check(order.bytes[BOE_RECORD_TYPE_AT] == BOE_OPTIONS_NEW_ORDER, "is an options order in direction 2");
    check(memcmp(order.bytes + BOE_OPTIONS_NEW_ORDER_ACCOUNT_AT, new_order + 60, BOE_OPTIONS_NEW_ORDER_ACCOUNT_LEN) == 0, "its Account at that order's place");
    order.bytes[BOE_RECORD_TYPE_AT] = BOE_NEW_ORDER;
    check(boe_write(BOE_FROM_OPTIONS_MEMBER, &order, sizeof order, out, sizeof out) == BOE_UNKNOWN_TYPE, "a record of type 38 is none in direction 2");
    check(boe_read(BOE_FROM_MEMBER, new_order, sizeof new_order, &order, sizeof order) == 0, "000's order");
    check(order.bytes[BOE_RECORD_TYPE_AT] == BOE_NEW_ORDER, "is an equities order in direction 0");
    order.bytes[BOE_RECORD_TYPE_AT] = BOE_OPTIONS_NEW_ORDER;
    check(boe_write(BOE_FROM_MEMBER, &order, sizeof order, out, sizeof out) == BOE_UNKNOWN_TYPE, "nor is one of type B8 in direction 0");
    check(boe_write(BOE_FROM_OPTIONS_MEMBER, &order, sizeof order, out, sizeof out) == refused_at(BOE_BAD_VALUE, 60),
          "in direction 2 its Capacity stands in the place of Account");
    check(all_are(out, sizeof out, 0x5A), "refusals stored nothing");

    memcpy(bytes, new_order, 55);
    memcpy(bytes + 55, "ABC\0\0\0\0", BOE_NEW_ORDER_SYMBOL_SFX_LEN);
    memcpy(bytes + 55 + BOE_NEW_ORDER_SYMBOL_SFX_LEN, new_order + 55, sizeof new_order - 55);
    bytes[2] += BOE_NEW_ORDER_SYMBOL_SFX_LEN;
    bytes[36 + BOE_NEW_ORDER_SYMBOL_SFX_BYTE - 1] |= BOE_NEW_ORDER_SYMBOL_SFX_BIT;
    check(boe_read(BOE_FROM_MEMBER, bytes, sizeof bytes, &record, sizeof record) == 0, "000's order with SymbolSfx");
    record = filled;
    check(boe_read(BOE_FROM_OPTIONS_MEMBER, bytes, sizeof bytes, &record, sizeof record) == refused_at(BOE_UNLISTED_BIT, 37),
          "which options orders do not have");
    memcpy(bytes, new_order, sizeof new_order);
    bytes[4] = BOE_OPTIONS_NEW_ORDER;
    for (unsigned direction = 0; direction < 256; direction++)
        check(boe_read((uint8_t)direction, bytes, sizeof new_order, &record, sizeof record) == BOE_UNKNOWN_TYPE, "type B8 is on no wire");
    check(memcmp(&record, &filled, sizeof record) == 0, "refused, and nothing stored");
}

static void options(void) {
    uint8_t told[sizeof options_order];
    struct boe_record record;
    const uint8_t *at = record.bytes;
    struct boe_session state = live_session(BOE_OPTIONS, 0), other = live_session(BOE_EQUITIES, 0);
    check(option_as_told(&other, told, sizeof told) == BOE_UNKNOWN_TYPE, "the guide's options order in an equities session");
    check(option_as_told(&state, told, sizeof told) == 0 && memcmp(told, options_order, sizeof told) == 0, "in its own it is the example");
    again(BOE_FROM_OPTIONS_MEMBER, options_order, sizeof options_order);
    member_header(BOE_FROM_OPTIONS_MEMBER, options_order, sizeof options_order);
    for (size_t i = 0; i < COUNT_OF(optioned); i++) try_rest(BOE_FROM_OPTIONS_MEMBER, options_order, 35, &optioned[i]);
    check(boe_read(BOE_FROM_OPTIONS_MEMBER, options_order, sizeof options_order, &record, sizeof record) == 0, "options New Order");
    check(at[BOE_RECORD_TYPE_AT] == BOE_OPTIONS_NEW_ORDER && at[BOE_RECORD_COUNT_AT] == 4, "its type and count");
    check(memcmp(at + BOE_OPTIONS_NEW_ORDER_CL_ORD_ID_AT, options_order + 10, BOE_OPTIONS_NEW_ORDER_CL_ORD_ID_LEN) == 0, "ClOrdID is at 10");
    check(at[BOE_OPTIONS_NEW_ORDER_SIDE_AT] == '1' && BOE_OPTIONS_NEW_ORDER_SIDE_LEN == 1, "Side is at 30");
    check(number_at(at + BOE_OPTIONS_NEW_ORDER_ORDER_QTY_AT) == 10 && BOE_OPTIONS_NEW_ORDER_ORDER_QTY_LEN == 4, "OrderQty is at 31");
    static const struct {
        struct optional field;
        size_t place;
        const char *what;
    } placed[] = {
        {OPTIONAL(OPTIONS_NEW_ORDER, PRICE), 40, "Price is at 40"}, {OPTIONAL(OPTIONS_NEW_ORDER, SYMBOL), 48, "Symbol is at 48"},
        {OPTIONAL(OPTIONS_NEW_ORDER, CAPACITY), 56, "Capacity is at 56"}, {OPTIONAL(OPTIONS_NEW_ORDER, ROUTING_INST), 57, "RoutingInst is at 57"},
        {OPTIONAL(OPTIONS_NEW_ORDER, ACCOUNT), 61, "Account is at 61"}, {OPTIONAL(OPTIONS_NEW_ORDER, MATURITY_DATE), 77, "MaturityDate is at 77"},
        {OPTIONAL(OPTIONS_NEW_ORDER, STRIKE_PRICE), 81, "StrikePrice is at 81"},
        {OPTIONAL(OPTIONS_NEW_ORDER, PUT_OR_CALL), 89, "PutOrCall is at 89"}, {OPTIONAL(OPTIONS_NEW_ORDER, OPEN_CLOSE), 90, "OpenClose is at 90"}};
    for (size_t i = 0; i < COUNT_OF(placed); i++)
        check(memcmp(at + placed[i].field.at, options_order + placed[i].place, placed[i].field.len) == 0, placed[i].what);

    record = without_fields(BOE_FROM_OPTIONS_MEMBER, options_order, sizeof options_order, 10);
    record.bytes[BOE_RECORD_BITFIELDS_AT] = BOE_OPTIONS_NEW_ORDER_PRICE_BIT;
    record.bytes[BOE_RECORD_BITFIELDS_AT + 1] = BOE_OPTIONS_NEW_ORDER_SYMBOL_BIT | BOE_OPTIONS_NEW_ORDER_CAPACITY_BIT;
    check(by_name(BOE_FROM_OPTIONS_MEMBER, record, 46, options_fields, COUNT_OF(options_fields)) == 116, "the longest options New Order");
    maturities();
    other_market();
}

/* ---- rejections */

/* The fixed part of a rejection by the names of its type: each where it is on the wire, and the count after it. */
#define REJECTION_FIXED(name, reason, message) \
    do { \
        struct boe_record record; \
        const uint8_t *wire = (message), *at = record.bytes; \
        check(boe_read(BOE_FROM_VENUE, wire, sizeof(message), &record, sizeof record) == 0, "a rejection"); \
        check(at[BOE_RECORD_TYPE_AT] == BOE_##name && all_are(at + BOE_RECORD_UNIT_AT, 5, 0), "its type, and no unit or number"); \
        check(memcmp(at + BOE_##name##_TRANSACTION_TIME_AT, wire + 10, BOE_##name##_TRANSACTION_TIME_LEN) == 0, "TransactionTime is at 10"); \
        check(memcmp(at + BOE_##name##_CL_ORD_ID_AT, wire + 18, BOE_##name##_CL_ORD_ID_LEN) == 0, "ClOrdID is at 18"); \
        check(at[BOE_##name##_##reason##_AT] == wire[38] && BOE_##name##_##reason##_LEN == 1, "its reason is at 38"); \
        check(memcmp(at + BOE_##name##_TEXT_AT, wire + 39, BOE_##name##_TEXT_LEN) == 0, "Text is at 39"); \
        check(at[BOE_##name##_TEXT_AT] == wire[39] && at[BOE_##name##_TEXT_AT + BOE_##name##_TEXT_LEN] == wire[99], "and a byte after it at 99"); \
        check(at[BOE_RECORD_COUNT_AT] == wire[100], "the count is at 100"); \
    } while (0)

#define BYTES_1_AND_2(message) \
    OPTIONAL(message, SIDE), OPTIONAL(message, PEG_DIFFERENCE), OPTIONAL(message, PRICE), OPTIONAL(message, EXEC_INST), \
    OPTIONAL(message, ORD_TYPE), OPTIONAL(message, TIME_IN_FORCE), OPTIONAL(message, MIN_QTY), OPTIONAL(message, SYMBOL), \
    OPTIONAL(message, SYMBOL_SFX), OPTIONAL(message, CAPACITY)
static const struct optional rejection_fields[] = {
    BYTES_1_AND_2(REJECTION), OPTIONAL(REJECTION, ACCOUNT), OPTIONAL(REJECTION, CLEARING_FIRM), OPTIONAL(REJECTION, CLEARING_ACCOUNT),
    OPTIONAL(REJECTION, DISPLAY_INDICATOR), OPTIONAL(REJECTION, MAX_FLOOR), OPTIONAL(REJECTION, DISCRETION_AMOUNT),
    OPTIONAL(REJECTION, ORDER_QTY), OPTIONAL(REJECTION, PREVENT_MATCH), OPTIONAL(REJECTION, SECONDARY_ORDER_ID),
    OPTIONAL(REJECTION, ATTRIBUTED_QUOTE), OPTIONAL(REJECTION, EXT_EXEC_INST), OPTIONAL(REJECTION, ECHO_TEXT), OPTIONAL(REJECTION, STOP_PX),
    OPTIONAL(REJECTION, ROUTING_INST), OPTIONAL(REJECTION, ROUT_STRATEGY), OPTIONAL(REJECTION, ROUTE_DELIVERY_METHOD),
    OPTIONAL(REJECTION, EX_DESTINATION)};
static const struct optional cancel_rejection_fields[] = {
    BYTES_1_AND_2(CANCEL_REJECTION), OPTIONAL(CANCEL_REJECTION, ECHO_TEXT), OPTIONAL(CANCEL_REJECTION, STOP_PX)};

/* A rejection of all its fields and the most bitfields; none is required. Answers its length. */
static size_t rejection_by_name(const uint8_t *message, size_t len, const struct optional *fields, size_t count) {
    struct boe_record bare = without_fields(BOE_FROM_VENUE, message, len, BOE_RECORD_BITFIELDS_LEN);
    return by_name(BOE_FROM_VENUE, bare, 101 + BOE_RECORD_BITFIELDS_LEN, fields, count);
}

/* 5 for each byte of unit and number that is not 0, read and written; what comes before it, and what after. */
static void units(const uint8_t *message, size_t len) {
    uint8_t bytes[600], out[600];
    struct boe_record good, record, filled;
    check(boe_read(BOE_FROM_VENUE, message, len, &good, sizeof good) == 0, "a rejection");
    memset(&filled, 0x5A, sizeof filled);
    memset(out, 0x5A, sizeof out);
    for (size_t i = 0; i < 5; i++) {
        memcpy(bytes, message, len);
        bytes[5 + i] = 1;
        record = filled;
        check(boe_read(BOE_FROM_VENUE, bytes, len, &record, sizeof record) == BOE_BAD_UNIT, "a rejection with a unit or a number");
        check(boe_read(BOE_FROM_VENUE, bytes, len - 1, &record, sizeof record) == BOE_INCOMPLETE, "3 comes before 5");
        check(boe_read(BOE_FROM_MEMBER, bytes, len, &record, sizeof record) == BOE_UNKNOWN_TYPE, "4 comes before 5");
        check(boe_read(BOE_FROM_VENUE, bytes, len, &record, 0) == BOE_BAD_UNIT, "5 comes before 13");
        bytes[2]++;
        bytes[len] = 0;
        check(boe_read(BOE_FROM_VENUE, bytes, len + 1, &record, sizeof record) == BOE_BAD_UNIT, "5 comes before 6");
        check(memcmp(&record, &filled, sizeof record) == 0, "refusals stored nothing");

        record = good;
        record.bytes[BOE_RECORD_UNIT_AT + i] = 1;
        check(boe_write(BOE_FROM_VENUE, &record, sizeof record, out, sizeof out) == BOE_BAD_UNIT, "its record");
        check(boe_write(BOE_FROM_VENUE, &record, BOE_ORDER_RECORD_LEN - 1, out, sizeof out) == BOE_NO_ROOM, "13 for a short record comes before 5");
        record.bytes[BOE_RECORD_COUNT_AT] = 20;
        check(boe_write(BOE_FROM_VENUE, &record, sizeof record, out, sizeof out) == BOE_BAD_UNIT, "5 comes before 7");
        check(all_are(out, sizeof out, 0x5A), "refusals stored nothing");
    }
}

/* A rejection with a count, one bitfield that is not zero, and so many bytes of fields. */
static uint32_t read_bits(const uint8_t *message, unsigned count, unsigned bitfield, uint8_t bits, size_t fields) {
    uint8_t bytes[600] = {0};
    struct boe_record record;
    size_t total = 101 + count + fields;
    memcpy(bytes, message, 100);
    bytes[2] = (uint8_t)(total - 2);
    bytes[3] = (uint8_t)((total - 2) >> 8);
    bytes[100] = (uint8_t)count;
    if (bitfield) bytes[100 + bitfield] = bits;
    return boe_read(BOE_FROM_VENUE, bytes, total, &record, sizeof record);
}

/* No book has a rejection: append is 4, whatever else is wrong with it, and restart is 18 once it is whole. */
static void unbooked(const uint8_t *message, size_t len) {
    enum { DATE = 20250819, ROOM = 400 };
    uint8_t buffer[ROOM], held[ROOM], first[sizeof acknowledgment], bytes[600];
    struct boe_state state, kept, filled, restarted;
    memset(&filled, 0x5A, sizeof filled);
    memset(buffer, 0x5A, sizeof buffer);
    memcpy(first, acknowledgment, sizeof first);
    first[6] = 1;
    check(boe_book_open(DATE, buffer, sizeof buffer, &state, sizeof state) == 0, "a book is opened");
    for (unsigned booked = 0; booked < 2; booked++) {
        size_t end = number_at(state.bytes + BOE_STATE_LENGTH_AT);
        kept = state;
        memcpy(held, buffer, sizeof buffer);
        memcpy(bytes, message, len);
        check(boe_book_append(bytes, len, buffer, sizeof buffer, &state, BOE_STATE_BYTES - 1) == BOE_NO_ROOM, "13 for a short state comes first");
        check(boe_book_append(bytes, len - 1, buffer, sizeof buffer, &state, sizeof state) == BOE_INCOMPLETE, "3 comes before 4");
        check(boe_book_append(bytes, len, buffer, sizeof buffer, &state, sizeof state) == BOE_UNKNOWN_TYPE, "a rejection is not booked");
        check(boe_book_append(bytes, len, buffer, 0, &state, sizeof state) == BOE_UNKNOWN_TYPE, "4 comes before 13");
        bytes[5] = first[5];
        bytes[6] = (uint8_t)(booked + 1);
        check(boe_book_append(bytes, len, buffer, sizeof buffer, &state, sizeof state) == BOE_UNKNOWN_TYPE, "nor with its unit's next number");
        bytes[100] = 20;
        check(boe_book_append(bytes, len, buffer, sizeof buffer, &state, sizeof state) == BOE_UNKNOWN_TYPE, "4 comes before 5 and 7");
        check(memcmp(&state, &kept, sizeof state) == 0 && memcmp(buffer, held, sizeof buffer) == 0, "changed nothing");

        memcpy(held + end, message, len);
        restarted = filled;
        check(boe_restart(DATE, held, end + len, &restarted, sizeof restarted) == BOE_BAD_BOOK, "a book that has a rejection");
        held[end + 5] = first[5];
        held[end + 6] = (uint8_t)(booked + 1);
        check(boe_restart(DATE, held, end + len, &restarted, sizeof restarted) == BOE_BAD_BOOK, "also with its unit's next number");
        check(memcmp(&restarted, &filled, sizeof restarted) == 0, "refusals stored nothing");
        check(boe_restart(DATE, held, end + len - 1, &restarted, sizeof restarted) == 0, "a torn one is a torn tail");
        check(memcmp(&restarted, &kept, sizeof restarted) == 0, "and the book is the one before it");
        if (!booked) check(boe_book_append(first, sizeof first, buffer, sizeof buffer, &state, sizeof state) == 0, "an acknowledgment is booked");
    }
}

/* An acknowledgment or execution: a unit of 1 to 32, any number. */
static void sequenced_units(const uint8_t *message, size_t len) {
    uint8_t bytes[600], out[600];
    struct boe_record record;
    memcpy(bytes, message, len);
    for (unsigned unit = 0; unit < 256; unit++) {
        unsigned expected = unit < 1 || unit > BOE_UNITS ? BOE_BAD_UNIT : 0;
        bytes[5] = (uint8_t)unit;
        check(boe_read(BOE_FROM_VENUE, bytes, len, &record, sizeof record) == expected, "a unit of 1 to 32");
        check(boe_read(BOE_FROM_VENUE, message, len, &record, sizeof record) == 0, "an example");
        record.bytes[BOE_RECORD_UNIT_AT] = (uint8_t)unit;
        check(boe_write(BOE_FROM_VENUE, &record, sizeof record, out, sizeof out) == expected, "its record");
    }
    bytes[5] = 1;
    memset(bytes + 6, 0, 4);
    check(boe_read(BOE_FROM_VENUE, bytes, len, &record, sizeof record) == 0, "number 0");
}

static void rejections(void) {
    static const struct {
        const uint8_t *message;
        size_t len;
    } three[] = {{rejection, sizeof rejection}, {cancel_rejection, sizeof cancel_rejection}, {modify_rejection, sizeof modify_rejection}};
    struct boe_record record;
    for (size_t i = 0; i < 3; i++) {
        again(BOE_FROM_VENUE, three[i].message, three[i].len);
        units(three[i].message, three[i].len);
        unbooked(three[i].message, three[i].len);
    }
    REJECTION_FIXED(REJECTION, ORDER_REJECT_REASON, rejection);
    REJECTION_FIXED(CANCEL_REJECTION, CANCEL_REJECT_REASON, cancel_rejection);
    REJECTION_FIXED(MODIFY_REJECTION, MODIFY_REJECT_REASON, modify_rejection);
    check(boe_read(BOE_FROM_VENUE, rejection, sizeof rejection, &record, sizeof record) == 0, "Order Rejected");
    check(memcmp(record.bytes + BOE_REJECTION_SYMBOL_AT, rejection + 104, BOE_REJECTION_SYMBOL_LEN) == 0, "Symbol is at 104");
    check(memcmp(record.bytes + BOE_REJECTION_CLEARING_FIRM_AT, rejection + 112, BOE_REJECTION_CLEARING_FIRM_LEN) == 0, "ClearingFirm is at 112");
    check(rejection_by_name(rejection, sizeof rejection, rejection_fields, COUNT_OF(rejection_fields)) == 295, "the longest message with bitfields");
    check(BOE_RECORD_FIELDS_AT + BOE_RECORD_FIELDS_LEN == BOE_ORDER_RECORD_LEN, "the full layout ends with the record");
    check(rejection_by_name(cancel_rejection, sizeof cancel_rejection, cancel_rejection_fields, COUNT_OF(cancel_rejection_fields)) == 233,
          "Cancel Rejected, all fields");
    sequenced_units(acknowledgment, sizeof acknowledgment);
    sequenced_units(execution, sizeof execution);

    check(read_bits(modify_rejection, 1, 1, 0x01, 1) == refused_at(BOE_UNLISTED_BIT, 101), "User Modify Rejected lists no bit");
    check(read_bits(cancel_rejection, 3, 3, 0x01, 16) == refused_at(BOE_UNLISTED_BIT, 103), "Cancel Rejected lists none of byte 3");
    check(read_bits(cancel_rejection, 8, 8, 0x06, 72) == 0, "but EchoText and StopPx of byte 8");
    for (unsigned i = 0; i < 3; i++) {
        for (unsigned count = 0; count <= BOE_RECORD_BITFIELDS_LEN; count++)
            check(read_bits(three[i].message, count, 0, 0, 0) == 0, "up to 19 bitfields");
        check(read_bits(three[i].message, 20, 0, 0, 0) == refused_at(BOE_TOO_MANY_BITFIELDS, 100), "20 bitfields");
    }
}

/* What becomes of each type. */
static void fates(void) {
    for (unsigned type = 0; type < 256; type++) {
        unsigned expected = type == 0x25 || type == 0x2C ? BOE_BOOKED : type == 0x26 || type == 0x29 || type == 0x2B ? BOE_HANDED : BOE_NOTHING;
        check(boe_told((uint8_t)type) == expected, "the fate of a type");
    }
    check(BOE_NOTHING == 0 && BOE_BOOKED == 1 && BOE_HANDED == 2, "the fates' numbers");
    for (unsigned type = 0; type < 256; type++) { /* the other unsequenced types are not built */
        uint8_t header[10] = {0xBA, 0xBA, 8, 0, (uint8_t)type};
        struct boe_record record;
        uint32_t refusal = boe_read(BOE_FROM_VENUE, header, sizeof header, &record, sizeof record);
        int known = boe_told((uint8_t)type) != BOE_NOTHING || type == BOE_LOGIN_RESPONSE || type == BOE_LOGOUT || type == BOE_SERVER_HEARTBEAT ||
                    type == BOE_REPLAY_COMPLETE;
        check((BOE_NUMBER(refusal) != BOE_UNKNOWN_TYPE) == known, "what has a fate is read, and of the others session messages alone");
    }
}

/* The body of a session message stands in its record as on the wire, with zeros after it. */
static void same_body(const uint8_t *record, const uint8_t *message, size_t len) {
    size_t body = len - 10;
    check(record[BOE_RECORD_TYPE_AT] == message[4] && all_are(record + BOE_RECORD_UNIT_AT, 5, 0), "type, and no unit or number");
    check(memcmp(record + BOE_SESSION_BODY_AT, message + 10, body) == 0, "the body as on the wire");
    check(all_are(record + BOE_SESSION_BODY_AT + body, BOE_SESSION_BODY_LEN - body, 0), "zeros after it");
}

static void logins(void) {
    struct boe_record record;
    uint8_t out[600], bytes[600];
    const uint8_t *group = record.bytes + BOE_LOGIN_REQUEST_GROUPS_AT;
    again_in_both(login, sizeof login);
    again_in_both(options_login, sizeof options_login);
    check(boe_read(BOE_FROM_MEMBER, options_login, sizeof options_login, &record, sizeof record) == 0, "002's login");
    same_body(record.bytes, options_login, sizeof options_login);
    check(memcmp(record.bytes + BOE_LOGIN_REQUEST_SESSION_SUB_ID_AT, "0001", BOE_LOGIN_REQUEST_SESSION_SUB_ID_LEN) == 0, "SessionSubID");
    check(memcmp(record.bytes + BOE_LOGIN_REQUEST_USERNAME_AT, "TEST", BOE_LOGIN_REQUEST_USERNAME_LEN) == 0, "Username");
    check(memcmp(record.bytes + BOE_LOGIN_REQUEST_PASSWORD_AT, "TESTING\0\0", BOE_LOGIN_REQUEST_PASSWORD_LEN) == 0, "Password");
    check(record.bytes[BOE_LOGIN_REQUEST_NUMBER_OF_GROUPS_AT] == 3, "three groups");
    check(group[BOE_UNITS_GROUP_LENGTH_AT] == 15 && group[BOE_UNITS_GROUP_TYPE_AT] == BOE_UNITS_GROUP, "the first has units");
    check(group[BOE_UNITS_GROUP_FLAG_AT] == 1 && group[BOE_UNITS_GROUP_NUMBER_OF_UNITS_AT] == 2, "flag 1, two of them");
    check(group[BOE_UNITS_GROUP_PAIRS_AT] == 1 && number_at(group + BOE_UNITS_GROUP_PAIRS_AT + 1) == 113482, "unit 1 at 113,482");
    group += 15;
    check(group[BOE_BITFIELDS_GROUP_TYPE_AT] == BOE_BITFIELDS_GROUP, "the second has bitfields");
    check(group[BOE_BITFIELDS_GROUP_MESSAGE_TYPE_AT] == BOE_ACKNOWLEDGMENT && group[BOE_BITFIELDS_GROUP_COUNT_AT] == 3, "three for 25");
    check(group[BOE_BITFIELDS_GROUP_BITFIELDS_AT + 1] == 0x41, "its second bitfield");
    memset(out, 0x5A, sizeof out);
    record.bytes[BOE_LOGIN_REQUEST_GROUPS_AT + BOE_UNITS_GROUP_FLAG_AT] = 2;
    check(boe_write(BOE_FROM_MEMBER, &record, sizeof record, out, sizeof out) == BOE_BAD_GROUP, "flag 2");
    record.bytes[BOE_LOGIN_REQUEST_PASSWORD_AT] = ' ';
    check(boe_write(BOE_FROM_MEMBER, &record, sizeof record, out, sizeof out) == refused_at(BOE_BAD_VALUE, 18), "10 comes before 11");
    record.bytes[BOE_RECORD_NUMBER_AT] = 1;
    check(boe_write(BOE_FROM_MEMBER, &record, sizeof record, out, sizeof out) == BOE_BAD_UNIT, "5 comes before 10");
    check(boe_read(BOE_FROM_MEMBER, login, sizeof login, &record, sizeof record) == 0, "000's login");
    record.bytes[BOE_RECORD_LEN - 1] = 1;
    check(boe_write(BOE_FROM_MEMBER, &record, sizeof record, out, sizeof out) == BOE_BAD_GROUP, "a byte after the last group");
    check(all_are(out, sizeof out, 0x5A), "refusals stored nothing");

    again(BOE_FROM_VENUE, login_response, sizeof login_response);
    check(boe_read(BOE_FROM_VENUE, login_response, sizeof login_response, &record, sizeof record) == 0, "Login Response");
    same_body(record.bytes, login_response, sizeof login_response);
    check(record.bytes[BOE_LOGIN_RESPONSE_STATUS_AT] == 'A' && record.bytes[BOE_LOGIN_RESPONSE_FLAG_AT] == 1, "its status and flag");
    check(memcmp(record.bytes + BOE_LOGIN_RESPONSE_TEXT_AT, "Accepted", 9) == 0, "its text");
    check(number_at(record.bytes + BOE_LOGIN_RESPONSE_LAST_RECEIVED_NUMBER_AT) == 150100, "its last received number");
    check(record.bytes[BOE_LOGIN_RESPONSE_NUMBER_OF_UNITS_AT] == 4, "four units");
    check(record.bytes[BOE_LOGIN_RESPONSE_PAIRS_AT + 3 * BOE_PAIR_LEN] == 4, "the last is unit 4");
    check(number_at(record.bytes + BOE_LOGIN_RESPONSE_PAIRS_AT + 3 * BOE_PAIR_LEN + 1) == 41337, "at 41,337");
    check(record.bytes[BOE_LOGIN_RESPONSE_PAIRS_AT + 4 * BOE_PAIR_LEN] == 3, "three groups");
    memcpy(bytes, login_response, sizeof login_response);
    bytes[87] = bytes[92] = 2;
    memset(&record, 0x5A, sizeof record);
    check(boe_read(BOE_FROM_VENUE, bytes, sizeof login_response, &record, sizeof record) == BOE_BAD_GROUP, "000's bytes: unit 2 three times");
    check(boe_read(BOE_FROM_VENUE, bytes, sizeof login_response, &record, 0) == BOE_BAD_GROUP, "11 comes before 13");

    again(BOE_FROM_VENUE, logout, sizeof logout);
    memcpy(bytes, logout, sizeof logout);
    bytes[2] = 0x55;
    check(boe_read(BOE_FROM_VENUE, bytes, sizeof logout, &record, sizeof record) == BOE_BAD_GROUP, "000's length: the pairs do not fit");
    check(all_are(record.bytes, sizeof record, 0x5A), "refusals stored nothing");
    bytes[2] = 0x59;
    bytes[10] = '!';
    check(boe_read(BOE_FROM_VENUE, bytes, sizeof logout, &record, sizeof record) == 0, "the reason of a protocol violation");
    same_body(record.bytes, bytes, sizeof logout);
    check(record.bytes[BOE_LOGOUT_REASON_AT] == '!' && memcmp(record.bytes + BOE_LOGOUT_TEXT_AT, "User", 5) == 0, "reason and text");
    check(number_at(record.bytes + BOE_LOGOUT_LAST_RECEIVED_NUMBER_AT) == 154196, "its last received number");
    check(record.bytes[BOE_LOGOUT_NUMBER_OF_UNITS_AT] == 3 && record.bytes[BOE_LOGOUT_PAIRS_AT + 2 * BOE_PAIR_LEN] == 4, "three units, the last 4");
}

static void header_alone(uint8_t direction, const uint8_t *message) {
    struct boe_record record;
    uint8_t out[10], bytes[11];
    again(direction, message, 10);
    check(boe_read(direction, message, 10, &record, sizeof record) == 0, "a message that is its header alone");
    same_body(record.bytes, message, 10);
    record.bytes[BOE_RECORD_LEN - 1] = 1;
    check(boe_write(direction, &record, sizeof record, out, sizeof out) == BOE_NOT_ZERO, "it has no body");
    check(boe_write(direction, &record, sizeof record, out, 0) == BOE_NOT_ZERO, "12 comes before 13");
    memcpy(bytes, message, 10);
    bytes[2] = 9;
    bytes[10] = 0;
    check(boe_read(direction, bytes, sizeof bytes, &record, sizeof record) == refused_at(BOE_WRONG_TOTAL, 11), "a byte more");
    bytes[5] = 1;
    check(boe_read(direction, bytes, sizeof bytes, &record, sizeof record) == BOE_BAD_UNIT, "5 comes before 6");
}

/* The day book: the first acknowledgment taken, marks, restart, and each refusal's place and that it changes nothing. */
static void books(void) {
    enum { DATE = 20250819, ROOM = 16 + sizeof acknowledgment + 16 };
    uint8_t buffer[ROOM], state[BOE_STATE_BYTES + 4], restarted[sizeof state], held[ROOM], kept[sizeof state];
    uint8_t message[sizeof acknowledgment + 3];
    struct boe_state *lent = (struct boe_state *)state, *again = (struct boe_state *)restarted;
    memset(buffer, 0x5A, sizeof buffer);
    memset(state, 0x5A, sizeof state);
    check(boe_book_open(20250229, buffer, 0, lent, 0) == BOE_NOT_A_DAY, "19 comes before 13");
    check(boe_book_open(DATE, buffer, BOE_MARK_BYTES - 1, lent, sizeof state) == BOE_NO_ROOM, "no room for the first mark");
    check(boe_book_open(DATE, buffer, sizeof buffer, lent, BOE_STATE_BYTES - 1) == BOE_NO_ROOM, "a short state");
    check(all_are(buffer, sizeof buffer, 0x5A) && all_are(state, sizeof state, 0x5A), "refusals stored nothing");
    check(boe_book_open(DATE, buffer, BOE_MARK_BYTES, lent, BOE_STATE_BYTES) == 0, "a book is opened");
    check(all_are(buffer, 4, 0) && number_at(buffer + 4) == DATE && all_are(buffer + 8, 8, 0), "its first mark");
    check(all_are(buffer + 16, sizeof buffer - 16, 0x5A), "and no byte more");
    check(all_are(state + BOE_STATE_TABLE_AT, BOE_TABLE_BYTES, 0) && number_at(state + BOE_STATE_DATE_AT) == DATE, "its table and date");
    check(all_are(state + BOE_STATE_PLACES_AT, BOE_TABLE_BYTES, 0), "and no place");
    check(number_at(state + BOE_STATE_LENGTH_AT) == 16 && all_are(state + BOE_STATE_LAST_MARK_AT, 8, 0), "its length, mark and messages");
    check(all_are(state + BOE_STATE_BYTES, 4, 0x5A), "bytes past the state stay");

    memcpy(message, acknowledgment, sizeof acknowledgment);
    memset(message + sizeof acknowledgment, 0x5A, 3);
    memset(message + 6, 0, 4);
    memcpy(held, buffer, sizeof buffer);
    memcpy(kept, state, sizeof state);
    check(boe_book_append(message, 0, buffer, sizeof buffer, lent, BOE_STATE_BYTES - 1) == BOE_NO_ROOM, "13 for a short state comes first");
    check(boe_book_append(message, 9, buffer, 0, lent, sizeof state) == BOE_INCOMPLETE, "a cut message");
    check(boe_book_append(server_heartbeat, 10, buffer, 0, lent, sizeof state) == BOE_UNKNOWN_TYPE, "a session message");
    check(boe_book_append(message, sizeof message, buffer, 0, lent, sizeof state) == BOE_ALREADY_TAKEN, "number 0");
    message[6] = 2;
    check(boe_book_append(message, sizeof message, buffer, 0, lent, sizeof state) == BOE_GAP, "number 2, and 15 comes before 13");
    message[6] = 1;
    check(boe_book_append(message, sizeof message, buffer, 15 + sizeof acknowledgment, lent, sizeof state) == BOE_NO_ROOM, "one byte short");
    check(boe_book_close(buffer, sizeof buffer, lent, BOE_STATE_BYTES - 1) == BOE_NO_ROOM, "closing with a short state");
    check(boe_book_close(buffer, 31, lent, sizeof state) == 0, "a mark without room");
    check(same_bytes(buffer, held, sizeof buffer) && same_bytes(state, kept, sizeof state), "changed nothing");

    check(boe_book_append(message, sizeof message, buffer, sizeof buffer, lent, sizeof state) == 0, "the first message of its unit");
    check(same_bytes(buffer + 16, message, sizeof acknowledgment) && all_are(buffer + ROOM - 16, 16, 0x5A), "its bytes, and no byte more");
    check(entry(state, message[5]) == 1 && number_at(state + BOE_STATE_MESSAGES_AT) == 1, "the table and the messages");
    check(number_at(state + BOE_STATE_LENGTH_AT) == ROOM - 16, "the length");
    check(boe_book_append(message, sizeof message, buffer, sizeof buffer, lent, sizeof state) == BOE_ALREADY_TAKEN, "a message is taken once");
    check(boe_book_close(buffer, sizeof buffer, lent, sizeof state) == 0, "the mark at a session's end");
    check(number_at(buffer + ROOM - 8) == 1 && number_at(buffer + ROOM - 4) == ROOM - 16, "its messages and its way back");
    check(number_at(state + BOE_STATE_LAST_MARK_AT) == ROOM - 16 && number_at(state + BOE_STATE_LENGTH_AT) == ROOM, "the last mark");

    memset(restarted, 0x5A, sizeof restarted);
    check(boe_restart(DATE, buffer, sizeof buffer, again, BOE_STATE_BYTES - 1) == BOE_NO_ROOM, "restart with a short state");
    check(boe_restart(20250229, buffer, 0, again, 0) == BOE_NOT_A_DAY, "no day");
    check(boe_restart(DATE, buffer, 15, again, 0) == BOE_NO_FIRST_MARK, "22 comes before 13");
    check(boe_restart(DATE + 1, buffer, sizeof buffer, again, 0) == BOE_OTHER_DATE, "17 comes before 13");
    buffer[ROOM - 8] = 2;
    check(boe_restart(DATE, buffer, sizeof buffer, again, 0) == BOE_BAD_BOOK, "18 comes before 13");
    buffer[ROOM - 8] = 1;
    check(all_are(restarted, sizeof restarted, 0x5A), "refusals stored nothing");
    check(boe_restart(DATE, buffer, sizeof buffer, again, sizeof restarted) == 0, "restart");
    check(same_bytes(restarted, state, sizeof state), "answers the state that the book was left in");
    check(boe_restart(DATE, buffer, sizeof buffer - 1, again, BOE_STATE_BYTES) == 0, "restart on a torn mark");
    check(number_at(restarted + BOE_STATE_LENGTH_AT) == ROOM - 16 && all_are(restarted + BOE_STATE_LAST_MARK_AT, 4, 0), "answers the book without it");

    memset(state, 0xFF, sizeof state);
    memcpy(held, buffer, sizeof buffer);
    check(boe_book_append(message, sizeof message, buffer, sizeof buffer, lent, sizeof state) == BOE_ALREADY_TAKEN, "a state of FF has every number");
    memset(state, 0, BOE_TABLE_BYTES);
    check(boe_book_append(message, sizeof message, buffer, sizeof buffer, lent, sizeof state) == BOE_NO_ROOM, "and no room");
    memcpy(kept, state, sizeof state);
    check(boe_book_close(buffer, sizeof buffer, lent, sizeof state) == 0, "nor room for a mark");
    check(same_bytes(buffer, held, sizeof buffer) && same_bytes(state, kept, sizeof state), "changed nothing");
}

/* ---- a gateway's session and the bench venue, each with its buffer */

static struct boe_session session;
static struct boe_venue venue;
static uint8_t day_book[512], venue_log[512];

static uint32_t session_phase(void) { return boe_session_phase(&session, sizeof session); }
static size_t book_length(void) { return number_at(session.bytes + BOE_STATE_LENGTH_AT); }

/* docs/GUIDE.md's morning: the venue logs a message and takes the session's login; then the session is given what the venue sends, a step at a time,
 * until it sends nothing. The first refusal, or 0. */
static uint32_t morning_as_told(const struct boe_login *names, const uint8_t *message, size_t len) {
    uint8_t asked[BOE_LOGIN_MOST_BYTES], line[BOE_MESSAGE_MOST_BYTES];
    uint32_t sent = 0, told = 0;
    uint32_t refusal = boe_venue_log(message, len, venue_log, sizeof venue_log, &venue, sizeof venue);
    if (refusal == 0) refusal = boe_session_login(names, sizeof *names, asked, sizeof asked, &session, sizeof session);
    if (refusal == 0) refusal = boe_venue_login(asked, sizeof asked, &sent, line, sizeof line, &venue, sizeof venue);
    while (refusal == 0 && sent > 0) {
        refusal = boe_session_receive(line, sent, &told, day_book, sizeof day_book, &session, sizeof session);
        if (refusal == 0) refusal = boe_venue_step(venue_log, sizeof venue_log, &sent, line, sizeof line, &venue, sizeof venue);
    }
    return refusal;
}

/* docs/GUIDE.md's pulse, at a moment of the clock: the line of a silent venue is broken, and where a heartbeat is due one is written. Answers the bytes
 * to send. */
static size_t pulse_as_told(uint32_t now, uint32_t heard, uint32_t *sent, uint8_t *out, size_t out_len) {
    if (boe_peer_silent(now, heard)) {
        boe_session_break(day_book, sizeof day_book, &session, sizeof session);
        return 0;
    }
    if (!boe_heartbeat_due(now, *sent) || boe_session_heartbeat(&session, sizeof session, out, out_len) != 0) return 0;
    *sent = now;
    return boe_frame_length(out, out_len);
}

/* What goes from the live session to the venue: orders under the next outgoing numbers, each of which the venue takes once, and a heartbeat. */
static void day_as_told(void) {
    struct boe_session before;
    uint8_t out[BOE_WRITTEN_MOST_BYTES];
    uint32_t sent = 0;
    for (uint32_t number = 1; number <= 2; number++) {
        check(modify_by_name(&session, out, sizeof out) == 0, "an order");
        check(number_at(out + 6) == number && same_bytes(out + 10, modify_order + 10, sizeof modify_order - 10), "under the next number");
        check(boe_venue_order(BOE_EQUITIES, out, sizeof out, &venue, sizeof venue) == 0, "is taken by the venue");
        check(boe_venue_order(BOE_EQUITIES, out, sizeof out, &venue, sizeof venue) == BOE_OLD_NUMBER, "once");
    }
    before = session;
    check(option_as_told(&session, out, sizeof out) == BOE_UNKNOWN_TYPE, "an order of the other market");
    check(memcmp(&session, &before, sizeof before) == 0, "uses no number up");
    check(pulse_as_told(999, 0, &sent, out, sizeof out) == 0 && sent == 0, "no heartbeat before its time");
    check(pulse_as_told(1000, 0, &sent, out, sizeof out) == sizeof client_heartbeat && sent == 1000, "a heartbeat");
    check(same_bytes(out, client_heartbeat, sizeof client_heartbeat), "is the example");
    check(boe_venue_order(BOE_EQUITIES, out, sizeof out, &venue, sizeof venue) == 0, "and taken by the venue");
    check(pulse_as_told(4999, 0, &sent, out, sizeof out) > 0 && session_phase() == BOE_LIVE, "a venue that was heard");
    check(pulse_as_told(5000, 0, &sent, out, sizeof out) == 0 && session_phase() == BOE_CLOSED, "and one that is silent: the line is broken");
    check(pulse_as_told(10000, 10000, &sent, out, sizeof out) == 0, "a closed session sends no heartbeat");
}

/* Two mornings with a break between them, and a Logout: the book has the log's messages, each once, and a mark where a session ended. */
static void mornings(void) {
    enum { DATE = 20250819, LEN = sizeof acknowledgment, FIRST_AT = BOE_MARK_BYTES, SECOND_AT = FIRST_AT + LEN + BOE_MARK_BYTES };
    struct boe_login names = {{0}};
    struct boe_session restarted;
    uint8_t first[LEN], second[LEN], out[BOE_WRITTEN_MOST_BYTES];
    uint32_t told = 7;
    memcpy(first, acknowledgment, LEN);
    first[6] = 1;
    memcpy(second, first, LEN);
    second[6] = 2;
    memcpy(names.bytes + BOE_LOGIN_SESSION_SUB_ID_AT, "0001", 4);
    memcpy(names.bytes + BOE_LOGIN_USERNAME_AT, "TEST", 4);
    memcpy(names.bytes + BOE_LOGIN_PASSWORD_AT, "TESTING", 7);

    check(boe_session_restart(DATE, BOE_EQUITIES, day_book, 0, &session, sizeof session) == BOE_NO_FIRST_MARK, "no book yet");
    check(boe_session_open(DATE, BOE_EQUITIES, day_book, sizeof day_book, &session, sizeof session) == 0 && session_phase() == BOE_CLOSED, "a closed session");
    check(boe_session_receive(login_response, sizeof login_response, &told, day_book, sizeof day_book, &session, sizeof session) == BOE_OUT_OF_PHASE,
          "takes no message");
    check(told == 7, "tells nothing of it");
    check(boe_session_heartbeat(&session, sizeof session, out, sizeof out) == BOE_OUT_OF_PHASE, "and sends none");
    check(boe_venue_new(&venue, sizeof venue) == 0, "a venue");

    check(morning_as_told(&names, first, LEN) == 0 && session_phase() == BOE_LIVE, "a morning to its Replay Complete");
    check(book_length() == FIRST_AT + LEN && same_bytes(day_book + FIRST_AT, venue_log, LEN), "the book has the log's message");
    check(same_bytes(venue_log, first, LEN), "which is what was logged");
    day_as_told();
    check(boe_session_break(day_book, sizeof day_book, &session, sizeof session) == 0 && book_length() == SECOND_AT, "a break has left a mark, and one alone");
    check(boe_venue_break(&venue, sizeof venue) == 0, "the venue sees the break");

    boe_login_all_units(&names);
    check(morning_as_told(&names, second, LEN) == 0 && session_phase() == BOE_LIVE, "a second morning, with the full list");
    check(book_length() == SECOND_AT + LEN && same_bytes(day_book + SECOND_AT, second, LEN), "brings what the book has not, and nothing else");
    check(number_at(session.bytes + BOE_SESSION_OUTGOING_AT) == 2, "the orders' numbers go on");
    check(boe_session_receive(logout, sizeof logout, &told, day_book, sizeof day_book, &session, sizeof session) == 0, "a Logout");
    check(told == BOE_NOTHING && session_phase() == BOE_CLOSED && book_length() == SECOND_AT + LEN + BOE_MARK_BYTES, "ends the session with a mark");
    check(boe_session_restart(DATE, BOE_EQUITIES, day_book, book_length(), &restarted, sizeof restarted) == 0, "a restart from the book");
    check(memcmp(&restarted, &session, BOE_STATE_BYTES) == 0, "has the same book");
}

/* ---- refusals with a place */

/* An example with a byte changed, at a place of the message or of its record, and its refusal. */
struct damage {
    uint8_t direction;
    const uint8_t *message;
    size_t len, at;
    uint8_t byte;
    enum boe_refusal number;
    unsigned place;
    const char *what;
};
#define OF_MEMBER(message, ...) {BOE_FROM_MEMBER, message, sizeof message, __VA_ARGS__}
#define OF_VENUE(message, ...) {BOE_FROM_VENUE, message, sizeof message, __VA_ARGS__}
#define OF_OPTIONS(message, ...) {BOE_FROM_OPTIONS_MEMBER, message, sizeof message, __VA_ARGS__}

static const struct damage messages_damaged[] = {
    OF_MEMBER(new_order, 60, 0x07, BOE_BAD_VALUE, 60, "Account's first byte"),
    OF_MEMBER(new_order, 63, 0x07, BOE_BAD_VALUE, 60, "a later byte of Account"),
    OF_MEMBER(new_order, 75, 'X', BOE_BAD_VALUE, 60, "Account's last byte, after NULs"),
    OF_MEMBER(new_order, 47, '-', BOE_BAD_VALUE, 47, "Symbol"),
    OF_MEMBER(new_order, 10, 0, BOE_BAD_VALUE, 10, "ClOrdID"),
    OF_MEMBER(new_order, 30, 0, BOE_BAD_VALUE, 30, "Side"),
    OF_MEMBER(new_order, 34, 1, BOE_BAD_VALUE, 31, "OrderQty"),
    OF_MEMBER(new_order, 2, 0x49, BOE_WRONG_TOTAL, 75, "a length less by one"),
    OF_MEMBER(new_order, 2, 0x4B, BOE_WRONG_TOTAL, 77, "a length more by one"),
    OF_MEMBER(new_order, 2, 18, BOE_WRONG_TOTAL, 20, "no count byte"),
    OF_MEMBER(new_order, 2, 36, BOE_WRONG_TOTAL, 38, "two bitfields of three"),
    OF_MEMBER(new_order, 35, 0x0B, BOE_TOO_MANY_BITFIELDS, 35, "the count"),
    OF_MEMBER(new_order, 37, 0xC9, BOE_UNLISTED_BIT, 37, "the second bitfield"),
    OF_MEMBER(new_order, 37, 0xC0, BOE_NOT_SELECTED, 38, "no Symbol"),
    OF_MEMBER(new_order, 36, 0, BOE_NOT_SELECTED, 38, "neither Price nor OrdType"),
    OF_MEMBER(new_order, 35, 0, BOE_NOT_SELECTED, 35, "no bitfields"),
    OF_OPTIONS(options_order, 10, 0, BOE_BAD_VALUE, 10, "ClOrdID"),
    OF_OPTIONS(options_order, 30, 0, BOE_BAD_VALUE, 30, "Side"),
    OF_OPTIONS(options_order, 31, 0, BOE_BAD_VALUE, 31, "no OrderQty"),
    OF_OPTIONS(options_order, 34, 1, BOE_BAD_VALUE, 31, "OrderQty"),
    OF_OPTIONS(options_order, 48, '-', BOE_BAD_VALUE, 48, "Symbol"),
    OF_OPTIONS(options_order, 56, '1', BOE_BAD_VALUE, 56, "Capacity"),
    OF_OPTIONS(options_order, 60, 'X', BOE_BAD_VALUE, 57, "RoutingInst's last byte, after NULs"),
    OF_OPTIONS(options_order, 64, 0x07, BOE_BAD_VALUE, 61, "Account"),
    OF_OPTIONS(options_order, 77, 0x95, BOE_BAD_VALUE, 77, "29 February 2011"),
    OF_OPTIONS(options_order, 80, 0, BOE_BAD_VALUE, 77, "a later byte of MaturityDate"),
    OF_OPTIONS(options_order, 89, '-', BOE_BAD_VALUE, 89, "PutOrCall"),
    OF_OPTIONS(options_order, 90, ' ', BOE_BAD_VALUE, 90, "OpenClose"),
    OF_OPTIONS(options_order, 2, 0x58, BOE_WRONG_TOTAL, 90, "a length less by one"),
    OF_OPTIONS(options_order, 2, 0x5A, BOE_WRONG_TOTAL, 92, "a length more by one"),
    OF_OPTIONS(options_order, 2, 33, BOE_WRONG_TOTAL, 35, "no count byte"),
    OF_OPTIONS(options_order, 2, 37, BOE_WRONG_TOTAL, 39, "three bitfields of four"),
    OF_OPTIONS(options_order, 35, 0x0B, BOE_TOO_MANY_BITFIELDS, 35, "the count"),
    OF_OPTIONS(options_order, 35, 0, BOE_NOT_SELECTED, 35, "no bitfields"),
    OF_OPTIONS(options_order, 36, 0, BOE_NOT_SELECTED, 39, "neither Price nor OrdType"),
    OF_OPTIONS(options_order, 37, 0xC0, BOE_NOT_SELECTED, 39, "no Symbol"),
    OF_OPTIONS(options_order, 37, 0x81, BOE_NOT_SELECTED, 39, "no Capacity"),
    OF_OPTIONS(options_order, 37, 0xC3, BOE_UNLISTED_BIT, 37, "SymbolSfx"),
    OF_OPTIONS(options_order, 39, 0x1F, BOE_UNLISTED_BIT, 39, "the fourth bitfield"),
    OF_MEMBER(cancel_order, 10, 0, BOE_BAD_VALUE, 10, "OrigClOrdID"),
    OF_MEMBER(cancel_order, 32, '0', BOE_BAD_VALUE, 32, "ClearingFirm"),
    OF_MEMBER(cancel_order, 30, 3, BOE_TOO_MANY_BITFIELDS, 30, "the count"),
    OF_MEMBER(cancel_order, 31, 3, BOE_UNLISTED_BIT, 31, "the only bitfield"),
    OF_MEMBER(modify_order, 10, 0, BOE_BAD_VALUE, 10, "ClOrdID"),
    OF_MEMBER(modify_order, 16, ' ', BOE_BAD_VALUE, 10, "a later byte of ClOrdID"),
    OF_MEMBER(modify_order, 30, 0, BOE_BAD_VALUE, 30, "OrigClOrdID"),
    OF_MEMBER(modify_order, 36, ',', BOE_BAD_VALUE, 30, "a comma in OrigClOrdID"),
    OF_MEMBER(modify_order, 49, 'X', BOE_BAD_VALUE, 30, "OrigClOrdID's last byte, after NULs"),
    OF_MEMBER(modify_order, 50, 3, BOE_TOO_MANY_BITFIELDS, 50, "the count"),
    OF_MEMBER(modify_order, 50, 0, BOE_NOT_SELECTED, 50, "no bitfields"),
    OF_MEMBER(modify_order, 51, 0x0E, BOE_UNLISTED_BIT, 51, "the only bitfield"),
    OF_MEMBER(modify_order, 51, 0x08, BOE_NOT_SELECTED, 51, "no OrderQty"),
    OF_MEMBER(modify_order, 51, 0x04, BOE_NOT_SELECTED, 51, "neither Price nor OrdType"),
    OF_MEMBER(modify_order, 51, 0x14, BOE_WRONG_TOTAL, 64, "OrdType in the place of Price"),
    OF_MEMBER(modify_order, 2, 0x3F, BOE_WRONG_TOTAL, 65, "a length more by one"),
    OF_MEMBER(modify_order, 2, 48, BOE_WRONG_TOTAL, 50, "no count byte"),
    OF_MEMBER(modify_order, 2, 49, BOE_WRONG_TOTAL, 51, "no bitfield of one"),
    OF_MEMBER(purge_orders, 11, 3, BOE_TOO_MANY_BITFIELDS, 11, "the count"),
    OF_MEMBER(purge_orders, 11, 0, BOE_NOT_SELECTED, 11, "no bitfields"),
    OF_MEMBER(purge_orders, 12, 0x17, BOE_UNLISTED_BIT, 12, "the only bitfield"),
    OF_MEMBER(purge_orders, 12, 0x11, BOE_NOT_SELECTED, 12, "no MassCancelInst"),
    OF_MEMBER(purge_orders, 11, 2, BOE_WRONG_TOTAL, 58, "RiskGroupIDCnt as a bitfield"),
    OF_MEMBER(purge_orders, 13, 1, BOE_WRONG_TOTAL, 58, "a RiskGroupID less"),
    OF_MEMBER(purge_orders, 13, 11, BOE_WRONG_TOTAL, 58, "eleven, which are not there"),
    OF_MEMBER(purge_orders, 2, 0x29, BOE_WRONG_TOTAL, 43, "000's length"),
    OF_MEMBER(purge_orders, 2, 9, BOE_WRONG_TOTAL, 11, "no count byte"),
    OF_MEMBER(purge_orders, 2, 10, BOE_WRONG_TOTAL, 12, "no bitfield of one"),
    OF_MEMBER(purge_orders, 2, 11, BOE_WRONG_TOTAL, 13, "no RiskGroupIDCnt"),
    OF_MEMBER(purge_orders, 2, 13, BOE_WRONG_TOTAL, 15, "half a RiskGroupID"),
    OF_MEMBER(purge_orders, 18, '0', BOE_BAD_VALUE, 18, "ClearingFirm"),
    OF_MEMBER(purge_orders, 22, 0, BOE_BAD_VALUE, 22, "MassCancelInst"),
    OF_MEMBER(purge_orders, 37, 'X', BOE_BAD_VALUE, 22, "MassCancelInst's last byte, after NULs"),
    OF_MEMBER(purge_orders, 38, 0, BOE_BAD_VALUE, 38, "MassCancelID"),
    OF_MEMBER(purge_orders, 22, 'A', BOE_CONFLICT, 0, "L without F"),
    OF_MEMBER(purge_symbol, 2, 0x3F, BOE_INCOMPLETE, 0, "000's length"),
    OF_MEMBER(purge_symbol, 13, 0x05, BOE_UNLISTED_BIT, 13, "the second bitfield"),
    OF_MEMBER(purge_symbol, 12, 0x11, BOE_NOT_SELECTED, 13, "no MassCancelInst"),
    OF_MEMBER(purge_symbol, 14, 1, BOE_WRONG_TOTAL, 63, "a RiskGroupID more"),
    OF_MEMBER(purge_symbol, 55, '-', BOE_BAD_VALUE, 55, "Symbol"),
    OF_VENUE(acknowledgment, 18, 0, BOE_BAD_VALUE, 18, "ClOrdID"),
    OF_VENUE(acknowledgment, 79, '!', BOE_BAD_VALUE, 76, "the last field"),
    OF_VENUE(acknowledgment, 47, 16, BOE_TOO_MANY_BITFIELDS, 47, "the count"),
    OF_VENUE(acknowledgment, 50, 0x08, BOE_UNLISTED_BIT, 50, "the third bitfield"),
    OF_VENUE(acknowledgment, 2, 0x4F, BOE_WRONG_TOTAL, 81, "a length more by one"),
    OF_VENUE(execution, 62, ' ', BOE_BAD_VALUE, 62, "BaseLiquidityIndicator"),
    OF_VENUE(execution, 63, '-', BOE_BAD_VALUE, 63, "SubLiquidityIndicator"),
    OF_VENUE(execution, 66, 0, BOE_BAD_VALUE, 64, "ContraBroker"),
    OF_VENUE(execution, 73, ' ', BOE_BAD_VALUE, 73, "ClearingFirm"),
    OF_VENUE(rejection, 18, 0, BOE_BAD_VALUE, 18, "ClOrdID"),
    OF_VENUE(rejection, 19, ' ', BOE_BAD_VALUE, 18, "a later byte of ClOrdID"),
    OF_VENUE(rejection, 38, 0x07, BOE_BAD_VALUE, 38, "OrderRejectReason"),
    OF_VENUE(rejection, 98, 'X', BOE_BAD_VALUE, 39, "Text's last byte, after NULs"),
    OF_VENUE(rejection, 104, '-', BOE_BAD_VALUE, 104, "Symbol"),
    OF_VENUE(rejection, 115, '1', BOE_BAD_VALUE, 112, "ClearingFirm"),
    OF_VENUE(rejection, 119, 0x80, BOE_BAD_VALUE, 116, "ClearingAccount"),
    OF_VENUE(rejection, 100, 20, BOE_TOO_MANY_BITFIELDS, 100, "the count"),
    OF_VENUE(rejection, 101, 0x80, BOE_UNLISTED_BIT, 101, "the first bitfield"),
    OF_VENUE(rejection, 2, 0x77, BOE_WRONG_TOTAL, 121, "a length more by one"),
    OF_VENUE(rejection, 2, 98, BOE_WRONG_TOTAL, 100, "no count byte"),
    OF_VENUE(rejection, 2, 101, BOE_WRONG_TOTAL, 103, "two bitfields of three"),
    OF_VENUE(cancel_rejection, 18, ',', BOE_BAD_VALUE, 18, "ClOrdID"),
    OF_VENUE(cancel_rejection, 38, 0x7F, BOE_BAD_VALUE, 38, "CancelRejectReason"),
    OF_VENUE(cancel_rejection, 40, 0, BOE_BAD_VALUE, 39, "Text"),
    OF_VENUE(cancel_rejection, 100, 1, BOE_WRONG_TOTAL, 101, "a bitfield that is not there"),
    OF_VENUE(modify_rejection, 18, 0, BOE_BAD_VALUE, 18, "ClOrdID"),
    OF_VENUE(modify_rejection, 38, 0x1F, BOE_BAD_VALUE, 38, "ModifyRejectReason"),
    OF_VENUE(modify_rejection, 39, 0, BOE_BAD_VALUE, 39, "Text"),
    OF_VENUE(modify_rejection, 100, 255, BOE_TOO_MANY_BITFIELDS, 100, "the count"),
    OF_MEMBER(options_login, 10, ' ', BOE_BAD_VALUE, 10, "SessionSubID"),
    OF_MEMBER(options_login, 14, '-', BOE_BAD_VALUE, 14, "Username"),
    OF_MEMBER(options_login, 20, ' ', BOE_BAD_VALUE, 18, "Password"),
    OF_MEMBER(options_login, 2, 0x3E, BOE_WRONG_TOTAL, 64, "a length more by one"),
    OF_VENUE(login_response, 10, 0x07, BOE_BAD_VALUE, 10, "its status"),
    OF_VENUE(login_response, 70, 'X', BOE_BAD_VALUE, 11, "its text"),
    OF_VENUE(logout, 10, 0x07, BOE_BAD_VALUE, 10, "its reason"),
    OF_VENUE(logout, 11, 0, BOE_BAD_VALUE, 11, "its text"),
    OF_VENUE(replay_complete, 2, 9, BOE_WRONG_TOTAL, 11, "a length more by one"),
};

static const struct damage records_damaged[] = {
    OF_MEMBER(new_order, BOE_NEW_ORDER_SYMBOL_AT, 0x2D, BOE_BAD_VALUE, 47, "Symbol, where it would stand"),
    OF_MEMBER(new_order, BOE_NEW_ORDER_ACCOUNT_AT + 3, 0x07, BOE_BAD_VALUE, 60, "Account"),
    OF_MEMBER(new_order, BOE_NEW_ORDER_CL_ORD_ID_AT, 0, BOE_BAD_VALUE, 10, "ClOrdID"),
    OF_MEMBER(new_order, BOE_NEW_ORDER_SIDE_AT, 0, BOE_BAD_VALUE, 30, "Side"),
    OF_MEMBER(new_order, BOE_NEW_ORDER_ORDER_QTY_AT + 3, 1, BOE_BAD_VALUE, 31, "OrderQty"),
    OF_MEMBER(new_order, BOE_RECORD_COUNT_AT, 11, BOE_TOO_MANY_BITFIELDS, 35, "the count"),
    OF_MEMBER(new_order, BOE_RECORD_COUNT_AT, 0, BOE_NOT_SELECTED, 35, "no bitfields"),
    OF_MEMBER(new_order, BOE_RECORD_BITFIELDS_AT + 1, 0xC9, BOE_UNLISTED_BIT, 37, "the second bitfield"),
    OF_MEMBER(new_order, BOE_RECORD_BITFIELDS_AT + 1, 0xC0, BOE_NOT_SELECTED, 38, "no Symbol"),
    OF_OPTIONS(options_order, BOE_OPTIONS_NEW_ORDER_CL_ORD_ID_AT, 0, BOE_BAD_VALUE, 10, "ClOrdID"),
    OF_OPTIONS(options_order, BOE_OPTIONS_NEW_ORDER_SIDE_AT, 0, BOE_BAD_VALUE, 30, "Side"),
    OF_OPTIONS(options_order, BOE_OPTIONS_NEW_ORDER_ORDER_QTY_AT, 0, BOE_BAD_VALUE, 31, "OrderQty"),
    OF_OPTIONS(options_order, BOE_OPTIONS_NEW_ORDER_SYMBOL_AT, '-', BOE_BAD_VALUE, 48, "Symbol"),
    OF_OPTIONS(options_order, BOE_OPTIONS_NEW_ORDER_ACCOUNT_AT + 3, 0x07, BOE_BAD_VALUE, 61, "Account"),
    OF_OPTIONS(options_order, BOE_OPTIONS_NEW_ORDER_MATURITY_DATE_AT, 0x95, BOE_BAD_VALUE, 77, "29 February 2011"),
    OF_OPTIONS(options_order, BOE_OPTIONS_NEW_ORDER_PUT_OR_CALL_AT, '-', BOE_BAD_VALUE, 89, "PutOrCall"),
    OF_OPTIONS(options_order, BOE_OPTIONS_NEW_ORDER_OPEN_CLOSE_AT, ' ', BOE_BAD_VALUE, 90, "OpenClose"),
    OF_OPTIONS(options_order, BOE_RECORD_COUNT_AT, 11, BOE_TOO_MANY_BITFIELDS, 35, "the count"),
    OF_OPTIONS(options_order, BOE_RECORD_COUNT_AT, 0, BOE_NOT_SELECTED, 35, "no bitfields"),
    OF_OPTIONS(options_order, BOE_RECORD_BITFIELDS_AT + 1, 0xC3, BOE_UNLISTED_BIT, 37, "SymbolSfx"),
    OF_OPTIONS(options_order, BOE_RECORD_BITFIELDS_AT + 1, 0xC0, BOE_NOT_SELECTED, 39, "no Symbol"),
    OF_OPTIONS(options_order, BOE_RECORD_BITFIELDS_AT + 3, 0x1F, BOE_UNLISTED_BIT, 39, "the fourth bitfield"),
    OF_OPTIONS(options_order, BOE_RECORD_BITFIELDS_AT + 3, 0x16, BOE_NOT_ZERO, 0, "MaturityDate, which is not selected"),
    OF_OPTIONS(options_order, BOE_RECORD_COUNT_AT, 3, BOE_NOT_ZERO, 0, "a bitfield after the last"),
    OF_OPTIONS(options_order, BOE_OPTIONS_NEW_ORDER_ORD_TYPE_AT, '1', BOE_NOT_ZERO, 0, "OrdType, which is not selected"),
    OF_OPTIONS(options_order, BOE_OPTIONS_NEW_ORDER_OPEN_CLOSE_AT + 1, 1, BOE_NOT_ZERO, 0, "a byte after the last field"),
    OF_MEMBER(cancel_order, BOE_CANCEL_ORDER_CLEARING_FIRM_AT, '0', BOE_BAD_VALUE, 32, "ClearingFirm"),
    OF_MEMBER(modify_order, BOE_MODIFY_ORDER_CL_ORD_ID_AT, 0, BOE_BAD_VALUE, 10, "ClOrdID"),
    OF_MEMBER(modify_order, BOE_MODIFY_ORDER_ORIG_CL_ORD_ID_AT + 19, 'X', BOE_BAD_VALUE, 30, "OrigClOrdID"),
    OF_MEMBER(modify_order, BOE_RECORD_COUNT_AT, 3, BOE_TOO_MANY_BITFIELDS, 50, "the count"),
    OF_MEMBER(modify_order, BOE_RECORD_BITFIELDS_AT, 0x0E, BOE_UNLISTED_BIT, 51, "the only bitfield"),
    OF_MEMBER(modify_order, BOE_RECORD_BITFIELDS_AT, 0x08, BOE_NOT_SELECTED, 51, "no OrderQty"),
    OF_MEMBER(modify_order, BOE_RECORD_BITFIELDS_AT, 0x04, BOE_NOT_SELECTED, 51, "neither Price nor OrdType"),
    OF_MEMBER(modify_order, BOE_RECORD_BITFIELDS_AT, 0x14, BOE_NOT_SELECTED, 51, "no Price and a blank OrdType, before the 12 of Price"),
    OF_MEMBER(modify_order, BOE_MODIFY_ORDER_ORD_TYPE_AT, '1', BOE_NOT_ZERO, 0, "OrdType, which is not selected"),
    OF_MEMBER(purge_orders, BOE_RECORD_COUNT_AT, 3, BOE_TOO_MANY_BITFIELDS, 11, "the count"),
    OF_MEMBER(purge_orders, BOE_RECORD_BITFIELDS_AT, 0x17, BOE_UNLISTED_BIT, 12, "the only bitfield"),
    OF_MEMBER(purge_orders, BOE_RECORD_BITFIELDS_AT, 0x11, BOE_NOT_SELECTED, 12, "no MassCancelInst"),
    OF_MEMBER(purge_orders, BOE_RECORD_BITFIELDS_AT, 0x14, BOE_NOT_SELECTED, 12, "F without ClearingFirm, before its 12"),
    OF_MEMBER(purge_orders, BOE_RECORD_BITFIELDS_AT, 0x05, BOE_NOT_SELECTED, 12, "S without MassCancelID, before its 12"),
    OF_MEMBER(purge_orders, BOE_PURGE_ORDERS_RISK_GROUP_ID_CNT_AT, 11, BOE_BAD_VALUE, 13, "RiskGroupIDCnt, behind the bitfield"),
    OF_MEMBER(purge_orders, BOE_PURGE_ORDERS_RISK_GROUP_ID_CNT_AT, 255, BOE_BAD_VALUE, 13, "the greatest RiskGroupIDCnt"),
    OF_MEMBER(purge_orders, BOE_PURGE_ORDERS_RISK_GROUP_ID_CNT_AT, 1, BOE_NOT_ZERO, 0, "a RiskGroupID after the last"),
    OF_MEMBER(purge_orders, BOE_PURGE_ORDERS_RISK_GROUP_IDS_AT + 2 * BOE_RISK_GROUP_ID_LEN, 1, BOE_NOT_ZERO, 0, "a third of two"),
    OF_MEMBER(purge_orders, BOE_RECORD_COUNT_AT - 1, 1, BOE_NOT_ZERO, 0, "the fixed part's last byte"),
    OF_MEMBER(purge_orders, BOE_PURGE_ORDERS_MASS_CANCEL_INST_AT, 0, BOE_BAD_VALUE, 22, "MassCancelInst"),
    OF_MEMBER(purge_orders, BOE_PURGE_ORDERS_MASS_CANCEL_INST_AT, 'A', BOE_CONFLICT, 0, "L without F"),
    OF_MEMBER(purge_orders, BOE_PURGE_ORDERS_MASS_CANCEL_ID_AT, 0, BOE_BAD_VALUE, 38, "MassCancelID"),
    OF_MEMBER(purge_orders, BOE_PURGE_ORDERS_MATCHING_UNIT_AT, 3, BOE_NOT_ZERO, 0, "MatchingUnit, which is not selected"),
    OF_MEMBER(purge_symbol, BOE_PURGE_ORDERS_RISK_GROUP_ID_CNT_AT, 11, BOE_BAD_VALUE, 14, "RiskGroupIDCnt, behind two bitfields"),
    OF_MEMBER(purge_symbol, BOE_PURGE_ORDERS_SYMBOL_AT, '-', BOE_BAD_VALUE, 55, "Symbol"),
    OF_MEMBER(purge_symbol, BOE_PURGE_ORDERS_MATCHING_UNIT_AT, 3, BOE_NOT_ZERO, 0, "MatchingUnit beside Symbol, but not selected"),
    OF_VENUE(acknowledgment, BOE_ACKNOWLEDGMENT_CL_ORD_ID_AT, 0, BOE_BAD_VALUE, 18, "ClOrdID"),
    OF_VENUE(acknowledgment, BOE_ACKNOWLEDGMENT_ACCOUNT_AT, 0x07, BOE_BAD_VALUE, 60, "Account"),
    OF_VENUE(execution, BOE_EXECUTION_CONTRA_BROKER_AT, ' ', BOE_BAD_VALUE, 64, "ContraBroker"),
    OF_VENUE(execution, BOE_EXECUTION_CLEARING_FIRM_AT, ' ', BOE_BAD_VALUE, 73, "ClearingFirm"),
    OF_VENUE(rejection, BOE_REJECTION_CL_ORD_ID_AT, 0, BOE_BAD_VALUE, 18, "ClOrdID"),
    OF_VENUE(rejection, BOE_REJECTION_ORDER_REJECT_REASON_AT, 0x07, BOE_BAD_VALUE, 38, "OrderRejectReason"),
    OF_VENUE(rejection, BOE_REJECTION_TEXT_AT + 59, 'X', BOE_BAD_VALUE, 39, "Text"),
    OF_VENUE(rejection, BOE_REJECTION_SYMBOL_AT, '-', BOE_BAD_VALUE, 104, "Symbol"),
    OF_VENUE(rejection, BOE_REJECTION_CLEARING_ACCOUNT_AT, 0x07, BOE_BAD_VALUE, 116, "ClearingAccount"),
    OF_VENUE(rejection, BOE_RECORD_COUNT_AT, 20, BOE_TOO_MANY_BITFIELDS, 100, "the count"),
    OF_VENUE(cancel_rejection, BOE_CANCEL_REJECTION_CANCEL_REJECT_REASON_AT, 0x07, BOE_BAD_VALUE, 38, "CancelRejectReason"),
    OF_VENUE(modify_rejection, BOE_MODIFY_REJECTION_TEXT_AT, 0, BOE_BAD_VALUE, 39, "Text"),
    OF_MEMBER(login, BOE_LOGIN_REQUEST_USERNAME_AT, '-', BOE_BAD_VALUE, 14, "Username"),
    OF_VENUE(login_response, BOE_LOGIN_RESPONSE_TEXT_AT + 59, 'X', BOE_BAD_VALUE, 11, "its text"),
    OF_VENUE(logout, BOE_LOGOUT_REASON_AT, 0x07, BOE_BAD_VALUE, 10, "its reason"),
};

/* A refusal in one number, taken apart, and as a caller of old keeps it. */
static void check_refusal(uint32_t refusal, const struct damage *d) {
    check(refusal == refused_at(d->number, d->place), d->what);
    check(BOE_NUMBER(refusal) == d->number && BOE_PLACE(refusal) == d->place, "its number and its place");
    check((uint8_t)refusal == d->number, "a caller of old has the number");
}

/* The message of a damage, and a byte after it. */
static void damage_message(const struct damage *d, uint8_t *bytes) {
    memcpy(bytes, d->message, d->len);
    bytes[d->len] = 0;
    bytes[d->at] = d->byte;
}

static void refused_reading(const struct damage *d) {
    uint8_t bytes[600], record[BOE_RECORD_LEN + 3];
    struct boe_record *lent = (struct boe_record *)record;
    damage_message(d, bytes);
    memset(record, 0x5A, sizeof record);
    check_refusal(boe_read(d->direction, bytes, d->len + 1, lent, sizeof record), d);
    check(all_are(record, sizeof record, 0x5A), "a refusal with a place stored nothing");
    check_refusal(boe_read(d->direction, bytes, d->len + 1, lent, 0), d);
    check(all_are(record, sizeof record, 0x5A), "nor where there is no room");
}

static void refused_writing(const struct damage *d) {
    struct boe_record record;
    uint8_t out[600];
    memset(out, 0x5A, sizeof out);
    check(boe_read(d->direction, d->message, d->len, &record, sizeof record) == 0, "an example");
    record.bytes[d->at] = d->byte;
    check_refusal(boe_write(d->direction, &record, record_len(d->message[4]), out, sizeof out), d);
    check(all_are(out, sizeof out, 0x5A), "a refusal with a place stored nothing");
    check_refusal(boe_write(d->direction, &record, sizeof record, out, 0), d);
    check(all_are(out, sizeof out, 0x5A), "nor where there is no room");
}

/* Appending tells the place in the message, not in the book; a restart from a book that has such a message tells none. */
static void refused_appending(const struct damage *d) {
    enum { DATE = 20250819, ROOM = 200 };
    uint8_t bytes[600], buffer[ROOM], held[ROOM];
    struct boe_state state, kept;
    memset(buffer, 0x5A, sizeof buffer);
    check(boe_book_open(DATE, buffer, sizeof buffer, &state, sizeof state) == 0, "a book is opened");
    damage_message(d, bytes);
    memcpy(held, buffer, sizeof buffer);
    kept = state;
    check_refusal(boe_book_append(bytes, d->len + 1, buffer, sizeof buffer, &state, sizeof state), d);
    check(memcmp(buffer, held, sizeof buffer) == 0 && memcmp(&state, &kept, sizeof state) == 0, "a refusal with a place changed nothing");
    memcpy(buffer + BOE_MARK_BYTES, bytes, d->len + 1);
    check(boe_restart(DATE, buffer, BOE_MARK_BYTES + d->len + 1, &state, sizeof state) == BOE_BAD_BOOK, "18 has no place");
    check(memcmp(&state, &kept, sizeof state) == 0, "and changed nothing");
}

/* Tries a damage in its direction; what members of both markets send alike, also in the other market's. */
static void refused_in_both(const struct damage *d, void (*refused)(const struct damage *d)) {
    struct damage other = *d;
    refused(d);
    other.direction = BOE_FROM_OPTIONS_MEMBER;
    if (d->direction == BOE_FROM_MEMBER && d->message[4] != BOE_NEW_ORDER) refused(&other);
}

static void places(void) {
    struct boe_record record;
    uint8_t bytes[sizeof new_order];
    for (size_t i = 0; i < sizeof messages_damaged / sizeof *messages_damaged; i++) {
        const struct damage *d = &messages_damaged[i];
        refused_in_both(d, refused_reading);
        if (d->message == acknowledgment || d->message == execution) refused_appending(d);
    }
    for (size_t i = 0; i < sizeof records_damaged / sizeof *records_damaged; i++) refused_in_both(&records_damaged[i], refused_writing);

    memcpy(bytes, new_order, sizeof new_order);
    bytes[60] = 0x07;
    check(boe_read(BOE_FROM_MEMBER, bytes, sizeof bytes, &record, sizeof record) == 15370, "a bad Account is 10 + 256 * 60");
    bytes[30] = 0;
    check(boe_read(BOE_FROM_MEMBER, bytes, sizeof bytes, &record, sizeof record) == refused_at(BOE_BAD_VALUE, 30), "Side comes before it");
    bytes[2] = 34;
    bytes[35] = 0;
    check(boe_read(BOE_FROM_MEMBER, bytes, 36, &record, sizeof record) == refused_at(BOE_NOT_SELECTED, 35), "a message that ends with its count");
}

/* A group of all units and a group of 15 bitfields for each message type: what a login has at most. Answers their bytes. */
static size_t most_groups(uint8_t *at) {
    uint8_t *group = at;
    group[BOE_UNITS_GROUP_LENGTH_AT] = BOE_UNITS_GROUP_PAIRS_AT + BOE_UNITS * BOE_PAIR_LEN;
    group[BOE_UNITS_GROUP_TYPE_AT] = BOE_UNITS_GROUP;
    group[BOE_UNITS_GROUP_NUMBER_OF_UNITS_AT] = BOE_UNITS;
    for (unsigned i = 0; i < BOE_UNITS; i++) group[BOE_UNITS_GROUP_PAIRS_AT + i * BOE_PAIR_LEN] = (uint8_t)(i + 1);
    group += BOE_UNITS_GROUP_PAIRS_AT + BOE_UNITS * BOE_PAIR_LEN;
    for (unsigned i = 0; i < 2; i++) {
        group[BOE_BITFIELDS_GROUP_LENGTH_AT] = BOE_BITFIELDS_GROUP_BITFIELDS_AT + 15;
        group[BOE_BITFIELDS_GROUP_TYPE_AT] = BOE_BITFIELDS_GROUP;
        group[BOE_BITFIELDS_GROUP_MESSAGE_TYPE_AT] = i ? BOE_EXECUTION : BOE_ACKNOWLEDGMENT;
        group[BOE_BITFIELDS_GROUP_COUNT_AT] = 15;
        group += BOE_BITFIELDS_GROUP_BITFIELDS_AT + 15;
    }
    return (size_t)(group - at);
}

/* The constants for a caller's buffers: each is enough, and a byte less is not. */
static void most(void) {
    uint8_t out[BOE_MESSAGE_MOST_BYTES] = {0xBA, 0xBA, (BOE_MESSAGE_MOST_BYTES - 2) % 256, (BOE_MESSAGE_MOST_BYTES - 2) / 256};
    check(boe_frame_length(out, sizeof out) == BOE_MESSAGE_MOST_BYTES, "the longest message");
    out[2]++;
    check(boe_frame_refusal(out, sizeof out) == BOE_BAD_LENGTH, "one byte longer");
    check(BOE_TABLE_BYTES == 4 * BOE_UNITS && BOE_REFUSALS == BOE_NONE, "units and refusals");
    check(BOE_STATE_PLACES_AT == BOE_STATE_MESSAGES_AT + 4 && BOE_STATE_PLACES_AT + BOE_TABLE_BYTES == BOE_STATE_BYTES, "a state ends with its places");
    check(BOE_RECORD_FIXED_AT + BOE_RECORD_FIXED_LEN == BOE_RECORD_COUNT_AT && BOE_RECORD_COUNT_AT + 1 == BOE_RECORD_BITFIELDS_AT, "a record's fixed part");
    check(BOE_RECORD_BITFIELDS_AT + BOE_RECORD_BITFIELDS_LEN == BOE_RECORD_FIELDS_AT, "and its bitfields");

    struct boe_record record = {{0}};
    record.bytes[BOE_RECORD_TYPE_AT] = BOE_LOGIN_REQUEST;
    memcpy(record.bytes + BOE_LOGIN_REQUEST_SESSION_SUB_ID_AT, "0001TESTTESTING", 15);
    record.bytes[BOE_LOGIN_REQUEST_NUMBER_OF_GROUPS_AT] = 3;
    most_groups(record.bytes + BOE_LOGIN_REQUEST_GROUPS_AT);
    check(boe_write(BOE_FROM_MEMBER, &record, sizeof record, out, BOE_LOGIN_MOST_BYTES - 1) == BOE_NO_ROOM, "the longest login, one byte short");
    check(boe_write(BOE_FROM_MEMBER, &record, sizeof record, out, BOE_LOGIN_MOST_BYTES) == 0, "the longest login");

    memset(&record, 0, sizeof record);
    record.bytes[BOE_RECORD_TYPE_AT] = BOE_LOGIN_RESPONSE;
    record.bytes[BOE_LOGIN_RESPONSE_STATUS_AT] = 'A';
    record.bytes[BOE_LOGIN_RESPONSE_NUMBER_OF_UNITS_AT] = BOE_UNITS;
    uint8_t *pairs = record.bytes + BOE_LOGIN_RESPONSE_PAIRS_AT, *groups = pairs + BOE_UNITS * BOE_PAIR_LEN;
    for (unsigned i = 0; i < BOE_UNITS; i++) pairs[i * BOE_PAIR_LEN] = (uint8_t)(i + 1);
    *groups = 3;
    check(groups + 1 + most_groups(groups + 1) == record.bytes + BOE_RECORD_LEN, "the longest response fills its record");
    check(boe_write(BOE_FROM_VENUE, &record, sizeof record, out, BOE_WRITTEN_MOST_BYTES - 1) == BOE_NO_ROOM, "it, one byte short");
    check(boe_write(BOE_FROM_VENUE, &record, sizeof record, out, BOE_WRITTEN_MOST_BYTES) == 0, "the longest that is written");
}

void hand_made_cases(void) {
    framing();
    steps();
    messages();
    modifies();
    purges();
    options();
    types();
    rejections();
    fates();
    logins();
    for (size_t m = 0; m < COUNT_OF(members); m++) header_alone(members[m], client_heartbeat);
    header_alone(BOE_FROM_VENUE, server_heartbeat);
    header_alone(BOE_FROM_VENUE, replay_complete);
    books();
    mornings();
    places();
    most();
}
