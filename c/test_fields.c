/* Every field by name, set and got: held to the proved named access, tried with values of its own, and with every message that the stored questions
 * read or write. */
#include "test_gateway.h"

#include <string.h>

enum {
    HEADER = 10,      /* the bytes of a message before its fixed part */
    MOST_TEXT = 64,   /* the longest text */
    MOST_FIELDS = 64, /* what a message's number counts among the numbers of fields */
    ID_COUNT = 10,    /* the ids of Purge Orders */
    UNTOUCHED = 0x5A, /* what a value holds before it is got */
    LINE = 13008,     /* the most characters of a stored line, its end among them */
    GIVEN = 6200      /* the most bytes of one of its words */
};

/* What a value is in C; an id also has its number. */
enum kind { OF_none, OF_text, OF_character, OF_u8, OF_u16, OF_u32, OF_u64, OF_price, OF_id };

/* Where a field stands in a message: in the fixed part, between bitfields and optional fields, in a list there, or where its bit is set. */
enum part { IN_FIXED, IN_BETWEEN, IN_IDS, IN_OPTIONAL };

union setter {
    bool (*text)(struct boe_record *, const char *);
    bool (*character)(struct boe_record *, char);
    bool (*u8)(struct boe_record *, uint8_t);
    bool (*u16)(struct boe_record *, uint16_t);
    bool (*u32)(struct boe_record *, uint32_t);
    bool (*u64)(struct boe_record *, uint64_t);
    bool (*price)(struct boe_record *, int64_t);
    bool (*id)(struct boe_record *, unsigned, uint16_t);
};

union getter {
    bool (*text)(const struct boe_record *, char *);
    bool (*character)(const struct boe_record *, char *);
    bool (*u8)(const struct boe_record *, uint8_t *);
    bool (*u16)(const struct boe_record *, uint16_t *);
    bool (*u32)(const struct boe_record *, uint32_t *);
    bool (*u64)(const struct boe_record *, uint64_t *);
    bool (*price)(const struct boe_record *, int64_t *);
    bool (*id)(const struct boe_record *, unsigned, uint16_t *);
};

/* The fields of every message in its order, in numbers of their own and not by the constants of boe.h: the type of the record, the width, and of an
 * optional one the bitfield byte, counted from 1, and the bit. The places follow from the order. A kind that is not the header's does not compile. */
static struct field {
    const char *name;
    uint8_t type, width, byte, bit, id;
    enum kind kind;
    enum part part;
    bool settable;
    union setter set;
    union getter get;
    uint32_t number;          /* in the proved named access */
    unsigned long sets, gets; /* how often it was set and got as a stored message has it */
    bool failed;
} fields[] = {
#define READ(as, size, of, message, field) \
    .name = #message " " #field, .type = of, .width = size, .kind = OF_##as, .get.as = boe_##message##_get_##field
#define SET(as, message, field) .settable = true, .set.as = boe_##message##_set_##field
#define READ_ONLY(as, size, of, message, field) {READ(as, size, of, message, field)}
#define FIXED(as, size, of, message, field) {READ(as, size, of, message, field), SET(as, message, field)}
#define BETWEEN(as, size, of, message, field) {READ(as, size, of, message, field), SET(as, message, field), .part = IN_BETWEEN}
#define OPTIONAL(as, size, of, message, field, in, mask) \
    {READ(as, size, of, message, field), SET(as, message, field), .part = IN_OPTIONAL, .byte = in, .bit = mask}
#define ID(number) \
    {.name = "purge_orders risk_group_id " #number, .type = 0x47, .width = 2, .kind = OF_id, .part = IN_IDS, .id = number, \
     .get.id = boe_purge_orders_get_risk_group_id, SET(id, purge_orders, risk_group_id)}
#define RESERVED(of) {.name = "a reserved byte", .type = of, .width = 1}

    /* New Order */
    FIXED(text, 20, 0x38, new_order, cl_ord_id),
    FIXED(character, 1, 0x38, new_order, side),
    FIXED(u32, 4, 0x38, new_order, order_qty),
    OPTIONAL(text, 4, 0x38, new_order, clearing_firm, 1, 0x01),
    OPTIONAL(text, 4, 0x38, new_order, clearing_account, 1, 0x02),
    OPTIONAL(price, 8, 0x38, new_order, price, 1, 0x04),
    OPTIONAL(character, 1, 0x38, new_order, exec_inst, 1, 0x08),
    OPTIONAL(character, 1, 0x38, new_order, ord_type, 1, 0x10),
    OPTIONAL(character, 1, 0x38, new_order, time_in_force, 1, 0x20),
    OPTIONAL(u32, 4, 0x38, new_order, min_qty, 1, 0x40),
    OPTIONAL(u32, 4, 0x38, new_order, max_floor, 1, 0x80),
    OPTIONAL(text, 8, 0x38, new_order, symbol, 2, 0x01),
    OPTIONAL(text, 8, 0x38, new_order, symbol_sfx, 2, 0x02),
    OPTIONAL(character, 1, 0x38, new_order, capacity, 2, 0x40),
    OPTIONAL(text, 4, 0x38, new_order, routing_inst, 2, 0x80),
    OPTIONAL(text, 16, 0x38, new_order, account, 3, 0x01),
    OPTIONAL(character, 1, 0x38, new_order, locate_reqd, 3, 0x40),
    OPTIONAL(u64, 8, 0x38, new_order, expire_time, 3, 0x80),
    OPTIONAL(u32, 4, 0x38, new_order, display_range, 6, 0x01),
    OPTIONAL(price, 8, 0x38, new_order, stop_px, 6, 0x02),
    OPTIONAL(character, 1, 0x38, new_order, ex_destination, 6, 0x10),
    OPTIONAL(text, 64, 0x38, new_order, echo_text, 6, 0x20),
    OPTIONAL(text, 4, 0x38, new_order, locate_broker, 10, 0x02),

    /* Options New Order */
    FIXED(text, 20, 0xB8, options_new_order, cl_ord_id),
    FIXED(character, 1, 0xB8, options_new_order, side),
    FIXED(u32, 4, 0xB8, options_new_order, order_qty),
    OPTIONAL(text, 4, 0xB8, options_new_order, clearing_firm, 1, 0x01),
    OPTIONAL(text, 4, 0xB8, options_new_order, clearing_account, 1, 0x02),
    OPTIONAL(price, 8, 0xB8, options_new_order, price, 1, 0x04),
    OPTIONAL(character, 1, 0xB8, options_new_order, exec_inst, 1, 0x08),
    OPTIONAL(character, 1, 0xB8, options_new_order, ord_type, 1, 0x10),
    OPTIONAL(character, 1, 0xB8, options_new_order, time_in_force, 1, 0x20),
    OPTIONAL(u32, 4, 0xB8, options_new_order, min_qty, 1, 0x40),
    OPTIONAL(u32, 4, 0xB8, options_new_order, max_floor, 1, 0x80),
    OPTIONAL(text, 8, 0xB8, options_new_order, symbol, 2, 0x01),
    OPTIONAL(character, 1, 0xB8, options_new_order, capacity, 2, 0x40),
    OPTIONAL(text, 4, 0xB8, options_new_order, routing_inst, 2, 0x80),
    OPTIONAL(text, 16, 0xB8, options_new_order, account, 3, 0x01),
    OPTIONAL(u32, 4, 0xB8, options_new_order, maturity_date, 4, 0x01),
    OPTIONAL(price, 8, 0xB8, options_new_order, strike_price, 4, 0x02),
    OPTIONAL(character, 1, 0xB8, options_new_order, put_or_call, 4, 0x04),
    OPTIONAL(character, 1, 0xB8, options_new_order, open_close, 4, 0x10),

    /* Cancel Order */
    FIXED(text, 20, 0x39, cancel_order, orig_cl_ord_id),
    OPTIONAL(text, 4, 0x39, cancel_order, clearing_firm, 1, 0x01),

    /* Modify Order */
    FIXED(text, 20, 0x3A, modify_order, cl_ord_id),
    FIXED(text, 20, 0x3A, modify_order, orig_cl_ord_id),
    OPTIONAL(text, 4, 0x3A, modify_order, clearing_firm, 1, 0x01),
    OPTIONAL(u32, 4, 0x3A, modify_order, order_qty, 1, 0x04),
    OPTIONAL(price, 8, 0x3A, modify_order, price, 1, 0x08),
    OPTIONAL(character, 1, 0x3A, modify_order, ord_type, 1, 0x10),
    OPTIONAL(character, 1, 0x3A, modify_order, cancel_orig_on_reject, 1, 0x20),
    OPTIONAL(character, 1, 0x3A, modify_order, exec_inst, 1, 0x40),
    OPTIONAL(character, 1, 0x3A, modify_order, side, 1, 0x80),
    OPTIONAL(u32, 4, 0x3A, modify_order, max_floor, 2, 0x01),
    OPTIONAL(price, 8, 0x3A, modify_order, stop_px, 2, 0x02),
    OPTIONAL(text, 4, 0x3A, modify_order, locate_broker, 2, 0x80),

    /* Purge Orders */
    RESERVED(0x47),
    BETWEEN(u8, 1, 0x47, purge_orders, risk_group_id_cnt),
    ID(0), ID(1), ID(2), ID(3), ID(4), ID(5), ID(6), ID(7), ID(8), ID(9),
    OPTIONAL(text, 4, 0x47, purge_orders, clearing_firm, 1, 0x01),
    OPTIONAL(text, 16, 0x47, purge_orders, mass_cancel_inst, 1, 0x04),
    OPTIONAL(text, 20, 0x47, purge_orders, mass_cancel_id, 1, 0x10),
    OPTIONAL(text, 8, 0x47, purge_orders, symbol, 2, 0x01),
    OPTIONAL(text, 8, 0x47, purge_orders, symbol_sfx, 2, 0x02),
    OPTIONAL(u8, 1, 0x47, purge_orders, matching_unit, 2, 0x80),

    /* Order Acknowledgment */
    FIXED(u64, 8, 0x25, acknowledgment, transaction_time),
    FIXED(text, 20, 0x25, acknowledgment, cl_ord_id),
    FIXED(u64, 8, 0x25, acknowledgment, order_id),
    RESERVED(0x25),
    OPTIONAL(character, 1, 0x25, acknowledgment, side, 1, 0x01),
    OPTIONAL(price, 8, 0x25, acknowledgment, price, 1, 0x04),
    OPTIONAL(character, 1, 0x25, acknowledgment, exec_inst, 1, 0x08),
    OPTIONAL(character, 1, 0x25, acknowledgment, ord_type, 1, 0x10),
    OPTIONAL(character, 1, 0x25, acknowledgment, time_in_force, 1, 0x20),
    OPTIONAL(u32, 4, 0x25, acknowledgment, min_qty, 1, 0x40),
    OPTIONAL(text, 8, 0x25, acknowledgment, symbol, 2, 0x01),
    OPTIONAL(text, 8, 0x25, acknowledgment, symbol_sfx, 2, 0x02),
    OPTIONAL(character, 1, 0x25, acknowledgment, capacity, 2, 0x40),
    OPTIONAL(text, 16, 0x25, acknowledgment, account, 3, 0x01),
    OPTIONAL(text, 4, 0x25, acknowledgment, clearing_firm, 3, 0x02),
    OPTIONAL(text, 4, 0x25, acknowledgment, clearing_account, 3, 0x04),
    OPTIONAL(u32, 4, 0x25, acknowledgment, max_floor, 3, 0x10),
    OPTIONAL(u32, 4, 0x25, acknowledgment, order_qty, 3, 0x40),
    OPTIONAL(u32, 4, 0x25, acknowledgment, leaves_qty, 5, 0x02),
    OPTIONAL(u32, 4, 0x25, acknowledgment, last_shares, 5, 0x04),
    OPTIONAL(price, 8, 0x25, acknowledgment, last_px, 5, 0x08),
    OPTIONAL(u64, 8, 0x25, acknowledgment, expire_time, 5, 0x80),

    /* Order Execution */
    FIXED(u64, 8, 0x2C, execution, transaction_time),
    FIXED(text, 20, 0x2C, execution, cl_ord_id),
    FIXED(u64, 8, 0x2C, execution, exec_id),
    FIXED(u32, 4, 0x2C, execution, last_shares),
    FIXED(price, 8, 0x2C, execution, last_px),
    FIXED(u32, 4, 0x2C, execution, leaves_qty),
    FIXED(character, 1, 0x2C, execution, base_liquidity_indicator),
    FIXED(character, 1, 0x2C, execution, sub_liquidity_indicator),
    FIXED(text, 4, 0x2C, execution, contra_broker),
    RESERVED(0x2C),
    OPTIONAL(character, 1, 0x2C, execution, side, 1, 0x01),
    OPTIONAL(price, 8, 0x2C, execution, price, 1, 0x04),
    OPTIONAL(character, 1, 0x2C, execution, exec_inst, 1, 0x08),
    OPTIONAL(character, 1, 0x2C, execution, ord_type, 1, 0x10),
    OPTIONAL(character, 1, 0x2C, execution, time_in_force, 1, 0x20),
    OPTIONAL(u32, 4, 0x2C, execution, min_qty, 1, 0x40),
    OPTIONAL(text, 8, 0x2C, execution, symbol, 2, 0x01),
    OPTIONAL(text, 8, 0x2C, execution, symbol_sfx, 2, 0x02),
    OPTIONAL(character, 1, 0x2C, execution, capacity, 2, 0x40),
    OPTIONAL(text, 16, 0x2C, execution, account, 3, 0x01),
    OPTIONAL(text, 4, 0x2C, execution, clearing_firm, 3, 0x02),
    OPTIONAL(text, 4, 0x2C, execution, clearing_account, 3, 0x04),
    OPTIONAL(u32, 4, 0x2C, execution, max_floor, 3, 0x10),
    OPTIONAL(u32, 4, 0x2C, execution, order_qty, 3, 0x40),

    /* Order Rejected */
    FIXED(u64, 8, 0x26, rejection, transaction_time),
    FIXED(text, 20, 0x26, rejection, cl_ord_id),
    FIXED(character, 1, 0x26, rejection, order_reject_reason),
    FIXED(text, 60, 0x26, rejection, text),
    RESERVED(0x26),
    OPTIONAL(character, 1, 0x26, rejection, side, 1, 0x01),
    OPTIONAL(price, 8, 0x26, rejection, peg_difference, 1, 0x02),
    OPTIONAL(price, 8, 0x26, rejection, price, 1, 0x04),
    OPTIONAL(character, 1, 0x26, rejection, exec_inst, 1, 0x08),
    OPTIONAL(character, 1, 0x26, rejection, ord_type, 1, 0x10),
    OPTIONAL(character, 1, 0x26, rejection, time_in_force, 1, 0x20),
    OPTIONAL(u32, 4, 0x26, rejection, min_qty, 1, 0x40),
    OPTIONAL(text, 8, 0x26, rejection, symbol, 2, 0x01),
    OPTIONAL(text, 8, 0x26, rejection, symbol_sfx, 2, 0x02),
    OPTIONAL(character, 1, 0x26, rejection, capacity, 2, 0x40),
    OPTIONAL(text, 16, 0x26, rejection, account, 3, 0x01),
    OPTIONAL(text, 4, 0x26, rejection, clearing_firm, 3, 0x02),
    OPTIONAL(text, 4, 0x26, rejection, clearing_account, 3, 0x04),
    OPTIONAL(character, 1, 0x26, rejection, display_indicator, 3, 0x08),
    OPTIONAL(u32, 4, 0x26, rejection, max_floor, 3, 0x10),
    OPTIONAL(u16, 2, 0x26, rejection, discretion_amount, 3, 0x20),
    OPTIONAL(u32, 4, 0x26, rejection, order_qty, 3, 0x40),
    OPTIONAL(text, 3, 0x26, rejection, prevent_match, 3, 0x80),
    OPTIONAL(u64, 8, 0x26, rejection, secondary_order_id, 6, 0x01),
    OPTIONAL(character, 1, 0x26, rejection, attributed_quote, 6, 0x08),
    OPTIONAL(character, 1, 0x26, rejection, ext_exec_inst, 6, 0x10),
    OPTIONAL(text, 64, 0x26, rejection, echo_text, 8, 0x02),
    OPTIONAL(price, 8, 0x26, rejection, stop_px, 8, 0x04),
    OPTIONAL(text, 4, 0x26, rejection, routing_inst, 8, 0x08),
    OPTIONAL(text, 6, 0x26, rejection, rout_strategy, 8, 0x10),
    OPTIONAL(text, 3, 0x26, rejection, route_delivery_method, 8, 0x20),
    OPTIONAL(character, 1, 0x26, rejection, ex_destination, 8, 0x40),

    /* Cancel Rejected */
    FIXED(u64, 8, 0x2B, cancel_rejection, transaction_time),
    FIXED(text, 20, 0x2B, cancel_rejection, cl_ord_id),
    FIXED(character, 1, 0x2B, cancel_rejection, cancel_reject_reason),
    FIXED(text, 60, 0x2B, cancel_rejection, text),
    RESERVED(0x2B),
    OPTIONAL(character, 1, 0x2B, cancel_rejection, side, 1, 0x01),
    OPTIONAL(price, 8, 0x2B, cancel_rejection, peg_difference, 1, 0x02),
    OPTIONAL(price, 8, 0x2B, cancel_rejection, price, 1, 0x04),
    OPTIONAL(character, 1, 0x2B, cancel_rejection, exec_inst, 1, 0x08),
    OPTIONAL(character, 1, 0x2B, cancel_rejection, ord_type, 1, 0x10),
    OPTIONAL(character, 1, 0x2B, cancel_rejection, time_in_force, 1, 0x20),
    OPTIONAL(u32, 4, 0x2B, cancel_rejection, min_qty, 1, 0x40),
    OPTIONAL(text, 8, 0x2B, cancel_rejection, symbol, 2, 0x01),
    OPTIONAL(text, 8, 0x2B, cancel_rejection, symbol_sfx, 2, 0x02),
    OPTIONAL(character, 1, 0x2B, cancel_rejection, capacity, 2, 0x40),
    OPTIONAL(text, 64, 0x2B, cancel_rejection, echo_text, 8, 0x02),
    OPTIONAL(price, 8, 0x2B, cancel_rejection, stop_px, 8, 0x04),

    /* User Modify Rejected */
    FIXED(u64, 8, 0x29, modify_rejection, transaction_time),
    FIXED(text, 20, 0x29, modify_rejection, cl_ord_id),
    FIXED(character, 1, 0x29, modify_rejection, modify_reject_reason),
    FIXED(text, 60, 0x29, modify_rejection, text),
    RESERVED(0x29),

    /* Login Request */
    FIXED(text, 4, 0x37, login_request, session_sub_id),
    FIXED(text, 4, 0x37, login_request, username),
    FIXED(text, 10, 0x37, login_request, password),
    READ_ONLY(u8, 1, 0x37, login_request, group_count),

    /* Login Response */
    FIXED(character, 1, 0x24, login_response, status),
    FIXED(text, 60, 0x24, login_response, text),
    FIXED(u8, 1, 0x24, login_response, flag),
    FIXED(u32, 4, 0x24, login_response, last_received),
    READ_ONLY(u8, 1, 0x24, login_response, unit_count),

    /* Logout */
    FIXED(character, 1, 0x08, logout, reason),
    FIXED(text, 60, 0x08, logout, text),
    FIXED(u32, 4, 0x08, logout, last_received),
    READ_ONLY(u8, 1, 0x08, logout, unit_count)};

/* A getter alone shows no width. */
_Static_assert(BOE_LOGIN_REQUEST_NUMBER_OF_GROUPS_LEN == 1 && BOE_LOGIN_RESPONSE_NUMBER_OF_UNITS_LEN == 1 && BOE_LOGOUT_NUMBER_OF_UNITS_LEN == 1,
               "the counts of the session messages have one byte");

#define EACH(f) struct field *f = fields; f < fields + COUNT_OF(fields); f++

/* One failure of a field is told; what follows from it is not. */
static void check_field(int ok, struct field *f, const char *what) {
    char text[160] = "";
    if (!ok) snprintf(text, sizeof text, "%s: %s", f->name, what);
    if (ok || !f->failed) check(ok, text);
    if (!ok) f->failed = true;
}

/* ---- a value and its bytes: the library's machine has the lowest byte of a number first, as the wire */

union value {
    char text[MOST_TEXT + 2], character;
    uint8_t bytes[MOST_TEXT + 2], u8;
    uint16_t u16;
    uint32_t u32;
    uint64_t u64;
    int64_t price;
};

static bool set(const struct field *f, struct boe_record *record, const uint8_t *bytes) {
    union value value = {""};
    memcpy(value.bytes, bytes, f->width);
    switch (f->kind) {
    case OF_text: return f->set.text(record, value.text);
    case OF_character: return f->set.character(record, value.character);
    case OF_u8: return f->set.u8(record, value.u8);
    case OF_u16: return f->set.u16(record, value.u16);
    case OF_u32: return f->set.u32(record, value.u32);
    case OF_u64: return f->set.u64(record, value.u64);
    case OF_price: return f->set.price(record, value.price);
    case OF_id: return f->set.id(record, f->id, value.u16);
    default: return false;
    }
}

static bool get(const struct field *f, const struct boe_record *record, union value *value) {
    memset(value, UNTOUCHED, sizeof *value);
    switch (f->kind) {
    case OF_text: return f->get.text(record, value->text);
    case OF_character: return f->get.character(record, &value->character);
    case OF_u8: return f->get.u8(record, &value->u8);
    case OF_u16: return f->get.u16(record, &value->u16);
    case OF_u32: return f->get.u32(record, &value->u32);
    case OF_u64: return f->get.u64(record, &value->u64);
    case OF_price: return f->get.price(record, &value->price);
    case OF_id: return f->get.id(record, f->id, &value->u16);
    default: return false;
    }
}

/* Whether these bytes are got, after a text a NUL, and nothing else is touched. */
static bool gets(const struct field *f, const struct boe_record *record, const uint8_t *bytes) {
    union value value;
    size_t end = f->width + (f->kind == OF_text);
    return get(f, record, &value) && same_bytes(value.bytes, bytes, f->width) && (f->kind != OF_text || value.text[f->width] == 0) &&
           all_are(value.bytes + end, sizeof value - end, UNTOUCHED);
}

static bool gets_nothing(const struct field *f, const struct boe_record *record) {
    union value value;
    return !get(f, record, &value) && all_are(value.bytes, sizeof value, UNTOUCHED);
}

/* ---- what the table says of a record */

/* The fixed part and what stands between are one row of fields in a record, the optional fields another. */
static size_t place_of(const struct field *f) {
    bool optional = f->part == IN_OPTIONAL;
    size_t at = optional ? BOE_RECORD_FIELDS_AT : BOE_RECORD_FIXED_AT;
    for (const struct field *g = fields; g < f; g++)
        if (g->type == f->type && (g->part == IN_OPTIONAL) == optional) at += g->width;
    return at;
}

/* By the count of bitfields, with these after it, and by the count of ids. */
static bool is_selected(const struct field *f, const uint8_t *count, uint8_t ids) {
    if (f->part == IN_OPTIONAL) return f->byte <= *count && count[f->byte] & f->bit;
    return f->part != IN_IDS || f->id < ids;
}

static void raise_to(uint8_t *count, unsigned number) {
    if (*count < number) *count = (uint8_t)number;
}

/* Where Purge Orders has its RiskGroupIDCnt in a record: behind the reserved byte. */
enum { IDS_AT = BOE_RECORD_FIXED_AT + 1 };

static void put_field(struct boe_record *record, const struct field *f, const uint8_t *bytes) {
    uint8_t *count = record->bytes + BOE_RECORD_COUNT_AT;
    memcpy(record->bytes + place_of(f), bytes, f->width);
    if (f->part == IN_IDS) raise_to(record->bytes + IDS_AT, f->id + 1u);
    if (f->part != IN_OPTIONAL) return;
    count[f->byte] |= f->bit;
    raise_to(count, f->byte);
}

static struct boe_record filled_record(uint8_t type, uint8_t byte) {
    struct boe_record record;
    memset(&record, byte, sizeof record);
    record.bytes[BOE_RECORD_TYPE_AT] = type;
    return record;
}

static bool same_record(const struct boe_record *a, const struct boe_record *b) { return same_bytes(a->bytes, b->bytes, sizeof a->bytes); }

/* ---- the proved named access */

/* crates/named_access, which calls the proved reader and setter of a field by its number; a value has MOST_TEXT bytes. */
uint32_t boe_named_get(uint32_t field, uint8_t id, const uint8_t *record, size_t record_len, uint8_t *value, size_t value_len);
uint32_t boe_named_set(uint32_t field, uint8_t id, const uint8_t *value, size_t value_len, uint8_t *record, size_t record_len);

/* Numbers the fields as it does: messages and fields in the order of the table, which is that of the proved sources. The ids are one field. */
static void number_fields(void) {
    uint32_t next = 0;
    for (EACH(f)) {
        if (f > fields && f->type != f[-1].type) next = (next / MOST_FIELDS + 1) * MOST_FIELDS;
        if (f->kind == OF_none) continue;
        f->number = f->id > 0 ? next - 1 : next++;
    }
}

/* A field is got exactly where the proved reader answers that it is selected, and with its value. */
static void hold_get(struct field *f, const struct boe_record *record) {
    uint8_t value[MOST_TEXT];
    bool selected = boe_named_get(f->number, f->id, record->bytes, sizeof record->bytes, value, sizeof value) != 0;
    check_field(all_are(value + f->width, sizeof value - f->width, 0), f, "has another width in the proved named access");
    check_field(selected ? gets(f, record, value) : gets_nothing(f, record), f, "is got as the proved reader answers");
}

/* A setter leaves the bytes that the proved one leaves: in a record of another type, and for an id past the tenth, those that were there. */
static void hold_set(struct field *f, const struct boe_record *before, const uint8_t *value) {
    struct boe_record record = *before, proved = *before;
    bool settable = before->bytes[BOE_RECORD_TYPE_AT] == f->type && f->id < ID_COUNT;
    if (!f->settable) return;
    check_field(boe_named_set(f->number, f->id, value, MOST_TEXT, proved.bytes, sizeof proved.bytes) == 0, f, "is set by the proved setter");
    check_field(settable || same_record(&proved, before), f, "is not set by the proved setter where there is none");
    check_field(set(f, &record, value) == settable && same_record(&record, &proved), f, "is set as the proved setter sets it");
}

/* The same bytes in every run. */
static uint8_t some_byte(void) {
    static uint64_t state = 88172645463325252;
    state ^= state << 13;
    state ^= state >> 7;
    state ^= state << 17;
    return (uint8_t)(state >> 32);
}

/* Both, with a value of any bytes; a text ends at its first NUL. */
static void hold_both(struct field *f, struct boe_record record) {
    uint8_t value[MOST_TEXT];
    for (size_t i = 0; i < sizeof value; i++) value[i] = some_byte();
    if (f->kind == OF_text)
        for (size_t i = 0, length = some_byte() % (f->width + 1u); i < sizeof value; i++) value[i] = i < length ? value[i] | 1 : 0;
    hold_get(f, &record);
    hold_set(f, &record, value);
}

/* A record of any bytes, of a type and with a count of bitfields and one of ids. */
static struct boe_record some_record(uint8_t type, unsigned count, unsigned ids) {
    struct boe_record record;
    for (size_t i = 0; i < sizeof record.bytes; i++) record.bytes[i] = some_byte();
    record.bytes[BOE_RECORD_TYPE_AT] = type;
    if (record_len(type) == BOE_ORDER_RECORD_LEN) record.bytes[BOE_RECORD_COUNT_AT] = (uint8_t)count;
    if (type == 0x47) record.bytes[IDS_AT] = (uint8_t)ids;
    return record;
}

/* In blank records, in records of any bytes with every count, and in those of every type. */
static void hold_field(struct field *f) {
    for (unsigned count = 0; count <= BOE_RECORD_BITFIELDS_LEN; count++)
        for (unsigned ids = 0; ids <= ID_COUNT + 1; ids++) hold_both(f, some_record(f->type, count, ids));
    for (unsigned type = 0; type <= UINT8_MAX; type++) {
        hold_both(f, boe_blank_record((uint8_t)type));
        hold_both(f, some_record((uint8_t)type, some_byte() % (BOE_RECORD_BITFIELDS_LEN + 1u), some_byte()));
    }
}

/* There are ten ids, and after the last field of a message no other. */
static void hold_past_the_last(struct field *f) {
    uint8_t value[MOST_TEXT];
    struct boe_record all = filled_record(f->type, 0xFF);
    struct field past = *f;
    past.name = "purge_orders risk_group_id past the tenth";
    if (f->kind == OF_id && f->id == ID_COUNT - 1)
        for (past.id = ID_COUNT; past.id; past.id++) hold_both(&past, some_record(f->type, 2, past.id + 1u));
    for (EACH(g))
        if (g->type == f->type && g->number > f->number) return;
    for (uint32_t number = f->number + 1; number % MOST_FIELDS; number++)
        check_field(boe_named_get(number, 0, all.bytes, sizeof all.bytes, value, sizeof value) == 0, f, "is not the last field of its message");
}

/* ---- each field by itself */

/* Gets a field of a record as it is, gets a value that stands there by the table, and sets the value. */
static void try_value(struct field *f, struct boe_record record, const uint8_t *bytes) {
    struct boe_record expected = record;
    bool selected = is_selected(f, record.bytes + BOE_RECORD_COUNT_AT, record.bytes[IDS_AT]);
    check_field(selected ? gets(f, &record, record.bytes + place_of(f)) : gets_nothing(f, &record), f, "is got where the record selects it, and only there");
    put_field(&expected, f, bytes);
    check_field(gets(f, &expected, bytes), f, "is got from its place");
    if (!f->settable) return;
    check_field(set(f, &record, bytes) && same_record(&record, &expected), f, "is set at its place, with bit and count, and nothing else");
}

/* Values of each kind, in records of zeros and of other bytes, with every count of bitfields. */
static void try_values(struct field *f) {
    static const uint8_t fills[] = {0x00, 0xFF, 0x33, 0xCC};
    uint8_t values[4][MOST_TEXT] = {"", "Z"};
    for (unsigned i = 0; i < MOST_TEXT; i++) values[2][i] = (uint8_t)('A' + i);
    memset(values[3], 0xFF, sizeof values[3]);
    for (size_t i = 0; i < COUNT_OF(fills); i++)
        for (unsigned count = 0; count <= BOE_RECORD_BITFIELDS_LEN; count++)
            for (size_t j = 0; j < COUNT_OF(values); j++) {
                struct boe_record record = filled_record(f->type, fills[i]);
                if (record_len(f->type) == BOE_ORDER_RECORD_LEN) record.bytes[BOE_RECORD_COUNT_AT] = (uint8_t)count;
                try_value(f, record, values[j]);
            }
}

/* A record of any other type has no such field, and stays as it is. */
static void try_other_types(struct field *f) {
    for (unsigned type = 0; type <= UINT8_MAX; type++) {
        const struct boe_record before = filled_record((uint8_t)type, 0xFF);
        struct boe_record record = before;
        if (type == f->type) continue;
        check_field(gets_nothing(f, &record), f, "is not got from a record of another type");
        if (!f->settable) continue;
        check_field(!set(f, &record, before.bytes + 1) && same_record(&record, &before), f, "is not set in a record of another type");
    }
}

/* A text a character too long is not set. */
static void try_long_text(struct field *f) {
    char text[MOST_TEXT + 2] = "";
    struct boe_record before = filled_record(f->type, 0), record = before;
    if (f->kind != OF_text || !f->settable) return;
    memset(text, 'A', f->width + 1u);
    check_field(!f->set.text(&record, text) && same_record(&record, &before), f, "is not set to a text that is too long");
}

/* There are ten ids, whatever the count. */
static void try_ids_past_the_last(void) {
    static const unsigned past[] = {10, 11, 255, 256, 65536, UINT32_MAX};
    const struct boe_record before = filled_record(0x47, 0xFF);
    for (size_t i = 0; i < COUNT_OF(past); i++) {
        struct boe_record record = before;
        uint16_t id = 7;
        check(!boe_purge_orders_get_risk_group_id(&record, past[i], &id) && id == 7, "purge_orders risk_group_id: none past the tenth is got");
        check(!boe_purge_orders_set_risk_group_id(&record, past[i], 1) && same_record(&record, &before),
              "purge_orders risk_group_id: none past the tenth is set");
    }
}

/* ---- the fields of a stored message */

static unsigned long line;

static void check_line(int ok, const char *what) {
    char text[160] = "";
    if (!ok) snprintf(text, sizeof text, "line %lu: %s", line, what);
    check(ok, text);
}

/* Where the fields of the message at hand stand in it, 0 where it has them not. */
static size_t stands[COUNT_OF(fields)];

/* Finds them, by the table: the fixed part, the count of bitfields and these, and what they select. Answers where the last one ends. */
static size_t find_fields(uint8_t type, const uint8_t *message) {
    size_t at = HEADER;
    memset(stands, 0, sizeof stands);
    for (EACH(f)) {
        if (f->type != type || f->part != IN_FIXED) continue;
        stands[f - fields] = at;
        at += f->width;
    }
    if (record_len(type) != BOE_ORDER_RECORD_LEN) return at;
    size_t count_at = at, ids_at = at + 1 + message[count_at];
    at = ids_at;
    for (EACH(f)) {
        if (f->type != type || f->part == IN_FIXED || !is_selected(f, message + count_at, message[ids_at])) continue;
        stands[f - fields] = at;
        at += f->width;
    }
    return at;
}

static void get_each(const struct boe_record *record, const uint8_t *message) {
    for (EACH(f)) {
        if (f->type != record->bytes[BOE_RECORD_TYPE_AT] || f->kind == OF_none) continue;
        size_t at = stands[f - fields];
        check_field(at ? gets(f, record, message + at) : gets_nothing(f, record), f, "is got as a stored message has it");
        hold_both(f, *record);
        f->gets += at != 0;
    }
}

/* A record of the message's fields, each set by its name. What has no setter is put: the header, pairs and groups, and a count of bitfields that is
 * higher than the fields ask for. */
static struct boe_record built_of(uint8_t type, const uint8_t *message, size_t end, size_t total) {
    struct boe_record record = boe_blank_record(type);
    memcpy(record.bytes + BOE_RECORD_UNIT_AT, message + 5, 5);
    for (EACH(f)) {
        size_t at = stands[f - fields];
        if (at && !f->settable) put_field(&record, f, message + at);
        if (!at || !f->settable) continue;
        check_field(set(f, &record, message + at), f, "is set as a stored message has it");
        f->sets++;
    }
    memcpy(record.bytes + BOE_SESSION_BODY_AT + end - HEADER, message + end, total - end);
    return record;
}

/* Names the field at the first byte in which a record that was built is not the stored one. */
static void tell_difference(const struct boe_record *built, const struct boe_record *stored) {
    size_t at = 0;
    while (built->bytes[at] == stored->bytes[at]) at++;
    for (EACH(f))
        if (f->type == stored->bytes[BOE_RECORD_TYPE_AT] && place_of(f) <= at && at < place_of(f) + f->width)
            check_field(0, f, "is not what the stored record has");
    check_line(0, "the record set by name is not the stored one");
}

/* A message and its record, one of which a stored question has and the other its answer. */
static void try_message(uint8_t direction, const uint8_t *message, const struct boe_record *stored) {
    uint8_t type = stored->bytes[BOE_RECORD_TYPE_AT], out[BOE_WRITTEN_MOST_BYTES];
    size_t total = boe_frame_length(message, BOE_MESSAGE_MOST_BYTES), end = find_fields(type, message), own = record_len(type);
    bool is_order = own == BOE_ORDER_RECORD_LEN, whole = is_order ? end == total : end <= total;
    check_line(whole, "the message has bytes that are no field of the table");
    if (!whole) return;
    get_each(stored, message);
    struct boe_record built = built_of(type, message, end, total);
    if (is_order) raise_to(built.bytes + BOE_RECORD_COUNT_AT, stored->bytes[BOE_RECORD_COUNT_AT]);
    if (!same_record(&built, stored)) tell_difference(&built, stored);
    check_line(boe_write(direction, &built, own, out, sizeof out) == 0 && same_bytes(out, message, total), "what is set by name is not written as the message");
}

/* Takes a question that reads or writes a message, if that is what it does. */
static void try_question(char *question, const char *answer) {
    static uint8_t message[GIVEN], given[GIVEN];
    char *call = strtok(question, " "), *direction = strtok(NULL, " "), *second = strtok(NULL, " "), *third = strtok(NULL, " ");
    if (strncmp(answer, "0 ", 2) != 0 || !second || strtok(NULL, " ")) return;
    bool reads = strcmp(call, "read") == 0 && !third, writes = strcmp(call, "write") == 0 && third;
    if (!reads && !writes) return;
    if (bytes_of(reads ? second : answer + 2, message, sizeof message) < HEADER || bytes_of(reads ? answer + 2 : second, given, sizeof given) <= 0) return;
    struct boe_record stored = boe_blank_record(given[BOE_RECORD_TYPE_AT]);
    memcpy(stored.bytes, given, record_len(given[BOE_RECORD_TYPE_AT]));
    try_message((uint8_t)(direction[0] - '0'), message, &stored);
}

static void try_stored(FILE *questions, FILE *answers) {
    static char question[LINE], answer[LINE];
    rewind(questions);
    rewind(answers);
    for (line = 1; fgets(question, sizeof question, questions) && fgets(answer, sizeof answer, answers); line++) {
        question[strcspn(question, "\n")] = 0;
        answer[strcspn(answer, "\n")] = 0;
        try_question(question, answer);
    }
}

/* ---- as a program has them */

static void an_order_by_name(void) {
    struct boe_record order = boe_blank_record(BOE_NEW_ORDER);
    char symbol[BOE_NEW_ORDER_SYMBOL_LEN + 1], side = '?';
    int64_t price = 7;
    check(order.bytes[BOE_RECORD_TYPE_AT] == BOE_NEW_ORDER && all_are(order.bytes + 1, sizeof order - 1, 0), "a blank record has its type alone");
    check(!boe_new_order_get_price(&order, &price) && price == 7, "a price that is not selected is not 0");
    check(boe_new_order_set_price(&order, -12500) && boe_new_order_get_price(&order, &price) && price == -12500, "a price below zero");
    check(boe_new_order_set_symbol(&order, "MSFT") && boe_new_order_get_symbol(&order, symbol) && strcmp(symbol, "MSFT") == 0, "a text");
    check(!boe_new_order_set_symbol(&order, "ABCDEFGHI") && boe_new_order_get_symbol(&order, symbol) && strcmp(symbol, "MSFT") == 0, "one too long");
    check(boe_new_order_set_side(&order, '1') && boe_new_order_get_side(&order, &side) && side == '1', "a character");
    check(!boe_options_new_order_get_side(&order, &side), "no field of the other market");
}

static void refusal_names(void) {
    unsigned known = 0;
    for (unsigned number = 0; number <= UINT8_MAX; number++) {
        const char *name = boe_refusal_name(number);
        known += strcmp(name, "unknown refusal") != 0;
        check(boe_refusal_name(refused_at(number, 60)) == name, "a place plays no part in a refusal's name");
    }
    check(known == 25, "every refusal has a name, and 0 has one");
    check(strcmp(boe_refusal_name(0), "no refusal") == 0, "the name of 0");
    check(strcmp(boe_refusal_name(BOE_ALREADY_TAKEN), "ALREADY_TAKEN") == 0, "the name of 14");
}

void fields_by_name(FILE *questions, FILE *answers) {
    number_fields();
    for (EACH(f)) {
        if (f->kind == OF_none) continue;
        hold_field(f);
        hold_past_the_last(f);
        try_values(f);
        try_other_types(f);
        try_long_text(f);
    }
    try_ids_past_the_last();
    try_stored(questions, answers);
    for (EACH(f)) {
        check_field(f->gets > 0 || f->kind == OF_none, f, "was never got from a stored record");
        check_field(f->sets > 0 || !f->settable, f, "was never set as a stored message has it");
    }
    an_order_by_name();
    refusal_names();
}
