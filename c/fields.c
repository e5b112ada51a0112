/* The fields of every message by the protocol's names, and their values as text. */
#define _XOPEN_SOURCE 700
#include "fields.h"

#include <inttypes.h>
#include <string.h>
#include <strings.h>
#include <time.h>

/* How much further on a byte of a fixed part, or of a session message's body, stands in the message than in the record. */
enum { FURTHER = 4 };

/* ---- the table: a row a field in the order of its message, with the kind and the name; its place, width and bit are boe.h's */

#define FIXED(message, field, kind, name) {{BOE_##message, BOE_##message##_##field##_AT, BOE_##message##_##field##_LEN, 0, 0}, kind, name}
#define FIELD(message, field, kind, name) \
    {{BOE_##message, BOE_##message##_##field##_AT, BOE_##message##_##field##_LEN, BOE_##message##_##field##_BYTE, BOE_##message##_##field##_BIT}, \
     kind, name}
/* a byte that the venue keeps for itself, by its place in the message */
#define RESERVED(message, place) {{BOE_##message, (place) - FURTHER, 1, 0, 0}, 'R', "ReservedInternal"}

/* as far as the New Orders of both markets have them alike: up to Symbol, and the three after it that both have */
#define ORDER_FIELDS(message) \
    FIXED(message, CL_ORD_ID, 'I', "ClOrdID"), FIXED(message, SIDE, 'N', "Side"), FIXED(message, ORDER_QTY, 'B', "OrderQty"), \
    FIELD(message, CLEARING_FIRM, 'A', "ClearingFirm"), FIELD(message, CLEARING_ACCOUNT, 'T', "ClearingAccount"), \
    FIELD(message, PRICE, 'P', "Price"), FIELD(message, EXEC_INST, 'T', "ExecInst"), FIELD(message, ORD_TYPE, 'N', "OrdType"), \
    FIELD(message, TIME_IN_FORCE, 'N', "TimeInForce"), FIELD(message, MIN_QTY, 'B', "MinQty"), FIELD(message, MAX_FLOOR, 'B', "MaxFloor"), \
    FIELD(message, SYMBOL, 'N', "Symbol")
#define LATER_ORDER_FIELDS(message) \
    FIELD(message, CAPACITY, 'A', "Capacity"), FIELD(message, ROUTING_INST, 'T', "RoutingInst"), FIELD(message, ACCOUNT, 'T', "Account")
/* as far as Order Acknowledgment and Order Execution have them alike */
#define VENUE_FIELDS(message) \
    FIELD(message, SIDE, 'N', "Side"), FIELD(message, PRICE, 'P', "Price"), FIELD(message, EXEC_INST, 'T', "ExecInst"), \
    FIELD(message, ORD_TYPE, 'N', "OrdType"), FIELD(message, TIME_IN_FORCE, 'N', "TimeInForce"), FIELD(message, MIN_QTY, 'B', "MinQty"), \
    FIELD(message, SYMBOL, 'N', "Symbol"), FIELD(message, SYMBOL_SFX, 'N', "SymbolSfx"), FIELD(message, CAPACITY, 'A', "Capacity"), \
    FIELD(message, ACCOUNT, 'T', "Account"), FIELD(message, CLEARING_FIRM, 'A', "ClearingFirm"), \
    FIELD(message, CLEARING_ACCOUNT, 'T', "ClearingAccount"), FIELD(message, MAX_FLOOR, 'B', "MaxFloor"), FIELD(message, ORDER_QTY, 'B', "OrderQty")
/* the fixed part of the three rejections */
#define REJECTED(message, reason, name) \
    FIXED(message, TRANSACTION_TIME, 'B', "TransactionTime"), FIXED(message, CL_ORD_ID, 'I', "ClOrdID"), FIXED(message, reason, 'T', name), \
    FIXED(message, TEXT, 'T', "Text"), RESERVED(message, 99)
/* bytes 1 and 2 of Order Rejected and of Cancel Rejected */
#define REJECTION_FIELDS(message) \
    FIELD(message, SIDE, 'N', "Side"), FIELD(message, PEG_DIFFERENCE, 'P', "PegDifference"), FIELD(message, PRICE, 'P', "Price"), \
    FIELD(message, EXEC_INST, 'T', "ExecInst"), FIELD(message, ORD_TYPE, 'N', "OrdType"), FIELD(message, TIME_IN_FORCE, 'N', "TimeInForce"), \
    FIELD(message, MIN_QTY, 'B', "MinQty"), FIELD(message, SYMBOL, 'N', "Symbol"), FIELD(message, SYMBOL_SFX, 'N', "SymbolSfx"), \
    FIELD(message, CAPACITY, 'A', "Capacity")

static const struct field new_order[] = {
    ORDER_FIELDS(NEW_ORDER),
    FIELD(NEW_ORDER, SYMBOL_SFX, 'N', "SymbolSfx"),
    LATER_ORDER_FIELDS(NEW_ORDER),
    FIELD(NEW_ORDER, LOCATE_REQD, 'A', "LocateReqd"),
    FIELD(NEW_ORDER, EXPIRE_TIME, 'B', "ExpireTime"),
    FIELD(NEW_ORDER, DISPLAY_RANGE, 'B', "DisplayRange"),
    FIELD(NEW_ORDER, STOP_PX, 'P', "StopPx"),
    FIELD(NEW_ORDER, EX_DESTINATION, 'T', "ExDestination"),
    FIELD(NEW_ORDER, ECHO_TEXT, 'T', "EchoText"),
    FIELD(NEW_ORDER, LOCATE_BROKER, 'A', "LocateBroker"),
};

static const struct field options_new_order[] = {
    ORDER_FIELDS(OPTIONS_NEW_ORDER),
    LATER_ORDER_FIELDS(OPTIONS_NEW_ORDER),
    FIELD(OPTIONS_NEW_ORDER, MATURITY_DATE, 'D', "MaturityDate"),
    FIELD(OPTIONS_NEW_ORDER, STRIKE_PRICE, 'P', "StrikePrice"),
    FIELD(OPTIONS_NEW_ORDER, PUT_OR_CALL, 'N', "PutOrCall"),
    FIELD(OPTIONS_NEW_ORDER, OPEN_CLOSE, 'N', "OpenClose"),
};

static const struct field cancel_order[] = {
    FIXED(CANCEL_ORDER, ORIG_CL_ORD_ID, 'I', "OrigClOrdID"),
    FIELD(CANCEL_ORDER, CLEARING_FIRM, 'A', "ClearingFirm"),
};

static const struct field modify_order[] = {
    FIXED(MODIFY_ORDER, CL_ORD_ID, 'I', "ClOrdID"),
    FIXED(MODIFY_ORDER, ORIG_CL_ORD_ID, 'I', "OrigClOrdID"),
    FIELD(MODIFY_ORDER, CLEARING_FIRM, 'A', "ClearingFirm"),
    FIELD(MODIFY_ORDER, ORDER_QTY, 'B', "OrderQty"),
    FIELD(MODIFY_ORDER, PRICE, 'P', "Price"),
    FIELD(MODIFY_ORDER, ORD_TYPE, 'N', "OrdType"),
    FIELD(MODIFY_ORDER, CANCEL_ORIG_ON_REJECT, 'A', "CancelOrigOnReject"),
    FIELD(MODIFY_ORDER, EXEC_INST, 'T', "ExecInst"),
    FIELD(MODIFY_ORDER, SIDE, 'N', "Side"),
    FIELD(MODIFY_ORDER, MAX_FLOOR, 'B', "MaxFloor"),
    FIELD(MODIFY_ORDER, STOP_PX, 'P', "StopPx"),
    FIELD(MODIFY_ORDER, LOCATE_BROKER, 'A', "LocateBroker"),
};

static const struct field purge_orders[] = {
    RESERVED(PURGE_ORDERS, 10),
    FIXED(PURGE_ORDERS, RISK_GROUP_ID_CNT, 'B', "RiskGroupIDCnt"),
    FIELD(PURGE_ORDERS, CLEARING_FIRM, 'A', "ClearingFirm"),
    FIELD(PURGE_ORDERS, MASS_CANCEL_INST, 'T', "MassCancelInst"),
    FIELD(PURGE_ORDERS, MASS_CANCEL_ID, 'T', "MassCancelID"),
    FIELD(PURGE_ORDERS, SYMBOL, 'N', "Symbol"),
    FIELD(PURGE_ORDERS, SYMBOL_SFX, 'N', "SymbolSfx"),
    FIELD(PURGE_ORDERS, MATCHING_UNIT, 'B', "MatchingUnit"),
};

static const struct field acknowledgment[] = {
    FIXED(ACKNOWLEDGMENT, TRANSACTION_TIME, 'B', "TransactionTime"),
    FIXED(ACKNOWLEDGMENT, CL_ORD_ID, 'I', "ClOrdID"),
    FIXED(ACKNOWLEDGMENT, ORDER_ID, 'B', "OrderID"),
    RESERVED(ACKNOWLEDGMENT, 46),
    VENUE_FIELDS(ACKNOWLEDGMENT),
    FIELD(ACKNOWLEDGMENT, LEAVES_QTY, 'B', "LeavesQty"),
    FIELD(ACKNOWLEDGMENT, LAST_SHARES, 'B', "LastShares"),
    FIELD(ACKNOWLEDGMENT, LAST_PX, 'P', "LastPx"),
    FIELD(ACKNOWLEDGMENT, EXPIRE_TIME, 'B', "ExpireTime"),
};

static const struct field execution[] = {
    FIXED(EXECUTION, TRANSACTION_TIME, 'B', "TransactionTime"),
    FIXED(EXECUTION, CL_ORD_ID, 'I', "ClOrdID"),
    FIXED(EXECUTION, EXEC_ID, 'B', "ExecID"),
    FIXED(EXECUTION, LAST_SHARES, 'B', "LastShares"),
    FIXED(EXECUTION, LAST_PX, 'P', "LastPx"),
    FIXED(EXECUTION, LEAVES_QTY, 'B', "LeavesQty"),
    FIXED(EXECUTION, BASE_LIQUIDITY_INDICATOR, 'N', "BaseLiquidityIndicator"),
    FIXED(EXECUTION, SUB_LIQUIDITY_INDICATOR, 'N', "SubLiquidityIndicator"),
    FIXED(EXECUTION, CONTRA_BROKER, 'N', "ContraBroker"),
    RESERVED(EXECUTION, 68),
    VENUE_FIELDS(EXECUTION),
};

static const struct field rejection[] = {
    REJECTED(REJECTION, ORDER_REJECT_REASON, "OrderRejectReason"),
    REJECTION_FIELDS(REJECTION),
    FIELD(REJECTION, ACCOUNT, 'T', "Account"),
    FIELD(REJECTION, CLEARING_FIRM, 'A', "ClearingFirm"),
    FIELD(REJECTION, CLEARING_ACCOUNT, 'T', "ClearingAccount"),
    FIELD(REJECTION, DISPLAY_INDICATOR, 'N', "DisplayIndicator"),
    FIELD(REJECTION, MAX_FLOOR, 'B', "MaxFloor"),
    FIELD(REJECTION, DISCRETION_AMOUNT, 'B', "DiscretionAmount"),
    FIELD(REJECTION, ORDER_QTY, 'B', "OrderQty"),
    FIELD(REJECTION, PREVENT_MATCH, 'N', "PreventMatch"),
    FIELD(REJECTION, SECONDARY_ORDER_ID, 'B', "SecondaryOrderID"),
    FIELD(REJECTION, ATTRIBUTED_QUOTE, 'N', "AttributedQuote"),
    FIELD(REJECTION, EXT_EXEC_INST, 'T', "ExtExecInst"),
    FIELD(REJECTION, ECHO_TEXT, 'T', "EchoText"),
    FIELD(REJECTION, STOP_PX, 'P', "StopPx"),
    FIELD(REJECTION, ROUTING_INST, 'T', "RoutingInst"),
    FIELD(REJECTION, ROUT_STRATEGY, 'T', "RoutStrategy"),
    FIELD(REJECTION, ROUTE_DELIVERY_METHOD, 'T', "RouteDeliveryMethod"),
    FIELD(REJECTION, EX_DESTINATION, 'T', "ExDestination"),
};

static const struct field cancel_rejection[] = {
    REJECTED(CANCEL_REJECTION, CANCEL_REJECT_REASON, "CancelRejectReason"),
    REJECTION_FIELDS(CANCEL_REJECTION),
    FIELD(CANCEL_REJECTION, ECHO_TEXT, 'T', "EchoText"),
    FIELD(CANCEL_REJECTION, STOP_PX, 'P', "StopPx"),
};

static const struct field modify_rejection[] = {REJECTED(MODIFY_REJECTION, MODIFY_REJECT_REASON, "ModifyRejectReason")};

static const struct field login_request[] = {
    FIXED(LOGIN_REQUEST, SESSION_SUB_ID, 'N', "SessionSubID"),
    FIXED(LOGIN_REQUEST, USERNAME, 'N', "Username"),
    FIXED(LOGIN_REQUEST, PASSWORD, 'N', "Password"),
    FIXED(LOGIN_REQUEST, NUMBER_OF_GROUPS, 'B', "NumberOfParamGroups"),
};

static const struct field login_response[] = {
    FIXED(LOGIN_RESPONSE, STATUS, 'N', "LoginResponseStatus"),
    FIXED(LOGIN_RESPONSE, TEXT, 'T', "LoginResponseText"),
    FIXED(LOGIN_RESPONSE, FLAG, 'B', "NoUnspecifiedUnitReplay"),
    FIXED(LOGIN_RESPONSE, LAST_RECEIVED_NUMBER, 'B', "LastReceivedSequenceNumber"),
    FIXED(LOGIN_RESPONSE, NUMBER_OF_UNITS, 'B', "NumberOfUnits"),
};

/* LogoutReason may also be an exclamation mark */
static const struct field logout[] = {
    FIXED(LOGOUT, REASON, 'N', "LogoutReason"),
    FIXED(LOGOUT, TEXT, 'T', "LogoutReasonText"),
    FIXED(LOGOUT, LAST_RECEIVED_NUMBER, 'B', "LastReceivedSequenceNumber"),
    FIXED(LOGOUT, NUMBER_OF_UNITS, 'B', "NumberOfUnits"),
};

/* The messages: the type of the record, the place of the count byte, the names of message and bitfields, and the fields. */
static const struct message {
    uint8_t type, count_place;
    const char *name, *bitfields;
    const struct field *fields;
    size_t count;
} messages[] = {
#define MESSAGE(type, count_place, name, bitfields, fields) {BOE_##type, count_place, name, bitfields, fields, sizeof fields / sizeof *fields}
    MESSAGE(NEW_ORDER, 35, "New Order", "NewOrder", new_order),
    MESSAGE(OPTIONS_NEW_ORDER, 35, "Options New Order", "NewOrder", options_new_order),
    MESSAGE(CANCEL_ORDER, 30, "Cancel Order", "CancelOrder", cancel_order),
    MESSAGE(MODIFY_ORDER, 50, "Modify Order", "ModifyOrder", modify_order),
    MESSAGE(PURGE_ORDERS, 11, "Purge Orders", "PurgeOrders", purge_orders),
    MESSAGE(ACKNOWLEDGMENT, 47, "Order Acknowledgment", "Return", acknowledgment),
    MESSAGE(EXECUTION, 69, "Order Execution", "Return", execution),
    MESSAGE(REJECTION, 100, "Order Rejected", "Return", rejection),
    MESSAGE(CANCEL_REJECTION, 100, "Cancel Rejected", "Return", cancel_rejection),
    MESSAGE(MODIFY_REJECTION, 100, "User Modify Rejected", "Return", modify_rejection),
    MESSAGE(LOGIN_REQUEST, 0, "Login Request", "", login_request),
    MESSAGE(LOGIN_RESPONSE, 0, "Login Response", "", login_response),
    MESSAGE(LOGOUT, 0, "Logout", "", logout),
    {BOE_CLIENT_HEARTBEAT, 0, "Client Heartbeat", "", NULL, 0},
    {BOE_SERVER_HEARTBEAT, 0, "Server Heartbeat", "", NULL, 0},
    {BOE_REPLAY_COMPLETE, 0, "Replay Complete", "", NULL, 0},
};

/* ---- questions about the table */

/* The message of a type of record; NULL where there is none. */
static const struct message *message_of(uint8_t type) {
    for (size_t i = 0; i < sizeof messages / sizeof *messages; i++)
        if (messages[i].type == type) return &messages[i];
    return NULL;
}

const struct field *fields_of(uint8_t type, size_t *count) {
    const struct message *message = message_of(type);
    *count = message ? message->count : 0;
    return message ? message->fields : NULL;
}

const struct field *field_named(uint8_t type, const char *name) {
    size_t count;
    const struct field *fields = fields_of(type, &count);
    for (size_t i = 0; i < count; i++)
        if (strcasecmp(fields[i].name, name) == 0) return &fields[i];
    return NULL;
}

const char *type_name(uint8_t type) {
    const struct message *message = message_of(type);
    return message ? message->name : "unknown";
}

const char *bitfields_name(uint8_t type) {
    const struct message *message = message_of(type);
    return message ? message->bitfields : "";
}

uint8_t record_type(uint8_t direction, uint8_t type) {
    return direction == BOE_FROM_OPTIONS_MEMBER && type == BOE_NEW_ORDER ? BOE_OPTIONS_NEW_ORDER : type;
}

unsigned count_place(uint8_t type) {
    const struct message *message = message_of(type);
    return message ? message->count_place : 0;
}

/* ---- places */

bool has_field(const struct boe_record *record, const struct field *field) { return boe_has_field(record, field->where); }

/* Whether a field is RiskGroupIDCnt, which the record has in its fixed part, and the message behind the bitfields. */
static bool is_id_count(const struct boe_field *where) {
    return where->type == BOE_PURGE_ORDERS && where->at == BOE_PURGE_ORDERS_RISK_GROUP_ID_CNT_AT;
}

/* The optional fields stand one after the other behind the bitfields, and in a Purge Orders behind the RiskGroupIDs, in the order of the table. */
unsigned field_place(const struct boe_record *record, const struct field *field) {
    const struct boe_field *where = &field->where;
    if (where->byte == 0 && !is_id_count(where)) return where->at + FURTHER;
    unsigned place = count_place(where->type) + 1u + record->bytes[BOE_RECORD_COUNT_AT];
    if (is_id_count(where)) return place;
    if (where->type == BOE_PURGE_ORDERS) place += 1u + BOE_RISK_GROUP_ID_LEN * record->bytes[BOE_PURGE_ORDERS_RISK_GROUP_ID_CNT_AT];
    size_t count;
    const struct field *fields = fields_of(where->type, &count);
    for (size_t i = 0; i < count && fields[i].where.at != where->at; i++)
        if (fields[i].where.byte != 0 && has_field(record, &fields[i])) place += fields[i].where.len;
    return place;
}

/* ---- values as text */

/* Whether the fields of a kind are texts; the others are numbers. */
static bool is_text(char kind) { return kind == 'A' || kind == 'N' || kind == 'T' || kind == 'I'; }

void price_text(int64_t price, char text[24]) {
    uint64_t amount = price < 0 ? 0 - (uint64_t)price : (uint64_t)price;
    snprintf(text, 24, "%s%" PRIu64 ".%04u", price < 0 ? "-" : "", amount / 10000, (unsigned)(amount % 10000));
}

void time_text(uint64_t nanoseconds, char text[40]) {
    time_t seconds = (time_t)(nanoseconds / 1000000000);
    struct tm parts;
    gmtime_r(&seconds, &parts);
    size_t length = strftime(text, 40, "%Y-%m-%dT%H:%M:%S", &parts);
    snprintf(text + length, 40 - length, ".%09uZ", (unsigned)(nanoseconds % 1000000000));
}

/* Prints a character of a text. */
static void print_character(FILE *to, uint8_t c, bool quoted) {
    bool plain = c >= 32 && c <= 126;
    if (!quoted)
        fputc(plain ? c : '?', to);
    else if (!plain)
        fprintf(to, "\\u%04x", c);
    else
        fprintf(to, c == '"' || c == '\\' ? "\\%c" : "%c", c);
}

/* Prints the characters of a text field, and - where it is blank and not quoted. */
static void print_text(FILE *to, const uint8_t *text, size_t length, bool quoted) {
    bool blank = true;
    if (quoted) fputc('"', to);
    for (size_t i = 0; i < length; i++) {
        if (text[i] == 0) continue;
        print_character(to, text[i], quoted);
        blank = false;
    }
    if (quoted) fputc('"', to);
    else if (blank) fputc('-', to);
}

void print_value(FILE *to, const struct boe_record *record, const struct field *field, bool quoted) {
    char text[24];
    if (is_text(field->kind)) {
        print_text(to, record->bytes + field->where.at, field->where.len, quoted);
    } else if (field->kind == 'P') {
        price_text((int64_t)boe_number_of(record, field->where), text);
        fprintf(to, quoted ? "\"%s\"" : "%s", text);
    } else {
        fprintf(to, quoted && field->where.len == 8 ? "\"%" PRIu64 "\"" : "%" PRIu64, boe_number_of(record, field->where));
    }
}

void print_json_fields(FILE *to, const struct boe_record *record) {
    size_t count;
    const struct field *fields = fields_of(record->bytes[BOE_RECORD_TYPE_AT], &count);
    for (size_t i = 0; i < count; i++) {
        if (fields[i].kind == 'R' || !has_field(record, &fields[i])) continue;
        fprintf(to, ",\"%s\":", fields[i].name);
        print_value(to, record, &fields[i], true);
    }
}

/* ---- text as values */

/* Appends a decimal digit to a number that stays at most `most`, which is 9 or more: whether it is one and does. */
static bool append_digit(uint64_t *number, char c, uint64_t most) {
    if (c < '0' || c > '9') return false;
    unsigned digit = (unsigned)(c - '0');
    if (*number > (most - digit) / 10) return false;
    *number = 10 * *number + digit;
    return true;
}

/* The number of a text of digits that so many bytes hold: whether it is one. */
static bool number_in(const char *text, unsigned bytes, uint64_t *number) {
    uint64_t most = bytes < 8 ? ((uint64_t)1 << 8 * bytes) - 1 : UINT64_MAX;
    *number = 0;
    if (*text == 0) return false;
    for (; *text; text++)
        if (!append_digit(number, *text, most)) return false;
    return true;
}

/* The price of a text in ten-thousandths, a negative one as two's complement: whether it is one. A point has digits on both sides, up to four behind
 * it. */
static bool price_in(const char *text, uint64_t *price) {
    bool negative = *text == '-', point = false;
    uint64_t most = (uint64_t)INT64_MAX + negative, amount = 0;
    unsigned digits = 0, decimals = 0;
    for (text += negative; *text; text++) {
        if (*text == '.' && digits > 0 && !point) {
            point = true;
            continue;
        }
        if (!append_digit(&amount, *text, most)) return false;
        digits++;
        decimals += point;
    }
    if (digits == 0 || decimals > 4 || (point && decimals == 0)) return false;
    for (; decimals < 4; decimals++)
        if (!append_digit(&amount, '0', most)) return false;
    *price = negative ? 0 - amount : amount;
    return true;
}

bool set_value(struct boe_record *record, const struct field *field, const char *text) {
    uint64_t value = 0;
    if (is_text(field->kind)) return boe_set_text(record, field->where, text);
    if (field->kind == 'P' ? !price_in(text, &value) : !number_in(text, field->where.len, &value)) return false;
    return boe_set_number(record, field->where, value);
}
