/* The fields of a record by name. boe.h includes this file, and a program includes boe.h.
 *
 * Each line in the second half of this file defines a field's setter and its getter. Of New Order's Price and Symbol they are
 *
 *   bool boe_new_order_set_price(struct boe_record *record, int64_t value);
 *   bool boe_new_order_get_price(const struct boe_record *record, int64_t *value);
 *   bool boe_new_order_set_symbol(struct boe_record *record, const char *text);
 *   bool boe_new_order_get_symbol(const struct boe_record *record, char text[BOE_NEW_ORDER_SYMBOL_LEN + 1]);
 *
 * A setter puts the value at its place. Of an optional field it also sets the bit, and raises the count of bitfields to the bit's byte where it was
 * less; the bitfields after the old count are not cleared, and are zero in a blank record and in one that boe_read made. It answers true; false, and
 * nothing is changed, where the record is of another type or the text is longer than the field. It does not judge the value: boe_write does.
 *
 * A getter answers true, and the value, where the record is of the type and has the field selected; a fixed field always is. Otherwise it answers
 * false, and the value is as it was.
 *
 * A price is an int64_t in ten-thousandths, any other number unsigned and of the field's width, a text of one character a char. A longer text is
 * set up to its NUL, and the field filled with NULs; it is got with a NUL after it.
 *
 * Of the session messages the fixed fields have names; pairs and groups have none. Their counts, group_count and unit_count, are read only. */
#ifndef BOE_FIELDS_H
#define BOE_FIELDS_H

/* A record to begin with: zeros and the type. */
static inline struct boe_record boe_blank_record(uint8_t type) {
    struct boe_record record = {{0}};
    record.bytes[BOE_RECORD_TYPE_AT] = type;
    return record;
}

/* What a getter answers is to be looked at. */
#if defined(__GNUC__) || defined(__clang__)
#define BOE_LOOK_AT __attribute__((warn_unused_result))
#else
#define BOE_LOOK_AT
#endif

/* ---- any field: these are for the functions below, which have the right place, width and type */

/* A field of the records of a type: its place and width; of an optional one also its bitfield byte, counted from 1, and its bit. A fixed one has 0
 * for both. */
struct boe_field {
    uint8_t type;
    uint16_t at;
    uint8_t len, byte, bit;
};

/* Whether a record is of a type. */
static inline bool boe_is_of_type(const struct boe_record *record, uint8_t type) { return record->bytes[BOE_RECORD_TYPE_AT] == type; }

/* Whether a record is of the field's type and has it selected. */
static inline bool boe_has_field(const struct boe_record *record, struct boe_field field) {
    if (!boe_is_of_type(record, field.type)) return false;
    if (field.byte == 0) return true;
    return field.byte <= record->bytes[BOE_RECORD_COUNT_AT] && (record->bytes[BOE_RECORD_BITFIELDS_AT + field.byte - 1] & field.bit) != 0;
}

/* Raises a count to a number where it was less. */
static inline void boe_raise(uint8_t *count, uint8_t number) {
    if (*count < number) *count = number;
}

/* Of an optional field the bit and the count. */
static inline void boe_select_field(struct boe_record *record, struct boe_field field) {
    if (field.byte == 0) return;
    record->bytes[BOE_RECORD_BITFIELDS_AT + field.byte - 1] |= field.bit;
    boe_raise(&record->bytes[BOE_RECORD_COUNT_AT], field.byte);
}

/* Puts a number, its lowest byte first. */
static inline bool boe_set_number(struct boe_record *record, struct boe_field field, uint64_t value) {
    if (!boe_is_of_type(record, field.type)) return false;
    for (unsigned i = 0; i < field.len; i++) record->bytes[field.at + i] = (uint8_t)(value >> (8 * i));
    boe_select_field(record, field);
    return true;
}

/* The number at a field's place. */
static inline uint64_t boe_number_of(const struct boe_record *record, struct boe_field field) {
    uint64_t value = 0;
    for (unsigned i = field.len; i > 0; i--) value = value << 8 | record->bytes[field.at + i - 1];
    return value;
}

/* Puts a text; of one that is too long no more is looked at than shows it. */
static inline bool boe_set_text(struct boe_record *record, struct boe_field field, const char *text) {
    unsigned length = 0;
    while (length <= field.len && text[length]) length++;
    if (length > field.len || !boe_is_of_type(record, field.type)) return false;
    for (unsigned i = 0; i < field.len; i++) record->bytes[field.at + i] = i < length ? (uint8_t)text[i] : 0;
    boe_select_field(record, field);
    return true;
}

/* Gets a text and a NUL. */
BOE_LOOK_AT static inline bool boe_get_text(const struct boe_record *record, struct boe_field field, char *text) {
    if (!boe_has_field(record, field)) return false;
    for (unsigned i = 0; i < field.len; i++) text[i] = (char)record->bytes[field.at + i];
    text[field.len] = 0;
    return true;
}

/* The functions of a field; each macro has, after the names, what struct boe_field has. */
#define BOE_NUMBER_SETTER(name, value_type, ...) \
    static inline bool name(struct boe_record *record, value_type value) { \
        const struct boe_field field = {__VA_ARGS__}; \
        return boe_set_number(record, field, (uint64_t)value); \
    }
#define BOE_NUMBER_GETTER(name, value_type, ...) \
    BOE_LOOK_AT static inline bool name(const struct boe_record *record, value_type *value) { \
        const struct boe_field field = {__VA_ARGS__}; \
        if (!boe_has_field(record, field)) return false; \
        *value = (value_type)boe_number_of(record, field); \
        return true; \
    }
#define BOE_TEXT_SETTER(name, ...) \
    static inline bool name(struct boe_record *record, const char *text) { \
        const struct boe_field field = {__VA_ARGS__}; \
        return boe_set_text(record, field, text); \
    }
#define BOE_TEXT_GETTER(name, length, ...) \
    BOE_LOOK_AT static inline bool name(const struct boe_record *record, char text[length + 1]) { \
        const struct boe_field field = {__VA_ARGS__}; \
        return boe_get_text(record, field, text); \
    }

/* A field by the prefix of its constants. */
#define BOE_FIXED_AT(type, prefix) type, prefix##_AT, prefix##_LEN, 0, 0
#define BOE_OPTIONAL_AT(type, prefix) type, prefix##_AT, prefix##_LEN, prefix##_BYTE, prefix##_BIT

/* A line for each field: a number or character with its type, or a text; and a number that is read only. */
#define BOE_FIXED(value_type, message, MESSAGE, field, FIELD) \
    BOE_NUMBER_SETTER(boe_##message##_set_##field, value_type, BOE_FIXED_AT(BOE_##MESSAGE, BOE_##MESSAGE##_##FIELD)) \
    BOE_NUMBER_GETTER(boe_##message##_get_##field, value_type, BOE_FIXED_AT(BOE_##MESSAGE, BOE_##MESSAGE##_##FIELD))
#define BOE_OPTIONAL(value_type, message, MESSAGE, field, FIELD) \
    BOE_NUMBER_SETTER(boe_##message##_set_##field, value_type, BOE_OPTIONAL_AT(BOE_##MESSAGE, BOE_##MESSAGE##_##FIELD)) \
    BOE_NUMBER_GETTER(boe_##message##_get_##field, value_type, BOE_OPTIONAL_AT(BOE_##MESSAGE, BOE_##MESSAGE##_##FIELD))
#define BOE_FIXED_TEXT(message, MESSAGE, field, FIELD) \
    BOE_TEXT_SETTER(boe_##message##_set_##field, BOE_FIXED_AT(BOE_##MESSAGE, BOE_##MESSAGE##_##FIELD)) \
    BOE_TEXT_GETTER(boe_##message##_get_##field, BOE_##MESSAGE##_##FIELD##_LEN, BOE_FIXED_AT(BOE_##MESSAGE, BOE_##MESSAGE##_##FIELD))
#define BOE_OPTIONAL_TEXT(message, MESSAGE, field, FIELD) \
    BOE_TEXT_SETTER(boe_##message##_set_##field, BOE_OPTIONAL_AT(BOE_##MESSAGE, BOE_##MESSAGE##_##FIELD)) \
    BOE_TEXT_GETTER(boe_##message##_get_##field, BOE_##MESSAGE##_##FIELD##_LEN, BOE_OPTIONAL_AT(BOE_##MESSAGE, BOE_##MESSAGE##_##FIELD))
#define BOE_READ_ONLY(value_type, message, MESSAGE, field, FIELD) \
    BOE_NUMBER_GETTER(boe_##message##_get_##field, value_type, BOE_FIXED_AT(BOE_##MESSAGE, BOE_##MESSAGE##_##FIELD))

/* ---- the fields of each message, in their order */

/* New Order */
BOE_FIXED_TEXT(new_order, NEW_ORDER, cl_ord_id, CL_ORD_ID)
BOE_FIXED(char, new_order, NEW_ORDER, side, SIDE)
BOE_FIXED(uint32_t, new_order, NEW_ORDER, order_qty, ORDER_QTY)
BOE_OPTIONAL_TEXT(new_order, NEW_ORDER, clearing_firm, CLEARING_FIRM)
BOE_OPTIONAL_TEXT(new_order, NEW_ORDER, clearing_account, CLEARING_ACCOUNT)
BOE_OPTIONAL(int64_t, new_order, NEW_ORDER, price, PRICE)
BOE_OPTIONAL(char, new_order, NEW_ORDER, exec_inst, EXEC_INST)
BOE_OPTIONAL(char, new_order, NEW_ORDER, ord_type, ORD_TYPE)
BOE_OPTIONAL(char, new_order, NEW_ORDER, time_in_force, TIME_IN_FORCE)
BOE_OPTIONAL(uint32_t, new_order, NEW_ORDER, min_qty, MIN_QTY)
BOE_OPTIONAL(uint32_t, new_order, NEW_ORDER, max_floor, MAX_FLOOR)
BOE_OPTIONAL_TEXT(new_order, NEW_ORDER, symbol, SYMBOL)
BOE_OPTIONAL_TEXT(new_order, NEW_ORDER, symbol_sfx, SYMBOL_SFX)
BOE_OPTIONAL(char, new_order, NEW_ORDER, capacity, CAPACITY)
BOE_OPTIONAL_TEXT(new_order, NEW_ORDER, routing_inst, ROUTING_INST)
BOE_OPTIONAL_TEXT(new_order, NEW_ORDER, account, ACCOUNT)
BOE_OPTIONAL(char, new_order, NEW_ORDER, locate_reqd, LOCATE_REQD)
BOE_OPTIONAL(uint64_t, new_order, NEW_ORDER, expire_time, EXPIRE_TIME)
BOE_OPTIONAL(uint32_t, new_order, NEW_ORDER, display_range, DISPLAY_RANGE)
BOE_OPTIONAL(int64_t, new_order, NEW_ORDER, stop_px, STOP_PX)
BOE_OPTIONAL(char, new_order, NEW_ORDER, ex_destination, EX_DESTINATION)
BOE_OPTIONAL_TEXT(new_order, NEW_ORDER, echo_text, ECHO_TEXT)
BOE_OPTIONAL_TEXT(new_order, NEW_ORDER, locate_broker, LOCATE_BROKER)

/* Options New Order */
BOE_FIXED_TEXT(options_new_order, OPTIONS_NEW_ORDER, cl_ord_id, CL_ORD_ID)
BOE_FIXED(char, options_new_order, OPTIONS_NEW_ORDER, side, SIDE)
BOE_FIXED(uint32_t, options_new_order, OPTIONS_NEW_ORDER, order_qty, ORDER_QTY)
BOE_OPTIONAL_TEXT(options_new_order, OPTIONS_NEW_ORDER, clearing_firm, CLEARING_FIRM)
BOE_OPTIONAL_TEXT(options_new_order, OPTIONS_NEW_ORDER, clearing_account, CLEARING_ACCOUNT)
BOE_OPTIONAL(int64_t, options_new_order, OPTIONS_NEW_ORDER, price, PRICE)
BOE_OPTIONAL(char, options_new_order, OPTIONS_NEW_ORDER, exec_inst, EXEC_INST)
BOE_OPTIONAL(char, options_new_order, OPTIONS_NEW_ORDER, ord_type, ORD_TYPE)
BOE_OPTIONAL(char, options_new_order, OPTIONS_NEW_ORDER, time_in_force, TIME_IN_FORCE)
BOE_OPTIONAL(uint32_t, options_new_order, OPTIONS_NEW_ORDER, min_qty, MIN_QTY)
BOE_OPTIONAL(uint32_t, options_new_order, OPTIONS_NEW_ORDER, max_floor, MAX_FLOOR)
BOE_OPTIONAL_TEXT(options_new_order, OPTIONS_NEW_ORDER, symbol, SYMBOL)
BOE_OPTIONAL(char, options_new_order, OPTIONS_NEW_ORDER, capacity, CAPACITY)
BOE_OPTIONAL_TEXT(options_new_order, OPTIONS_NEW_ORDER, routing_inst, ROUTING_INST)
BOE_OPTIONAL_TEXT(options_new_order, OPTIONS_NEW_ORDER, account, ACCOUNT)
BOE_OPTIONAL(uint32_t, options_new_order, OPTIONS_NEW_ORDER, maturity_date, MATURITY_DATE)
BOE_OPTIONAL(int64_t, options_new_order, OPTIONS_NEW_ORDER, strike_price, STRIKE_PRICE)
BOE_OPTIONAL(char, options_new_order, OPTIONS_NEW_ORDER, put_or_call, PUT_OR_CALL)
BOE_OPTIONAL(char, options_new_order, OPTIONS_NEW_ORDER, open_close, OPEN_CLOSE)

/* Cancel Order */
BOE_FIXED_TEXT(cancel_order, CANCEL_ORDER, orig_cl_ord_id, ORIG_CL_ORD_ID)
BOE_OPTIONAL_TEXT(cancel_order, CANCEL_ORDER, clearing_firm, CLEARING_FIRM)

/* Modify Order */
BOE_FIXED_TEXT(modify_order, MODIFY_ORDER, cl_ord_id, CL_ORD_ID)
BOE_FIXED_TEXT(modify_order, MODIFY_ORDER, orig_cl_ord_id, ORIG_CL_ORD_ID)
BOE_OPTIONAL_TEXT(modify_order, MODIFY_ORDER, clearing_firm, CLEARING_FIRM)
BOE_OPTIONAL(uint32_t, modify_order, MODIFY_ORDER, order_qty, ORDER_QTY)
BOE_OPTIONAL(int64_t, modify_order, MODIFY_ORDER, price, PRICE)
BOE_OPTIONAL(char, modify_order, MODIFY_ORDER, ord_type, ORD_TYPE)
BOE_OPTIONAL(char, modify_order, MODIFY_ORDER, cancel_orig_on_reject, CANCEL_ORIG_ON_REJECT)
BOE_OPTIONAL(char, modify_order, MODIFY_ORDER, exec_inst, EXEC_INST)
BOE_OPTIONAL(char, modify_order, MODIFY_ORDER, side, SIDE)
BOE_OPTIONAL(uint32_t, modify_order, MODIFY_ORDER, max_floor, MAX_FLOOR)
BOE_OPTIONAL(int64_t, modify_order, MODIFY_ORDER, stop_px, STOP_PX)
BOE_OPTIONAL_TEXT(modify_order, MODIFY_ORDER, locate_broker, LOCATE_BROKER)

/* Purge Orders */
BOE_FIXED(uint8_t, purge_orders, PURGE_ORDERS, risk_group_id_cnt, RISK_GROUP_ID_CNT)
BOE_OPTIONAL_TEXT(purge_orders, PURGE_ORDERS, clearing_firm, CLEARING_FIRM)
BOE_OPTIONAL_TEXT(purge_orders, PURGE_ORDERS, mass_cancel_inst, MASS_CANCEL_INST)
BOE_OPTIONAL_TEXT(purge_orders, PURGE_ORDERS, mass_cancel_id, MASS_CANCEL_ID)
BOE_OPTIONAL_TEXT(purge_orders, PURGE_ORDERS, symbol, SYMBOL)
BOE_OPTIONAL_TEXT(purge_orders, PURGE_ORDERS, symbol_sfx, SYMBOL_SFX)
BOE_OPTIONAL(uint8_t, purge_orders, PURGE_ORDERS, matching_unit, MATCHING_UNIT)

/* A RiskGroupID of a Purge Orders by its number i, from 0 to 9; any other is false. Setting one raises RiskGroupIDCnt to i + 1 where it was less. One
 * is got where i is under RiskGroupIDCnt. */
static inline struct boe_field boe_risk_group_id_field(unsigned i) {
    const uint16_t at = (uint16_t)(BOE_PURGE_ORDERS_RISK_GROUP_IDS_AT + BOE_RISK_GROUP_ID_LEN * i);
    const struct boe_field field = {BOE_PURGE_ORDERS, at, BOE_RISK_GROUP_ID_LEN, 0, 0};
    return field;
}

static inline bool boe_purge_orders_set_risk_group_id(struct boe_record *record, unsigned i, uint16_t value) {
    if (i >= BOE_RISK_GROUP_IDS_MOST || !boe_set_number(record, boe_risk_group_id_field(i), value)) return false;
    boe_raise(&record->bytes[BOE_PURGE_ORDERS_RISK_GROUP_ID_CNT_AT], (uint8_t)(i + 1));
    return true;
}

BOE_LOOK_AT static inline bool boe_purge_orders_get_risk_group_id(const struct boe_record *record, unsigned i, uint16_t *value) {
    uint8_t count;
    if (i >= BOE_RISK_GROUP_IDS_MOST || !boe_purge_orders_get_risk_group_id_cnt(record, &count) || i >= count) return false;
    *value = (uint16_t)boe_number_of(record, boe_risk_group_id_field(i));
    return true;
}

/* Order Acknowledgment */
BOE_FIXED(uint64_t, acknowledgment, ACKNOWLEDGMENT, transaction_time, TRANSACTION_TIME)
BOE_FIXED_TEXT(acknowledgment, ACKNOWLEDGMENT, cl_ord_id, CL_ORD_ID)
BOE_FIXED(uint64_t, acknowledgment, ACKNOWLEDGMENT, order_id, ORDER_ID)
BOE_OPTIONAL(char, acknowledgment, ACKNOWLEDGMENT, side, SIDE)
BOE_OPTIONAL(int64_t, acknowledgment, ACKNOWLEDGMENT, price, PRICE)
BOE_OPTIONAL(char, acknowledgment, ACKNOWLEDGMENT, exec_inst, EXEC_INST)
BOE_OPTIONAL(char, acknowledgment, ACKNOWLEDGMENT, ord_type, ORD_TYPE)
BOE_OPTIONAL(char, acknowledgment, ACKNOWLEDGMENT, time_in_force, TIME_IN_FORCE)
BOE_OPTIONAL(uint32_t, acknowledgment, ACKNOWLEDGMENT, min_qty, MIN_QTY)
BOE_OPTIONAL_TEXT(acknowledgment, ACKNOWLEDGMENT, symbol, SYMBOL)
BOE_OPTIONAL_TEXT(acknowledgment, ACKNOWLEDGMENT, symbol_sfx, SYMBOL_SFX)
BOE_OPTIONAL(char, acknowledgment, ACKNOWLEDGMENT, capacity, CAPACITY)
BOE_OPTIONAL_TEXT(acknowledgment, ACKNOWLEDGMENT, account, ACCOUNT)
BOE_OPTIONAL_TEXT(acknowledgment, ACKNOWLEDGMENT, clearing_firm, CLEARING_FIRM)
BOE_OPTIONAL_TEXT(acknowledgment, ACKNOWLEDGMENT, clearing_account, CLEARING_ACCOUNT)
BOE_OPTIONAL(uint32_t, acknowledgment, ACKNOWLEDGMENT, max_floor, MAX_FLOOR)
BOE_OPTIONAL(uint32_t, acknowledgment, ACKNOWLEDGMENT, order_qty, ORDER_QTY)
BOE_OPTIONAL(uint32_t, acknowledgment, ACKNOWLEDGMENT, leaves_qty, LEAVES_QTY)
BOE_OPTIONAL(uint32_t, acknowledgment, ACKNOWLEDGMENT, last_shares, LAST_SHARES)
BOE_OPTIONAL(int64_t, acknowledgment, ACKNOWLEDGMENT, last_px, LAST_PX)
BOE_OPTIONAL(uint64_t, acknowledgment, ACKNOWLEDGMENT, expire_time, EXPIRE_TIME)

/* Order Execution */
BOE_FIXED(uint64_t, execution, EXECUTION, transaction_time, TRANSACTION_TIME)
BOE_FIXED_TEXT(execution, EXECUTION, cl_ord_id, CL_ORD_ID)
BOE_FIXED(uint64_t, execution, EXECUTION, exec_id, EXEC_ID)
BOE_FIXED(uint32_t, execution, EXECUTION, last_shares, LAST_SHARES)
BOE_FIXED(int64_t, execution, EXECUTION, last_px, LAST_PX)
BOE_FIXED(uint32_t, execution, EXECUTION, leaves_qty, LEAVES_QTY)
BOE_FIXED(char, execution, EXECUTION, base_liquidity_indicator, BASE_LIQUIDITY_INDICATOR)
BOE_FIXED(char, execution, EXECUTION, sub_liquidity_indicator, SUB_LIQUIDITY_INDICATOR)
BOE_FIXED_TEXT(execution, EXECUTION, contra_broker, CONTRA_BROKER)
BOE_OPTIONAL(char, execution, EXECUTION, side, SIDE)
BOE_OPTIONAL(int64_t, execution, EXECUTION, price, PRICE)
BOE_OPTIONAL(char, execution, EXECUTION, exec_inst, EXEC_INST)
BOE_OPTIONAL(char, execution, EXECUTION, ord_type, ORD_TYPE)
BOE_OPTIONAL(char, execution, EXECUTION, time_in_force, TIME_IN_FORCE)
BOE_OPTIONAL(uint32_t, execution, EXECUTION, min_qty, MIN_QTY)
BOE_OPTIONAL_TEXT(execution, EXECUTION, symbol, SYMBOL)
BOE_OPTIONAL_TEXT(execution, EXECUTION, symbol_sfx, SYMBOL_SFX)
BOE_OPTIONAL(char, execution, EXECUTION, capacity, CAPACITY)
BOE_OPTIONAL_TEXT(execution, EXECUTION, account, ACCOUNT)
BOE_OPTIONAL_TEXT(execution, EXECUTION, clearing_firm, CLEARING_FIRM)
BOE_OPTIONAL_TEXT(execution, EXECUTION, clearing_account, CLEARING_ACCOUNT)
BOE_OPTIONAL(uint32_t, execution, EXECUTION, max_floor, MAX_FLOOR)
BOE_OPTIONAL(uint32_t, execution, EXECUTION, order_qty, ORDER_QTY)

/* Order Rejected */
BOE_FIXED(uint64_t, rejection, REJECTION, transaction_time, TRANSACTION_TIME)
BOE_FIXED_TEXT(rejection, REJECTION, cl_ord_id, CL_ORD_ID)
BOE_FIXED(char, rejection, REJECTION, order_reject_reason, ORDER_REJECT_REASON)
BOE_FIXED_TEXT(rejection, REJECTION, text, TEXT)
BOE_OPTIONAL(char, rejection, REJECTION, side, SIDE)
BOE_OPTIONAL(int64_t, rejection, REJECTION, peg_difference, PEG_DIFFERENCE)
BOE_OPTIONAL(int64_t, rejection, REJECTION, price, PRICE)
BOE_OPTIONAL(char, rejection, REJECTION, exec_inst, EXEC_INST)
BOE_OPTIONAL(char, rejection, REJECTION, ord_type, ORD_TYPE)
BOE_OPTIONAL(char, rejection, REJECTION, time_in_force, TIME_IN_FORCE)
BOE_OPTIONAL(uint32_t, rejection, REJECTION, min_qty, MIN_QTY)
BOE_OPTIONAL_TEXT(rejection, REJECTION, symbol, SYMBOL)
BOE_OPTIONAL_TEXT(rejection, REJECTION, symbol_sfx, SYMBOL_SFX)
BOE_OPTIONAL(char, rejection, REJECTION, capacity, CAPACITY)
BOE_OPTIONAL_TEXT(rejection, REJECTION, account, ACCOUNT)
BOE_OPTIONAL_TEXT(rejection, REJECTION, clearing_firm, CLEARING_FIRM)
BOE_OPTIONAL_TEXT(rejection, REJECTION, clearing_account, CLEARING_ACCOUNT)
BOE_OPTIONAL(char, rejection, REJECTION, display_indicator, DISPLAY_INDICATOR)
BOE_OPTIONAL(uint32_t, rejection, REJECTION, max_floor, MAX_FLOOR)
BOE_OPTIONAL(uint16_t, rejection, REJECTION, discretion_amount, DISCRETION_AMOUNT)
BOE_OPTIONAL(uint32_t, rejection, REJECTION, order_qty, ORDER_QTY)
BOE_OPTIONAL_TEXT(rejection, REJECTION, prevent_match, PREVENT_MATCH)
BOE_OPTIONAL(uint64_t, rejection, REJECTION, secondary_order_id, SECONDARY_ORDER_ID)
BOE_OPTIONAL(char, rejection, REJECTION, attributed_quote, ATTRIBUTED_QUOTE)
BOE_OPTIONAL(char, rejection, REJECTION, ext_exec_inst, EXT_EXEC_INST)
BOE_OPTIONAL_TEXT(rejection, REJECTION, echo_text, ECHO_TEXT)
BOE_OPTIONAL(int64_t, rejection, REJECTION, stop_px, STOP_PX)
BOE_OPTIONAL_TEXT(rejection, REJECTION, routing_inst, ROUTING_INST)
BOE_OPTIONAL_TEXT(rejection, REJECTION, rout_strategy, ROUT_STRATEGY)
BOE_OPTIONAL_TEXT(rejection, REJECTION, route_delivery_method, ROUTE_DELIVERY_METHOD)
BOE_OPTIONAL(char, rejection, REJECTION, ex_destination, EX_DESTINATION)

/* Cancel Rejected */
BOE_FIXED(uint64_t, cancel_rejection, CANCEL_REJECTION, transaction_time, TRANSACTION_TIME)
BOE_FIXED_TEXT(cancel_rejection, CANCEL_REJECTION, cl_ord_id, CL_ORD_ID)
BOE_FIXED(char, cancel_rejection, CANCEL_REJECTION, cancel_reject_reason, CANCEL_REJECT_REASON)
BOE_FIXED_TEXT(cancel_rejection, CANCEL_REJECTION, text, TEXT)
BOE_OPTIONAL(char, cancel_rejection, CANCEL_REJECTION, side, SIDE)
BOE_OPTIONAL(int64_t, cancel_rejection, CANCEL_REJECTION, peg_difference, PEG_DIFFERENCE)
BOE_OPTIONAL(int64_t, cancel_rejection, CANCEL_REJECTION, price, PRICE)
BOE_OPTIONAL(char, cancel_rejection, CANCEL_REJECTION, exec_inst, EXEC_INST)
BOE_OPTIONAL(char, cancel_rejection, CANCEL_REJECTION, ord_type, ORD_TYPE)
BOE_OPTIONAL(char, cancel_rejection, CANCEL_REJECTION, time_in_force, TIME_IN_FORCE)
BOE_OPTIONAL(uint32_t, cancel_rejection, CANCEL_REJECTION, min_qty, MIN_QTY)
BOE_OPTIONAL_TEXT(cancel_rejection, CANCEL_REJECTION, symbol, SYMBOL)
BOE_OPTIONAL_TEXT(cancel_rejection, CANCEL_REJECTION, symbol_sfx, SYMBOL_SFX)
BOE_OPTIONAL(char, cancel_rejection, CANCEL_REJECTION, capacity, CAPACITY)
BOE_OPTIONAL_TEXT(cancel_rejection, CANCEL_REJECTION, echo_text, ECHO_TEXT)
BOE_OPTIONAL(int64_t, cancel_rejection, CANCEL_REJECTION, stop_px, STOP_PX)

/* User Modify Rejected */
BOE_FIXED(uint64_t, modify_rejection, MODIFY_REJECTION, transaction_time, TRANSACTION_TIME)
BOE_FIXED_TEXT(modify_rejection, MODIFY_REJECTION, cl_ord_id, CL_ORD_ID)
BOE_FIXED(char, modify_rejection, MODIFY_REJECTION, modify_reject_reason, MODIFY_REJECT_REASON)
BOE_FIXED_TEXT(modify_rejection, MODIFY_REJECTION, text, TEXT)

/* Login Request */
BOE_FIXED_TEXT(login_request, LOGIN_REQUEST, session_sub_id, SESSION_SUB_ID)
BOE_FIXED_TEXT(login_request, LOGIN_REQUEST, username, USERNAME)
BOE_FIXED_TEXT(login_request, LOGIN_REQUEST, password, PASSWORD)
BOE_READ_ONLY(uint8_t, login_request, LOGIN_REQUEST, group_count, NUMBER_OF_GROUPS)

/* Login Response */
BOE_FIXED(char, login_response, LOGIN_RESPONSE, status, STATUS)
BOE_FIXED_TEXT(login_response, LOGIN_RESPONSE, text, TEXT)
BOE_FIXED(uint8_t, login_response, LOGIN_RESPONSE, flag, FLAG)
BOE_FIXED(uint32_t, login_response, LOGIN_RESPONSE, last_received, LAST_RECEIVED_NUMBER)
BOE_READ_ONLY(uint8_t, login_response, LOGIN_RESPONSE, unit_count, NUMBER_OF_UNITS)

/* Logout */
BOE_FIXED(char, logout, LOGOUT, reason, REASON)
BOE_FIXED_TEXT(logout, LOGOUT, text, TEXT)
BOE_FIXED(uint32_t, logout, LOGOUT, last_received, LAST_RECEIVED_NUMBER)
BOE_READ_ONLY(uint8_t, logout, LOGOUT, unit_count, NUMBER_OF_UNITS)

#undef BOE_LOOK_AT
#undef BOE_NUMBER_SETTER
#undef BOE_NUMBER_GETTER
#undef BOE_TEXT_SETTER
#undef BOE_TEXT_GETTER
#undef BOE_FIXED_AT
#undef BOE_OPTIONAL_AT
#undef BOE_FIXED
#undef BOE_OPTIONAL
#undef BOE_FIXED_TEXT
#undef BOE_OPTIONAL_TEXT
#undef BOE_READ_ONLY

#endif
