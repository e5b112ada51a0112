/* What the bench venue answers to orders: its --help has the rules in words. */
#define _XOPEN_SOURCE 700
#include "venue_rules.h"

#include "fill.h"
#include "tell.h"

#include <string.h>
#include <time.h>

enum { SMALLEST = 10, PART = 100, PARTS_MOST = 3, PRICE_OF_NONE = 100000 };

/* A New Order of either market, as far as the rules look at it. */
struct new_order {
    char cl_ord_id[BOE_NEW_ORDER_CL_ORD_ID_LEN + 1], symbol[BOE_NEW_ORDER_SYMBOL_LEN + 1], side, capacity;
    uint32_t quantity;
    bool priced;
    int64_t price;
};

/* Gets a field of a New Order of either market. */
#define EITHER(field, to) (boe_new_order_get_##field(record, to) || boe_options_new_order_get_##field(record, to))

/* Takes a New Order from its record: whether it is one. */
static bool is_new_order(const struct boe_record *record, struct new_order *order) {
    order->priced = EITHER(price, &order->price);
    return EITHER(cl_ord_id, order->cl_ord_id) && EITHER(symbol, order->symbol) && EITHER(side, &order->side) && EITHER(capacity, &order->capacity) &&
           EITHER(order_qty, &order->quantity);
}

/* Nanoseconds since 1970. */
static uint64_t time_now(void) {
    struct timespec now;
    clock_gettime(CLOCK_REALTIME, &now);
    return (uint64_t)now.tv_sec * 1000000000 + (uint64_t)now.tv_nsec;
}

/* The unit of a symbol. */
static uint8_t unit_of(const char *symbol, unsigned units) {
    unsigned sum = 0;
    for (; *symbol; symbol++) sum += (uint8_t)*symbol;
    return (uint8_t)(1 + sum % units);
}

/* Logs a record as the next of a unit: false where the log is full. */
static bool log_next(struct venue_log *log, uint8_t unit, struct boe_record *record) {
    uint8_t out[BOE_MESSAGE_MOST_BYTES];
    set_unit(record, unit, log_number(log, unit) + 1);
    return log_message(log, out, written(record, out));
}

/* Logs an acknowledgment: false where the log is full. OrderID counts the log's messages, so that no start gives one twice. */
static bool acknowledge(struct venue_log *log, uint8_t unit, const struct new_order *order) {
    struct boe_record record = boe_blank_record(BOE_ACKNOWLEDGMENT);
    boe_acknowledgment_set_transaction_time(&record, time_now());
    boe_acknowledgment_set_cl_ord_id(&record, order->cl_ord_id);
    boe_acknowledgment_set_order_id(&record, log->messages + 1);
    boe_acknowledgment_set_side(&record, order->side);
    if (order->priced) boe_acknowledgment_set_price(&record, order->price);
    boe_acknowledgment_set_symbol(&record, order->symbol);
    boe_acknowledgment_set_capacity(&record, order->capacity);
    boe_acknowledgment_set_order_qty(&record, order->quantity);
    boe_acknowledgment_set_leaves_qty(&record, order->quantity);
    return log_next(log, unit, &record);
}

/* Logs the execution of a part, after which so many are left open. ExecID counts as OrderID does. */
static void execute(struct venue_log *log, uint8_t unit, const struct new_order *order, uint32_t left) {
    struct boe_record record = boe_blank_record(BOE_EXECUTION);
    boe_execution_set_transaction_time(&record, time_now());
    boe_execution_set_cl_ord_id(&record, order->cl_ord_id);
    boe_execution_set_exec_id(&record, log->messages + 1);
    boe_execution_set_last_shares(&record, PART);
    boe_execution_set_last_px(&record, order->priced ? order->price : PRICE_OF_NONE);
    boe_execution_set_leaves_qty(&record, left);
    boe_execution_set_base_liquidity_indicator(&record, 'A');
    boe_execution_set_contra_broker(&record, "TEST");
    boe_execution_set_side(&record, order->side);
    boe_execution_set_symbol(&record, order->symbol);
    boe_execution_set_order_qty(&record, order->quantity);
    log_next(log, unit, &record);
}

/* A rejection of one of the three types, which have these fields at the same places. */
static size_t reject(uint8_t type, const char *cl_ord_id, char reason, const char *text, uint8_t *out) {
    struct boe_record record = boe_blank_record(type);
    const struct boe_field time = {type, BOE_REJECTION_TRANSACTION_TIME_AT, BOE_REJECTION_TRANSACTION_TIME_LEN, 0, 0};
    const struct boe_field name = {type, BOE_REJECTION_CL_ORD_ID_AT, BOE_REJECTION_CL_ORD_ID_LEN, 0, 0};
    const struct boe_field words = {type, BOE_REJECTION_TEXT_AT, BOE_REJECTION_TEXT_LEN, 0, 0};
    boe_set_number(&record, time, time_now());
    boe_set_text(&record, name, cl_ord_id);
    record.bytes[BOE_REJECTION_ORDER_REJECT_REASON_AT] = (uint8_t)reason;
    boe_set_text(&record, words, text);
    tell("rejected %02X %s %c", type, cl_ord_id, reason);
    return written(&record, out);
}

/* Answers a New Order: a rejection's length, or 0 where it is acknowledged. */
static size_t answer_new(struct venue_log *log, unsigned units, const struct new_order *order, uint8_t *out) {
    uint8_t unit = unit_of(order->symbol, units);
    if (order->quantity < SMALLEST) return reject(BOE_REJECTION, order->cl_ord_id, 'A', "OrderQty is under 10", out);
    if (!acknowledge(log, unit, order)) return reject(BOE_REJECTION, order->cl_ord_id, 'Z', "the log is full", out);
    for (uint32_t part = 1; part <= PARTS_MOST && PART * part <= order->quantity; part++) execute(log, unit, order, order->quantity - PART * part);
    return 0;
}

void order_name(const struct boe_record *order, char name[21]) {
    if (boe_new_order_get_cl_ord_id(order, name) || boe_options_new_order_get_cl_ord_id(order, name) || boe_modify_order_get_cl_ord_id(order, name) ||
        boe_cancel_order_get_orig_cl_ord_id(order, name) || (boe_purge_orders_get_mass_cancel_id(order, name) && *name))
        return;
    strcpy(name, "-");
}

size_t answer_order(struct venue_log *log, unsigned units, const struct boe_record *order, uint8_t *out) {
    static const char none[] = "no order is open here";
    struct new_order new;
    char name[21];
    order_name(order, name);
    if (is_new_order(order, &new)) return answer_new(log, units, &new, out);
    if (boe_is_of_type(order, BOE_CANCEL_ORDER)) return reject(BOE_CANCEL_REJECTION, name, 'O', none, out);
    if (boe_is_of_type(order, BOE_MODIFY_ORDER)) return reject(BOE_MODIFY_REJECTION, name, 'O', none, out);
    return 0;
}
