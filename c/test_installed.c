/* A program of somebody who has installed the library: c/test_install compiles it against the installed copy alone. It writes an order and reads it again,
 * opens a session and has its login written, and prints the version. */
#include <boe.h>

#include <stdio.h>
#include <string.h>

static uint8_t book[4096];

static int failed(const char *what, uint32_t refusal) {
    printf("%s: %u %s at %u\n", what, (unsigned)BOE_NUMBER(refusal), boe_refusal_name(refusal), (unsigned)BOE_PLACE(refusal));
    return 1;
}

/* The record of an order. */
static struct boe_record order(void) {
    struct boe_record record = boe_blank_record(BOE_NEW_ORDER);
    boe_new_order_set_cl_ord_id(&record, "ABC123");
    boe_new_order_set_side(&record, '1');
    boe_new_order_set_order_qty(&record, 100);
    boe_new_order_set_symbol(&record, "MSFT");
    boe_new_order_set_capacity(&record, 'A');
    boe_new_order_set_price(&record, 123400);
    return record;
}

int main(void) {
    if (boe_version() != BOE_VERSION) return failed("another version", 0);

    struct boe_record written = order(), read = boe_blank_record(0);
    uint8_t out[BOE_WRITTEN_MOST_BYTES];
    uint32_t refusal = boe_write(BOE_FROM_MEMBER, &written, sizeof written, out, sizeof out);
    if (refusal) return failed("boe_write", refusal);
    size_t length = boe_frame_length(out, sizeof out);
    refusal = boe_read(BOE_FROM_MEMBER, out, length, &read, sizeof read);
    if (refusal) return failed("boe_read", refusal);
    int64_t price = 0;
    char symbol[BOE_NEW_ORDER_SYMBOL_LEN + 1] = "";
    if (!boe_new_order_get_price(&read, &price) || !boe_new_order_get_symbol(&read, symbol)) return failed("the order's fields", 0);
    if (memcmp(read.bytes, written.bytes, BOE_ORDER_RECORD_LEN) != 0) return failed("another order is read", 0);
    refusal = boe_read(BOE_FROM_MEMBER, out, length - 1, &read, sizeof read);
    if (refusal != BOE_INCOMPLETE) return failed("a message without its last byte", refusal);

    struct boe_session session;
    struct boe_login login = {{0}};
    uint8_t asked[BOE_LOGIN_MOST_BYTES];
    refusal = boe_session_open(20250819, BOE_EQUITIES, book, sizeof book, &session, sizeof session);
    if (refusal) return failed("boe_session_open", refusal);
    memcpy(login.bytes + BOE_LOGIN_SESSION_SUB_ID_AT, "0001", 4);
    memcpy(login.bytes + BOE_LOGIN_USERNAME_AT, "TEST", 4);
    memcpy(login.bytes + BOE_LOGIN_PASSWORD_AT, "TESTING", 7);
    refusal = boe_session_login(&login, sizeof login, asked, sizeof asked, &session, sizeof session);
    if (refusal) return failed("boe_session_login", refusal);
    if (boe_session_phase(&session, sizeof session) != BOE_ASKED) return failed("another phase", 0);

    printf("version %u, an order of %zu bytes for %s at %lld, a login of %zu bytes\n", (unsigned)boe_version(), length, symbol, (long long)price,
           boe_frame_length(asked, sizeof asked));
    return 0;
}
