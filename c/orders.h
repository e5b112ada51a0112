/* The desk's orders as lines of text. */
#ifndef ORDERS_H
#define ORDERS_H

#include "boe.h"

enum { ORDER_LINE = 1024 };

/* The record of an order that a line tells: its kind, `new`, `cancel`, `modify` or `purge`, and its fields by the protocol's names, each as NAME=VALUE, a value
 * with spaces in double quotes:
 *
 *   new ClOrdID=A1 Side=1 OrderQty=100 Symbol=MSFT Capacity=A Price=12.34
 *   cancel OrigClOrdID=A1
 *   modify ClOrdID=A2 OrigClOrdID=A1 OrderQty=100 Price=12.35
 *   purge MassCancelInst=FSL ClearingFirm=TEST MassCancelID=P1 RiskGroupID=7 RiskGroupID=8
 *
 * `new` is the New Order of the market. A field stands once, but for RiskGroupID. False, with why in words, where the line is none; whether its values are good
 * the session says. The line is taken
 * apart where it stands. */
bool order_of(char *line, uint8_t market, struct boe_record *record, const char **why);

/* The lines that have come on a descriptor and did not go out yet, the oldest first, each with when it came. A line that is empty or starts with # is none. */
enum { ORDERS_WAITING = 64, ORDERS_READ = 4096 };

struct orders {
    bool over; /* no more will come */
    size_t first, count;
    struct waiting {
        uint32_t came;
        bool whole; /* its end has come, too */
        char text[ORDER_LINE];
    } waiting[ORDERS_WAITING];
    char read[ORDERS_READ], line[ORDER_LINE]; /* what was read and is not cut into lines, and the front of a line */
    size_t read_from, read_to, length;
    uint32_t read_at;
};

/* Whether more can be read now. */
bool orders_wanted(const struct orders *orders);

/* Reads once: 0, or -1 where that fails, and then no more will come. A line that is too long is cut there, and no order; nor is a last line that is not
 * ended: what wrote it may have meant to write more. */
int orders_read(struct orders *orders, int descriptor);

/* The oldest line, or NULL; and takes it off. */
const struct waiting *orders_front(const struct orders *orders);
void orders_drop(struct orders *orders);

#endif
