/* What the bench venue answers to orders. */
#ifndef VENUE_RULES_H
#define VENUE_RULES_H

#include "venue_log.h"

/* Answers an order that was taken, by its record. What is sequenced is logged, for a later step to send. A rejection stands in `out`, which has
 * room for any message, to be sent at once, and its length is answered; 0 where there is none. `units` is how many units the orders are spread
 * over. */
size_t answer_order(struct venue_log *log, unsigned units, const struct boe_record *order, uint8_t *out);

/* The identifier that an order is told by: ClOrdID, of a Cancel Order OrigClOrdID, of a Purge Orders MassCancelID; "-" where there is none. */
void order_name(const struct boe_record *order, char name[21]);

#endif
