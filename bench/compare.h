/* Both sides answer the same, or the run ends with status 1. */
#ifndef COMPARE_H
#define COMPARE_H

#include "messages.h"

/* The proved reader and writer with a record as plain bytes, as the baseline's are called. */
uint32_t proved_read(uint8_t direction, const uint8_t *bytes, size_t len, uint8_t *record, size_t record_len);
uint32_t proved_write(uint8_t direction, const uint8_t *record, size_t record_len, uint8_t *out, size_t out_len);

/* Whether a direction has a session message of a type. */
int is_session(uint8_t direction, uint8_t type);

/* Says what differs, and ends. */
void differ(const struct workload *w, const char *what);

/* The workload's message is read and written by both sides, without refusal and to the same bytes. What stands after an order's record
 * in the buffer stays there. Its record is made. */
void compare_good(struct workload *w);

/* The same refusals and places: every cut, every direction, every byte with each of its other values, and each two bytes; but no session
 * message, which the plain C does not know. */
void compare_damaged(const struct workload *w);

/* The same of a member's message in the other direction from a member, where that takes it: all but the orders that have bits of their market
 * alone. */
void compare_other_market(const struct workload *w);

/* The same of the readers on Purge Orders with more and more RiskGroupIDs, and a total that agrees: what a changed byte alone does not make. */
void compare_ids(void);

#endif
