/* The eight counted messages, and eight that are compared alone. */
#ifndef MESSAGES_H
#define MESSAGES_H

#include "boe.h"

enum { RECORD = BOE_RECORD_LEN, LONGEST = 512, FILLING = 0xEE, WORKLOADS = 8, REJECTIONS = 3, ORDERS = 5 };

struct workload {
    const char *name;
    uint8_t direction;
    size_t total;
    uint8_t message[LONGEST];
    uint8_t record[RECORD];
};

/* a to e and j to l; then the three rejections, an options New Order, and two each of Modify Order and Purge Orders, which are not counted. Their
 * records are made by compare_good. */
extern struct workload workloads[WORKLOADS + REJECTIONS + ORDERS];

void make_workloads(void);

/* Adds bytes, filled with NULs to their width. */
void add(struct workload *w, const char *bytes, size_t n, size_t width);
#define ADD(bytes, width) add(w, bytes, sizeof bytes - 1, width)

/* Puts the length in, which is 2 less than the total. */
void finish(struct workload *w);

#endif
