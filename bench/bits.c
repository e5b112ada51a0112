/* Messages with more and more of their listed bits: made from the record that has them all, by the proved writer. */
#include "bits.h"

#include "compare.h"

#include <string.h>

static const uint8_t acknowledgment_widths[] = {1, 8, 1, 1, 1, 4, 8, 8, 1, 16, 4, 4, 4, 4, 4, 4, 8, 8};
static const uint8_t new_order_widths[] = {4, 4, 8, 1, 1, 1, 4, 4, 8, 8, 1, 4, 16, 1, 8, 4, 8, 1, 64, 4};
/* Price, Symbol and Capacity, then the others. */
static const uint8_t new_order_order[] = {2, 8, 10, 0, 1, 3, 4, 5, 6, 7, 9, 11, 12, 13, 14, 15, 16, 17, 18, 19};

const struct bits bits[BITS] = {
    {"acknowledgment", &workloads[3], sizeof acknowledgment_widths, 0, acknowledgment_widths, 0},
    {"new-order", &workloads[1], sizeof new_order_widths, 3, new_order_widths, new_order_order},
};

/* Clears a listed bit, counted from 0 in the order of the message, and its field. */
static void leave_out(const struct bits *of, size_t which, uint8_t *record) {
    size_t seen = 0, slot = BOE_RECORD_FIELDS_AT;
    for (size_t bit = 0; bit < 8 * (BOE_RECORD_FIELDS_AT - BOE_RECORD_BITFIELDS_AT); bit++) {
        size_t at = BOE_RECORD_BITFIELDS_AT + bit / 8;
        uint8_t mask = (uint8_t)(1 << bit % 8);
        if (!(of->all->record[at] & mask))
            continue;
        if (seen == which) {
            record[at] &= (uint8_t)~mask;
            memset(record + slot, 0, of->widths[seen]);
            return;
        }
        slot += of->widths[seen++];
    }
    differ(of->all, "a listed bit is not set");
}

/* The message's name and how many bits are set. */
static const char *name_of(const struct bits *of, size_t set) {
    static char name[32];
    size_t n = 0;
    for (; of->name[n] != 0; n++)
        name[n] = of->name[n];
    name[n] = ' ';
    name[n + 1] = (char)('0' + set / 10);
    name[n + 2] = (char)('0' + set % 10);
    name[n + 3] = 0;
    return name;
}

void with_bits(const struct bits *of, size_t set, struct workload *some) {
    memcpy(some, of->all, sizeof *some);
    some->name = name_of(of, set);
    for (size_t i = set; i < of->listed; i++)
        leave_out(of, of->order ? of->order[i] : i, some->record);
    if (proved_write(some->direction, some->record, RECORD, some->message, LONGEST) != 0)
        differ(some, "the proved writer refuses the record with fewer bits");
    some->total = 2 + (size_t)some->message[2] + 256 * (size_t)some->message[3];
    compare_good(some);
}
