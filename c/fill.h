/* Messages from the venue by chance: the same ones each time from a seed. */
#ifndef FILL_H
#define FILL_H

#include "boe.h"

/* A sequence of chances. */
struct chance {
    uint64_t at;
};

struct chance chance_from(uint64_t seed);

/* A number below n. */
unsigned below(struct chance *chance, unsigned n);

/* A record of a type of order message: its fixed fields filled, and some of its optional ones selected and filled. It may have bitfields beyond
 * the last that is used, up to `bitfields` in all: they are zero, and part of the message. */
struct boe_record any_record(struct chance *chance, uint8_t type, unsigned bitfields);

/* An acknowledgment or execution of a unit and number, all else by chance: it stands in `out`, which has room for any message, and its length is
 * answered. */
size_t any_sequenced(struct chance *chance, uint8_t unit, uint32_t number, uint8_t *out);

/* Writes the message of a record from the venue into a buffer that has room for any message, and answers its length. What the writer refuses is a
 * fault of the program, which ends in words. */
size_t written(const struct boe_record *record, uint8_t *out);

/* Gives a record its unit and number. */
void set_unit(struct boe_record *record, uint8_t unit, uint32_t number);

#endif
