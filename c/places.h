/* A refusal in words: `10 BAD_VALUE at byte 60, Account`. Built with fields.c. */
#ifndef PLACES_H
#define PLACES_H

#include "boe.h"

#include <stdio.h>

/* Prints number and name of a refusal, and where it has a place the place and what is there: the end, the count of bitfields, a bitfield by its
 * number, or the field that begins there. The message is the one that was read in the direction, or appended; where there is no place it is not
 * looked at. The direction tells the fields of a New Order, which each market has its own of. */
void print_refused(FILE *to, uint32_t refusal, uint8_t direction, const uint8_t *message);

/* The same for a record that was not written. It tells its market by its type. */
void print_unwritten(FILE *to, uint32_t refusal, const struct boe_record *record);

/* Prints of a refusal that has a place what is there alone. */
void print_what(FILE *to, uint32_t refusal, uint8_t direction, const uint8_t *message);

#endif
