/* Messages with more and more of their listed bits. */
#ifndef BITS_H
#define BITS_H

#include "messages.h"

/* A workload with all listed bits of its message, and the order in which they are left out. */
struct bits {
    const char *name;
    const struct workload *all;
    size_t listed;         /* how many bits the message lists */
    size_t least;          /* how many of them are required */
    const uint8_t *widths; /* the widths of their fields, as in the message */
    const uint8_t *order;  /* which bit is the first to be set, the second and on; null: as in the message */
};

/* Acknowledgment, and New Order with its required bits first. */
enum { BITS = 2 };
extern const struct bits bits[BITS];

/* The message with the first `set` bits alone, and as many bitfields as with all of them. Its name lasts until the next call. */
void with_bits(const struct bits *of, size_t set, struct workload *some);

#endif
