/* The system's calls and the counter. There is no C library in the program: it starts in count.c, and its system calls are made there. */
#ifndef COUNT_H
#define COUNT_H

#include <stddef.h>
#include <stdint.h>

/* Any of the counted calls. */
typedef void counted(void);

/* Of reading, writing and restart. */
struct arguments {
    uint64_t first; /* the direction, or the date */
    const uint8_t *from;
    uint64_t from_len;
    uint8_t *to;
    uint64_t to_len;
};

/* Of appending. */
struct appending {
    const uint8_t *bytes;
    uint64_t len;
    uint8_t *buffer;
    uint64_t buffer_len;
    uint8_t *state;
    uint64_t state_len;
};

/* Of receiving. */
struct receiving {
    const uint8_t *bytes;
    uint64_t len;
    uint32_t *told;
    uint8_t *buffer;
    uint64_t buffer_len;
    uint8_t *state;
    uint64_t state_len;
};

/* Those of a counted call, as many as seven, each a word of the processor's. */
union words {
    struct arguments five;
    struct appending six;
    struct receiving seven;
};

void end(int status);
void say(int file, const char *text);
void say_number(int file, uint64_t number);

/* The system's clock that only goes forward (clock_gettime, CLOCK_MONOTONIC). */
uint64_t nanoseconds(void);

/* To be called once, before anything is counted. */
void count_traps(void);

/* The instructions of a call: its arguments, five to seven, the call itself and all to the return. */
uint64_t count(counted *function, const union words *arguments, size_t how_many, uint32_t *refusal);

#endif
