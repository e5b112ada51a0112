/* What the bench venue is told by its arguments. */
#ifndef VENUE_GIVEN_H
#define VENUE_GIVEN_H

#include "venue_faults.h"

extern struct venue_given {
    bool help; /* --help, which was printed: nothing more is to be done */
    uint8_t market;
    bool flush;
    uint64_t units, traffic, every, seed, seconds;
    const char *address, *log, *port_file;
    struct faults faults;
} given;

/* Takes the arguments, and touches nothing. False, with the usage on standard error, where they are wrong. */
bool take_arguments(int count, char **words);

#endif
