/* The faults that the bench venue makes on request: which one comes in a session, and where, the same each time from a seed. */
#ifndef VENUE_FAULTS_H
#define VENUE_FAULTS_H

#include "fill.h"

enum fault_kind { NO_FAULT, FAULT_BREAK, FAULT_PAUSE, FAULT_HALF, FAULT_LOGOUT, FAULT_STATUS };
enum { FAULT_KINDS = 5 };

/* The fault of a session. */
struct fault {
    enum fault_kind kind;
    uint32_t after;   /* break: after so many bytes, at least 1; half: of this message, 1 the first; pause, Logout: so many ms after the login */
    uint32_t lasting; /* pause: so many milliseconds */
    char status;      /* status: what the login is answered with */
};

/* What is asked for. */
struct faults {
    enum fault_kind listed[FAULT_KINDS]; /* the kinds that may come */
    unsigned count;
    uint64_t rate, most; /* in how many sessions of 100 one comes, and how many come in all */
    bool long_pause;     /* a pause is of 6,000 ms, so that the member finds the venue silent */
    uint64_t made;       /* how many have come */
    struct chance chance;
};

/* Takes a list of kinds, `break,pause,half,logout,status`, or `all`: whether it is one. */
bool list_faults(struct faults *faults, const char *list);

/* The fault of the next session; NO_FAULT where none comes. */
struct fault next_fault(struct faults *faults);

#endif
