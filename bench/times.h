/* Times of the calls, on an x86-64 processor. */
#ifndef TIMES_H
#define TIMES_H

/* Times each call of both sides and prints lines of WORKLOAD CALL SIDE TIME, in hundredths of a nanosecond: of a call, or of a message of a
 * book. What a call leaves is compared after each round; what is wrong ends the run. make_workloads and make_items come before it. */
void time_all(void);

#endif
