/* The log of the bench venue, in memory and in its file: messages one after the other, without marks. */
#ifndef VENUE_LOG_H
#define VENUE_LOG_H

#include "boe.h"

/* What stands in the file is what stands here. The venue's state knows how long the log is and has each unit's last number. */
struct venue_log {
    int file;
    bool flush;        /* each message is flushed to the disk, too */
    bool full;         /* a message has found no room */
    uint32_t messages; /* how many the log has */
    struct boe_venue state;
    uint8_t bytes[BOE_BOOK_MOST_BYTES];
};

/* Opens the log's file as its only writer. What is no plain file is no log, and nor is what a standard stream reads or writes. Where it cannot be had
 * the program ends, in words. */
void open_log(struct venue_log *log, const char *path);

/* Takes up what the file holds: each message is logged again, and a torn tail is cut off. The answer is 0, or the refusal that makes it no log,
 * which is told: then the file stays as it is. One that is longer than a log may be is 13. */
uint32_t take_up_log(struct venue_log *log, const char *path);

/* Logs a message and writes it into the file, whole and at its place: after any kill the file has all that a step may have sent. False where the
 * log has no room, which is told the first time. */
bool log_message(struct venue_log *log, const uint8_t *message, size_t length);

/* Has what was written flushed to the disk. */
void flush_log(const struct venue_log *log);

/* The log's length, and the last number of a unit in it. */
size_t log_length(const struct venue_log *log);
uint32_t log_number(const struct venue_log *log, uint8_t unit);

#endif
