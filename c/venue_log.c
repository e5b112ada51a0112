/* The log of the bench venue and its file. */
#define _XOPEN_SOURCE 700
#include "venue_log.h"

#include "files.h"
#include "tell.h"

/* Where ClOrdID stands in an acknowledgment and in an execution on the wire. */
enum { CL_ORD_ID_PLACE = 18 };

size_t log_length(const struct venue_log *log) { return number_at(log->state.bytes + BOE_VENUE_LENGTH_AT); }

uint32_t log_number(const struct venue_log *log, uint8_t unit) { return number_at(log->state.bytes + BOE_VENUE_TABLE_AT + 4 * (unit - 1)); }

void open_log(struct venue_log *log, const char *path) { log->file = open_file(path, true, "log"); }

void flush_log(const struct venue_log *log) { flush_file(log->file, "log"); }

bool log_message(struct venue_log *log, const uint8_t *message, size_t length) {
    size_t from = log_length(log);
    uint32_t refusal = boe_venue_log(message, length, log->bytes, sizeof log->bytes, &log->state, sizeof log->state);
    if (refusal == BOE_NO_ROOM && !log->full) tell("the log is full: %u %s", BOE_NUMBER(refusal), boe_refusal_name(refusal));
    log->full = log->full || refusal == BOE_NO_ROOM;
    if (refusal == BOE_NO_ROOM) return false;
    if (refusal) fail_as("a message is not logged", boe_refusal_name(refusal));
    write_file(log->file, log->bytes, from, log_length(log), "log");
    if (log->flush) flush_log(log);
    log->messages++;
    tell("logged %02X %u %lu %.20s", message[4], message[5], (unsigned long)number_at(message + 6), (const char *)message + CL_ORD_ID_PLACE);
    return true;
}

/* Logs each whole message of the bytes again, and answers the refusal of the first that is none: 3 for a torn tail and for no bytes. */
static uint32_t log_again(struct venue_log *log, const uint8_t *bytes, size_t held) {
    uint32_t refusal = 0;
    while (refusal == 0) {
        size_t at = log_length(log);
        refusal = boe_venue_log(bytes + at, held - at, log->bytes, sizeof log->bytes, &log->state, sizeof log->state);
        log->messages += refusal == 0;
    }
    return refusal;
}

/* Of a file that is too long one byte more is loaded than a log may have. Its last message may look torn there, so that it is refused first. */
uint32_t take_up_log(struct venue_log *log, const char *path) {
    static uint8_t bytes[BOE_BOOK_MOST_BYTES + 1];
    size_t held = load_file(log->file, bytes, sizeof bytes, "log");
    log->messages = 0;
    boe_venue_new(&log->state, sizeof log->state);
    uint32_t refusal = held > BOE_BOOK_MOST_BYTES ? BOE_NO_ROOM : log_again(log, bytes, held);
    size_t length = log_length(log);
    if (refusal != BOE_INCOMPLETE) {
        tell("log %s: refused at byte %zu: %u %s", path, length, BOE_NUMBER(refusal), boe_refusal_name(refusal));
        return refusal;
    }
    if (length < held) {
        cut_file(log->file, length, "log");
        tell("cut %zu torn bytes", held - length);
    }
    tell("log %s: messages %lu length %zu", path, (unsigned long)log->messages, length);
    return 0;
}
