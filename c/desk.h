/* What the desk gets on standard output: a line an event, as text or, asked for, as JSON. c/gateway.c's --help says what they are. */
#ifndef DESK_H
#define DESK_H

#include "boe.h"

/* Lines of JSON in the place of text. */
extern bool desk_json;

/* How many of the lines that follow are messages of earlier starts. */
void desk_book(uint32_t messages);

/* A message from the venue that is booked, or a rejection that is handed on. */
void desk_message(const uint8_t *message, size_t length);

/* The session is in another phase. */
void desk_phase(uint32_t phase);

/* An order went out, under its number; or it was not sent, with the refusal or, where that is 0, why in words. */
void desk_sent(const uint8_t *message, size_t length);
void desk_unsent(uint32_t refusal, const char *why, const char *order, const struct boe_record *record);

/* The venue's Login Response says that it has not received the orders of these numbers. */
void desk_unreceived(uint32_t first, uint32_t last);

/* A message of a unit cannot be read, and the unit waits for its number. */
void desk_unread(uint32_t refusal, const uint8_t *message);

/* The last line: the book's messages and length, the rejections handed on, and the messages refused, by the number of refusal. */
void desk_end(uint32_t messages, size_t length, unsigned long handed, const unsigned long refused[BOE_REFUSALS + 1]);

/* Has the lines go out; where that fails the program ends, in words. */
void desk_flush(void);

/* A string of JSON. */
void print_json_text(const char *text);

#endif
