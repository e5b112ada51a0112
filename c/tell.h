/* What the programs have in common: what they tell on standard error, a line an event with its time; the clock; the streams; numbers among arguments. */
#ifndef TELL_H
#define TELL_H

#include <stdbool.h>
#include <stddef.h>
#include <stdint.h>
#include <stdio.h>

/* The exit statuses that the programs share: a system call failed or a file is not what it must be; wrong arguments, and nothing was touched. */
enum { SYSTEM_FAILED = 100, WRONG_USAGE = 101 };

/* The program's name, as its lines have it. Each program defines it. */
extern const char program[];

/* A line of standard error: the time to a millisecond in UTC, the program's name and the event: `2025-08-19T13:30:00.123Z gateway: live`. */
void tell(const char *format, ...) __attribute__((format(printf, 1, 2)));

/* The same in pieces: the front of the line, and its end. */
void tell_begin(void);
void tell_end(void);

/* A system call has failed, or a file is not what it must be: told, and the program ends with SYSTEM_FAILED. */
_Noreturn void fail_as(const char *what, const char *why);
_Noreturn void fail(const char *what);

/* Sees that 0, 1 and 2 are standard streams, also where the caller has closed one: a file that is opened later would get its number, and what
 * is told would go over it. A stream that was closed fails when it is used. A pipe that nobody reads is an error, and no signal. */
void keep_standard_streams(void);

/* The library is that of the header this program was compiled with; else the program ends. */
void look_at_version(void);

/* The millisecond clock of 32 bits. */
uint32_t clock_now(void);

/* How many milliseconds have passed since a moment of that clock. */
uint32_t since(uint32_t then);

/* A number of decimal digits alone, at most `most`: whether the text is one. */
bool number_of(const char *text, uint64_t most, uint64_t *value);

/* A little-endian number of 4 bytes. */
uint32_t number_at(const uint8_t *p);

#endif
