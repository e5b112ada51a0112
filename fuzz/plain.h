/* What the plain driver and the maker of its seeds share. */
#ifndef PLAIN_H
#define PLAIN_H

#include "fuzz.h"
#include <stdio.h>

/* The input that is made. */
extern uint8_t input[8 * MOST_INPUT];
extern size_t input_len;

/* Ends the program. */
void fail(const char *what);
FILE *file(const char *path, const char *mode);

/* seeds.c: writes inputs into a folder, and answers how many. */
unsigned long question_seeds(const char *questions, const char *answers, const char *folder, unsigned long *kinds);
unsigned long script_seeds(const char *scripts, const char *answers, const char *folder);

#endif
