/* What the gateway is told by its arguments. */
#ifndef GIVEN_H
#define GIVEN_H

#include "boe.h"

/* What is asked of a book that stays as it is. */
enum asked { NOTHING_ASKED, MESSAGES_ASKED, LAST_ASKED };

extern struct given {
    enum asked asks;
    bool help; /* --help, which was printed: nothing more is to be done */
    uint32_t date;
    const char *path, *address, *names;
    uint8_t market;
    size_t room;
    bool once, trade_on;
    uint32_t wait, flush, first_pause, most_pause; /* in milliseconds */
    struct boe_login login;
} given;

/* Takes the arguments, and touches nothing. False, with the usage on standard error, where they are wrong. */
bool take_arguments(int argc, char **argv);

/* Reads the names of the login from the file that the arguments name; where that cannot be the program ends, in words. */
void take_names(void);

#endif
