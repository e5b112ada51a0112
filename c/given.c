/* The gateway's arguments. */
#include "given.h"

#include "desk.h"
#include "line.h"
#include "tell.h"

#include <stdlib.h>
#include <string.h>

static const char usage[] =
    "usage: gateway [OPTION..] DATE BOOKFILE HOST:PORT    a session with the venue at HOST:PORT; DATE as YYYYMMDD, which the book must have\n"
    "       gateway --messages DATE BOOKFILE              the book's messages as bytes, in order and without the marks\n"
    "       gateway --last DATE BOOKFILE                  a line for each unit that has a message: the last one's type, unit and number, and its\n"
    "                                                     place in the book and its length\n"
    "       gateway --help\n"
    "\n"
    "  --market equities|options  the market that it serves (equities)\n"
    "  --names FILE               SessionSubID, Username and Password, a line each (0001, TEST, TESTING)\n"
    "  --all-units                the login lists all 32 units, in the place of those that have messages\n"
    "  --acknowledgments HEX, --executions HEX\n"
    "                             the bitfields that these shall have, up to 15 bytes (the login asks for none)\n"
    "  --json                     lines of JSON for the desk\n"
    "  --wait MS                  how long an order waits for the session to be live (5000); then it is not sent, and the desk is told\n"
    "  --flush MS                 flush the book's file to the disk at most so long after a message is handed on (0: before it is handed on). With\n"
    "                             more than 0 a loss of power may take messages from the book that the desk was handed: the venue replays them, and\n"
    "                             the desk is handed them once more. A kill of the program alone takes none\n"
    "  --pauses FIRST,MOST        the pauses before a new line, in ms: each is twice the one before (100,30000)\n"
    "  --once                     no new line after a break: it ends with 102\n"
    "  --trade-on                 send new and modify also while a unit is stopped by an unread message\n"
    "  --room BYTES               how long the book may grow, at most 16777216\n"
    "\n"
    "Standard input has the desk's orders, a line each: new, cancel, modify or purge, and NAME=VALUE for each field, by the protocol's names:\n"
    "  new ClOrdID=A1 Side=1 OrderQty=100 Symbol=MSFT Capacity=A Price=12.34\n"
    "Standard output is the desk, a line an event:\n"
    "  book COUNT                        how many messages of the book follow that earlier starts have booked\n"
    "  TYPE UNIT NUMBER NAME FIELD=..    a message from the venue, when the file has it; a rejection, which is in no book, has unit and number 0\n"
    "  session PHASE                     asked, replaying, live or closed\n"
    "  sent NUMBER TYPE ID               an order went out under this number\n"
    "  unsent WHY: ORDER                 an order was not sent\n"
    "  unreceived FIRST LAST             the venue says that it has not received the orders of these numbers\n"
    "  unread TYPE UNIT NUMBER WHY       a message that cannot be read: unless another comes under its number, it stops its unit for the day, for no\n"
    "                                    login brings what comes after it; until then no new and no modify is sent\n"
    "  messages M length L handed H refused R ..    at the end: the book's messages and bytes, rejections handed on, messages refused, by number\n"
    "Standard error has a line for each event with its time. SIGTERM and SIGINT end the session with its mark in the book.\n"
    "\n"
    "The exit status: 0 the venue has logged us out, or a signal ended it; 102 with --once, the line has ended; 103 the venue rejects the login; the\n"
    "number of the refusal that leaves nothing to do today (10, 13, 17, 18, 19); 100 a system call failed or a file is not what it must be; 101 wrong\n"
    "arguments, and nothing was touched.\n";

struct given given = {.market = BOE_EQUITIES, .room = BOE_BOOK_MOST_BYTES, .wait = 5000, .first_pause = 100, .most_pause = 30000};

/* A line of the names' file, without its end, into its place. */
static bool take_name(FILE *from, uint8_t *place, size_t length) {
    char name[64];
    if (!fgets(name, sizeof name, from)) return false;
    name[strcspn(name, "\r\n")] = 0;
    if (strlen(name) > length) return false;
    memset(place, 0, length);
    memcpy(place, name, strlen(name));
    return true;
}

void take_names(void) {
    uint8_t *to = given.login.bytes;
    FILE *from = fopen(given.names, "r");
    if (!from) fail(given.names);
    if (!take_name(from, to + BOE_LOGIN_SESSION_SUB_ID_AT, BOE_LOGIN_SESSION_SUB_ID_LEN) ||
        !take_name(from, to + BOE_LOGIN_USERNAME_AT, BOE_LOGIN_USERNAME_LEN) || !take_name(from, to + BOE_LOGIN_PASSWORD_AT, BOE_LOGIN_PASSWORD_LEN))
        fail_as(given.names, "not the lines of SessionSubID, Username and Password");
    fclose(from);
}

/* The bitfields that one of the venue's messages shall have: that they are asked for, their count and themselves stand one after the other. */
static bool take_bitfields(const char *hex, uint8_t *to) {
    size_t count = strlen(hex) / 2;
    if (strlen(hex) % 2 != 0 || count > BOE_LOGIN_BITFIELDS_LEN || strspn(hex, "0123456789ABCDEFabcdef") != strlen(hex)) return false;
    to[0] = 1;
    to[1] = (uint8_t)count;
    for (size_t i = 0; i < count; i++) to[2 + i] = (uint8_t)strtoul((char[]){hex[2 * i], hex[2 * i + 1], 0}, NULL, 16);
    return true;
}

static bool take_ms(const char *text, uint32_t *ms) {
    uint64_t n;
    if (!number_of(text, 86400000, &n)) return false;
    *ms = (uint32_t)n;
    return true;
}

static bool take_pauses(const char *text) {
    char first[32];
    const char *comma = strchr(text, ',');
    if (!comma || (size_t)(comma - text) >= sizeof first) return false;
    memcpy(first, text, (size_t)(comma - text));
    first[comma - text] = 0;
    return take_ms(first, &given.first_pause) && take_ms(comma + 1, &given.most_pause) && given.first_pause > 0 && given.first_pause <= given.most_pause;
}

static bool take_room(const char *text) {
    uint64_t n;
    if (!number_of(text, BOE_BOOK_MOST_BYTES, &n) || n < BOE_MARK_BYTES) return false;
    given.room = (size_t)n;
    return true;
}

static bool take_market(const char *text) {
    given.market = strcmp(text, "options") == 0 ? BOE_OPTIONS : BOE_EQUITIES;
    return given.market == BOE_OPTIONS || strcmp(text, "equities") == 0;
}

/* Takes an option and its value, which may be NULL: how many words they are, or 0 where they are none. */
static int take_option(const char *name, const char *value) {
    if (strcmp(name, "--once") == 0) return given.once = true;
    if (strcmp(name, "--json") == 0) return desk_json = true;
    if (strcmp(name, "--trade-on") == 0) return given.trade_on = true;
    if (strcmp(name, "--all-units") == 0) {
        boe_login_all_units(&given.login);
        return 1;
    }
    if (!value) return 0;
    bool good = false;
    if (strcmp(name, "--market") == 0) good = take_market(value);
    else if (strcmp(name, "--wait") == 0) good = take_ms(value, &given.wait);
    else if (strcmp(name, "--flush") == 0) good = take_ms(value, &given.flush);
    else if (strcmp(name, "--pauses") == 0) good = take_pauses(value);
    else if (strcmp(name, "--room") == 0) good = take_room(value);
    else if (strcmp(name, "--acknowledgments") == 0) good = take_bitfields(value, given.login.bytes + BOE_LOGIN_ACKNOWLEDGMENTS_AT);
    else if (strcmp(name, "--executions") == 0) good = take_bitfields(value, given.login.bytes + BOE_LOGIN_EXECUTIONS_AT);
    else if (strcmp(name, "--names") == 0) good = *value != 0, given.names = value;
    return good ? 2 : 0;
}

/* A date is eight digits; no word is empty or starts with a hyphen. */
static bool usable(char **words, int count) {
    for (int i = 0; i < count; i++)
        if (words[i][0] == 0 || words[i][0] == '-') return false;
    return strlen(words[0]) == 8 && strspn(words[0], "0123456789") == 8;
}

/* Takes the options and then the words. */
static bool take_words(int argc, char **argv) {
    int at = 1, taken;
    if (argc > 1 && strcmp(argv[1], "--last") == 0) given.asks = LAST_ASKED;
    if (argc > 1 && strcmp(argv[1], "--messages") == 0) given.asks = MESSAGES_ASKED;
    bool asks = given.asks != NOTHING_ASKED;
    if (asks) at = 2;
    for (; !asks && at < argc && argv[at][0] == '-'; at += taken)
        if ((taken = take_option(argv[at], argv[at + 1])) == 0) return false;
    if (argc - at != (asks ? 2 : 3) || !usable(argv + at, argc - at) || (!asks && !is_address(argv[at + 2]))) return false;
    given.date = (uint32_t)strtoul(argv[at], NULL, 10);
    given.path = argv[at + 1];
    given.address = argv[at + 2];
    return true;
}

bool take_arguments(int argc, char **argv) {
    memcpy(given.login.bytes + BOE_LOGIN_SESSION_SUB_ID_AT, "0001", 4);
    memcpy(given.login.bytes + BOE_LOGIN_USERNAME_AT, "TEST", 4);
    memcpy(given.login.bytes + BOE_LOGIN_PASSWORD_AT, "TESTING", 7);
    given.help = argc == 2 && strcmp(argv[1], "--help") == 0;
    bool good = given.help || take_words(argc, argv);
    if (given.help || !good) fprintf(good ? stdout : stderr, "%s", usage);
    fflush(stderr);
    return good;
}
