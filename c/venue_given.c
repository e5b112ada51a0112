/* What the bench venue is told by its arguments. */
#include "venue_given.h"

#include "line.h"
#include "tell.h"

#include <string.h>

static const char usage[] =
    "usage: venue [OPTION..] ADDRESS LOGFILE    listens on ADDRESS, a loopback HOST:PORT with port 0 for any, and keeps its log in LOGFILE, a new\n"
    "                                           file or one that it has written before\n"
    "       venue --help\n";

static const char help[] =
    "\n"
    "  --market equities|options  the market of the orders (equities)\n"
    "  --units N                  how many units there are, 1 to 32 (4)\n"
    "  --flush                    flush each message of the log to the disk before it is sent\n"
    "  --traffic N                log N messages of the venue's own by chance, one at a time, whether or not a session runs\n"
    "  --every MS                 how often (100)\n"
    "  --seed S                   what traffic and faults are made from (1)\n"
    "  --faults LIST              the faults that may come, one in a session: names of those below with commas between them, or all (none)\n"
    "  --fault-rate PERCENT       in how many sessions of 100 one comes (100)\n"
    "  --fault-count N            how many come in all, at most\n"
    "  --long-pause               a pause is of 6,000 ms, in the place of up to 1,500: the member finds the venue silent\n"
    "  --port-file FILE           the port as text, in a new file that is there when it is whole\n"
    "  --for SECONDS              end after so long\n"
    "\n"
    "One member is served at a time; others wait. A member that sends nothing, or no login, for five seconds is silent, and its line is closed.\n"
    "What is logged is in the file, whole, before it is sent, and the next start goes on from the file. The number of the member's last order is in\n"
    "no file: after a start its numbers begin again.\n"
    "\n"
    "A New Order goes to unit 1 + S mod N, where S is the sum of its symbol's bytes. One of fewer than 10 is rejected. Any other is acknowledged,\n"
    "and of 100 or more executed in parts of 100, three at most, at its Price or, without one, at 10.0000; the rest stays open. Cancel Order and\n"
    "Modify Order are rejected, for no order is open here; Purge Orders is told alone. Acknowledgments and executions are logged; rejections are\n"
    "sent at once, and are in no log. When the log is full new orders are rejected.\n"
    "\n"
    "The faults:\n"
    "  break   the line is closed after some bytes, which may be in the middle of a message\n"
    "  half    half of a message is sent, and the line is closed\n"
    "  pause   nothing is sent for a while\n"
    "  logout  a Logout is sent, and the line is closed\n"
    "  status  the login is answered with another status than A, and the line is closed\n"
    "\n"
    "Standard output has one line, listening on HOST:PORT. Standard error has that and a line for each other event, with its time:\n"
    "  cut T torn bytes                   the file's end was no whole message\n"
    "  log LOGFILE: messages M length L   what the start goes on from\n"
    "  a line                             a member has connected\n"
    "  login taken                        or login refused: NUMBER NAME\n"
    "  replay complete                    Replay Complete was sent\n"
    "  order TYPE NUMBER CLORDID          an order was taken, or order refused: NUMBER NAME\n"
    "  logged TYPE UNIT NUMBER CLORDID    a message was logged, and is in the file\n"
    "  rejected TYPE CLORDID REASON       a rejection is sent\n"
    "  the log is full: 13 NO_ROOM        once\n"
    "  fault break after N bytes          fault pause of N ms, fault half a message, fault Logout, fault status X\n"
    "  the member is silent               then the line has ended\n"
    "  the line has ended: WHY            without why where the member has closed it\n"
    "  ended by signal N                  or ended after N s\n"
    "\n"
    "The exit status: 0 a signal has ended it, SIGTERM or SIGINT, or its time was over; the number of the refusal that makes the file no log; 100 a\n"
    "system call failed, or a file or address is not what it must be; 101 wrong arguments, and nothing was touched.\n";

struct venue_given given = {.market = BOE_EQUITIES, .units = 4, .every = 100, .seed = 1, .faults = {.rate = 100, .most = UINT64_MAX}};

/* The options that are numbers, and what they may be. */
static const struct {
    const char *name;
    uint64_t *value, least, most;
} numbers[] = {
    {"--units", &given.units, 1, BOE_UNITS},
    {"--traffic", &given.traffic, 0, UINT32_MAX},
    {"--every", &given.every, 1, 3600000},
    {"--seed", &given.seed, 0, UINT64_MAX},
    {"--fault-rate", &given.faults.rate, 0, 100},
    {"--fault-count", &given.faults.most, 0, UINT64_MAX},
    {"--for", &given.seconds, 1, 1000000},
};

/* Takes an option that has a value: whether it is one. */
static bool take_option(const char *name, const char *value) {
    for (size_t i = 0; i < sizeof numbers / sizeof *numbers; i++)
        if (strcmp(name, numbers[i].name) == 0) return number_of(value, numbers[i].most, numbers[i].value) && *numbers[i].value >= numbers[i].least;
    if (strcmp(name, "--faults") == 0) return list_faults(&given.faults, value);
    if (strcmp(name, "--port-file") == 0) {
        given.port_file = value;
        return *value != 0;
    }
    if (strcmp(name, "--market") != 0) return false;
    given.market = strcmp(value, "options") == 0 ? BOE_OPTIONS : BOE_EQUITIES;
    return given.market == BOE_OPTIONS || strcmp(value, "equities") == 0;
}

/* Takes the options, and behind them the address and the log's path: whether they are what they must be. */
static bool take_words(int count, char **words) {
    int at = 1;
    for (; at < count && words[at][0] == '-'; at++) {
        if (strcmp(words[at], "--flush") == 0) given.flush = true;
        else if (strcmp(words[at], "--long-pause") == 0) given.faults.long_pause = true;
        else if (at + 1 == count || !take_option(words[at], words[at + 1])) return false;
        else at++;
    }
    if (count - at != 2 || !is_address(words[at]) || words[at + 1][0] == 0 || words[at + 1][0] == '-') return false;
    given.address = words[at];
    given.log = words[at + 1];
    return true;
}

bool take_arguments(int count, char **words) {
    given.help = count == 2 && strcmp(words[1], "--help") == 0;
    bool good = given.help || take_words(count, words);
    if (given.help) printf("%s%s", usage, help);
    if (!good) fprintf(stderr, "%s", usage);
    return good;
}
