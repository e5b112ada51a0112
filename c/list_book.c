/* Lists a day book for the desk: in long lines, as a summary of each unit, or as JSON; and in document 01's form by the proved listing program, which
 * it runs.
 *
 * The book is gone over item by item, and built a second time by the proved calls as it goes: boe_book_open for the first mark, boe_book_append for
 * each message, boe_book_close for each later mark. What these refuse, or would have written otherwise, is the damage, which is told in words.
 * Whether a book is good is boe_restart's to say: at the end the number of refusal and the state of what was built are held to restart's, and where
 * they differ the program says so and ends with SYSTEM_FAILED.
 *
 * `list_book --help` has the options, the forms and the exit statuses. */
#define _XOPEN_SOURCE 700
#include "fields.h"
#include "places.h"
#include "tell.h"

#include <errno.h>
#include <fcntl.h>
#include <limits.h>
#include <signal.h>
#include <stdlib.h>
#include <string.h>
#include <sys/stat.h>
#include <sys/wait.h>
#include <unistd.h>

/* The name of the proved listing program. It stands in the folder of this one, or in ../libexec/eskerlin from there. */
#ifndef LISTING
#define LISTING "list_book_proved"
#endif

const char program[] = "list_book";

/* The exit status of document 01's form, as of ./run, where the book cannot be read, or the listing not run or not written. */
enum { NOT_LISTED = 1 };

/* A day to ask restart for where the book names none: what is wrong with its first mark comes before the date. */
enum { ANY_DAY = 19700101 };

/* How many bytes of what is neither a mark nor a message are shown. */
enum { SHOWN_BYTES = 16 };

static const char help[] =
    "usage: list_book [OPTION..] [FILE]\n"
    "Lists the day book in FILE, or on standard input. Without an option in document 01's form, by the proved listing program, " LISTING ".\n"
    "\n"
    "  --long       a line for each mark and message, which begins with its place in the book: the bytes before it.\n"
    "               Of a mark: `mark`, its date, the messages before it. Of a message: TransactionTime, type, unit, number, ClOrdID, and then\n"
    "               side, quantity, symbol and price, as far as it has them, or -; of an execution the shares and the price of the trade, and\n"
    "               what is left of the order. Last the good length, `end`, the messages, the marks, and the bytes of a torn tail\n"
    "  --summary    a line for each unit that has messages: how many, the first and last number, the executions and the shares executed,\n"
    "               and the last message: its place, time, type and ClOrdID. Last a line for the book: its date, the messages, the marks, the\n"
    "               sessions that these end, the good length, and the bytes of a torn tail\n"
    "  --json       an object a line. Its \"item\" is mark, message, end or fault; a message has its fields by the protocol's names, and\n"
    "               its TransactionTime as \"time\" too. Prices are strings with four decimals, and numbers of 8 bytes are strings, since they\n"
    "               may pass 2^53; all other numbers are plain\n"
    "  --unit N     of the messages those of unit N alone, 1 to 32, and no marks\n"
    "  --id X       of the messages those with the ClOrdID X alone, and no marks; not with --summary\n"
    "  --date DAY   a book of this day, YYYYMMDD, and of no other\n"
    "  --help       this text\n"
    "--unit, --id and --date mean --long where no form is given.\n"
    "\n"
    "A damaged book is listed up to the damage; the last line then says in words what stands at which byte.\n"
    "Exit status: 0; 17, 18, 19 or 22, the refusal of restart; 100 where input or output fails; 101 for wrong arguments.\n"
    "In document 01's form: 0; 18 or 22, by the listing's last line; 1 where input or output fails or there is no such program; 101.\n";

/* What is asked for: the form, 0 for document 01's, the unit, 0 for any, the ClOrdID and the day, where there are any, and the file. */
static struct {
    char form;
    uint8_t unit;
    const char *id;
    bool dated;
    uint32_t date;
    const char *path;
} asked;

enum { LONG = 'l', SUMMARY = 's', JSON = 'j' };

/* The book's bytes, as many as tell all that can be wrong with a book: one more than it may have, and the message that begins there. */
static uint8_t book[BOE_BOOK_MOST_BYTES + BOE_MESSAGE_MOST_BYTES];
static size_t held;

/* The book that is built of it and its state, and how far it is built: the place of the next item, or of the damage. */
static uint8_t built[BOE_BOOK_MOST_BYTES];
static struct boe_state state;
static size_t at;

/* What is wrong at that place, in words; NULL where nothing is. And the refusal of the message there, if it is a message. */
static void (*fault)(FILE *to);
static uint32_t message_refusal;

/* What was gone over: marks, and of each unit the messages, the number of the first, and the executions and their shares; what of it was listed. */
static unsigned long marks, listed;
static struct {
    unsigned long messages, executions;
    uint32_t first;
    uint64_t shares;
} units[BOE_UNITS + 1];

static unsigned long messages(void) { return number_at(state.bytes + BOE_STATE_MESSAGES_AT); }

static bool filtered(void) { return asked.unit || asked.id; }

/* ---- the fields of a message */

/* Reads a message of the built book, which was read when it was appended. */
static void read_message(size_t place, struct boe_record *record) {
    if (boe_read(BOE_FROM_VENUE, built + place, sizeof built - place, record, sizeof *record) != 0) fail_as("the book", "a message is read no more");
}

static const struct field *field_of(const struct boe_record *record, const char *name) {
    const struct field *field = field_named(record->bytes[BOE_RECORD_TYPE_AT], name);
    return field && has_field(record, field) ? field : NULL;
}

static uint64_t number_in(const struct boe_record *record, const char *name) {
    const struct field *field = field_of(record, name);
    return field ? boe_number_of(record, field->where) : 0;
}

/* The ClOrdID, which acknowledgments and executions have at the same place. */
_Static_assert(BOE_ACKNOWLEDGMENT_CL_ORD_ID_AT == BOE_EXECUTION_CL_ORD_ID_AT, "one place of ClOrdID");
static void id_of(const struct boe_record *record, char id[BOE_EXECUTION_CL_ORD_ID_LEN + 1]) {
    memcpy(id, record->bytes + BOE_EXECUTION_CL_ORD_ID_AT, BOE_EXECUTION_CL_ORD_ID_LEN);
    id[BOE_EXECUTION_CL_ORD_ID_LEN] = 0;
}

/* Prints a field with the words before and after it, where the record has it; answers whether it has. */
static bool print_field(const struct boe_record *record, const char *before, const char *name, const char *after) {
    const struct field *field = field_of(record, name);
    if (!field) return false;
    printf("%s", before);
    print_value(stdout, record, field, false);
    printf("%s", after);
    return true;
}

/* Prints the side, where the record has it: in the protocol's words, or as the character that it is. */
static bool print_side(const struct boe_record *record) {
    static const struct {
        char side;
        const char *words;
    } sides[] = {{'1', "buy"}, {'2', "sell"}, {'5', "sell short"}, {'6', "sell short exempt"}};
    uint64_t side = number_in(record, "Side");
    for (size_t i = 0; i < sizeof sides / sizeof *sides; i++) {
        if (side != (uint64_t)sides[i].side) continue;
        printf(" %s", sides[i].words);
        return true;
    }
    return print_field(record, " side ", "Side", "");
}

/* ---- an item in each form */

static void print_long_message(size_t place, const struct boe_record *record) {
    const uint8_t *r = record->bytes;
    bool execution = r[BOE_RECORD_TYPE_AT] == BOE_EXECUTION, any = false;
    char time[40], id[BOE_EXECUTION_CL_ORD_ID_LEN + 1];
    time_text(number_in(record, "TransactionTime"), time);
    id_of(record, id);
    printf("%8zu  %-30s  %-20s  %2u  %6lu  %-20s ", place, time, type_name(r[BOE_RECORD_TYPE_AT]), r[BOE_RECORD_UNIT_AT],
           (unsigned long)number_at(r + BOE_RECORD_NUMBER_AT), id);
    any |= print_side(record);
    any |= print_field(record, " ", execution ? "LastShares" : "OrderQty", "");
    any |= print_field(record, " ", "Symbol", "");
    any |= print_field(record, " @ ", execution ? "LastPx" : "Price", "");
    if (execution) print_field(record, ", ", "LeavesQty", " left");
    printf("%s\n", any ? "" : " -");
}

static void print_json_message(size_t place, const struct boe_record *record) {
    const uint8_t *r = record->bytes;
    char time[40];
    time_text(number_in(record, "TransactionTime"), time);
    printf("{\"place\":%zu,\"item\":\"message\",\"type\":\"%02X\",\"name\":\"%s\"", place, r[BOE_RECORD_TYPE_AT], type_name(r[BOE_RECORD_TYPE_AT]));
    printf(",\"unit\":%u,\"number\":%lu,\"time\":\"%s\"", r[BOE_RECORD_UNIT_AT], (unsigned long)number_at(r + BOE_RECORD_NUMBER_AT), time);
    print_json_fields(stdout, record);
    printf("}\n");
}

/* What could not be written is told at once, and nothing more is listed. */
static void look_at_output(void) {
    if (ferror(stdout)) fail("standard output");
}

/* Counts the message at a place of the built book, and lists it where it is asked for. */
static void list_message(size_t place) {
    struct boe_record record;
    char id[BOE_EXECUTION_CL_ORD_ID_LEN + 1];
    read_message(place, &record);
    uint8_t unit = record.bytes[BOE_RECORD_UNIT_AT];
    if (units[unit].messages++ == 0) units[unit].first = number_at(record.bytes + BOE_RECORD_NUMBER_AT);
    if (record.bytes[BOE_RECORD_TYPE_AT] == BOE_EXECUTION) {
        units[unit].executions++;
        units[unit].shares += number_in(&record, "LastShares");
    }
    id_of(&record, id);
    if (asked.form == SUMMARY || (asked.unit && asked.unit != unit) || (asked.id && strcmp(asked.id, id) != 0)) return;
    listed++;
    if (asked.form == JSON) print_json_message(place, &record);
    else print_long_message(place, &record);
    look_at_output();
}

/* Counts the mark at a place of the built book, and lists it unless messages alone are asked for. */
static void list_mark(size_t place) {
    const uint8_t *mark = built + place;
    unsigned long date = number_at(mark + 4), before = number_at(mark + 8), back = number_at(mark + 12);
    marks++;
    if (asked.form == SUMMARY || filtered()) return;
    if (asked.form == JSON) printf("{\"place\":%zu,\"item\":\"mark\",\"date\":%lu,\"messages\":%lu,\"back\":%lu}\n", place, date, before, back);
    else printf("%8zu  mark %lu  messages before %lu\n", place, date, before);
    look_at_output();
}

/* ---- what is wrong, in words: each of these looks at the book from the place on */

/* A restart on no bytes is 19, or 22. */
static bool is_day(uint32_t date) { return boe_restart(date, book, 0, &state, sizeof state) != BOE_NOT_A_DAY; }

static bool front_zero(const uint8_t *bytes, size_t count) {
    for (size_t i = 0; i < count && i < 4; i++)
        if (bytes[i]) return false;
    return true;
}

static void print_bytes(FILE *to) {
    size_t count = held - at;
    for (size_t i = 0; i < count && i < SHOWN_BYTES; i++) fprintf(to, " %02X", book[at + i]);
    if (count > SHOWN_BYTES) fprintf(to, " ...");
}

static void say_no_day_asked(FILE *to) { fprintf(to, "the date %08lu that is asked for is no day", (unsigned long)asked.date); }

static void say_short(FILE *to) { fprintf(to, "under 16 bytes: no first mark"); }

static void say_long(FILE *to) { fprintf(to, "a book longer than 16,777,216 bytes"); }

static void say_other_date(FILE *to) {
    fprintf(to, "a first mark with the date %lu where %08lu is asked for", (unsigned long)number_at(book + 4), (unsigned long)asked.date);
}

static void say_first(FILE *to) {
    unsigned long date = number_at(book + 4), before = number_at(book + 8), back = number_at(book + 12);
    if (!front_zero(book, held)) {
        fprintf(to, "bytes that are no first mark:");
        print_bytes(to);
    } else if (!is_day((uint32_t)date)) {
        fprintf(to, "the first mark's date %lu is no day", date);
    } else if (before) {
        fprintf(to, "a first mark that counts %lu messages where there are none", before);
    } else {
        fprintf(to, "a first mark that points %lu bytes back where there is no mark", back);
    }
}

static void say_length(FILE *to) {
    fprintf(to, "a message with the length %u, which is not one of 8 to 2,046:", book[at + 2] | book[at + 3] << 8);
    print_bytes(to);
}

static void say_bytes(FILE *to) {
    fprintf(to, "bytes that are neither a mark nor a message:");
    print_bytes(to);
}

/* Zeros that are no mark are what a file system leaves where it has lost what was written. */
static void say_zeros(FILE *to) {
    size_t count = 0;
    while (at + count < held && book[at + count] == 0) count++;
    fprintf(to, "%zu zero bytes that are neither a mark nor a message", count);
}

static void say_mark(FILE *to) {
    const uint8_t *mark = book + at;
    unsigned long date = number_at(mark + 4), before = number_at(mark + 8), back = number_at(mark + 12);
    unsigned long day = number_at(state.bytes + BOE_STATE_DATE_AT), previous = at - number_at(state.bytes + BOE_STATE_LAST_MARK_AT);
    if (date != day) fprintf(to, "a mark with the date %lu in a book of %lu", date, day);
    else if (before != messages()) fprintf(to, "a mark that counts %lu messages where there are %lu", before, messages());
    else fprintf(to, "a mark that points %lu bytes back where the previous mark is %lu back", back, previous);
}

static void say_number(FILE *to) {
    const uint8_t *message = book + at;
    unsigned unit = message[5];
    unsigned long long next = 1ull + number_at(state.bytes + BOE_STATE_TABLE_AT + 4 * (unit - 1));
    fprintf(to, "unit %u number %lu where %llu is next", unit, (unsigned long)number_at(message + 6), next);
}

static void say_message(FILE *to) {
    fprintf(to, "a message of type %02X that is refused: ", book[at + 4]);
    print_refused(to, message_refusal, BOE_FROM_VENUE, book + at);
}

/* ---- the walk over the book */

/* There is damage at this place. */
static unsigned damaged(unsigned number, void (*words)(FILE *to)) {
    fault = words;
    return number;
}

/* The first mark, which is that of a book opened for its date: 0, or restart's refusals in their order. */
static unsigned take_first(void) {
    if (asked.dated && !is_day(asked.date)) return damaged(BOE_NOT_A_DAY, say_no_day_asked);
    if (held < BOE_MARK_BYTES) return damaged(BOE_NO_FIRST_MARK, say_short);
    uint32_t date = number_at(book + 4);
    if (boe_book_open(date, built, sizeof built, &state, sizeof state) != 0) return damaged(BOE_BAD_BOOK, say_first);
    if (memcmp(book, built, BOE_MARK_BYTES) != 0) return damaged(BOE_BAD_BOOK, say_first);
    if (asked.dated && asked.date != date) return damaged(BOE_OTHER_DATE, say_other_date);
    return 0;
}

/* A whole message: it is appended, or refused, last because it passes the limit. */
static unsigned take_message(void) {
    message_refusal = boe_book_append(book + at, held - at, built, sizeof built, &state, sizeof state);
    switch (BOE_NUMBER(message_refusal)) {
    case 0: return 0;
    case BOE_NO_ROOM: return damaged(BOE_BAD_BOOK, say_long);
    case BOE_ALREADY_TAKEN:
    case BOE_GAP: return damaged(BOE_BAD_BOOK, say_number);
    default: return damaged(BOE_BAD_BOOK, say_message);
    }
}

/* A mark: it is the one that a session's end would put there, or it is wrong; where that would find no room, it passes the limit. */
static unsigned take_mark(void) {
    static const uint8_t zeros[BOE_MARK_BYTES];
    struct boe_state before = state;
    boe_book_close(built, sizeof built, &state, sizeof state);
    if (number_at(state.bytes + BOE_STATE_LENGTH_AT) == at) return damaged(BOE_BAD_BOOK, say_long);
    if (memcmp(book + at, built + at, BOE_MARK_BYTES) == 0) return 0;
    state = before;
    return damaged(BOE_BAD_BOOK, memcmp(book + at, zeros, BOE_MARK_BYTES) == 0 ? say_zeros : say_mark);
}

/* What stands at the place: a message, a mark, the end or a torn tail, or damage. An item is listed, and the place becomes that behind it. At the
 * end, and before a torn tail, it stays. */
static unsigned take_next(void) {
    uint32_t framing = boe_frame_refusal(book + at, held - at);
    bool mark = framing == BOE_BAD_START && front_zero(book + at, held - at);
    bool torn = framing == BOE_INCOMPLETE || (mark && held - at < BOE_MARK_BYTES);
    unsigned number;
    if (torn) return held > BOE_BOOK_MOST_BYTES ? damaged(BOE_BAD_BOOK, say_long) : 0;
    if (framing == 0) number = take_message();
    else if (mark) number = take_mark();
    else number = damaged(BOE_BAD_BOOK, framing == BOE_BAD_LENGTH ? say_length : say_bytes);
    if (number) return number;
    size_t place = at;
    at = number_at(state.bytes + BOE_STATE_LENGTH_AT);
    if (mark) list_mark(place);
    else list_message(place);
    return 0;
}

/* Goes over the book to its end, its torn tail or its damage, and lists it: 0, or the number of its refusal. */
static unsigned walk(void) {
    unsigned number = take_first();
    if (number) return number;
    at = BOE_MARK_BYTES;
    list_mark(0);
    for (size_t before = 0; number == 0 && at != before;) {
        before = at;
        number = take_next();
    }
    return number;
}

/* Whether restart says the same: the number, and of the good part the state, which has the table, the length, the messages and all else that a
 * gateway goes on from. Of a damaged book the good part is restarted from alone. */
static bool agreed(unsigned number) {
    struct boe_state restarted = {{0}};
    uint32_t date = ANY_DAY;
    if (asked.dated) date = asked.date;
    else if (held >= BOE_MARK_BYTES && is_day(number_at(book + 4))) date = number_at(book + 4);
    if (BOE_NUMBER(boe_restart(date, book, held, &restarted, sizeof restarted)) != number) return false;
    if (at == 0) return number != 0;
    if (number && boe_restart(date, book, at, &restarted, sizeof restarted) != 0) return false;
    return memcmp(&restarted, &state, sizeof state) == 0 && memcmp(book, built, at) == 0;
}

/* ---- the end */

/* A unit's line: its last message is the one that the state has. */
static void print_unit(uint8_t unit) {
    struct boe_record record;
    char time[40], id[BOE_EXECUTION_CL_ORD_ID_LEN + 1];
    if (boe_last_refusal(unit, built, sizeof built, &state, sizeof state) != 0) {
        if (asked.unit == unit) printf("unit %2u  messages %6u\n", unit, 0);
        return;
    }
    size_t place = boe_last_at(unit, built, sizeof built, &state, sizeof state);
    read_message(place, &record);
    time_text(number_in(&record, "TransactionTime"), time);
    id_of(&record, id);
    printf("unit %2u  messages %6lu  numbers %lu to %-6lu  ", unit, units[unit].messages, (unsigned long)units[unit].first,
           (unsigned long)number_at(record.bytes + BOE_RECORD_NUMBER_AT));
    printf("executions %6lu  shares %12llu  ", units[unit].executions, (unsigned long long)units[unit].shares);
    printf("last at %8zu  %-30s  %-20s  %s\n", place, time, type_name(record.bytes[BOE_RECORD_TYPE_AT]), id);
}

/* The summary of what was gone over; of a book without a first mark there is none. */
static void print_summary(void) {
    if (at == 0) return;
    for (uint8_t unit = 1; unit <= BOE_UNITS; unit++)
        if (!asked.unit || asked.unit == unit) print_unit(unit);
    printf("book %lu  messages %lu  marks %lu  sessions ended %lu  length %zu", (unsigned long)number_at(state.bytes + BOE_STATE_DATE_AT), messages(),
           marks, marks - 1, at);
    if (!fault) printf("  torn %zu", held - at);
    printf("\n");
}

static void print_end(void) {
    if (asked.form == JSON) {
        printf("{\"item\":\"end\",\"length\":%zu,\"torn\":%zu}\n", at, held - at);
    } else if (asked.form == LONG) {
        printf("%8zu  end  ", at);
        if (filtered()) printf("listed %lu  ", listed);
        printf("messages %lu  marks %lu  torn %zu\n", messages(), marks, held - at);
    }
}

/* The damage: its place, but for a date that is no day, which is in no book, and its words. */
static void print_fault(unsigned number) {
    bool placed = number != BOE_NOT_A_DAY;
    if (asked.form == JSON) {
        printf("{");
        if (placed) printf("\"place\":%zu,", at);
        printf("\"item\":\"fault\",\"refusal\":%u,\"name\":\"%s\",\"words\":\"", number, boe_refusal_name(number));
        fault(stdout);
        printf("\"}\n");
    } else {
        if (placed) printf("at byte %zu: ", at);
        fault(stdout);
        printf("\n");
    }
}

/* Lists the book in one of the forms: the exit status. */
static unsigned list(void) {
    unsigned number = walk();
    if (!agreed(number)) fail_as("the book", "restart says otherwise than the listing: do not rely on it");
    if (asked.form == SUMMARY) print_summary();
    if (fault) print_fault(number);
    else print_end();
    return number;
}

/* ---- reading */

/* The name of what is read, for what is told; and the exit status where it cannot be. */
static const char *source(void) { return asked.path ? asked.path : "standard input"; }
static int unread_status(void) { return asked.form ? SYSTEM_FAILED : NOT_LISTED; }

static _Noreturn void unread(const char *why) {
    tell("%s: %s", source(), why);
    exit(unread_status());
}

/* Opens the book's file, or takes standard input, and answers it. What is listed must not go into the book. */
static int open_book(void) {
    struct stat own, other;
    int file = asked.path ? open(asked.path, O_RDONLY) : STDIN_FILENO;
    if (file < 0 || fstat(file, &own) != 0) unread(strerror(errno));
    if (S_ISDIR(own.st_mode)) unread("a directory");
    for (int stream = STDERR_FILENO; S_ISREG(own.st_mode) && stream >= STDOUT_FILENO; stream--) {
        if (fstat(stream, &other) != 0 || other.st_dev != own.st_dev || other.st_ino != own.st_ino) continue;
        if (stream == STDERR_FILENO) _exit(unread_status()); /* what would be told would stand in the book */
        unread("standard output has this file");
    }
    if (!asked.path && isatty(file)) tell("reads from the terminal, up to Ctrl-D");
    return file;
}

/* Reads the book, or as much of a longer one as shows that it is longer. */
static void read_book(void) {
    int file = open_book();
    while (held < sizeof book) {
        ssize_t n = read(file, book + held, sizeof book - held);
        if (n < 0 && errno == EINTR) continue;
        if (n < 0) unread(strerror(errno));
        if (n == 0) break;
        held += (size_t)n;
    }
}

/* ---- document 01's form, by the proved program */

/* The proved program's path: whether there is one. */
static bool find_listing(char path[PATH_MAX]) {
    static const char *const folders[] = {"", "../libexec/eskerlin/"};
    char own[PATH_MAX];
    ssize_t length = readlink("/proc/self/exe", own, sizeof own - 1);
    if (length <= 0) return false;
    own[length] = 0;
    strrchr(own, '/')[1] = 0;
    for (size_t i = 0; i < sizeof folders / sizeof *folders; i++) {
        int n = snprintf(path, PATH_MAX, "%s%s%s", own, folders[i], LISTING);
        if (n > 0 && n < PATH_MAX && access(path, X_OK) == 0) return true;
    }
    return false;
}

/* Starts the proved program with the book on its standard input: its process, and the end of the pipe that it writes to. -1 where that fails. */
static pid_t start_listing(const char *path, int file, int *from) {
    int ends[2];
    if (pipe(ends) != 0) return -1;
    pid_t process = fork();
    if (process == 0) {
        if (dup2(file, STDIN_FILENO) < 0 || dup2(ends[1], STDOUT_FILENO) < 0) _exit(NOT_LISTED);
        if (file != STDIN_FILENO) close(file);
        close(ends[0]);
        close(ends[1]);
        signal(SIGPIPE, SIG_DFL);
        execl(path, LISTING, (char *)NULL);
        tell("%s: %s", path, strerror(errno));
        _exit(NOT_LISTED);
    }
    close(ends[1]);
    *from = ends[0];
    return process;
}

static bool write_all(const char *bytes, size_t length) {
    while (length > 0) {
        ssize_t n = write(STDOUT_FILENO, bytes, length);
        if (n < 0 && errno == EINTR) continue;
        if (n <= 0) return false;
        bytes += n;
        length -= (size_t)n;
    }
    return true;
}

/* Copies what the proved program writes, unchanged, and keeps its last line, as far as it has room. Answers whether all was read and written. */
static bool copy_listing(int from, char last[100]) {
    char bytes[65536];
    size_t length = 0;
    bool over = false;
    for (ssize_t n; (n = read(from, bytes, sizeof bytes)) != 0;) {
        if (n < 0 && errno == EINTR) continue;
        if (n < 0 || !write_all(bytes, (size_t)n)) return false;
        for (ssize_t i = 0; i < n; i++) {
            if (over) length = 0;
            over = bytes[i] == '\n';
            if (!over && length < 99) last[length++] = bytes[i];
        }
    }
    last[length] = 0;
    return true;
}

/* The exit status by the listing's last line; a read that failed has left it without one. */
static int judge_listing(const char *last) {
    if (strncmp(last, "end ", 4) == 0) return 0;
    bool bad = strcmp(last, "18") == 0 || strncmp(last, "18 ", 3) == 0;
    if (bad || strcmp(last, "22") == 0) {
        tell("the listing ends in %s", last);
        return bad ? BOE_BAD_BOOK : BOE_NO_FIRST_MARK;
    }
    tell("%s cannot be read to its end", source());
    return NOT_LISTED;
}

/* Lists the book in document 01's form: the exit status. */
static int list_proved(void) {
    char path[PATH_MAX], last[100];
    int from = -1, status = 0, file = open_book();
    if (!find_listing(path)) {
        tell("the proved listing program, " LISTING ", stands neither beside this one nor in ../libexec/eskerlin");
        return NOT_LISTED;
    }
    pid_t process = start_listing(path, file, &from);
    if (process < 0) {
        tell("%s: %s", path, strerror(errno));
        return NOT_LISTED;
    }
    bool copied = copy_listing(from, last);
    if (!copied) tell("standard output: %s", strerror(errno));
    close(from);
    while (waitpid(process, &status, 0) < 0 && errno == EINTR) continue;
    if (!copied) return NOT_LISTED;
    if (status == 0) return judge_listing(last);
    tell("%s has failed", path);
    return NOT_LISTED;
}

/* ---- the program */

static _Noreturn void wrong(const char *why, const char *word) {
    tell("%s%s%s%s: `list_book --help` says more", why, word ? " '" : "", word ? word : "", word ? "'" : "");
    exit(WRONG_USAGE);
}

static void take_form(const char *word) {
    if (asked.form) wrong("two forms, the second", word);
    asked.form = word[2]; /* the first letter: l, s or j */
}

/* The options that have a value, each once. */
static void take_value(const char *word, const char *value) {
    uint64_t number = 0;
    if (!value) wrong("no value of", word);
    if (strcmp(word, "--unit") == 0) {
        if (asked.unit) wrong("a second unit,", value);
        if (!number_of(value, BOE_UNITS, &number) || number == 0) wrong("no unit of 1 to 32:", value);
        asked.unit = (uint8_t)number;
    } else if (strcmp(word, "--id") == 0) {
        if (asked.id) wrong("a second ClOrdID,", value);
        if (!*value || strlen(value) > BOE_EXECUTION_CL_ORD_ID_LEN) wrong("no ClOrdID of 1 to 20 characters:", value);
        asked.id = value;
    } else {
        if (asked.dated) wrong("a second date,", value);
        if (strlen(value) != 8 || !number_of(value, 99999999, &number)) wrong("no YYYYMMDD:", value);
        asked.dated = true;
        asked.date = (uint32_t)number;
    }
}

/* What is asked for, or false for --help. */
static bool take_arguments(char **words) {
    for (; *words; words++) {
        const char *word = *words;
        if (strcmp(word, "--help") == 0) return false;
        if (strcmp(word, "--long") == 0 || strcmp(word, "--summary") == 0 || strcmp(word, "--json") == 0) {
            take_form(word);
        } else if (strcmp(word, "--unit") == 0 || strcmp(word, "--id") == 0 || strcmp(word, "--date") == 0) {
            take_value(word, words[1]);
            words++;
        } else if (*word == '-') {
            wrong("no option:", word);
        } else if (!*word || asked.path) {
            wrong(asked.path ? "a second file," : "no file:", word);
        } else {
            asked.path = word;
        }
    }
    if (asked.form == SUMMARY && asked.id) wrong("--id is not for --summary", NULL);
    if (!asked.form && (filtered() || asked.dated)) asked.form = LONG;
    return true;
}

int main(int argc, char **argv) {
    unsigned number = 0;
    keep_standard_streams();
    look_at_version();
    if (!take_arguments(argv + (argc > 0))) {
        printf("%s", help);
    } else if (!asked.form) {
        return list_proved();
    } else {
        read_book();
        number = list();
    }
    if (ferror(stdout) || fclose(stdout) != 0) fail("standard output");
    if (number) tell("the listing ends in %u %s", number, boe_refusal_name(number));
    return (int)number;
}
