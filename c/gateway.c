/* A gateway on a TCP connection, over the session's calls alone. It restarts from its day book, connects, logs in, books what the venue sends in whatever pieces
 * the bytes come, keeps the book in a file that a restart takes after any kill, and hands what was booked, and the rejections, to the desk. The desk's orders
 * go out while the session is live. After a break there is a new line, with growing pauses. What it is told, and all that it says, is in its --help
 * (given.c). */
#define _XOPEN_SOURCE 700
#include "book_file.h"
#include "desk.h"
#include "given.h"
#include "line.h"
#include "orders.h"
#include "places.h"
#include "tell.h"

#include <errno.h>
#include <fcntl.h>
#include <signal.h>
#include <string.h>
#include <unistd.h>

const char program[] = "gateway";

/* The exit statuses beside those of tell.h. After LOG_IN_AGAIN the book is good, and a new line and its login bring what is missing. */
enum { LOG_IN_AGAIN = 102, LOGIN_REJECTED = 103 };

/* What stands in the place of an exit status while the program goes on. */
enum { GOES_ON = -1 };

/* How long a connection may take, how long a session is live before the pauses begin anew, and how long the program sleeps at most, in milliseconds. */
enum { CONNECT_MS = 3000, STEADY_MS = 5000, TURN_MS = 100 };

static struct day_book book;
static struct line line;
static struct orders orders;

/* How many of the book's bytes the desk was handed; how many rejections; and how many messages were refused, by the number of refusal. */
static size_t settled;
static unsigned long handed, refused[BOE_REFUSALS + 1];

/* Of each unit the number of the last message that came under the number it waited for and cannot be read; 0 for none. */
static uint32_t unread[BOE_UNITS + 1];

/* When the next line is tried and the pause after it; when the session went live; when the file was last flushed. */
static uint32_t next_try, pause_ms, live_at, flushed_at;

static uint32_t phase(void) { return boe_session_phase(&book.state, sizeof book.state); }

/* The number of the last order that went out; after a Login Response, of the last one that the venue has received. */
static uint32_t outgoing(void) { return number_at(book.state.bytes + BOE_SESSION_OUTGOING_AT); }

/* ---- signals */

static volatile sig_atomic_t signalled;
static int wake[2];

/* The byte wakes the program up, also where the signal comes just before it sleeps. */
static void note_signal(int number) {
    int kept = errno;
    signalled = number;
    if (write(wake[1], "", 1) < 0) signalled = number; /* the pipe is full: it is awake */
    errno = kept;
}

static void catch_signals(void) {
    struct sigaction action = {.sa_handler = note_signal, .sa_flags = SA_RESTART};
    if (pipe(wake) != 0 || fcntl(wake[0], F_SETFL, O_NONBLOCK) != 0 || fcntl(wake[1], F_SETFL, O_NONBLOCK) != 0) fail("a pipe");
    if (sigaction(SIGTERM, &action, NULL) != 0 || sigaction(SIGINT, &action, NULL) != 0) fail("catching signals");
}

/* ---- the book and the desk */

/* Warns when nine tenths of the room are used up, and again at 99 of a hundred. */
static void look_at_room(void) {
    static unsigned warned;
    unsigned percent = (unsigned)(book_length(&book) * 100 / book.room), level = percent >= 99 ? 99 : percent >= 90 ? 90 : 0;
    if (level <= warned) return;
    warned = level;
    tell("the book is nearly full: %zu of %zu bytes", book_length(&book), book.room);
}

/* What was booked since the last time is stored and flushed, then handed on. */
static void settle(void) {
    store_book(&book);
    if (given.flush == 0) flush_book(&book);
    for (size_t length; (length = next_message(&book, &settled)) != 0; settled += length) desk_message(book.bytes + settled, length);
    settled = book_length(&book);
    desk_flush();
    look_at_room();
}

/* ---- what the venue sends */

/* A status or reason of the venue's, which may be blank, as a character of a line. */
static char shown(uint8_t code) { return code > ' ' && code <= '~' ? (char)code : '?'; }

/* Tells the message that has ended the session, a Logout or a Login Response of another status than A, and answers what follows. A Logout that comes in the
 * place of the Login Response is no success. */
static int ended_by(const struct boe_record *record, uint32_t before) {
    const uint8_t *r = record->bytes;
    if (r[BOE_RECORD_TYPE_AT] == BOE_LOGOUT) {
        tell("Logout: %c: %.*s", shown(r[BOE_LOGOUT_REASON_AT]), BOE_LOGOUT_TEXT_LEN, (const char *)r + BOE_LOGOUT_TEXT_AT);
        return before == BOE_ASKED ? LOG_IN_AGAIN : 0;
    }
    tell("the venue rejects the login: %c: %.*s", shown(r[BOE_LOGIN_RESPONSE_STATUS_AT]), BOE_LOGIN_RESPONSE_TEXT_LEN,
         (const char *)r + BOE_LOGIN_RESPONSE_TEXT_AT);
    return LOGIN_REJECTED;
}

/* A message has led to another phase. What was booked before it is handed on first. */
static void enter(uint32_t before, uint32_t went, const struct boe_record *record, int *status) {
    settle();
    if (phase() == BOE_REPLAYING) {
        tell("replaying");
        if (went > outgoing()) desk_unreceived(outgoing() + 1, went);
    } else if (phase() == BOE_LIVE) {
        tell("live: messages %lu length %zu", (unsigned long)book_messages(&book), book_length(&book));
        live_at = clock_now();
    } else {
        *status = ended_by(record, before);
    }
    desk_phase(phase());
    desk_flush();
}

/* A rejection, which is in no book, goes to the desk after what was booked before it. */
static void hand_rejection(const uint8_t *message, size_t length) {
    settle();
    desk_message(message, length);
    desk_flush();
    handed++;
}

/* Gives the session a whole message from the venue, and answers its refusal. A booked one stays for `settle`. Reading refuses none that the session has
 * taken. */
static unsigned receive(const uint8_t *message, size_t length, int *status) {
    struct boe_record record;
    uint32_t told = BOE_NOTHING, before = phase(), went = outgoing();
    unsigned refusal = boe_session_receive(message, length, &told, book.bytes, book.room, &book.state, sizeof book.state);
    if (refusal || told == BOE_BOOKED) return refusal;
    if (told == BOE_HANDED) hand_rejection(message, length);
    if (phase() == before) return 0;
    refusal = boe_read(BOE_FROM_VENUE, message, length, &record, sizeof record);
    if (refusal == 0) enter(before, went, &record, status);
    return refusal;
}

/* The unit of a message, where it is one of the 32; else 0. */
static unsigned unit_of(const uint8_t *bytes, size_t length) { return length >= 10 && bytes[5] <= BOE_UNITS ? bytes[5] : 0; }

/* The number that a unit waits for. */
static uint32_t awaited(unsigned unit) { return number_at(book.state.bytes + BOE_STATE_TABLE_AT + 4 * (unit - 1)) + 1; }

/* A message that the reader refuses, under the number that its unit waits for: unless another comes under it, every later one of the unit is a gap. The desk is
 * told once, and not again when a replay brings the same message. */
static void look_for_unread(unsigned refusal, const uint8_t *bytes, size_t length) {
    unsigned unit = unit_of(bytes, length);
    if (BOE_NUMBER(refusal) < BOE_UNKNOWN_TYPE || BOE_NUMBER(refusal) > BOE_BAD_VALUE || unit == 0) return;
    uint32_t number = number_at(bytes + 6);
    if (number != awaited(unit) || number == unread[unit]) return;
    unread[unit] = number;
    settle();
    desk_unread(refusal, bytes);
    desk_flush();
}

/* Whether an unread message stands in the way of a unit: then the replay of a new login brings it again, and none after it. The other units go on. */
static bool is_stopped(unsigned unit) { return unit != 0 && unread[unit] != 0 && unread[unit] == awaited(unit); }

/* What is done about a refusal, by its number. A 14 is a message that is sent again, and passed over. Any other is told in words, with the message's bytes,
 * which the venue will ask for, or of what is no message as many as the longest has. After 1 and 2 the next message's start is not known, after 15 the replay
 * of a new login brings what is missing, unless an unread message stands before it: the line is broken. After 13 every later message of the unit is a gap, and
 * no login helps. */
static void judge(unsigned refusal, const uint8_t *bytes, size_t length, int *status) {
    unsigned number = BOE_NUMBER(refusal);
    refused[number]++;
    if (number == BOE_ALREADY_TAKEN) return;
    tell_begin();
    fprintf(stderr, "refused: ");
    print_refused(stderr, refusal, BOE_FROM_VENUE, bytes);
    fprintf(stderr, ": ");
    for (size_t i = 0; i < length && i < BOE_MESSAGE_MOST_BYTES; i++) fprintf(stderr, "%02X", bytes[i]);
    tell_end();
    look_for_unread(refusal, bytes, length);
    bool gap = number == BOE_GAP && !is_stopped(unit_of(bytes, length));
    if (gap || number == BOE_BAD_START || number == BOE_BAD_LENGTH) *status = LOG_IN_AGAIN;
    if (number == BOE_NO_ROOM) *status = BOE_NO_ROOM;
}

/* Works off the whole messages of what is held of the line, until one ends the session, and answers how many bytes they were. */
static size_t work_off(const uint8_t *held, size_t length_held, int *status) {
    size_t at = 0;
    unsigned refusal = 0;
    while (*status == GOES_ON && (refusal = boe_frame_refusal(held + at, length_held - at)) == 0) {
        size_t length = boe_frame_length(held + at, length_held - at);
        refusal = receive(held + at, length, status);
        if (refusal) judge(refusal, held + at, length, status);
        at += length;
    }
    if (*status == GOES_ON && refusal != BOE_INCOMPLETE) judge(refusal, held + at, length_held - at, status);
    return at;
}

/* Reads what has come and works it off. */
static void hear(int *status) {
    const char *why = "";
    int n = line_read(&line, &why);
    if (n > 0) {
        line_take(&line, work_off(line.in, line.held, status));
        settle();
    } else if (n < 0) {
        tell("the line has ended without a Logout%s%s", *why ? ": " : "", why);
        *status = LOG_IN_AGAIN;
    }
}

/* ---- the line */

/* The next line comes after a pause, which doubles. */
static void try_later(void) {
    next_try = clock_now() + pause_ms;
    tell("a new line in %lu ms", (unsigned long)pause_ms);
    pause_ms = pause_ms < given.most_pause / 2 ? 2 * pause_ms : given.most_pause;
}

/* Connects and logs in, with no choice of units, or all of them by name: the session lists what its table has, so that the venue replays what the book does
 * not hold, and nothing else. */
static void begin_line(int *status) {
    uint8_t out[BOE_LOGIN_MOST_BYTES];
    const char *why = "";
    int socket = line_connect(given.address, CONNECT_MS, &why);
    if (socket < 0) {
        tell("no connection to %s: %s", given.address, why);
        *status = LOG_IN_AGAIN;
        return;
    }
    line_begin(&line, socket);
    unsigned refusal = boe_session_login(&given.login, sizeof given.login, out, sizeof out, &book.state, sizeof book.state);
    if (refusal) {
        *status = (int)BOE_NUMBER(refusal);
        return;
    }
    line_put(&line, out, boe_frame_length(out, sizeof out));
    tell("connected to %s, login sent", given.address);
    desk_phase(phase());
    desk_flush();
}

/* The line's end: a session that still runs has its mark in the book, and in the file. Where there is no room for a mark the length stays, and
 * nothing is stored. No byte of this line is looked at after it. */
static void end_line(void) {
    bool ran = phase() != BOE_CLOSED;
    if (phase() == BOE_LIVE && since(live_at) >= STEADY_MS) pause_ms = given.first_pause;
    boe_session_break(book.bytes, book.room, &book.state, sizeof book.state);
    settle();
    flush_book(&book);
    if (ran) desk_phase(phase());
    desk_flush();
    if (line.socket >= 0) tell("closed: messages %lu length %zu", (unsigned long)book_messages(&book), book_length(&book));
    line_end(&line);
}

/* ---- orders */

/* Why no order that adds risk goes out, or NULL: a unit is stopped, so that the desk lacks its fills, and may not know it. Asked for, they go all the same. */
static const char *stopped_why(void) {
    for (unsigned unit = 1; unit <= BOE_UNITS && !given.trade_on; unit++)
        if (is_stopped(unit)) return "a unit is stopped by an unread message";
    return NULL;
}

/* A cancel and a purge take risk away, and a new order and a modify may add some. */
static bool adds_risk(const struct boe_record *record) {
    uint8_t type = record->bytes[BOE_RECORD_TYPE_AT];
    return type != BOE_CANCEL_ORDER && type != BOE_PURGE_ORDERS;
}

/* The record of a line that has come, or why it is no order that goes out. */
static const char *unfit_why(const struct waiting *from, struct boe_record *record) {
    char words[ORDER_LINE];
    const char *why = "a last line that is not ended";
    strcpy(words, from->text);
    if (!from->whole || !order_of(words, given.market, record, &why)) return why;
    return adds_risk(record) ? stopped_why() : NULL;
}

/* Has the session write the order of a line, and puts it on the line. */
static void send_order(const struct waiting *from) {
    uint8_t out[BOE_WRITTEN_MOST_BYTES];
    struct boe_record record;
    const char *why = unfit_why(from, &record);
    unsigned refusal = why ? 0 : boe_session_order(&record, sizeof record, out, sizeof out, &book.state, sizeof book.state);
    if (why || refusal) {
        desk_unsent(refusal, why, from->text, &record);
        return;
    }
    size_t length = boe_frame_length(out, sizeof out);
    line_put(&line, out, length);
    desk_sent(out, length);
}

/* An order is not sent, since there is no live session for it. */
static void leave_order(const struct waiting *from) { desk_unsent(BOE_OUT_OF_PHASE, NULL, from->text, &(struct boe_record){{0}}); }

/* Sends the orders that wait, while the session is live and the line has room for them. One that has waited too long for a live session is 16. */
static void send_orders(void) {
    const struct waiting *from;
    while ((from = orders_front(&orders)) != NULL) {
        bool live = phase() == BOE_LIVE;
        if (live ? !line_has_room(&line) : since(from->came) < given.wait) break;
        if (live) send_order(from);
        else leave_order(from);
        orders_drop(&orders);
    }
    desk_flush();
}

/* The orders that still wait when the program ends are not sent. */
static void leave_orders(void) {
    for (const struct waiting *from; (from = orders_front(&orders)) != NULL; orders_drop(&orders)) leave_order(from);
}

/* ---- the clock */

/* A heartbeat where one is due, and what is to go out. */
static void pulse(int *status) {
    uint8_t out[BOE_WRITTEN_MOST_BYTES];
    const char *why = "";
    if (boe_heartbeat_due(clock_now(), line.sent) && line_has_room(&line) &&
        boe_session_heartbeat(&book.state, sizeof book.state, out, sizeof out) == 0)
        line_put(&line, out, boe_frame_length(out, sizeof out));
    if (line_write(&line, &why) != 0) {
        tell("the line has ended without a Logout: %s", why);
        *status = LOG_IN_AGAIN;
    }
}

static void flush_by_clock(void) {
    if (given.flush == 0 || since(flushed_at) < given.flush) return;
    flush_book(&book);
    flushed_at = clock_now();
}

/* Sleeps until something comes, or for a turn; less where a line is to be tried earlier. Answers whether anything has come on the line. */
static bool sleep_until_something(void) {
    int most = TURN_MS, left = line.socket >= 0 ? most : (int32_t)(next_try - clock_now());
    struct pollfd from[3] = {{.fd = wake[0], .events = POLLIN},
                             {.fd = line.socket, .events = (short)(POLLIN | (line.waiting ? POLLOUT : 0))},
                             {.fd = orders_wanted(&orders) ? STDIN_FILENO : -1, .events = POLLIN}};
    if (poll(from, 3, left < 0 ? 0 : left < most ? left : most) < 0) {
        if (errno != EINTR) fail("waiting");
        return false;
    }
    if (from[2].revents && orders_read(&orders, STDIN_FILENO) != 0) tell("no more orders: standard input: %s", strerror(errno));
    return from[1].revents & (POLLIN | POLLHUP | POLLERR | POLLNVAL);
}

/* Works off what has come on the line. Where nothing has, and nothing did for too long, the line is ended: it was looked at just now, so that a turn that took
 * us long, on a slow disk say, is not taken for the venue's silence. */
static void listen_to_line(int *status) {
    if (sleep_until_something()) {
        hear(status);
    } else if (line.socket >= 0 && boe_peer_silent(clock_now(), line.heard)) {
        tell("the venue is silent");
        *status = LOG_IN_AGAIN;
    }
}

/* ---- the program */

/* One turn: a new line where it is time, what the venue has sent, orders, the clock. */
static void turn(int *status) {
    if (line.socket < 0 && (int32_t)(clock_now() - next_try) >= 0) begin_line(status);
    if (*status == GOES_ON) listen_to_line(status);
    if (*status == GOES_ON) send_orders();
    if (*status == GOES_ON && line.socket >= 0) pulse(status);
    flush_by_clock();
}

/* A day: lines one after the other, until something ends it for good. The exit status. */
static int follow(void) {
    int status = GOES_ON;
    next_try = clock_now();
    pause_ms = given.first_pause;
    while (status == GOES_ON) {
        turn(&status);
        if (signalled && (status == GOES_ON || status == LOG_IN_AGAIN)) {
            tell("ended by signal %d", (int)signalled);
            status = 0;
        }
        if (status == GOES_ON) continue;
        end_line();
        if (status != LOG_IN_AGAIN || given.once) break;
        try_later();
        status = GOES_ON;
    }
    return status;
}

/* A session on the book's file, from its restart to its last mark: the exit status. */
static int run(void) {
    book.room = given.room;
    open_book(&book, given.path, true);
    unsigned refusal = take_up_book(&book, given.date, given.market, given.path);
    if (refusal) return (int)BOE_NUMBER(refusal);
    catch_signals();
    line_init(&line);
    desk_book(book_messages(&book));
    settle();
    int status = follow();
    leave_orders();
    desk_end(book_messages(&book), book_length(&book), handed, refused);
    return status;
}

static void write_messages(void) {
    size_t at = 0;
    for (size_t length; (length = next_message(&book, &at)) != 0; at += length) fwrite(book.bytes + at, 1, length, stdout);
}

/* Tells where each unit stopped: a line for its last message. 26 is a unit that has none; no other refusal comes of a state and its own book. */
static unsigned write_last(void) {
    const struct boe_state *of = boe_session_book(&book.state);
    for (uint8_t unit = 1; unit <= BOE_UNITS; unit++) {
        unsigned refusal = boe_last_refusal(unit, book.bytes, sizeof book.bytes, of, sizeof *of);
        if (refusal == BOE_NONE) continue;
        if (refusal) return refusal;
        size_t at = boe_last_at(unit, book.bytes, sizeof book.bytes, of, sizeof *of);
        const uint8_t *message = book.bytes + at;
        printf("%02X %u %lu at %zu %zu\n", message[4], message[5], (unsigned long)number_at(message + 6), at,
               boe_last_length(unit, book.bytes, sizeof book.bytes, of, sizeof *of));
    }
    return 0;
}

/* What --messages and --last ask of a book that stays as it is. */
static int ask(void) {
    open_book(&book, given.path, false);
    unsigned refusal = boe_session_restart(given.date, given.market, book.bytes, load_book(&book), &book.state, sizeof book.state);
    if (refusal == 0 && given.asks == LAST_ASKED) refusal = write_last();
    else if (refusal == 0) write_messages();
    return (int)BOE_NUMBER(refusal);
}

/* What is no day is told before there is a file: a restart on no bytes is 19, or 22. */
static unsigned day_refusal(uint32_t date) {
    unsigned refusal = boe_session_restart(date, given.market, book.bytes, 0, &book.state, sizeof book.state);
    return refusal == BOE_NO_FIRST_MARK ? 0 : refusal;
}

static int run_as_asked(void) {
    unsigned refusal = day_refusal(given.date);
    if (refusal) return (int)BOE_NUMBER(refusal);
    if (given.asks != NOTHING_ASKED) return ask();
    if (given.names) take_names();
    return run();
}

int main(int argc, char **argv) {
    keep_standard_streams();
    look_at_version();
    int status = 0;
    if (!take_arguments(argc, argv)) return WRONG_USAGE;
    if (!given.help) status = run_as_asked();
    desk_flush();
    if (status > 0 && status <= BOE_REFUSALS) tell("ended by refusal %d %s", status, boe_refusal_name((uint32_t)status));
    fflush(stderr);
    return status;
}
