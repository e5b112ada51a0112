/* The bench venue on a TCP port, to try a gateway against: it takes the login of one member at a time, replays its log, which it keeps in a file,
 * and answers orders. --help says what it does; c/venue_rules.c has its answers, c/venue_faults.c its faults. */
#define _XOPEN_SOURCE 700
#include "line.h"
#include "places.h"
#include "tell.h"
#include "venue_given.h"
#include "venue_rules.h"

#include <errno.h>
#include <signal.h>
#include <string.h>
#include <sys/socket.h>

const char program[] = "venue";

/* A turn waits so long at most: a moment of the clock and a signal may be seen that late. What is to go out before a line is closed has so long.
 * No step is made while so many bytes wait to go out: the rest of the room is for rejections and heartbeats. */
enum { TURN_MS = 50, CLOSING_MS = 1000, STEPS_UP_TO = LINE_OUT / 2 };

static struct venue_log day_log;

/* The line, and its session. */
static struct line line;
static struct {
    uint32_t begun, login;      /* when the line was taken, and its login */
    bool reads;                 /* more may be read */
    bool idle;                  /* the last step had nothing to send */
    struct fault fault;         /* what is still to come */
    uint32_t bytes, messages;   /* what was given to go out */
    bool paused;                /* nothing goes out, since */
    uint32_t paused_at;
    const char *closing;        /* why the line is closed when all has gone out, since; NULL while it is not */
    uint32_t closing_at;
    bool shut;                  /* the member was sent the end */
} session;

/* The signal that ends the program, or 0. */
static volatile sig_atomic_t signalled;

static bool running(void) { return day_log.state.bytes[BOE_VENUE_RUNNING_AT] != 0; }

/* ---- the line's end */

/* The line is broken, and with it the session. It is told before the member can see it. */
static void end_line(const char *why) {
    boe_venue_break(&day_log.state, sizeof day_log.state);
    tell("the line has ended%s%s", *why ? ": " : "", why);
    line_end(&line);
}

/* Has the line closed when all that waits has gone out; nothing more is taken or given. */
static void close_line(const char *why) {
    session.closing = why;
    session.closing_at = clock_now();
}

/* The session's fault has come. */
static void fault_made(void) {
    given.faults.made++;
    session.fault.kind = NO_FAULT;
}

/* ---- what goes out */

/* Gives a message to go out. Of one in which a break falls, or of which half is to be sent, the front goes, and the line is closed after it. */
static void give(const uint8_t *message, size_t length) {
    const struct fault fault = session.fault;
    size_t part = length;
    if (session.closing) return;
    session.messages++;
    if (fault.kind == FAULT_BREAK && fault.after - session.bytes < length) part = fault.after - session.bytes;
    if (fault.kind == FAULT_HALF && fault.after == session.messages) part = length / 2;
    line_put(&line, message, part);
    session.bytes += (uint32_t)part;
    bool breaks = fault.kind == FAULT_BREAK && fault.after == session.bytes, halves = part < length && !breaks;
    if (breaks) tell("fault break after %lu bytes", (unsigned long)fault.after);
    if (halves) tell("fault half a message");
    if (!breaks && !halves) return;
    fault_made();
    close_line("a fault");
}

/* Gives the message of a record. */
static void give_record(const struct boe_record *record) {
    uint8_t out[BOE_MESSAGE_MOST_BYTES];
    give(out, written(record, out));
}

/* Makes the session's next steps, as many as there is room for. */
static void step(void) {
    uint8_t out[BOE_MESSAGE_MOST_BYTES];
    uint32_t sent = 1;
    while (sent > 0 && running() && !session.closing && line.waiting < STEPS_UP_TO) {
        uint32_t refusal = boe_venue_step(day_log.bytes, sizeof day_log.bytes, &sent, out, sizeof out, &day_log.state, sizeof day_log.state);
        if (refusal) fail_as("a step is refused", boe_refusal_name(refusal));
        if (sent > 0) give(out, sent);
        if (sent > 0 && out[4] == BOE_REPLAY_COMPLETE && !session.closing) tell("replay complete");
    }
    session.idle = sent == 0;
}

/* A heartbeat, where one is due. */
static void heartbeat(void) {
    struct boe_record record = boe_blank_record(BOE_SERVER_HEARTBEAT);
    if (running() && boe_heartbeat_due(clock_now(), line.sent) && line_has_room(&line)) give_record(&record);
}

/* A Logout, with the last number of each unit in the log. */
static void give_logout(void) {
    struct boe_record record = boe_blank_record(BOE_LOGOUT);
    uint8_t *pair = record.bytes + BOE_LOGOUT_PAIRS_AT;
    boe_logout_set_reason(&record, 'E');
    boe_logout_set_text(&record, "End of Day");
    boe_logout_set_last_received(&record, number_at(day_log.state.bytes + BOE_VENUE_RECEIVED_AT));
    for (uint8_t unit = 1; unit <= BOE_UNITS; unit++) {
        if (log_number(&day_log, unit) == 0) continue;
        pair[0] = unit;
        memcpy(pair + 1, day_log.state.bytes + BOE_VENUE_TABLE_AT + 4 * (unit - 1), 4);
        pair += BOE_PAIR_LEN;
        record.bytes[BOE_LOGOUT_NUMBER_OF_UNITS_AT]++;
    }
    give_record(&record);
}

/* ---- what comes */

static void tell_refused(const char *what, uint32_t refusal, uint8_t direction, const uint8_t *message) {
    tell_begin();
    fprintf(stderr, "%s refused: ", what);
    print_refused(stderr, refusal, direction, message);
    tell_end();
}

/* Answers a login with the fault's status, so that no session begins. */
static void refuse_login(void) {
    struct boe_record record = boe_blank_record(BOE_LOGIN_RESPONSE);
    boe_login_response_set_status(&record, session.fault.status);
    boe_login_response_set_text(&record, "refused on request");
    tell("fault status %c", session.fault.status);
    fault_made();
    give_record(&record);
    close_line("a fault");
}

/* Takes a login: its response goes out, and the session begins. */
static void take_login(const uint8_t *message, size_t length) {
    struct boe_record record;
    uint8_t out[BOE_WRITTEN_MOST_BYTES];
    uint32_t sent = 0, refusal = boe_read(BOE_FROM_MEMBER, message, length, &record, sizeof record);
    if (refusal == 0 && !running() && session.fault.kind == FAULT_STATUS) {
        refuse_login();
        return;
    }
    refusal = boe_venue_login(message, length, &sent, out, sizeof out, &day_log.state, sizeof day_log.state);
    if (refusal) {
        tell_refused("login", refusal, BOE_FROM_MEMBER, message);
        return;
    }
    tell("login taken");
    session.login = clock_now();
    give(out, sent);
}

/* Takes what else a member sends, an order or a heartbeat, and answers an order. */
static void take_order(const uint8_t *message, size_t length) {
    uint8_t direction = given.market == BOE_OPTIONS ? BOE_FROM_OPTIONS_MEMBER : BOE_FROM_MEMBER, out[BOE_MESSAGE_MOST_BYTES];
    struct boe_record record;
    char name[21];
    uint32_t refusal = boe_venue_order(given.market, message, length, &day_log.state, sizeof day_log.state);
    if (refusal == 0) refusal = boe_read(direction, message, length, &record, sizeof record);
    if (refusal) {
        tell_refused("order", refusal, direction, message);
        return;
    }
    if (message[4] == BOE_CLIENT_HEARTBEAT) return;
    order_name(&record, name);
    tell("order %02X %lu %s", message[4], (unsigned long)number_at(message + 6), name);
    size_t rejection = answer_order(&day_log, (unsigned)given.units, &record, out);
    if (rejection) give(out, rejection);
}

/* Works off the whole messages that are held, as long as an answer to one finds room. After 1 and 2 the next message's start is not known: the
 * line is broken. */
static void work_off(void) {
    size_t at = 0;
    uint32_t refusal = 0;
    while (!session.closing && line_has_room(&line) && (refusal = boe_frame_refusal(line.in + at, line.held - at)) == 0) {
        const uint8_t *message = line.in + at;
        size_t length = boe_frame_length(message, line.held - at);
        if (message[4] == BOE_LOGIN_REQUEST) take_login(message, length);
        else take_order(message, length);
        at += length;
    }
    line_take(&line, at);
    session.reads = refusal == BOE_INCOMPLETE;
    if (refusal == BOE_BAD_START) end_line("refused: 1 BAD_START");
    if (refusal == BOE_BAD_LENGTH) end_line("refused: 2 BAD_LENGTH");
}

/* ---- the clock */

/* The faults that come at a moment after the login: a pause begins or ends, or a Logout is sent. */
static void look_at_fault(void) {
    const struct fault *fault = &session.fault;
    if (session.paused && since(session.paused_at) >= fault->lasting) {
        session.paused = false;
        session.fault.kind = NO_FAULT;
    }
    if (session.paused || !running() || since(session.login) < fault->after) return;
    if (fault->kind == FAULT_PAUSE) {
        tell("fault pause of %lu ms", (unsigned long)fault->lasting);
        given.faults.made++;
        session.paused = true;
        session.paused_at = clock_now();
    } else if (fault->kind == FAULT_LOGOUT) {
        tell("fault Logout");
        fault_made();
        give_logout();
        close_line("a fault");
    }
}

/* Breaks the line of a member that sends nothing, or no login, for five seconds. */
static void look_at_silence(void) {
    uint32_t now = clock_now();
    if (!boe_peer_silent(now, line.heard) && (running() || !boe_peer_silent(now, session.begun))) return;
    tell("the member is silent");
    end_line("silence");
}

/* Logs the messages of the venue's own traffic that are due by now. */
static void make_traffic(struct chance *chance, uint32_t *last) {
    uint8_t out[BOE_MESSAGE_MOST_BYTES];
    while (given.traffic > 0 && since(*last) >= given.every) {
        uint8_t unit = (uint8_t)(1 + below(chance, (unsigned)given.units));
        *last += (uint32_t)given.every;
        given.traffic--;
        log_message(&day_log, out, any_sequenced(chance, unit, log_number(&day_log, unit) + 1, out));
    }
}

/* ---- the turns */

/* Takes a member's connection, where there is one. */
static void take_line(int listening) {
    int taken = line_accept(listening);
    if (taken < 0) return;
    line_begin(&line, taken);
    memset(&session, 0, sizeof session);
    session.begun = line.heard;
    session.reads = true;
    session.fault = next_fault(&given.faults);
    tell("a line");
}

/* Closes a line in order: when all has gone out the member is sent the end, and what it still sends is read and thrown away, until it ends the
 * line, too. A socket that is closed with bytes unread may lose what has gone out. */
static void close_in_order(void) {
    line_take(&line, line.held);
    session.reads = true;
    if (line.waiting == 0 && !session.shut) session.shut = shutdown(line.socket, SHUT_WR) == 0;
    if (since(session.closing_at) >= CLOSING_MS) end_line(session.closing);
}

/* Serves the member for a turn. */
static void serve(void) {
    const char *why = "";
    if (!session.closing) work_off();
    if (line.socket >= 0 && !session.closing) look_at_silence();
    if (line.socket >= 0 && !session.closing) look_at_fault();
    if (line.socket < 0 || session.paused) return;
    step();
    heartbeat();
    if (line_write(&line, &why) < 0) end_line(why);
    else if (session.closing) close_in_order();
}

/* How long a turn waits: not while the next steps have room, and not beyond the next message of the traffic. */
static int turn_ms(uint32_t last) {
    bool steps = line.socket >= 0 && running() && !session.idle && !session.paused && !session.closing && line.waiting < STEPS_UP_TO;
    uint32_t passed = since(last), most = TURN_MS;
    if (given.traffic > 0 && passed >= given.every) most = 0;
    else if (given.traffic > 0 && given.every - passed < most) most = (uint32_t)(given.every - passed);
    return steps ? 0 : (int)most;
}

/* A turn: waits for the line, or for one where there is none, and does what is to be done. */
static void turn(int listening, struct chance *chance, uint32_t *last) {
    const char *why = "";
    bool there = line.socket >= 0;
    struct pollfd one = {.fd = there ? line.socket : listening, .events = POLLIN};
    if (there) one.events = (short)((session.reads ? POLLIN : 0) | (line.waiting > 0 && !session.paused ? POLLOUT : 0));
    int ready = poll(&one, 1, turn_ms(*last));
    if (ready < 0 && errno != EINTR) fail("waiting");
    if (ready > 0 && !there) take_line(listening);
    if (ready > 0 && there && one.revents != POLLOUT && line_read(&line, &why) < 0) end_line(session.closing ? session.closing : why);
    make_traffic(chance, last);
    if (line.socket >= 0) serve();
}

/* ---- the program */

static void on_signal(int number) { signalled = number; }

/* Serves until a signal comes or the time is over, and leaves the log flushed. */
static void run(int listening) {
    struct sigaction on = {.sa_handler = on_signal};
    struct chance chance = chance_from(2 * given.seed + 1);
    uint32_t begun = clock_now(), last = begun;
    sigaction(SIGTERM, &on, NULL);
    sigaction(SIGINT, &on, NULL);
    given.faults.chance = chance_from(2 * given.seed);
    while (!signalled && (given.seconds == 0 || since(begun) < 1000 * given.seconds)) turn(listening, &chance, &last);
    if (line.socket >= 0) end_line("the venue ends");
    flush_log(&day_log);
    if (signalled) tell("ended by signal %d", (int)signalled);
    else tell("ended after %lu s", (unsigned long)given.seconds);
}

/* Puts the port into a file that is there when it is whole. */
static void write_port(uint16_t port) {
    char path[4096];
    if ((size_t)snprintf(path, sizeof path, "%s.tmp", given.port_file) >= sizeof path) fail_as(given.port_file, "too long a name");
    FILE *file = fopen(path, "w");
    if (!file) fail(path);
    if (fprintf(file, "%u\n", port) < 0 || fclose(file) != 0 || rename(path, given.port_file) != 0) fail(given.port_file);
}

/* Tells where the venue listens. */
static void announce(uint16_t port) {
    int host = (int)(strrchr(given.address, ':') - given.address);
    if (given.port_file) write_port(port);
    tell("listening on %.*s:%u", host, given.address, port);
    printf("listening on %.*s:%u\n", host, given.address, port);
    if (fflush(stdout) != 0) fail("standard output");
}

int main(int argc, char **argv) {
    uint16_t port = 0;
    const char *why = "";
    keep_standard_streams();
    look_at_version();
    if (!take_arguments(argc, argv)) return WRONG_USAGE;
    if (given.help) {
        if (fflush(stdout) != 0) fail("standard output");
        return 0;
    }
    line_init(&line);
    int listening = line_listen(given.address, &port, &why);
    if (listening < 0) fail_as(given.address, why);
    day_log.flush = given.flush;
    open_log(&day_log, given.log);
    uint32_t refusal = take_up_log(&day_log, given.log);
    if (refusal) return (int)BOE_NUMBER(refusal);
    announce(port);
    run(listening);
    return 0;
}
