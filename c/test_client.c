/* A member that does what it is told, for c/test_venue: connects to a port of 127.0.0.1, and then does one thing after the other.
 *
 *   send HEX      sends bytes               slowly HEX    sends them one at a time       many N HEX    sends them N times
 *   until TYPE    reads until a message of this type has come       end    reads until the line has ended     reset    ends it by a reset
 *   for MS        reads for so long         wait MS       reads nothing for so long
 *
 * Each message that is read is a line of standard output: the milliseconds since the connection was there, type, unit and number, and its bytes.
 * The last lines are `rest HEX`, the bytes that make no message, and, where the line has ended, `end`, when, and why where it was no orderly end. The
 * status is 1 where something does not come within ten seconds, and 2 where it is told what it cannot do.
 *
 * usage: test_client [--small] PORT ACTION..    --small: the system holds few bytes that are not read */
#define _XOPEN_SOURCE 700
#include "line.h"
#include "tell.h"

#include <arpa/inet.h>
#include <fcntl.h>
#include <netinet/in.h>
#include <stdlib.h>
#include <string.h>
#include <sys/socket.h>
#include <unistd.h>

enum { MOST_MS = 10000, FEW_BYTES = 2048 };

const char program[] = "client";

static struct line line;
static uint32_t begun, ended_at;
static bool ended;
static const char *why = "";

/* Ends the program in words, with what has come told before. */
static _Noreturn void give_up(int status, const char *what) {
    fflush(stdout);
    fprintf(stderr, "client: %s\n", what);
    exit(status);
}

static void print_bytes(const uint8_t *bytes, size_t length) {
    for (size_t i = 0; i < length; i++) printf("%02X", bytes[i]);
    printf("\n");
}

/* Connects to a port. */
static void connect_to(const char *port, bool small) {
    uint64_t number;
    int few = FEW_BYTES, made = socket(AF_INET, SOCK_STREAM, 0);
    struct sockaddr_in to = {.sin_family = AF_INET};
    if (!number_of(port, 65535, &number)) give_up(2, "no port");
    to.sin_port = htons((uint16_t)number);
    to.sin_addr.s_addr = htonl(INADDR_LOOPBACK);
    if (made < 0 || (small && setsockopt(made, SOL_SOCKET, SO_RCVBUF, &few, sizeof few) != 0)) give_up(2, "no socket");
    if (connect(made, (struct sockaddr *)&to, sizeof to) != 0) give_up(1, "no connection");
    if (fcntl(made, F_SETFL, O_NONBLOCK) != 0) give_up(2, "no socket");
    line_begin(&line, made);
    begun = clock_now();
}

/* Tells the whole messages that are held, up to one of a type where there is one, and answers whether there is. */
static bool tell_messages(unsigned type) {
    bool found = false;
    size_t at = 0;
    for (size_t length; !found && (length = boe_frame_length(line.in + at, line.held - at)) != 0; at += length) {
        const uint8_t *message = line.in + at;
        printf("%lu %02X %u %lu ", (unsigned long)since(begun), message[4], message[5], (unsigned long)number_at(message + 6));
        print_bytes(message, length);
        found = message[4] == type;
    }
    line_take(&line, at);
    return found;
}

/* Reads until a message of a type has come, the line has ended, or so long: whether the message has come. */
static bool read_for(unsigned type, uint32_t most) {
    uint32_t from = clock_now(), passed;
    while (!tell_messages(type)) {
        struct pollfd one = {.fd = line.socket, .events = POLLIN};
        if (ended || (passed = since(from)) >= most) return false;
        if (poll(&one, 1, (int)(most - passed)) > 0) ended = line_read(&line, &why) < 0;
        if (ended) ended_at = since(begun);
    }
    return true;
}

/* Gives bytes to go out, and waits until they have gone. A line that ends meanwhile is no fault: it is told when it is read. */
static void send_all(const uint8_t *bytes, size_t length) {
    uint32_t from = clock_now();
    const char *unused;
    line_put(&line, bytes, length);
    while (line.waiting > 0 && since(from) < MOST_MS) {
        struct pollfd one = {.fd = line.socket, .events = POLLOUT};
        if (line_write(&line, &unused) < 0) return;
        if (line.waiting > 0) poll(&one, 1, 100);
    }
    if (line.waiting > 0) give_up(1, "the bytes do not go out");
}

/* The bytes of a text of hex, at most as many as go out at once. */
static size_t bytes_of(const char *text, uint8_t bytes[LINE_OUT]) {
    size_t length = strlen(text) / 2;
    if (strlen(text) % 2 || length > LINE_OUT || strspn(text, "0123456789ABCDEF") != 2 * length) give_up(2, "no hex");
    for (size_t i = 0; i < length; i++) {
        char two[] = {text[2 * i], text[2 * i + 1], 0};
        bytes[i] = (uint8_t)strtoul(two, NULL, 16);
    }
    return length;
}

static void pause_for(uint32_t ms) { poll(NULL, 0, (int)ms); }

/* Does one thing with its word, of two words the second one; and answers whether it is one. */
static bool act(const char *what, const char *word, const char *second) {
    static uint8_t bytes[LINE_OUT];
    unsigned long number = strtoul(word, NULL, 10);
    if (strcmp(what, "for") == 0) read_for(256, (uint32_t)number);
    else if (strcmp(what, "wait") == 0) pause_for((uint32_t)number);
    else if (strcmp(what, "send") == 0) send_all(bytes, bytes_of(word, bytes));
    else if (strcmp(what, "many") == 0) {
        size_t length = bytes_of(second, bytes);
        for (unsigned long i = 0; i < number; i++) send_all(bytes, length);
    } else if (strcmp(what, "slowly") == 0) {
        size_t length = bytes_of(word, bytes);
        for (size_t i = 0; i < length; i++, pause_for(1)) send_all(bytes + i, 1);
    } else if (strcmp(what, "until") == 0) {
        if (!read_for((unsigned)strtoul(word, NULL, 16), MOST_MS)) give_up(1, "the message does not come");
    } else {
        return false;
    }
    return true;
}

/* Ends the line by a reset, as one whose machine has lost it. */
static void reset(void) {
    struct linger at_once = {1, 0};
    setsockopt(line.socket, SOL_SOCKET, SO_LINGER, &at_once, sizeof at_once);
    close(line.socket);
    exit(0);
}

/* Does one thing that has no word; and answers whether it is one. */
static bool act_alone(const char *what) {
    if (strcmp(what, "reset") == 0) reset();
    if (strcmp(what, "end") != 0) return false;
    read_for(256, MOST_MS);
    if (!ended) give_up(1, "the line does not end");
    return true;
}

int main(int argc, char **argv) {
    bool small = argc > 1 && strcmp(argv[1], "--small") == 0;
    int at = 1 + small;
    keep_standard_streams();
    if (at >= argc) give_up(2, "usage: test_client [--small] PORT ACTION..");
    connect_to(argv[at++], small);
    while (at < argc) {
        if (act_alone(argv[at])) {
            at++;
            continue;
        }
        int words = strcmp(argv[at], "many") == 0 ? 3 : 2;
        if (at + words > argc || !act(argv[at], argv[at + 1], argv[at + words - 1])) give_up(2, "no action");
        at += words;
    }
    printf("rest ");
    print_bytes(line.in, line.held);
    if (ended) printf("end %lu%s%s\n", (unsigned long)ended_at, *why ? " " : "", why);
    return fflush(stdout) == 0 ? 0 : 2;
}
