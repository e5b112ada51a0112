/* The venue's end of a line, for the tests of the gateway. `usage` below says what it does. */
#define _XOPEN_SOURCE 700
#include "tell.h"

#include <arpa/inet.h>
#include <errno.h>
#include <fcntl.h>
#include <netinet/in.h>
#include <netinet/tcp.h>
#include <poll.h>
#include <signal.h>
#include <stdlib.h>
#include <string.h>
#include <sys/socket.h>
#include <sys/wait.h>
#include <unistd.h>

static const char usage[] =
    "usage: test_line [OPTION..] LINEFILE.. -- COMMAND WORD..\n"
    "\n"
    "Listens on a port of 127.0.0.1 and runs the command, of which each word {} becomes 127.0.0.1:PORT. From a connection it reads the first message,\n"
    "the login; then it sends the bytes of the next LINEFILE and ends its side, and reads until the other side has ended too. After the last LINEFILE it\n"
    "takes no connection. The exit status is the command's, or 128 and the signal that has ended it; 124 where the command took more than a minute, and\n"
    "was killed; 125 where this program itself cannot go on. Counts of bytes are over all lines.\n"
    "\n"
    "  --stdin FILE    the command's standard input (/dev/null); - is that of this program, closed or not\n"
    "  --login FILE    gets the bytes of the logins\n"
    "  --heard FILE    gets all that came after them\n"
    "  --at-once       sends without waiting for the login\n"
    "  --delay MS      sends so long after the login\n"
    "  --piece BYTES   sends so many bytes at a time\n"
    "  --pause MS      waits so long after each of these pieces\n"
    "  --hold MS       ends the line so long after its last byte\n"
    "  --await BYTES   ends the line when so many bytes have come after the login\n"
    "  --reset         ends the line by a reset\n"
    "  --kill-after N  kills the command when N bytes were sent, and sends no more; 0 is when the login has come\n"
    "  --kill-in MS    kills the command so long after its start or, with --kill-after, after these bytes\n"
    "  --signal N      the signal that kills it (9)\n";

const char program[] = "test_line";

/* The exit statuses that are not the command's, and how long the command may take, in milliseconds. */
enum { TOO_LONG = 124, CANNOT_GO_ON = 125, NOT_RUN = 127, BY_SIGNAL = 128, MOST_MS = 60000 };

static struct {
    const char *input, *login, *heard;
    bool at_once, reset, kills, counts; /* counts: the command is killed by a count of bytes */
    uint64_t delay, piece, pause, hold, await, kill_after, kill_in, signal;
} given = {.input = "/dev/null", .piece = SIZE_MAX, .kill_after = SIZE_MAX, .signal = SIGKILL};

/* The command, and a pipe that it has the other end of: the pipe ends when it does, and is then -1. */
static pid_t command;
static int running = -1;
static uint32_t started;

/* The port, while there are lines to come; the connection, while there is one; and the files of the two kinds of bytes that come. */
static int listening = -1, connection = -1, login_file = -1, heard_file = -1;

/* The lines to come, and of the present one its bytes and how many went, the front of its login, when that was whole, and whether our side has ended. */
static char **lines;
static struct {
    uint8_t *bytes, login[2048];
    size_t length, sent, held;
    bool begun, ended;
    uint32_t begun_at, sent_at;
} line;

/* Over all lines: the bytes that went, and those that came after the login. And whether and when the command was given its time, and whether it was killed. */
static uint64_t all_sent, all_heard;
static bool doomed, killed;
static uint32_t doomed_at;

/* This program cannot go on, and nor can the command. */
static _Noreturn void give_up(const char *what) {
    fprintf(stderr, "test_line: %s: %s\n", what, strerror(errno));
    if (command > 0) kill(command, SIGKILL);
    exit(CANNOT_GO_ON);
}

/* ---- files */

/* A file for what comes; -1 where none is named. */
static int open_to_write(const char *path) {
    int file = path ? open(path, O_WRONLY | O_CREAT | O_TRUNC | O_CLOEXEC, 0644) : -1;
    if (path && file < 0) give_up(path);
    return file;
}

/* Appends what has come to its file. */
static void keep(int file, const uint8_t *bytes, size_t length) {
    if (file >= 0 && length > 0 && write(file, bytes, length) != (ssize_t)length) give_up("what has come");
}

/* Loads the bytes of the line. */
static void load_line(const char *path) {
    FILE *from = fopen(path, "rb");
    if (!from || fseek(from, 0, SEEK_END) != 0) give_up(path);
    line.length = (size_t)ftell(from);
    line.bytes = malloc(line.length + 1);
    rewind(from);
    if (!line.bytes || fread(line.bytes, 1, line.length, from) != line.length) give_up(path);
    fclose(from);
}

/* ---- the command */

/* The streams that were closed are closed for the command too; here their numbers are held, so that nothing else gets them. */
static bool closed[3];

static void hold_streams(void) {
    for (int stream = 0; stream < 3; stream++) {
        closed[stream] = fcntl(stream, F_GETFD) == -1;
        if (closed[stream] && open("/dev/null", O_RDWR) != stream) exit(CANNOT_GO_ON);
    }
}

/* The command's streams, in its process. */
static void give_streams(void) {
    if (strcmp(given.input, "-") != 0) {
        int input = open(given.input, O_RDONLY);
        if (input < 0 || dup2(input, STDIN_FILENO) < 0 || close(input) != 0) give_up(given.input);
        closed[STDIN_FILENO] = false;
    }
    for (int stream = 0; stream < 3; stream++)
        if (closed[stream]) close(stream);
}

/* Starts the command. */
static void run_command(char **words, char *address) {
    int ends[2];
    for (char **word = words; *word; word++)
        if (strcmp(*word, "{}") == 0) *word = address;
    if (pipe(ends) != 0 || fcntl(ends[0], F_SETFD, FD_CLOEXEC) != 0) give_up("a pipe");
    started = clock_now();
    command = fork();
    if (command < 0) give_up("a process");
    if (command == 0) {
        give_streams();
        execvp(words[0], words);
        _exit(NOT_RUN);
    }
    close(ends[1]);
    running = ends[0];
}

/* Kills the command when its time has come. */
static void look_at_clock(void) {
    if (!doomed && given.kills && (!given.counts || (line.begun && all_sent >= given.kill_after))) {
        doomed = true;
        doomed_at = given.counts ? clock_now() : started;
    }
    if (!doomed || killed || since(doomed_at) < given.kill_in) return;
    killed = true;
    kill(command, (int)given.signal);
}

/* Waits for the command's end: its status. */
static int end_command(void) {
    int status;
    pid_t ended;
    while ((ended = waitpid(command, &status, WNOHANG)) == 0 && since(started) < MOST_MS) poll(NULL, 0, 1);
    if (ended < 0) give_up("the command's end");
    if (ended > 0) return WIFSIGNALED(status) ? BY_SIGNAL + WTERMSIG(status) : WEXITSTATUS(status);
    kill(command, SIGKILL);
    waitpid(command, &status, 0);
    return TOO_LONG;
}

/* ---- the line */

/* Listens on a port, and tells its address. */
static void listen_on(char address[32]) {
    struct sockaddr_in own = {.sin_family = AF_INET, .sin_addr.s_addr = htonl(INADDR_LOOPBACK)};
    socklen_t size = sizeof own;
    listening = socket(AF_INET, SOCK_STREAM, 0);
    if (listening < 0 || fcntl(listening, F_SETFD, FD_CLOEXEC) != 0 || fcntl(listening, F_SETFL, O_NONBLOCK) != 0) give_up("a socket");
    if (bind(listening, (struct sockaddr *)&own, size) != 0 || listen(listening, 4) != 0) give_up("listening");
    if (getsockname(listening, (struct sockaddr *)&own, &size) != 0) give_up("the port");
    snprintf(address, 32, "127.0.0.1:%u", ntohs(own.sin_port));
}

/* The line's bytes may go. */
static void begin_line(void) {
    line.begun = true;
    line.begun_at = line.sent_at = clock_now();
}

/* Takes a connection for the next line; after the last there is no more port. */
static void take_connection(void) {
    int on = 1;
    connection = accept(listening, NULL, NULL);
    if (connection < 0) return;
    if (fcntl(connection, F_SETFD, FD_CLOEXEC) != 0 || fcntl(connection, F_SETFL, O_NONBLOCK) != 0) give_up("a connection");
    if (setsockopt(connection, IPPROTO_TCP, TCP_NODELAY, &on, sizeof on) != 0) give_up("a connection");
    free(line.bytes);
    memset(&line, 0, sizeof line);
    load_line(*lines++);
    if (given.at_once) begin_line();
    if (*lines) return;
    close(listening);
    listening = -1;
}

static void drop_connection(void) {
    close(connection);
    connection = -1;
}

/* Whether the first message is whole. */
static bool has_login(void) { return line.held >= 4 && line.held >= 2u + (line.login[2] | line.login[3] << 8); }

/* Reads what has come. */
static void hear(void) {
    uint8_t came[65536];
    ssize_t n = read(connection, came, sizeof came);
    if (n < 0 && (errno == EAGAIN || errno == EINTR)) return;
    if (n <= 0) {
        drop_connection();
        return;
    }
    size_t at = 0;
    if (!has_login()) {
        while (at < (size_t)n && line.held < sizeof line.login && !has_login()) line.login[line.held++] = came[at++];
        if (!has_login()) return;
        keep(login_file, line.login, line.held);
        if (!line.begun) begin_line();
    }
    keep(heard_file, came + at, (size_t)n - at);
    all_heard += (size_t)n - at;
}

/* How many bytes may go now. */
static size_t may_send(void) {
    uint64_t most = given.kill_after - all_sent, left = line.length - line.sent;
    if (connection < 0 || !line.begun || since(line.begun_at) < given.delay || (line.sent > 0 && since(line.sent_at) < given.pause)) return 0;
    if (left > most) left = most;
    return left < given.piece ? left : given.piece;
}

/* Sends the next piece. Where the other side has ended, nothing more can go. */
static void send_piece(void) {
    ssize_t n = send(connection, line.bytes + line.sent, may_send(), MSG_NOSIGNAL);
    if (n < 0 && (errno == EAGAIN || errno == EINTR)) return;
    if (n < 0) line.sent = line.length;
    if (n > 0) line.sent += (size_t)n, all_sent += (size_t)n;
    line.sent_at = clock_now();
}

/* Ends our side of the line when it is time. One whose command is to be killed stays open. */
static void look_at_end(void) {
    struct linger none = {.l_onoff = 1};
    if (connection < 0 || !line.begun || line.ended || line.sent < line.length || (given.counts && doomed)) return;
    if (since(line.begun_at) < given.delay || since(line.sent_at) < given.hold || all_heard < given.await) return;
    line.ended = true;
    if (!given.reset) {
        shutdown(connection, SHUT_WR);
    } else {
        setsockopt(connection, SOL_SOCKET, SO_LINGER, &none, sizeof none);
        drop_connection();
    }
}

/* ---- the program */

/* A turn: what has come, what may go, and the clock, which is looked at each millisecond. */
static void turn(void) {
    bool sends = may_send() > 0;
    struct pollfd from[2] = {{.fd = running, .events = POLLIN},
                             {.fd = connection >= 0 ? connection : listening, .events = (short)(POLLIN | (sends ? POLLOUT : 0))}};
    if (poll(from, 2, 1) < 0 && errno != EINTR) give_up("waiting");
    if (from[0].revents) {
        close(running);
        running = -1;
    }
    if (connection < 0 && from[1].revents) {
        take_connection();
    } else if (from[1].revents) {
        if (sends && from[1].revents & POLLOUT) send_piece();
        if (from[1].revents & ~POLLOUT) hear();
    }
    look_at_clock();
    look_at_end();
}

/* Takes an option and its value, which may be NULL: how many words they are, or 0 where they are none. */
static int take_option(const char *name, const char *value) {
    const struct {
        const char *name, **text;
        uint64_t *number;
    } options[] = {{"--stdin", &given.input, NULL}, {"--login", &given.login, NULL}, {"--heard", &given.heard, NULL}, {"--delay", NULL, &given.delay},
                   {"--piece", NULL, &given.piece}, {"--pause", NULL, &given.pause}, {"--hold", NULL, &given.hold},   {"--await", NULL, &given.await},
                   {"--signal", NULL, &given.signal}, {"--kill-in", NULL, &given.kill_in}, {"--kill-after", NULL, &given.kill_after}};
    if (strcmp(name, "--at-once") == 0) return given.at_once = true;
    if (strcmp(name, "--reset") == 0) return given.reset = true;
    given.counts |= strcmp(name, "--kill-after") == 0;
    given.kills |= strncmp(name, "--kill-", 7) == 0;
    for (size_t i = 0; value && i < sizeof options / sizeof *options; i++) {
        if (strcmp(name, options[i].name) != 0) continue;
        if (options[i].text) *options[i].text = value;
        else if (!number_of(value, UINT32_MAX, options[i].number)) return 0;
        return 2;
    }
    return 0;
}

/* Takes the options and the lines, and answers the command's words; NULL where the arguments are wrong. */
static char **take_arguments(char **words) {
    int taken;
    for (; *words && strncmp(*words, "--", 2) == 0 && (*words)[2]; words += taken)
        if ((taken = take_option(words[0], words[1])) == 0) return NULL;
    for (lines = words; *words && strcmp(*words, "--") != 0;) words++;
    if (!*words || words == lines || !words[1] || given.piece == 0) return NULL;
    *words = NULL;
    return words + 1;
}

int main(int argc, char **argv) {
    char address[32], **words = argc > 1 ? take_arguments(argv + 1) : NULL;
    hold_streams();
    if (!words) {
        fprintf(stderr, "%s", usage);
        return CANNOT_GO_ON;
    }
    login_file = open_to_write(given.login);
    heard_file = open_to_write(given.heard);
    listen_on(address);
    run_command(words, address);
    while ((running >= 0 || connection >= 0) && since(started) < MOST_MS) turn();
    return end_command();
}
