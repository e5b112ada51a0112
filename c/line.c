/* A TCP connection. */
#define _XOPEN_SOURCE 700
#include "line.h"

#include "tell.h"

#include <arpa/inet.h>
#include <errno.h>
#include <fcntl.h>
#include <netdb.h>
#include <netinet/in.h>
#include <netinet/tcp.h>
#include <string.h>
#include <sys/socket.h>
#include <unistd.h>

void line_init(struct line *line) {
    line->socket = -1;
    line->held = line->waiting = 0;
    line->heard = line->sent = 0;
}

void line_begin(struct line *line, int socket) {
    line_init(line);
    line->socket = socket;
    line->heard = line->sent = clock_now();
}

void line_end(struct line *line) {
    if (line->socket >= 0) close(line->socket);
    line_init(line);
}

/* A socket that does not wait, is not handed to another program, and sends each message at once. */
static bool prepare(int socket) {
    int on = 1;
    return fcntl(socket, F_SETFD, FD_CLOEXEC) == 0 && fcntl(socket, F_SETFL, O_NONBLOCK) == 0 &&
           setsockopt(socket, IPPROTO_TCP, TCP_NODELAY, &on, sizeof on) == 0;
}

enum { HOST_BYTES = 256 };

bool is_address(const char *text) {
    uint64_t port;
    const char *colon = strrchr(text, ':');
    return colon && colon != text && colon - text < HOST_BYTES && number_of(colon + 1, 65535, &port);
}

/* The addresses of HOST:PORT, of which HOST may stand in brackets; NULL, with why in words. */
static struct addrinfo *look_up(const char *address, const char **why) {
    static char host[HOST_BYTES];
    const char *colon = strrchr(address, ':');
    struct addrinfo wanted = {.ai_family = AF_UNSPEC, .ai_socktype = SOCK_STREAM, .ai_flags = AI_NUMERICSERV}, *found = NULL;
    *why = "not HOST:PORT";
    if (!is_address(address)) return NULL;
    memcpy(host, address, (size_t)(colon - address));
    host[colon - address] = 0;
    size_t length = strlen(host);
    bool brackets = length > 2 && host[0] == '[' && host[length - 1] == ']';
    if (brackets) host[length - 1] = 0;
    int error = getaddrinfo(host + brackets, colon + 1, &wanted, &found);
    if (error == 0) return found;
    *why = gai_strerror(error);
    return NULL;
}

/* Waits until a connection that was begun is there: 0, or the number of what is wrong. */
static int await_connection(int socket, int most_ms) {
    struct pollfd one = {.fd = socket, .events = POLLOUT};
    uint32_t begun = clock_now();
    for (;;) {
        int left = most_ms - (int)since(begun);
        int n = left > 0 ? poll(&one, 1, left) : 0;
        if (n < 0 && errno == EINTR) return EINTR;
        if (n < 0) return errno;
        if (n == 0) return ETIMEDOUT;
        int error = 0;
        socklen_t size = sizeof error;
        return getsockopt(socket, SOL_SOCKET, SO_ERROR, &error, &size) == 0 ? error : errno;
    }
}

int line_connect(const char *address, int most_ms, const char **why) {
    struct addrinfo *found = look_up(address, why);
    int made = -1;
    for (struct addrinfo *at = found; at && made < 0; at = at->ai_next) {
        made = socket(at->ai_family, at->ai_socktype, at->ai_protocol);
        int error = made < 0 || !prepare(made) ? errno : 0;
        if (error == 0 && connect(made, at->ai_addr, at->ai_addrlen) != 0) error = errno == EINPROGRESS ? await_connection(made, most_ms) : errno;
        if (error == 0) break;
        *why = strerror(error);
        if (made >= 0) close(made);
        made = -1;
    }
    if (found) freeaddrinfo(found);
    return made;
}

/* Whether an address is one of this machine's own, that no other can reach. */
static bool is_loopback(const struct sockaddr *address) {
    if (address->sa_family == AF_INET) return ntohl(((const struct sockaddr_in *)address)->sin_addr.s_addr) >> 24 == 127;
    return address->sa_family == AF_INET6 && IN6_IS_ADDR_LOOPBACK(&((const struct sockaddr_in6 *)address)->sin6_addr);
}

/* The port that a socket got. */
static uint16_t port_of(int socket) {
    struct sockaddr_storage own;
    socklen_t size = sizeof own;
    if (getsockname(socket, (struct sockaddr *)&own, &size) != 0) return 0;
    return ntohs(own.ss_family == AF_INET6 ? ((struct sockaddr_in6 *)&own)->sin6_port : ((struct sockaddr_in *)&own)->sin_port);
}

int line_listen(const char *address, uint16_t *port, const char **why) {
    struct addrinfo *found = look_up(address, why);
    if (!found) return -1;
    int made = -1, on = 1;
    if (!is_loopback(found->ai_addr)) {
        *why = "not a loopback address";
    } else {
        made = socket(found->ai_family, found->ai_socktype, found->ai_protocol);
        if (made < 0 || !prepare(made) || setsockopt(made, SOL_SOCKET, SO_REUSEADDR, &on, sizeof on) != 0 ||
            bind(made, found->ai_addr, found->ai_addrlen) != 0 || listen(made, 16) != 0) {
            *why = strerror(errno);
            if (made >= 0) close(made);
            made = -1;
        }
    }
    if (made >= 0) *port = port_of(made);
    freeaddrinfo(found);
    return made;
}

int line_accept(int listening) {
    int made = accept(listening, NULL, NULL);
    if (made < 0 && errno != EAGAIN && errno != EWOULDBLOCK && errno != EINTR && errno != ECONNABORTED) fail("accepting a line");
    if (made < 0 || prepare(made)) return made;
    close(made);
    return -1;
}

int line_read(struct line *line, const char **why) {
    ssize_t n = read(line->socket, line->in + line->held, sizeof line->in - line->held);
    if (n > 0) {
        line->held += (size_t)n;
        line->heard = clock_now();
        return 1;
    }
    if (n < 0 && (errno == EINTR || errno == EAGAIN || errno == EWOULDBLOCK)) return 0;
    *why = n < 0 ? strerror(errno) : "";
    return -1;
}

void line_take(struct line *line, size_t bytes) {
    line->held -= bytes;
    memmove(line->in, line->in + bytes, line->held);
}

bool line_has_room(const struct line *line) { return sizeof line->out - line->waiting >= BOE_MESSAGE_MOST_BYTES; }

void line_put(struct line *line, const uint8_t *bytes, size_t length) {
    memcpy(line->out + line->waiting, bytes, length);
    line->waiting += length;
    line->sent = clock_now();
}

int line_write(struct line *line, const char **why) {
    while (line->waiting > 0) {
        ssize_t n = write(line->socket, line->out, line->waiting);
        if (n < 0 && errno == EINTR) continue;
        if (n < 0 && (errno == EAGAIN || errno == EWOULDBLOCK)) return 0;
        if (n <= 0) {
            *why = n < 0 ? strerror(errno) : "nothing is written";
            return -1;
        }
        line->waiting -= (size_t)n;
        memmove(line->out, line->out + n, line->waiting);
    }
    return 0;
}
