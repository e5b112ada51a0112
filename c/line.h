/* A TCP connection: what came and is not worked off, and what is to go out. Nothing here waits, but for line_connect. */
#ifndef LINE_H
#define LINE_H

#include "boe.h"

#include <poll.h>
#include <stdbool.h>
#include <stddef.h>
#include <stdint.h>

enum { LINE_IN = 65536, LINE_OUT = 65536 };

struct line {
    int socket; /* -1 while there is none */
    uint8_t in[LINE_IN], out[LINE_OUT];
    size_t held;            /* the bytes of `in` that are not worked off: the front of a message */
    size_t waiting;         /* the bytes of `out` that did not go yet */
    uint32_t heard, sent;   /* when anything last came, and when anything was last given to go out, on the clock of clock_now */
};

/* A line that has no connection. */
void line_init(struct line *line);

/* Takes a connected socket; the moment counts as heard and sent. */
void line_begin(struct line *line, int socket);

/* Closes it, and forgets what came and what was to go out. */
void line_end(struct line *line);

/* Whether a text is HOST:PORT, a port being at most 65535. Whether there is such a host is not asked. */
bool is_address(const char *text);

/* Connects to HOST:PORT within so many milliseconds: a socket that does not wait, or -1, with why in words. */
int line_connect(const char *address, int most_ms, const char **why);

/* Listens on a loopback address, HOST:PORT, of which the port may be 0 for any: a socket that does not wait, or -1, with why in words. `port` is
 * the one it got. */
int line_listen(const char *address, uint16_t *port, const char **why);

/* Takes the next connection of a listening socket: a socket that does not wait, or -1 where there is none now. Where that fails the program ends, in
 * words. */
int line_accept(int listening);

/* Reads what has come, once. 1 where there is more than before, 0 where nothing has come, -1 where the line has ended, with why in words, "" for an
 * orderly end. There is always room: what is held is at most the front of one message. */
int line_read(struct line *line, const char **why);

/* Takes so many bytes off the front of what is held. */
void line_take(struct line *line, size_t bytes);

/* Whether a message of the longest form can be given to go out. */
bool line_has_room(const struct line *line);

/* Gives bytes to go out; there is room for them. */
void line_put(struct line *line, const uint8_t *bytes, size_t length);

/* Writes what can go now: 0, or -1 where the line has ended, with why in words. */
int line_write(struct line *line, const char **why);

#endif
