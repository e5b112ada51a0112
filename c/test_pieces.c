/* Stands between the bench venue and its line, by the linker's --wrap of read and write. Where the variable PIECE is set, each call takes at most
 * so many bytes, and by turns one is interrupted and one finds nothing to do. Where BLOCK is set to two numbers, the line takes no more bytes
 * after the first, for as many milliseconds as the second. */
#define _XOPEN_SOURCE 700
#include <errno.h>
#include <stdio.h>
#include <stdlib.h>
#include <time.h>
#include <unistd.h>

ssize_t __real_read(int file, void *bytes, size_t n);
ssize_t __wrap_read(int file, void *bytes, size_t n);
ssize_t __real_write(int file, const void *bytes, size_t n);
ssize_t __wrap_write(int file, const void *bytes, size_t n);

/* How many of so many bytes a call takes; 0 where it takes none, and by turns it is interrupted or finds nothing to do. */
static size_t piece(size_t n) {
    static unsigned calls;
    const char *most = getenv("PIECE");
    if (!most || !*most) return n;
    size_t bytes = strtoul(most, NULL, 10);
    calls++;
    errno = calls % 4 == 1 ? EINTR : EAGAIN;
    return calls % 4 < 2 ? 0 : n < bytes ? n : bytes;
}

/* How many of so many bytes a line takes of which so many have gone. */
static size_t taken_of(size_t n, size_t gone) {
    static struct timespec since;
    struct timespec now;
    unsigned long after, ms;
    const char *block = getenv("BLOCK");
    if (!block || sscanf(block, "%lu %lu", &after, &ms) != 2) return n;
    if (gone < after) return n < after - gone ? n : after - gone;
    clock_gettime(CLOCK_MONOTONIC, &now);
    if (since.tv_sec == 0) since = now;
    return (unsigned long)((now.tv_sec - since.tv_sec) * 1000 + (now.tv_nsec - since.tv_nsec) / 1000000) < ms ? 0 : n;
}

ssize_t __wrap_read(int file, void *bytes, size_t n) {
    size_t taken = piece(n);
    return n > 0 && taken == 0 ? -1 : __real_read(file, bytes, taken);
}

ssize_t __wrap_write(int file, const void *bytes, size_t n) {
    static size_t gone;
    size_t taken = taken_of(n, gone);
    errno = EAGAIN;
    if (taken > 0) taken = piece(taken);
    ssize_t written = n > 0 && taken == 0 ? -1 : __real_write(file, bytes, taken);
    if (written > 0) gone += (size_t)written;
    return written;
}
