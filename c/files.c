/* The file in which a program keeps its bytes. */
#define _XOPEN_SOURCE 700
#include "files.h"

#include "tell.h"

#include <errno.h>
#include <fcntl.h>
#include <stdio.h>
#include <string.h>
#include <sys/stat.h>
#include <unistd.h>

/* What was being done with the file when a call failed. */
static _Noreturn void fail_at(const char *doing, const char *what) {
    int error = errno;
    char words[64];
    snprintf(words, sizeof words, "%s the %s", doing, what);
    fail_as(words, strerror(error));
}

/* Two writers would each go on from a state that the other's messages have made wrong. The lock goes with the process, so a kill leaves none. */
static void lock(int file, const char *path, const char *what) {
    char words[64];
    if (lockf(file, F_TLOCK, 0) == 0) return;
    if (errno != EACCES && errno != EAGAIN) fail_at("locking", what);
    snprintf(words, sizeof words, "another %s has the %s", program, what);
    fail_as(path, words);
}

int open_file(const char *path, bool to_write, const char *what) {
    struct stat own, other;
    int file = to_write ? open(path, O_RDWR | O_CREAT | O_NONBLOCK | O_CLOEXEC, 0644) : open(path, O_RDONLY | O_NONBLOCK | O_CLOEXEC);
    if (file < 0 || fstat(file, &own) != 0) fail(path);
    if (!S_ISREG(own.st_mode)) fail_as(path, "not a plain file");
    for (int stream = STDERR_FILENO; stream >= STDIN_FILENO; stream--) {
        if (fstat(stream, &other) != 0 || other.st_dev != own.st_dev || other.st_ino != own.st_ino) continue;
        if (stream == STDERR_FILENO) _exit(SYSTEM_FAILED); /* what would be told would stand in the file */
        fail_as(path, "a standard stream has this file");
    }
    if (to_write) lock(file, path, what);
    return file;
}

size_t load_file(int file, uint8_t *bytes, size_t room, const char *what) {
    size_t held = 0;
    while (held < room) {
        ssize_t n = pread(file, bytes + held, room - held, (off_t)held);
        if (n < 0 && errno == EINTR) continue;
        if (n < 0) fail_at("reading", what);
        if (n == 0) break;
        held += (size_t)n;
    }
    return held;
}

void write_file(int file, const uint8_t *bytes, size_t from, size_t to, const char *what) {
    while (from < to) {
        ssize_t n = pwrite(file, bytes + from, to - from, (off_t)from);
        if (n < 0 && errno == EINTR) continue;
        if (n <= 0) fail_at("writing", what);
        from += (size_t)n;
    }
}

void flush_file(int file, const char *what) {
    if (fsync(file) != 0) fail_at("flushing", what);
}

void cut_file(int file, size_t length, const char *what) {
    if (ftruncate(file, (off_t)length) != 0) fail_at("cutting", what);
}
