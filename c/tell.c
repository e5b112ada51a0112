/* What the programs have in common. */
#define _XOPEN_SOURCE 700
#include "tell.h"

#include "boe.h"

#include <errno.h>
#include <fcntl.h>
#include <signal.h>
#include <stdarg.h>
#include <stdlib.h>
#include <string.h>
#include <time.h>
#include <unistd.h>

void tell_begin(void) {
    struct timespec now;
    struct tm parts;
    clock_gettime(CLOCK_REALTIME, &now);
    gmtime_r(&now.tv_sec, &parts);
    fprintf(stderr, "%04d-%02d-%02dT%02d:%02d:%02d.%03ldZ %s: ", parts.tm_year + 1900, parts.tm_mon + 1, parts.tm_mday, parts.tm_hour, parts.tm_min,
            parts.tm_sec, now.tv_nsec / 1000000, program);
}

void tell_end(void) {
    fprintf(stderr, "\n");
    fflush(stderr);
}

void tell(const char *format, ...) {
    va_list words;
    tell_begin();
    va_start(words, format);
    vfprintf(stderr, format, words);
    va_end(words);
    tell_end();
}

_Noreturn void fail_as(const char *what, const char *why) {
    tell("%s: %s", what, why);
    exit(SYSTEM_FAILED);
}

_Noreturn void fail(const char *what) { fail_as(what, strerror(errno)); }

void keep_standard_streams(void) {
    for (int stream = STDIN_FILENO; stream <= STDERR_FILENO; stream++) {
        if (fcntl(stream, F_GETFD) != -1) continue;
        if (open("/dev/null", stream == STDIN_FILENO ? O_WRONLY : O_RDONLY) != stream) _exit(SYSTEM_FAILED);
    }
    /* a line of standard error goes out whole */
    static char whole[8192];
    setvbuf(stderr, whole, _IOFBF, sizeof whole);
    signal(SIGPIPE, SIG_IGN);
}

void look_at_version(void) {
    if (boe_version() != BOE_VERSION) fail_as("the library", "its version is not that of the header this program was compiled with");
}

uint32_t clock_now(void) {
    struct timespec now;
    clock_gettime(CLOCK_MONOTONIC, &now);
    return (uint32_t)((uint64_t)now.tv_sec * 1000 + (uint64_t)now.tv_nsec / 1000000);
}

uint32_t since(uint32_t then) { return clock_now() - then; }

bool number_of(const char *text, uint64_t most, uint64_t *value) {
    uint64_t n = 0;
    if (*text == 0) return false;
    for (; *text; text++) {
        unsigned digit = (unsigned)(*text - '0');
        if (digit > 9 || n > (UINT64_MAX - digit) / 10) return false;
        n = 10 * n + digit;
        if (n > most) return false;
    }
    *value = n;
    return true;
}

uint32_t number_at(const uint8_t *p) { return p[0] | (uint32_t)p[1] << 8 | (uint32_t)p[2] << 16 | (uint32_t)p[3] << 24; }
