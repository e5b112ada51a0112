/* Stands between a program and the system, by the linker's --wrap. Each flush, write and lock of a file, and each line that standard output is
 * handed, is told as a line of the file that the variable CALLS names: `hand-on` and the line. A call fails if the variable FAULT names it: `fsync 2 5`
 * is the second flush of a file, with the error of number 5. It is slow if SLOW does: `fsync 2 5000` takes 5 seconds longer. A directory's flush is called
 * fsync-directory. */
#define _XOPEN_SOURCE 700
#include <errno.h>
#include <stdio.h>
#include <stdio_ext.h>
#include <stdlib.h>
#include <string.h>
#include <sys/stat.h>
#include <time.h>
#include <unistd.h>

int __real_fsync(int file);
int __wrap_fsync(int file);
ssize_t __real_pwrite(int file, const void *bytes, size_t n, off_t at);
ssize_t __wrap_pwrite(int file, const void *bytes, size_t n, off_t at);
int __real_lockf(int file, int what, off_t n);
int __wrap_lockf(int file, int what, off_t n);
int __real_fflush(FILE *to);
int __wrap_fflush(FILE *to);

/* Tells a call, with what it is about. */
static void tell_call(const char *name, const char *what, int length) {
    const char *calls = getenv("CALLS");
    FILE *log = calls && *calls ? fopen(calls, "a") : NULL;
    if (!log) return;
    fprintf(log, "%s%.*s\n", name, length, what);
    fclose(log);
}

/* The number that a variable has for this call, which it counts; 0 where it names another one. */
static int number_for(const char *variable, const char *name, int *seen) {
    char wanted[32];
    int which, number;
    const char *value = getenv(variable);
    if (!value || sscanf(value, "%31s %d %d", wanted, &which, &number) != 3 || strcmp(wanted, name) != 0) return 0;
    return ++*seen == which ? number : 0;
}

/* Whether a call is to fail; a slow one waits. */
static int is_faulty(const char *name) {
    static int faults, waits;
    int ms = number_for("SLOW", name, &waits), error = number_for("FAULT", name, &faults);
    struct timespec wait = {ms / 1000, ms % 1000 * 1000000L};
    if (ms > 0) nanosleep(&wait, NULL);
    if (error > 0) errno = error;
    return error > 0;
}

/* Tells a call, and answers whether it is to fail. */
static int fails(const char *name) {
    tell_call(name, "", 0);
    return is_faulty(name);
}

int __wrap_fsync(int file) {
    struct stat of;
    int directory = fstat(file, &of) == 0 && S_ISDIR(of.st_mode);
    return fails(directory ? "fsync-directory" : "fsync") ? -1 : __real_fsync(file);
}

ssize_t __wrap_pwrite(int file, const void *bytes, size_t n, off_t at) {
    return fails("pwrite") ? -1 : __real_pwrite(file, bytes, n, at);
}

int __wrap_lockf(int file, int what, off_t n) { return fails("lockf") ? -1 : __real_lockf(file, what, n); }

/* What standard output has printed and was not handed yet stands here. */
static char printed[1 << 20];

__attribute__((constructor)) static void keep_printed(void) { setvbuf(stdout, printed, _IOFBF, sizeof printed); }

int __wrap_fflush(FILE *to) {
    size_t held = to == stdout ? __fpending(stdout) : 0, at = 0;
    if (held == 0) return __real_fflush(to);
    for (size_t end; at < held; at = end + 1) {
        for (end = at; end < held && printed[end] != '\n';) end++;
        tell_call("hand-on ", printed + at, (int)(end - at));
    }
    return is_faulty("hand-on") ? EOF : __real_fflush(to);
}
