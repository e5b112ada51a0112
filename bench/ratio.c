/* Times of boe_read, boe_write, boe_restart, boe_book_append and boe_session_receive of a library against the hand-tuned C anchor that bench/ratio is given, in one run.
 * Each figure is the third least of ROUNDS rounds, the sides taking turns, so that a noisy machine spoils neither alone. */
#define _GNU_SOURCE
#include <stdint.h>
#include <stdio.h>
#include <stdlib.h>
#include <string.h>
#include <time.h>

typedef uint8_t u8;
typedef uint32_t u32;
typedef size_t usize;

/* As in boe.h, records and states as plain bytes. */
u32 boe_read(u8, const u8 *, usize, u8 *, usize);
u32 boe_write(u8, const u8 *, usize, u8 *, usize);
u32 boe_restart(u32, const u8 *, usize, u8 *, usize);
u32 boe_book_open(u32, u8 *, usize, u8 *, usize);
u32 boe_book_append(const u8 *, usize, u8 *, usize, u8 *, usize);
u32 boe_session_open(u32, u8, u8 *, usize, u8 *, usize);
u32 boe_session_receive(const u8 *, usize, u32 *, u8 *, usize, u8 *, usize);

#define ANCHOR(p) \
    u32 p##boe_read_venue(const u8 *, usize, void *); \
    u32 p##boe_read_member(const u8 *, usize, void *); \
    u32 p##boe_write(const void *, u8 *, usize, u32 *); \
    u32 p##boe_restart(const u8 *, usize, u32, void *); \
    void *p##memcpy(void *d, const void *s, usize n) { return memcpy(d, s, n); } \
    void *p##memset(void *d, int c, usize n) { return memset(d, c, n); }
ANCHOR(sse_)
ANCHOR(scalar_)

enum { RECORD = 2048, STATE = 1024, ROUNDS = 200, CALLS = 4000, WORKLOADS = 5, DATE = 20250819, NO_ROOM = 13, PHASE_AT = 276, LIVE = 3 };

static u8 message[WORKLOADS][256], record[WORKLOADS][RECORD], out[512], scratch[RECORD];
static _Alignas(64) u8 theirs[WORKLOADS][4096], their_scratch[4096];
static usize length[WORKLOADS];

static usize unhex(const char *s, u8 *p) {
    usize n = 0;
    unsigned v;
    int k;
    while (sscanf(s, " %2x%n", &v, &k) == 1) { p[n++] = (u8)v; s += k; }
    return n;
}
static usize put(u8 *m, usize at, const char *s, usize w) { memset(m + at, 0, w); memcpy(m + at, s, strlen(s)); return at + w; }
static void ends(int i, usize n) { message[i][2] = (u8)(n - 2); message[i][3] = (u8)((n - 2) >> 8); length[i] = n; }
#define ID "41 42 43 31 32 33 00 00 00 00 00 00 00 00 00 00 00 00 00 00 "
#define TIME "E0 FA 20 F7 36 71 F8 11 "

/* a: New Order example of 000; b: New Order with all listed bits; c: acknowledgment without bits; d: acknowledgment with all; e: Execution example */
static void make(void) {
    usize n = unhex("BA BA 4A 00 38 00 64 00 00 00 " ID "31 E8 03 00 00 03 04 C1 01 44 D6 12 00 00 00 00 00 4D 53 46 54 00 00 00 00 50 52 00 00 00 44 45 46 47 00 00 00 00 00 00 00 00 00 00 00 00", message[0]);
    ends(0, n);
    u8 *m = message[1];
    n = unhex("BA BA 00 00 38 00 64 00 00 00 " ID "31 E8 03 00 00 0A FF C3 C1 00 00 33 00 00 00 02", m);
    n = put(m, n, "TEST", 4); n = put(m, n, "123C", 4); n = put(m, n, "\x44\xD6\x12", 8); n = put(m, n, "r", 1); n = put(m, n, "2", 1);
    n = put(m, n, "0", 1); n = put(m, n, "\x64", 4); n = put(m, n, "\xC8", 4); n = put(m, n, "MSFT", 8); n = put(m, n, "PR", 8);
    n = put(m, n, "P", 1); n = put(m, n, "R", 4); n = put(m, n, "DEFG", 16); n = put(m, n, "Y", 1); n = put(m, n, "\x01\x02\x03", 8);
    n = put(m, n, "\x0A", 4); n = put(m, n, "\x44\xD6\x12", 8); n = put(m, n, "D", 1); n = put(m, n, "echo this text back to me, please", 64); n = put(m, n, "BROK", 4);
    ends(1, n);
    ends(2, unhex("BA BA 2E 00 25 03 64 00 00 00 " TIME ID "05 10 1E B7 5E 39 2F 02 00 00", message[2]));
    m = message[3];
    n = unhex("BA BA 00 00 25 03 64 00 00 00 " TIME ID "05 10 1E B7 5E 39 2F 02 00 0F 7D 43 57 00 8E 00 00 00 00 00 00 00 00 00 00", m);
    n = put(m, n, "1", 1); n = put(m, n, "\x44\xD6\x12", 8); n = put(m, n, "r", 1); n = put(m, n, "2", 1); n = put(m, n, "0", 1); n = put(m, n, "\x64", 4);
    n = put(m, n, "MSFT", 8); n = put(m, n, "PR", 8); n = put(m, n, "P", 1); n = put(m, n, "DEFG", 16); n = put(m, n, "TEST", 4); n = put(m, n, "123C", 4);
    n = put(m, n, "\x64", 4); n = put(m, n, "\xE8\x03", 4); n = put(m, n, "\x64", 4); n = put(m, n, "\x64", 4); n = put(m, n, "\x44\xD6\x12", 8); n = put(m, n, "\x01\x02", 8);
    ends(3, n);
    ends(4, unhex("BA BA 53 00 2C 03 64 00 00 00 " TIME ID "01 F0 B7 D9 71 21 00 00 64 00 00 00 08 E2 01 00 00 00 00 00 14 00 00 00 41 00 42 41 54 53 00 03 00 00 46 54 45 53 54 31 32 33 43 78 00 00 00", message[4]));
}

static double now(void) {
    struct timespec t;
    clock_gettime(CLOCK_MONOTONIC, &t);
    return (double)t.tv_sec * 1e9 + (double)t.tv_nsec;
}

enum { READ, READ_SCALAR, READ_SSE, WRITE, WRITE_SCALAR, WRITE_SSE, SIDES };
static double round_of(int side, int w) {
    volatile u32 refused = 0;
    u32 total;
    int member = w < 2;
    const u8 *m = message[w];
    usize n = length[w];
    double t = now();
    for (int i = 0; i < CALLS; i++) switch (side) {
        case READ: refused |= boe_read(member ? 0 : 1, m, n, scratch, RECORD); break;
        case READ_SCALAR: refused |= member ? scalar_boe_read_member(m, n, their_scratch) : scalar_boe_read_venue(m, n, their_scratch); break;
        case READ_SSE: refused |= member ? sse_boe_read_member(m, n, their_scratch) : sse_boe_read_venue(m, n, their_scratch); break;
        case WRITE: refused |= boe_write(member ? 0 : 1, record[w], RECORD, out, 256); break;
        case WRITE_SCALAR: refused |= scalar_boe_write(theirs[w], out, 256, &total); break;
        case WRITE_SSE: refused |= sse_boe_write(theirs[w], out, 256, &total); break;
        }
    t = (now() - t) / CALLS;
    if (refused) { printf("refused: side %d, workload %c: %u\n", side, 'a' + w, refused); exit(1); }
    return t;
}

static int order(const void *a, const void *b) { double x = *(const double *)a, y = *(const double *)b; return (x > y) - (x < y); }
static double third_least(double *v, int n) { qsort(v, (usize)n, sizeof *v, order); return v[2]; }
static double worst;
static double ratio(double a, double b) { if (a / b > worst) worst = a / b; return a / b; }

/* a book of 1 MiB: of ten messages seven acknowledgments with the bitfields 00 41 05 and three executions, units in turn */
static u8 book[1 << 20], state[STATE], their_book[4096], ack[256];
static usize ack_length, count, used;

static void make_ack(void) {
    ack_length = unhex("BA BA 4E 00 25 01 01 00 00 00 " TIME ID "05 10 1E B7 5E 39 2F 02 00 03 00 41 05 4D 53 46 54 00 00 00 00 50 44 45 46 47 00 00 00 00 00 00 00 00 00 00 00 00 31 32 33 43", ack);
}

static u32 told;
static u32 append(const u8 *b, usize n) { return boe_book_append(b, n, book, sizeof book, state, sizeof state); }
static u32 receive(const u8 *b, usize n) { return boe_session_receive(b, n, &told, book, sizeof book, state, sizeof state); }

/* Fills the book, a message at a call, until it has no room: the time of a message. */
static inline __attribute__((always_inline)) double fill(u32 (*take)(const u8 *, usize)) {
    u32 last[33] = {0}, refusal;
    count = 0;
    used = 16;
    double t = now();
    for (usize k = 0;; k++) {
        u8 *b = k % 10 < 7 ? ack : message[4];
        usize n = k % 10 < 7 ? ack_length : length[4];
        u32 u = (u32)(k % 32 + 1);
        b[5] = (u8)u;
        last[u]++;
        memcpy(b + 6, &last[u], 4);
        refusal = take(b, n);
        if (refusal) break;
        count++;
        used += n;
    }
    t = (now() - t) / (double)count;
    if (refusal != NO_ROOM) { printf("refused: %u\n", refusal); exit(1); }
    return t;
}

static double fill_by_append(void) {
    if (boe_book_open(DATE, book, sizeof book, state, sizeof state)) exit(1);
    return fill(append);
}

static double fill_by_receive(void) {
    if (boe_session_open(DATE, 0, book, sizeof book, state, sizeof state)) exit(1);
    state[PHASE_AT] = LIVE;
    double t = fill(receive);
    if (told != 1) exit(1);
    return t;
}

/* The time of a message in a restart that began at t. */
static double restart_by(u32 refusal, double t) {
    if (refusal) exit(1);
    return (now() - t) / (double)count;
}

int main(void) {
    make();
    static double v[SIDES][ROUNDS];
    printf("%-10s %28s %8s %30s %8s\n", "workload", "read: ours, scalar, sse ns", "ratio", "write: ours, scalar, sse ns", "ratio");
    for (int w = 0; w < WORKLOADS; w++) {
        if (boe_read(w < 2 ? 0 : 1, message[w], length[w], record[w], RECORD)) return 1;
        if (w < 2) scalar_boe_read_member(message[w], length[w], theirs[w]); else scalar_boe_read_venue(message[w], length[w], theirs[w]);
        for (int i = 0; i < ROUNDS; i++) for (int s = 0; s < SIDES; s++) v[s][i] = round_of(s, w);
        double t[SIDES];
        for (int s = 0; s < SIDES; s++) t[s] = third_least(v[s], ROUNDS);
        printf("%-10c %9.1f %8.1f %8.1f %9.2f %11.1f %8.1f %8.1f %9.2f\n", 'a' + w, t[READ], t[READ_SCALAR], t[READ_SSE], ratio(t[READ], t[READ_SCALAR]),
               t[WRITE], t[WRITE_SCALAR], t[WRITE_SSE], ratio(t[WRITE], t[WRITE_SCALAR]));
    }

    make_ack();
    enum { APPEND, RECEIVE, RESTART, SCALAR, SSE, CALLED };
    static double took[CALLED][ROUNDS / 4];
    for (int i = 0; i < ROUNDS / 4; i++) {
        double t;
        took[APPEND][i] = fill_by_append();
        took[RECEIVE][i] = fill_by_receive();
        t = now();
        took[RESTART][i] = restart_by(boe_restart(DATE, book, used, state, sizeof state), t);
        t = now();
        took[SCALAR][i] = restart_by(scalar_boe_restart(book, used, DATE, their_book), t);
        t = now();
        took[SSE][i] = restart_by(sse_boe_restart(book, used, DATE, their_book), t);
    }
    double each[CALLED];
    for (int s = 0; s < CALLED; s++) each[s] = third_least(took[s], ROUNDS / 4);
    printf("restart of %zu messages, each %.1f ns, scalar %.1f, sse %.1f: ratio %.2f\n", count, each[RESTART], each[SCALAR], each[SSE],
           ratio(each[RESTART], each[SCALAR]));
    printf("append, each %.1f ns: %.2f times the scalar anchor's judging of a message\n", each[APPEND], each[APPEND] / each[SCALAR]);
    printf("receive, each %.1f ns: %.2f times the scalar anchor's judging of a message\n", each[RECEIVE], each[RECEIVE] / each[SCALAR]);
    printf("worst ratio to the scalar anchor %.2f\n", worst);
    return 0;
}
