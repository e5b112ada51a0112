/* The sides of all calls take turns in rounds, and the least time of each over all rounds is its time. */
#include "times.h"

#include "appends.h"
#include "baseline.h"
#include "compare.h"
#include "count.h"

#include <string.h>

enum { ROUNDS = 300, CALLS = 2000, BOOK = 1 << 20, ROWS = 2 * WORKLOADS + 3, SIDES = 2 };

/* Any of the timed calls, as struct arguments has its arguments. */
typedef uint32_t timed(uint64_t first, const uint8_t *from, uint64_t from_len, uint8_t *to, uint64_t to_len);
#define TIMED(function) ((timed *)(counted *)function)

struct row {
    const char *name, *call;
    struct arguments arguments;
    size_t calls;          /* in a round */
    size_t parts;          /* in a round: its calls, or the messages of its book */
    const uint8_t *answer; /* what a call leaves in all bytes of its result */
    timed *sides[SIDES];
    uint64_t least[SIDES]; /* nanoseconds of a round */
};

static struct row rows[ROWS];

/* ---- what is timed */

static void add_message_rows(struct row *at, struct workload *w) {
    static uint8_t to[LONGEST];
    compare_good(w);
    at[0] = (struct row){w->name, " read", {w->direction, w->message, w->total, to, RECORD}, CALLS, CALLS, w->record,
                         {TIMED(boe_read), TIMED(base_read)}, {0}};
    at[1] = (struct row){w->name, " write", {w->direction, w->record, RECORD, to, w->total}, CALLS, CALLS, w->message,
                         {TIMED(boe_write), TIMED(base_write)}, {0}};
}

/* A book that has its first mark alone. */
static uint8_t unmarked[BOOK];

/* Each side's taking of the messages of such a book; the first argument is the taker. */
static uint32_t proved_all(uint64_t first, const uint8_t *bytes, uint64_t len, uint8_t *to, uint64_t to_len) {
    const struct taker *taker = (const struct taker *)first;
    (void)to_len;
    return take_all(taker, taker->proved, bytes, len, to);
}

static uint32_t base_all(uint64_t first, const uint8_t *bytes, uint64_t len, uint8_t *to, uint64_t to_len) {
    const struct taker *taker = (const struct taker *)first;
    (void)to_len;
    return take_all(taker, taker->baseline, bytes, len, to);
}

/* What a call on a book leaves, and where. */
struct left {
    uint8_t to[SESSION], answer[SESSION];
};

/* The restart of the book that stands in `book`. */
static struct row restart_row(const struct books *b, struct left *left) {
    ask_book("the sides differ on a timed book", DATE, b->length, STATE);
    taken_state(&append, b->length, left->answer);
    return (struct row){"h", " restart", {DATE, book, b->length, left->to, STATE}, 1, b->messages, left->answer,
                        {TIMED(boe_restart), TIMED(base_restart)}, {0}};
}

/* The taking of the messages of the unmarked book, which stands in `book` too. */
static struct row taker_row(const char *call, const struct taker *taker, const struct books *b, struct left *left) {
    take_book(taker, taker->proved, b->length);
    take_book(taker, taker->baseline, b->length);
    taken_state(taker, b->length, left->answer);
    return (struct row){"h", call, {(uint64_t)taker, unmarked, b->length, left->to, taker->state}, 1, b->messages, left->answer,
                        {proved_all, base_all}, {0}};
}

static void add_book_rows(struct row *at) {
    static struct left left[3];
    struct books b = make_book(BOOK, BOOK); /* fewer messages than bytes: no second mark */
    memcpy(unmarked, book, b.length);
    at[1] = taker_row(" append", &append, &b, &left[1]);
    at[2] = taker_row(" receive", &receive, &b, &left[2]);
    b = make_book(BOOK, MARK_EVERY);
    at[0] = restart_row(&b, &left[0]);
}

/* ---- the rounds */

static uint64_t time_round(const struct row *row, timed *function) {
    const struct arguments *a = &row->arguments;
    uint32_t refusals = 0;
    memset(a->to, FILLING, a->to_len);
    uint64_t start = nanoseconds();
    for (size_t i = 0; i < row->calls; i++)
        refusals |= function(a->first, a->from, a->from_len, a->to, a->to_len);
    uint64_t took = nanoseconds() - start;
    if (refusals != 0 || memcmp(a->to, row->answer, a->to_len) != 0) {
        say(2, "bench: a timed call is refused, or leaves something else: ");
        say(2, row->name);
        say(2, row->call);
        say(2, "\n");
        end(1);
    }
    return took;
}

static void time_row(struct row *row) {
    for (size_t side = 0; side < SIDES; side++) {
        uint64_t took = time_round(row, row->sides[side]);
        if (row->least[side] == 0 || took < row->least[side])
            row->least[side] = took;
    }
}

static void tell_row(const struct row *row) {
    static const char *const names[SIDES] = {" proved ", " baseline "};
    for (size_t side = 0; side < SIDES; side++) {
        say(1, row->name);
        say(1, row->call);
        say(1, names[side]);
        say_number(1, (100 * row->least[side] + row->parts / 2) / row->parts);
        say(1, "\n");
    }
}

void time_all(void) {
    for (size_t i = 0; i < WORKLOADS; i++)
        add_message_rows(&rows[2 * i], &workloads[i]);
    add_book_rows(&rows[2 * WORKLOADS]);
    for (size_t i = 0; i < ROUNDS * ROWS; i++)
        time_row(&rows[i % ROWS]);
    for (size_t i = 0; i < ROWS; i++)
        tell_row(&rows[i]);
}
