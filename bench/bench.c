/* Counts the instructions of a call of the proved reader, writer, restart, append and receive, and of the plain C ones, on messages and on books.
 *
 * usage: bench [bits | times | KIBIBYTES]
 *
 * It prints lines of WORKLOAD CALL SIDE COUNT. Before it counts it compares both sides on each message, on the three rejections and on five more
 * orders, on each with a byte changed or with bytes cut off, on a small book in the same way, and on messages that are appended or received; it
 * says what differs and ends with status 1.
 * With `bits` it counts messages with more and more of their listed bits, in lines of MESSAGE BITS CALL SIDE COUNT. With `times` it counts
 * nothing and takes the calls' times (times.h). With a size it counts nothing: it makes a book of that size, restarts it once by each side, for a
 * counter outside, and prints its bytes and messages alone. */
#include "appends.h"
#include "baseline.h"
#include "bits.h"
#include "compare.h"
#include "count.h"
#include "times.h"

static void tell(const char *name, const char *call_and_side, uint64_t number) {
    say(1, name);
    say(1, call_and_side);
    say_number(1, number);
    say(1, "\n");
}

/* ---- messages */

static void count_call(const struct workload *w, const char *call_and_side, counted *function, const struct arguments *arguments) {
    uint32_t refusal;
    uint64_t instructions = count(function, &(const union words){.five = *arguments}, 5, &refusal);
    if (refusal != 0)
        differ(w, "a counted call is refused");
    tell(w->name, call_and_side, instructions);
}

static void count_message(const struct workload *w) {
    static uint8_t to[LONGEST];
    const struct arguments reading = {w->direction, w->message, w->total, to, RECORD};
    const struct arguments writing = {w->direction, w->record, RECORD, to, w->total};
    count_call(w, " read proved ", (counted *)boe_read, &reading);
    count_call(w, " read baseline ", (counted *)base_read, &reading);
    count_call(w, " write proved ", (counted *)boe_write, &writing);
    count_call(w, " write baseline ", (counted *)base_write, &writing);
}

static void count_bits(const struct bits *of) {
    static struct workload some;
    for (size_t set = of->least; set <= of->listed; set++) {
        with_bits(of, set, &some);
        count_message(&some);
    }
}

/* ---- books */

static uint64_t count_restart(counted *restart, size_t len) {
    static uint8_t state[STATE];
    const union words arguments = {.five = {DATE, book, len, state, STATE}};
    uint32_t refusal;
    uint64_t instructions = count(restart, &arguments, 5, &refusal);
    if (refusal != 0)
        books_differ("a counted call is refused");
    return instructions;
}

/* The side that is counted as it takes messages, and its instructions so far. */
static counted *taking_side;
static uint64_t taking_sum;

static uint32_t count_taking(const union words *arguments, size_t how_many) {
    uint32_t refusal;
    taking_sum += count(taking_side, arguments, how_many, &refusal);
    return refusal;
}

static uint32_t counted_append(const uint8_t *bytes, size_t len, uint8_t *buffer, size_t buffer_len, uint8_t *state, size_t state_len) {
    return count_taking(&(const union words){.six = {bytes, len, buffer, buffer_len, state, state_len}}, 6);
}

static uint32_t counted_receive(const uint8_t *bytes, size_t len, uint32_t *told, uint8_t *buffer, size_t buffer_len, uint8_t *state,
                                size_t state_len) {
    return count_taking(&(const union words){.seven = {bytes, len, told, buffer, buffer_len, state, state_len}}, 7);
}

/* The instructions of taking the book's messages, all together. */
static uint64_t count_taker(const struct taker *taker, counted *side, size_t len) {
    taking_side = side;
    taking_sum = 0;
    take_book(taker, taker == &receive ? (counted *)counted_receive : (counted *)counted_append, len);
    return taking_sum;
}

static struct books tell_size(const char *name, size_t kibibytes) {
    struct books b = make_book(1024 * kibibytes, MARK_EVERY);
    tell(name, " restart bytes ", b.length);
    tell(name, " restart messages ", b.messages);
    return b;
}

static void count_book(const char *name, size_t kibibytes) {
    struct books b = tell_size(name, kibibytes);
    ask_book("the sides differ on a counted book", DATE, b.length, STATE);
    tell(name, " restart proved ", count_restart((counted *)boe_restart, b.length));
    tell(name, " restart baseline ", count_restart((counted *)base_restart, b.length));
    tell(name, " append proved ", count_taker(&append, append.proved, b.length));
    tell(name, " append baseline ", count_taker(&append, append.baseline, b.length));
    tell(name, " receive proved ", count_taker(&receive, receive.proved, b.length));
    tell(name, " receive baseline ", count_taker(&receive, receive.baseline, b.length));
}

/* ---- the runs */

static void count_all(void) {
    for (size_t i = 0; i < WORKLOADS + REJECTIONS + ORDERS; i++) {
        compare_good(&workloads[i]);
        compare_damaged(&workloads[i]);
        compare_other_market(&workloads[i]);
    }
    compare_ids();
    compare_books();
    compare_takers();
    count_traps();
    for (size_t i = 0; i < WORKLOADS; i++)
        count_message(&workloads[i]);
    count_book("f", 16);
    count_book("g", 64);
}

static void count_all_bits(void) {
    for (size_t i = 0; i < WORKLOADS; i++)
        compare_good(&workloads[i]);
    count_traps();
    for (size_t i = 0; i < BITS; i++)
        count_bits(&bits[i]);
}

static void restart_once(const char *digits) {
    size_t kibibytes = 0;
    for (; *digits >= '0' && *digits <= '9'; digits++)
        kibibytes = 10 * kibibytes + (size_t)(*digits - '0');
    if (kibibytes == 0 || kibibytes > BOE_BOOK_MOST_BYTES / 1024) {
        say(2, "usage: bench [bits | times | KIBIBYTES]\n");
        end(2);
    }
    ask_book("the sides differ on a counted book", DATE, tell_size("book", kibibytes).length, STATE);
}

/* The words of the command, as the system puts them: how many, then a pointer to each. */
void begin(const long *words) {
    const char *word = words[0] > 1 ? (const char *)words[2] : 0;
    make_workloads();
    make_items();
    if (word == 0)
        count_all();
    else if (*word == 'b')
        count_all_bits();
    else if (*word == 't')
        time_all();
    else
        restart_once(word);
    end(0);
}
