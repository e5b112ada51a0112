/* The steps of a script: calls of a member's session and of the bench venue, each on what those before it have left. See fuzz.h and README.md. */
#include "fuzz.h"
#include "lent.h"
#include <string.h>

enum {
    MOST_OUT = 600,       /* an output buffer: a Login Response has 443 bytes, and no message that is booked as many */
    MOST_ANSWERS = 40000, /* the characters of an input's answers, those with both books not among them */
    BLANK = 0xFF,         /* what the buffers hold at first */
    UNTOLD = 0x5A5A5A5A,  /* a number that was lent and not written */
    TABLE = BOE_TABLE_BYTES
};

/* ---- the two sides of the line */

const struct part member_parts[PARTS] = {
    {BOE_SESSION_PHASE_AT, 1},   {BOE_SESSION_OUTGOING_AT, 4}, {BOE_SESSION_MARKET_AT, 1},  {BOE_STATE_DATE_AT, 4},        {BOE_STATE_LENGTH_AT, 4},
    {BOE_STATE_LAST_MARK_AT, 4}, {BOE_STATE_MESSAGES_AT, 4},   {BOE_STATE_TABLE_AT, TABLE}, {BOE_STATE_PLACES_AT, TABLE},
};
const struct part venue_parts[PARTS] = {
    {BOE_VENUE_RUNNING_AT, 1},  {BOE_VENUE_TOLD_AT, 1},           {BOE_VENUE_PLACE_AT, 4},     {BOE_VENUE_LOGIN_LENGTH_AT, 4}, {BOE_VENUE_LENGTH_AT, 4},
    {BOE_VENUE_RECEIVED_AT, 4}, {BOE_VENUE_THRESHOLDS_AT, TABLE}, {BOE_VENUE_TABLE_AT, TABLE}, {BOE_VENUE_PLACES_AT, TABLE},
};

/* What a side keeps: its state, the buffer of its book or log, and what it has sent last. */
static struct side {
    size_t state_len;
    const struct part *parts;
    uint8_t state[BOE_VENUE_BYTES], buffer[BENCH_BYTES], sent[MOST_OUT];
    size_t sent_len;
} member = {.state_len = BOE_SESSION_BYTES, .parts = member_parts}, venue = {.state_len = BOE_VENUE_BYTES, .parts = venue_parts};

static size_t length_of(const uint8_t *in) { return number_at(in + BOE_STATE_LENGTH_AT); }

/* What a byte of a state is read as: a phase, and anything else as 0 or not. */
static unsigned read_as(const struct side *of, const struct part *part) {
    uint8_t byte = of->state[part->at];
    if (of == &member && part->at == BOE_SESSION_PHASE_AT) return byte > BOE_LIVE ? BOE_CLOSED : byte;
    return byte != 0;
}

static void state_words(struct text *text, const struct side *of, int sums) {
    for (const struct part *part = of->parts; part < of->parts + PARTS; part++) {
        const uint8_t *at = of->state + part->at;
        if (part->len == 1) number(text, read_as(of, part));
        else if (part->len == 4) number(text, number_at(at));
        else if (sums) number(text, sum_of(at));
        else hex(text, at, part->len);
    }
}

/* ---- the calls, on the buffers that are lent: what is given in `bytes`, the book or the log in `more`, the output in `out` */

struct asked;
typedef uint32_t put_call(const struct asked *c, uint32_t *told);

/* A call. `words` and `answer` have a letter for each part: of a line D a date, M a market, X bytes, L a login, B how many bytes of the book's or the log's
 * buffer are lent, O how many of the output buffer and N the numbers of a new venue; of an answer R the refusal, T what was told, S the state, O the output. */
struct kind {
    const char *name, *words, *answer;
    put_call *put;
    struct side *of;
    unsigned stores; /* what it may write */
};
enum { IN_STATE = 1, IN_BUFFER = 2, IN_OUT = 4, IN_NUMBER = 8 };

/* A call with what a step gives it. */
struct asked {
    const struct kind *of;
    uint32_t date;
    uint8_t market, given[MOST_INPUT];
    size_t n, lent, out_len, more;
};

static uint32_t put_open(const struct asked *c, uint32_t *told) {
    return (void)told, boe_session_open(c->date, c->market, more.at, more.len, session_in(&state), state.len);
}
static uint32_t put_restart(const struct asked *c, uint32_t *told) {
    return (void)told, boe_session_restart(c->date, c->market, more.at, more.len, session_in(&state), state.len);
}
static uint32_t put_login(const struct asked *c, uint32_t *told) {
    return (void)c, (void)told, boe_session_login((const struct boe_login *)bytes.at, bytes.len, out.at, out.len, session_in(&state), state.len);
}
static uint32_t put_receive(const struct asked *c, uint32_t *told) {
    return (void)c, boe_session_receive(bytes.at, bytes.len, told, more.at, more.len, session_in(&state), state.len);
}
static uint32_t put_order(const struct asked *c, uint32_t *told) {
    return (void)c, (void)told, boe_session_order(record_in(&bytes), bytes.len, out.at, out.len, session_in(&state), state.len);
}
static uint32_t put_heartbeat(const struct asked *c, uint32_t *told) {
    return (void)c, (void)told, boe_session_heartbeat(session_in(&state), state.len, out.at, out.len);
}
static uint32_t put_break(const struct asked *c, uint32_t *told) {
    return (void)c, (void)told, boe_session_break(more.at, more.len, session_in(&state), state.len);
}
static uint32_t put_new(const struct asked *c, uint32_t *told) { return (void)c, (void)told, boe_venue_new(venue_in(&state), state.len); }
static uint32_t put_log(const struct asked *c, uint32_t *told) {
    return (void)c, (void)told, boe_venue_log(bytes.at, bytes.len, more.at, more.len, venue_in(&state), state.len);
}
static uint32_t put_venue_login(const struct asked *c, uint32_t *told) {
    return (void)c, boe_venue_login(bytes.at, bytes.len, told, out.at, out.len, venue_in(&state), state.len);
}
static uint32_t put_step(const struct asked *c, uint32_t *told) {
    return (void)c, boe_venue_step(more.at, more.len, told, out.at, out.len, venue_in(&state), state.len);
}
static uint32_t put_venue_order(const struct asked *c, uint32_t *told) {
    return (void)told, boe_venue_order(c->market, bytes.at, bytes.len, venue_in(&state), state.len);
}
static uint32_t put_venue_break(const struct asked *c, uint32_t *told) { return (void)c, (void)told, boe_venue_break(venue_in(&state), state.len); }

static const struct kind kinds[KINDS] = {
    [M_OPEN] = {"m-open", "DBM", "RS", put_open, &member, IN_STATE | IN_BUFFER},
    [M_RESTART] = {"m-restart", "DBM", "RS", put_restart, &member, IN_STATE},
    [M_LOGIN] = {"m-login", "LO", "RSO", put_login, &member, IN_STATE | IN_OUT},
    [M_GET] = {"m-get", "XB", "RTS", put_receive, &member, IN_STATE | IN_BUFFER | IN_NUMBER},
    [M_ORDER] = {"m-order", "XO", "RSO", put_order, &member, IN_STATE | IN_OUT},
    [M_BEAT] = {"m-beat", "O", "RSO", put_heartbeat, &member, IN_OUT},
    [M_BREAK] = {"m-break", "B", "S", put_break, &member, IN_STATE | IN_BUFFER},
    [V_NEW] = {"v-state", "N", "S", put_new, &venue, IN_STATE},
    [V_LOG] = {"v-log", "XB", "RS", put_log, &venue, IN_STATE | IN_BUFFER},
    [V_LOGIN] = {"v-login", "XO", "RSO", put_venue_login, &venue, IN_STATE | IN_OUT | IN_NUMBER},
    [V_STEP] = {"v-step", "BO", "RSO", put_step, &venue, IN_STATE | IN_OUT | IN_NUMBER},
    [V_ORDER] = {"v-order", "MX", "RS", put_venue_order, &venue, IN_STATE},
    [V_BREAK] = {"v-break", "", "S", put_venue_break, &venue, IN_STATE},
};

/* ---- what holds of each call, whatever the second program answers */

/* Lends all that a call takes, with so many bytes of the state's buffer. */
static void lend_all(const struct asked *c, size_t state_len) {
    const struct side *of = c->of->of;
    uint8_t longer[BOE_VENUE_BYTES + 4];
    memset(longer, FILL, sizeof longer);
    memcpy(longer, of->state, of->state_len);
    lend(&state, longer, state_len);
    lend(&bytes, c->given, c->n);
    lend(&more, of->buffer, c->lent);
    lend_filled(&out, BLANK, c->out_len);
}

static int all_stayed(void) { return stayed(&state) && stayed(&more) && stayed(&out); }

/* A call that is not refused writes its state, what the book or the log grows by, and a message in the front of the output. */
static void must_be_in_place(const struct asked *c, uint32_t told) {
    unsigned stores = c->of->stores;
    size_t from = c->of->put == put_open ? 0 : length_of(state.was), to = length_of(state.at), sent = boe_frame_length(out.at, out.len);
    must(stayed_from(&state, stores & IN_STATE ? c->of->of->state_len : 0), "a call has stored past its state");
    must(stayed_from(&out, stores & IN_OUT ? sent : 0), "a call has stored past what it sends");
    if (stores & IN_BUFFER && to != from) {
        must(from <= to && to <= more.len && memcmp(more.at, more.was, from) == 0 && stayed_from(&more, to), "a call has stored beside the book's end");
    } else {
        must(stayed(&more), "a call has stored into a book that has not grown");
    }
    if (!(stores & IN_NUMBER)) must(told == UNTOLD, "a call has told what it does not tell");
    else must(told == (stores & IN_OUT ? sent : boe_told(bytes.at[4])), "what was told or sent");
}

/* What is booked is the last of its unit, asked of the front of the session's state. */
static void must_be_last(size_t at) {
    const struct boe_state *front = boe_session_book(session_in(&state));
    uint8_t unit = bytes.at[5];
    must(boe_last_refusal(unit, more.at, more.len, front, BOE_STATE_BYTES) == 0 && boe_last_at(unit, more.at, more.len, front, BOE_STATE_BYTES) == at &&
             boe_last_length(unit, more.at, more.len, front, BOE_STATE_BYTES) == boe_frame_length(bytes.at, bytes.len),
         "what is booked is the last of its unit");
}

/* The book's own calls open and restart it alike. */
static void must_be_book(const struct asked *c, uint32_t refusal) {
    static uint8_t mark[BENCH_BYTES];
    memcpy(mark, more.was, more.len);
    lend_filled(&other, FILL, BOE_STATE_BYTES);
    uint32_t own = c->of->put == put_open ? boe_book_open(c->date, mark, more.len, state_in(&other), other.len)
                                          : boe_restart(c->date, more.at, more.len, state_in(&other), other.len);
    must(own == refusal, "the book's own call answers another refusal");
    must(refusal ? stayed(&other) : memcmp(other.at, state.at, BOE_STATE_BYTES) == 0, "the book's own call leaves another state");
}

/* The phase is what its byte is read as, and what a call leaves is one; a session that is not whole has none. */
static void must_have_phase(int written) {
    uint8_t byte = state.at[BOE_SESSION_PHASE_AT];
    must(boe_session_phase(session_in(&state), state.len) == (byte > BOE_LIVE ? BOE_CLOSED : byte), "another phase than the state's");
    must(boe_session_phase(session_in(&state), BOE_SESSION_BYTES - 1) == BOE_CLOSED, "the phase of a state a byte short");
    must(!written || byte <= BOE_LIVE, "a call has left no phase");
}

/* Puts a call, and before it the same with a state a byte short, and where it is a login, with a login a byte short. */
static uint32_t put_watched(const struct asked *c, uint32_t *told) {
    lend_all(c, c->of->of->state_len - 1);
    must(c->of->put(c, told) == BOE_NO_ROOM && *told == UNTOLD && all_stayed(), "13 for a state a byte short, and nothing stored");
    lend_all(c, c->of->of->state_len + c->more);
    if (c->of->put == put_login) {
        lend(&bytes, c->given, c->n - 1);
        must(put_login(c, told) == BOE_NO_ROOM && all_stayed(), "13 for a login a byte short, and nothing stored");
        lend(&bytes, c->given, c->n);
    }
    uint32_t refusal = c->of->put(c, told);
    must(stayed(&bytes), "a call has stored into what it was given");
    if (refusal) must(*told == UNTOLD && all_stayed(), "a refused call has stored");
    else must_be_in_place(c, *told);
    if (c->of->put == put_receive && refusal == 0 && *told == BOE_BOOKED) must_be_last(length_of(state.was));
    if (c->of->put == put_open || c->of->put == put_restart) must_be_book(c, refusal);
    if (c->of->of == &member) must_have_phase(refusal == 0 && c->of->stores & IN_STATE);
    return refusal;
}

/* ---- the lines of a step */

static void login_words(const uint8_t *login) {
    static const struct {
        size_t at, len; /* a number of a byte, or bytes */
    } words[] = {{BOE_LOGIN_CHOICE_AT, 1}, {BOE_LOGIN_FLAG_AT, 1}, {BOE_LOGIN_COUNT_AT, 1}, {BOE_LOGIN_UNITS_AT, BOE_UNITS},
                 {BOE_LOGIN_SESSION_SUB_ID_AT, BOE_LOGIN_ACKNOWLEDGMENTS_AT}, {BOE_LOGIN_ACKNOWLEDGMENTS_AT, 0}, {BOE_LOGIN_ACKNOWLEDGMENTS_COUNT_AT, 1},
                 {BOE_LOGIN_ACKNOWLEDGMENTS_BITFIELDS_AT, BOE_LOGIN_BITFIELDS_LEN}, {BOE_LOGIN_EXECUTIONS_AT, 0}, {BOE_LOGIN_EXECUTIONS_COUNT_AT, 1},
                 {BOE_LOGIN_EXECUTIONS_BITFIELDS_AT, BOE_LOGIN_BITFIELDS_LEN}};
    for (size_t i = 0; i < sizeof words / sizeof words[0]; i++) {
        const uint8_t *at = login + words[i].at;
        if (words[i].len == 0) number(&question, *at != 0);
        else if (words[i].len == 1) number(&question, *at);
        else hex(&question, at, words[i].len);
    }
}

static void ask_call(const struct asked *c) {
    static const struct side fresh = {.parts = venue_parts};
    name(&question, c->of->name);
    for (const char *part = c->of->words; *part; part++) {
        if (*part == 'D') number(&question, c->date);
        if (*part == 'M') number(&question, c->market);
        if (*part == 'B') number(&question, c->lent);
        if (*part == 'O') number(&question, c->out_len);
        if (*part == 'X') hex(&question, c->given, c->n);
        if (*part == 'L') login_words(c->given);
        if (*part == 'N') state_words(&question, &fresh, 0);
    }
    end_line(&question);
}

static void tell_call(const struct asked *c, uint32_t refusal, uint32_t told) {
    int writer = c->of->of == &member && c->of->stores & IN_OUT;
    for (const char *part = c->of->answer; *part; part++) {
        if (*part == 'R') refused(refusal, writer ? BOE_WRITTEN_MOST_BYTES : boe_frame_length(bytes.at, bytes.len));
        if (*part == 'T') number(&proved, refusal ? BOE_NOTHING : told);
        if (*part == 'S') state_words(&proved, c->of->of, 1);
        if (*part == 'O') hex(&proved, out.at, out.len);
    }
    if (!strchr(c->of->answer, 'R')) must(refusal == 0, "a call is refused that never is");
    end_line(&proved);
}

/* Puts a call, tells it, and keeps what it has left. */
static void run_call(const struct asked *c) {
    struct side *of = c->of->of;
    uint32_t told = UNTOLD;
    ask_call(c);
    uint32_t refusal = put_watched(c, &told);
    memcpy(of->state, state.at, of->state_len);
    memcpy(of->buffer, more.at, more.len);
    size_t sent = boe_frame_length(out.at, out.len);
    if (sent > 0) memcpy(of->sent, out.at, of->sent_len = sent);
    tell_call(c, refusal, told);
}

/* m-state and v-state: any bytes are a state. A script's line has what they are read as. */
static void set_state(struct side *of, const uint8_t *given, size_t n) {
    memset(of->state, 0, of->state_len);
    memcpy(of->state, given, n < of->state_len ? n : of->state_len);
    name(&question, of == &member ? "m-state" : "v-state");
    state_words(&question, of, 0);
    end_line(&question);
    state_words(&proved, of, 1);
    end_line(&proved);
}

/* m-last: a unit's last message in so many bytes of the book's buffer. */
static void ask_last(uint8_t unit, size_t lent) {
    lend(&state, member.state, BOE_STATE_BYTES);
    lend(&more, member.buffer, lent);
    name(&question, "m-last");
    number(&question, unit);
    number(&question, lent);
    end_line(&question);
    size_t at = boe_last_at(unit, more.at, lent, state_in(&state), state.len), length = boe_last_length(unit, more.at, lent, state_in(&state), state.len);
    must(at <= lent && length <= lent - at, "a message past its book");
    refused(boe_last_refusal(unit, more.at, lent, state_in(&state), state.len), 0);
    number(&proved, at);
    hex(&proved, more.at + at, length);
    end_line(&proved);
    must(stayed(&state) && stayed(&more), "a question has stored");
}

/* m-book and v-book: what the script has come to. */
static void ask_kept(const char *call, const struct side *of) {
    size_t length = length_of(of->state);
    name(&question, call);
    hex(&proved, of->buffer, length < BENCH_BYTES ? length : BENCH_BYTES);
    hex(&proved, of->state + BOE_STATE_TABLE_AT, TABLE);
    hex(&proved, of->state + BOE_STATE_PLACES_AT, TABLE);
}

/* ---- a step of the input */

int next_step(const uint8_t *data, size_t size, size_t *at, struct step *step) {
    if (*at > size || size - *at < STEP_BYTES) return 0;
    const uint8_t *head = data + *at;
    step->kind = head[0] % KINDS;
    step->how = head[1];
    step->room = short_at(head + 2);
    step->at = *at + STEP_BYTES;
    step->n = short_at(head + 4) % (size - step->at + 1);
    *at = step->at + step->n;
    return 1;
}

/* A message gets the number that comes next: of its unit, or of the venue's orders. */
static void number_next(struct asked *c) {
    if (c->n < 10) return;
    uint8_t unit = c->given[5], *number = c->given + 6;
    const uint8_t *table = c->of->of->state + BOE_STATE_TABLE_AT;
    if (c->of->put == put_venue_order) put_number(number, number_at(venue.state + BOE_VENUE_RECEIVED_AT) + 1);
    else if (unit >= 1 && unit <= BOE_UNITS && boe_told(c->given[4]) == BOE_BOOKED) put_number(number, number_at(table + 4 * (unit - 1u)) + 1);
}

/* What a step gives its call. */
static void give(struct asked *c, const struct step *step, const uint8_t *given) {
    const struct side *from = c->of->of == &member ? &venue : &member;
    uint8_t date[4] = {0};
    int sent = step->how & AS_SENT && (step->kind == M_GET || step->kind == V_LOGIN || step->kind == V_ORDER);
    c->n = sent ? from->sent_len : strpbrk(c->of->words, "XL") ? step->n : 0;
    memcpy(c->given, sent ? from->sent : given, c->n);
    if (step->kind == M_LOGIN) {
        if (c->n < BOE_LOGIN_BYTES) memset(c->given + c->n, 0, BOE_LOGIN_BYTES - c->n);
        c->n = BOE_LOGIN_BYTES;
    }
    if (step->how & MENDED && !sent && (step->kind == M_GET || step->kind == V_LOG || step->kind == V_ORDER)) number_next(c);
    memcpy(date, given, step->n < sizeof date ? step->n : sizeof date);
    c->date = step->how & MENDED ? day_of(date) : number_at(date);
}

/* How many bytes of its buffers a step lends. */
static void lend_room(struct asked *c, const struct step *step, const uint8_t *given) {
    size_t length = length_of(member.state) < BENCH_BYTES ? length_of(member.state) : BENCH_BYTES;
    c->out_len = strchr(c->of->words, 'O') ? step->room % (MOST_OUT + 1) : 0;
    c->lent = strchr(c->of->words, 'B') ? step->room % (BENCH_BYTES + 1) : 0;
    if (step->kind == V_STEP) c->lent = step->n < 2 ? BENCH_BYTES : short_at(given) % (BENCH_BYTES + 1);
    if (step->kind == M_RESTART && step->how & AS_SENT) {
        c->lent = length - (step->room % 64u < length ? step->room % 64u : 0);
        if (step->how & MENDED) c->date = number_at(member.state + BOE_STATE_DATE_AT);
    }
    c->more = step->how / 64;
    c->market = step->how & OF_OPTIONS;
}

/* Other bytes that are read as a state's are. */
static void respell(struct side *of, uint16_t by) {
    for (const struct part *part = of->parts; part < of->parts + PARTS; part++) {
        uint8_t *at = of->state + part->at;
        if (part->len != 1) continue;
        if (of == &member && part->at == BOE_SESSION_PHASE_AT) *at = read_as(of, part) == BOE_CLOSED ? (uint8_t)(BOE_LIVE + 1 + by % (UINT8_MAX - BOE_LIVE)) : *at;
        else if (*at != 0) *at = (uint8_t)(1 + by % UINT8_MAX);
    }
}

static void take_step(const struct step *step, const uint8_t *given) {
    static struct asked c;
    if (step->kind == M_STATE || step->kind == V_STATE) {
        set_state(step->kind == M_STATE ? &member : &venue, given, step->n);
    } else if (step->kind == M_LAST) {
        ask_last(step->n > 0 ? given[0] : step->how, step->room % (BENCH_BYTES + 1));
    } else {
        c.of = &kinds[step->kind];
        if (step->how & RESPELT) respell(c.of->of, step->room);
        give(&c, step, given);
        lend_room(&c, step, given);
        run_call(&c);
    }
}

/* A closed member with a blank book, and a venue with a new log. */
static void begin(struct side *of) {
    memset(of->state, 0, sizeof of->state);
    memset(of->buffer, BLANK, sizeof of->buffer);
    of->sent_len = 0;
}

void try_steps(const uint8_t *data, size_t n) {
    struct step step;
    size_t at = 0;
    begin(&member);
    begin(&venue);
    name(&question, "new");
    end_line(&question);
    number(&proved, 0);
    end_line(&proved);
    for (int steps = 0; steps < MOST_STEPS && proved.len < MOST_ANSWERS && next_step(data, n, &at, &step); steps++) take_step(&step, data + step.at);
    ask_kept("m-book", &member);
    end_line(&question);
    end_line(&proved);
    ask_kept("v-book", &venue);
    ask();
}
