/* The stored scripts, played over the calls of the session and of the bench venue, and what no stored answer has: what a call may write, a state a byte
 * short, states of any bytes. second/README.md has the form of a script's lines and answers. */
#include "test_gateway.h"

#include <stdlib.h>
#include <string.h>

enum {
    BUFFER = 16384,      /* the bytes of the book's buffer and of the log's in a script */
    AFTER = 8,           /* bytes after each buffer that no call may touch */
    GIVEN = 4096,        /* the most bytes that a line gives */
    LINE = 8002,         /* the most characters of a line, with its end */
    ANSWER = 4 * BUFFER, /* and of an answer */
    WORDS = 14,          /* more words than a line has */
    FILL = 0xFF,         /* what the buffers hold at first */
    GUARD = 0x5A,        /* what stands after them */
    UNTOLD = 0x5A5A5A5A  /* a number that was lent and not written */
};

/* What one side of the line keeps and is lent. */
struct side {
    uint32_t number; /* told or sent */
    uint8_t state[BOE_VENUE_BYTES + AFTER], buffer[BUFFER + AFTER], out[BUFFER + AFTER];
};

static struct side member, venue;

static struct boe_session *session_in(struct side *of) { return (struct boe_session *)of->state; }
static struct boe_venue *venue_in(struct side *of) { return (struct boe_venue *)of->state; }
static const struct boe_state *book_of(const struct side *of) { return boe_session_book((const struct boe_session *)of->state); }
static int same(const struct side *a, const struct side *b) { return memcmp(a, b, sizeof *a) == 0; }

/* The length of the book, or of the log: a log is kept as a book is. */
static size_t length_of(const struct side *of) { return number_at(of->state + BOE_STATE_LENGTH_AT); }
_Static_assert(BOE_STATE_LENGTH_AT == BOE_VENUE_LENGTH_AT && BOE_STATE_TABLE_AT == BOE_VENUE_TABLE_AT && BOE_STATE_PLACES_AT == BOE_VENUE_PLACES_AT,
               "the places of both");

/* ---- what is told of a failure: the line, and whether it was played on another state than the script's */

static unsigned long line;
static const char *on_what = "";

static void check_line(int ok, const char *what) {
    char text[240] = "";
    if (!ok) snprintf(text, sizeof text, "line %lu of the scripts%s: %s", line, on_what, what);
    check(ok, text);
}

/* Compares an answer with the stored one; a difference is told from its first character on. */
static void check_told(const char *expected, const char *got) {
    char text[240] = "";
    size_t at = 0;
    while (got[at] && got[at] == expected[at]) at++;
    int ok = got[at] == expected[at];
    if (!ok) snprintf(text, sizeof text, "line %lu of the scripts, from character %zu on: expected %.60s, got %.60s", line, at, expected + at, got + at);
    check(ok, text);
}

/* ---- the calls */

struct call;
typedef uint32_t put_call(const struct call *with, struct side *to, size_t state_len);

/* A call that a line names. `words` and `answer` have a letter for each part: of a line D a date, M a market, X bytes, L a login, B how many bytes of the
 * book's or the log's buffer are lent and O how many of the output buffer; of an answer R the refusal, T what was told, S the state, O the output. */
struct kind {
    const char *name, *words, *answer;
    put_call *put;
    size_t state_len;
    unsigned stores;      /* what it may write */
    const char *refusals; /* the numbers that it may answer beside 0 */
};
enum { IN_STATE = 1, IN_BUFFER = 2, IN_OUT = 4, IN_NUMBER = 8 };

/* A call with what a line gives it. */
struct call {
    const struct kind *of;
    uint32_t date;
    uint8_t market, bytes[GIVEN];
    size_t len, lent, out_len;
    size_t more; /* the bytes of the state's buffer that are lent past the state */
};

static uint32_t put_open(const struct call *c, struct side *to, size_t n) { return boe_session_open(c->date, c->market, to->buffer, c->lent, session_in(to), n); }
static uint32_t put_restart(const struct call *c, struct side *to, size_t n) {
    return boe_session_restart(c->date, c->market, to->buffer, c->lent, session_in(to), n);
}
static uint32_t put_login(const struct call *c, struct side *to, size_t n) {
    return boe_session_login((const struct boe_login *)c->bytes, c->len, to->out, c->out_len, session_in(to), n);
}
static uint32_t put_receive(const struct call *c, struct side *to, size_t n) {
    return boe_session_receive(c->bytes, c->len, &to->number, to->buffer, c->lent, session_in(to), n);
}
static uint32_t put_order(const struct call *c, struct side *to, size_t n) {
    return boe_session_order((const struct boe_record *)c->bytes, c->len, to->out, c->out_len, session_in(to), n);
}
static uint32_t put_heartbeat(const struct call *c, struct side *to, size_t n) { return boe_session_heartbeat(session_in(to), n, to->out, c->out_len); }
static uint32_t put_break(const struct call *c, struct side *to, size_t n) { return boe_session_break(to->buffer, c->lent, session_in(to), n); }
static uint32_t put_new(const struct call *c, struct side *to, size_t n) { return (void)c, boe_venue_new(venue_in(to), n); }
static uint32_t put_log(const struct call *c, struct side *to, size_t n) { return boe_venue_log(c->bytes, c->len, to->buffer, c->lent, venue_in(to), n); }
static uint32_t put_venue_login(const struct call *c, struct side *to, size_t n) {
    return boe_venue_login(c->bytes, c->len, &to->number, to->out, c->out_len, venue_in(to), n);
}
static uint32_t put_step(const struct call *c, struct side *to, size_t n) {
    return boe_venue_step(to->buffer, c->lent, &to->number, to->out, c->out_len, venue_in(to), n);
}
static uint32_t put_venue_order(const struct call *c, struct side *to, size_t n) { return boe_venue_order(c->market, c->bytes, c->len, venue_in(to), n); }
static uint32_t put_venue_break(const struct call *c, struct side *to, size_t n) { return (void)c, boe_venue_break(venue_in(to), n); }

#define OF_MEMBER(put) put, BOE_SESSION_BYTES
#define OF_VENUE(put) put, BOE_VENUE_BYTES

static const struct kind kinds[] = {
    {"m-open", "DBM", "RS", OF_MEMBER(put_open), IN_STATE | IN_BUFFER, "13 19"},
    {"m-restart", "DBM", "RS", OF_MEMBER(put_restart), IN_STATE, "13 17 18 19 22"},
    {"m-login", "LO", "RSO", OF_MEMBER(put_login), IN_STATE | IN_OUT, "10 11 13 16"},
    {"m-get", "XB", "RTS", OF_MEMBER(put_receive), IN_STATE | IN_BUFFER | IN_NUMBER, "1 2 3 4 5 6 7 8 9 10 11 13 14 15 16"},
    {"m-message", "XB", "RS", OF_MEMBER(put_receive), IN_STATE | IN_BUFFER | IN_NUMBER, "1 2 3 4 5 6 7 8 9 10 11 13 14 15 16"},
    {"m-response", "XB", "RS", OF_MEMBER(put_receive), IN_STATE | IN_BUFFER | IN_NUMBER, "1 2 3 4 5 6 7 8 9 10 11 13 14 15 16"},
    {"m-order", "XO", "RSO", OF_MEMBER(put_order), IN_STATE | IN_OUT, "4 5 7 8 9 10 12 13 16 20 23"},
    {"m-beat", "O", "RSO", OF_MEMBER(put_heartbeat), IN_OUT, "13 16"},
    {"m-break", "B", "S", OF_MEMBER(put_break), IN_STATE | IN_BUFFER, "13"},
    {"new", "", "R", OF_VENUE(put_new), IN_STATE, "13"},
    {"v-log", "XB", "RS", OF_VENUE(put_log), IN_STATE | IN_BUFFER, "1 2 3 4 5 6 7 8 9 10 13 14 15"},
    {"v-login", "XO", "RSO", OF_VENUE(put_venue_login), IN_STATE | IN_OUT | IN_NUMBER, "1 2 3 4 5 6 7 8 9 10 11 13 16"},
    {"v-step", "BO", "RSO", OF_VENUE(put_step), IN_STATE | IN_OUT | IN_NUMBER, "13 16"},
    {"v-order", "MX", "RS", OF_VENUE(put_venue_order), IN_STATE, "1 2 3 4 5 6 7 8 9 10 13 16 21 23"},
    {"v-break", "", "S", OF_VENUE(put_venue_break), IN_STATE, "13"},
};

/* How often each was put to a script's state, and so to a state of any bytes, and was not refused; and how many such states there were. */
static struct {
    unsigned long put, taken, careless, careless_taken;
} counts[COUNT_OF(kinds)];
static unsigned long careless;

/* ---- what holds of every call, whatever the stored answer */

/* Whether a call may answer a number. */
static int has_refusal(const struct kind *of, uint32_t number) {
    char *end;
    for (const char *at = of->refusals; *at; at = end)
        if (strtoul(at, &end, 10) == number) return 1;
    return number == 0;
}

/* Whether bytes are the same but from one place up to another. */
static int same_but(const uint8_t *a, const uint8_t *b, size_t n, size_t from, size_t to) {
    if (from >= to) return same_bytes(a, b, n);
    return to <= n && same_bytes(a, b, from) && same_bytes(a + to, b + to, n - to);
}

/* Whether a call that was not refused has written nothing but what it may: the state, what the book or the log has grown by, and a message in the front of
 * the output. A book that is opened has grown from nothing. */
static int in_place(const struct call *c, const struct side *before, const struct side *after) {
    unsigned stores = c->of->stores;
    size_t from = c->of->put == put_open ? 0 : length_of(before), written = boe_frame_length(after->out, c->out_len);
    return same_but(before->state, after->state, sizeof before->state, 0, stores & IN_STATE ? c->of->state_len : 0) &&
           same_but(before->buffer, after->buffer, sizeof before->buffer, from, stores & IN_BUFFER ? length_of(after) : 0) &&
           same_but(before->out, after->out, sizeof before->out, 0, stores & IN_OUT ? written : 0);
}

/* The number that a call lends back when it is not refused: the length of what the venue sends, 0 where it sends nothing, and a message's fate. */
static uint32_t number_of(const struct call *c, const struct side *after) {
    if (!(c->of->stores & IN_NUMBER)) return UNTOLD;
    return c->of->stores & IN_OUT ? (uint32_t)boe_frame_length(after->out, c->out_len) : boe_told(c->bytes[4]);
}

/* Puts a call, and before it the same with a state a byte short. */
static uint32_t put_watched(const struct call *c, struct side *on) {
    static struct side before, with_short;
    memcpy(&before, on, sizeof before);
    memcpy(&with_short, on, sizeof with_short);
    check_line(c->of->put(c, &with_short, c->of->state_len - 1) == BOE_NO_ROOM, "13 for a state a byte short");
    check_line(same(&with_short, &before), "a state a byte short changes nothing");
    uint32_t refusal = c->of->put(c, on, c->of->state_len + c->more), number = BOE_NUMBER(refusal);
    check_line(has_refusal(c->of, number), "a number that the call may answer");
    check_line((BOE_PLACE(refusal) != 0) == (number >= BOE_WRONG_TOTAL && number <= BOE_BAD_VALUE), "a place where the number has one");
    if (refusal) {
        check_line(same(on, &before), "what is refused changes nothing");
    } else {
        check_line(in_place(c, &before, on), "what is not refused has written where it may, and nowhere else");
        check_line(on->number == number_of(c, on), "what was told, or the length of what was sent");
    }
    return refusal;
}

/* ---- states of any bytes */

/* A number from 0 to end - 1, from a fixed seed (splitmix64). */
static uint32_t below(uint32_t end) {
    static uint64_t seed;
    uint64_t mixed = seed += 0x9E3779B97F4A7C15u;
    mixed = (mixed ^ mixed >> 30) * 0xBF58476D1CE4E5B9u;
    mixed = (mixed ^ mixed >> 27) * 0x94D049BB133111EBu;
    return (uint32_t)((mixed ^ mixed >> 31) % end);
}

/* The last two bytes of a state are read as one of a few: phase and market, or whether a session runs and whether the venue has told. */
static uint8_t read_as(const struct kind *of, const uint8_t *state, size_t at) {
    uint8_t byte = state[of->state_len - 2 + at];
    if (of->state_len == BOE_SESSION_BYTES && at == 0) return byte > BOE_LIVE ? BOE_CLOSED : byte;
    return byte != 0;
}
_Static_assert(BOE_SESSION_PHASE_AT == BOE_SESSION_BYTES - 2 && BOE_VENUE_RUNNING_AT == BOE_VENUE_BYTES - 2, "the last two bytes of both states");

/* Any bytes in these two places, and at times in four others or in all. */
static void spoil(const struct kind *of, uint8_t *state) {
    uint32_t how = below(4), at = below((uint32_t)of->state_len - 3);
    if (how == 0) for (size_t i = 0; i < of->state_len; i++) state[i] = (uint8_t)below(256);
    if (how == 1) put(state + at, 4, below(UINT32_MAX));
    state[of->state_len - 2] = (uint8_t)(below(2) ? below(256) : below(4));
    state[of->state_len - 1] = (uint8_t)(below(2) ? below(256) : below(2));
}

static int read_alike(const struct kind *of, const struct side *a, const struct side *b) {
    return same_bytes(a->state, b->state, of->state_len - 2) && read_as(of, a->state, 0) == read_as(of, b->state, 0) &&
           read_as(of, a->state, 1) == read_as(of, b->state, 1) && same_bytes(a->buffer, b->buffer, sizeof a->buffer) &&
           same_bytes(a->out, b->out, sizeof a->out) && a->number == b->number;
}

/* The phase of any bytes; a session that is not whole is closed. */
static void ask_phase(const struct side *of) {
    const struct boe_session *state = (const struct boe_session *)of->state;
    uint8_t byte = of->state[BOE_SESSION_PHASE_AT];
    check_line(boe_session_phase(state, BOE_SESSION_BYTES) == (byte >= BOE_ASKED && byte <= BOE_LIVE ? byte : BOE_CLOSED), "the phase of a state");
    check_line(boe_session_phase(state, BOE_SESSION_BYTES - 1) == BOE_CLOSED && boe_session_phase(state, 0) == BOE_CLOSED, "a state too short is closed");
}

/* Puts a call to a state of any bytes and to the one that these are read as: they answer alike, and leave what is read alike. */
static void put_careless(const struct call *c, const struct side *on) {
    static struct side any, plain;
    const struct kind *of = c->of;
    memcpy(&any, on, sizeof any);
    memcpy(&plain, on, sizeof plain);
    for (size_t i = 0; i < 2; i++) plain.state[of->state_len - 2 + i] = read_as(of, on->state, i);
    uint32_t refusal = put_watched(c, &any);
    check_line(put_watched(c, &plain) == refusal, "a byte that is read as another answers as that one does");
    check_line(read_alike(of, &any, &plain), "a byte that is read as another leaves what that one does");
    int of_session = of->state_len == BOE_SESSION_BYTES;
    if (of_session) ask_phase(&any);
    if (of_session && refusal == 0 && of->stores & IN_STATE) check_line(any.state[BOE_SESSION_PHASE_AT] <= BOE_LIVE, "what is not refused leaves a phase of 0 to 3");
    counts[of - kinds].careless++;
    counts[of - kinds].careless_taken += refusal == 0;
}

/* Puts every call of a side, each as a line gave it last, to one state of any bytes. */
static void put_all_careless(const struct call *now, const struct side *on) {
    static struct call latest[COUNT_OF(kinds)];
    static struct side spoilt;
    memcpy(&latest[now->of - kinds], now, sizeof *now);
    memcpy(&spoilt, on, sizeof spoilt);
    spoil(now->of, spoilt.state);
    on_what = ", on a state of any bytes";
    for (size_t i = 0; i < COUNT_OF(kinds); i++)
        if (latest[i].of && latest[i].of->state_len == now->of->state_len) put_careless(&latest[i], &spoilt);
    on_what = "";
    careless++;
}

/* ---- the book's calls on the front of a session's state */

static unsigned long found, full_lists;

/* A message that was booked is the last of its unit. */
static void ask_last(const struct call *c, size_t at) {
    uint8_t unit = c->bytes[5];
    size_t total = boe_frame_length(c->bytes, c->len);
    check_line(boe_last_refusal(unit, member.buffer, c->lent, book_of(&member), BOE_STATE_BYTES) == 0 &&
                   boe_last_at(unit, member.buffer, c->lent, book_of(&member), BOE_STATE_BYTES) == at &&
                   boe_last_length(unit, member.buffer, c->lent, book_of(&member), BOE_STATE_BYTES) == total,
               "what is booked is the last of its unit");
    check_line(same_bytes(member.buffer + at, c->bytes, total), "what is booked stands in the book");
    found++;
}

/* Opening and restarting a book by its own calls: the same refusal, or the same 272 bytes. */
static void ask_book(const struct call *c, uint32_t refusal) {
    static uint8_t buffer[BUFFER];
    struct boe_state state;
    memcpy(buffer, member.buffer, sizeof buffer);
    uint32_t own = c->of->put == put_open ? boe_book_open(c->date, buffer, c->lent, &state, sizeof state)
                                          : boe_restart(c->date, member.buffer, c->lent, &state, sizeof state);
    check_line(own == refusal && same_bytes(buffer, member.buffer, sizeof buffer), "the book's own call answers alike");
    check_line(refusal != 0 || same_bytes(state.bytes, member.state, sizeof state), "the book's own call leaves the front of the session's state");
}

/* A login a byte short is 13 in every phase; one that asks for the full list is the one by name. */
static void ask_login(const struct call *c) {
    static struct call with_short;
    static struct side before;
    struct boe_login full;
    memcpy(&with_short, c, sizeof with_short);
    memcpy(&before, &member, sizeof before);
    with_short.len--;
    check_line(put_watched(&with_short, &member) == BOE_NO_ROOM && same(&member, &before), "13 for a login a byte short");
    memcpy(full.bytes, c->bytes, sizeof full);
    boe_login_all_units(&full);
    full_lists += same_bytes(full.bytes, c->bytes, sizeof full);
}

/* ---- the words of a line, and of an answer */

/* The parts of a state in the order in which its line and every answer give them: a number, or the bytes of a table, of which an answer has the sum. */
struct part {
    size_t at;
    unsigned len;
};
enum { PARTS = 9 };
static const struct part of_member[PARTS] = {
    {BOE_SESSION_PHASE_AT, 1},      {BOE_SESSION_OUTGOING_AT, 4}, {BOE_SESSION_MARKET_AT, 1},
    {BOE_STATE_DATE_AT, 4},         {BOE_STATE_LENGTH_AT, 4},     {BOE_STATE_LAST_MARK_AT, 4},
    {BOE_STATE_MESSAGES_AT, 4},     {BOE_STATE_TABLE_AT, 128},    {BOE_STATE_PLACES_AT, 128}};
static const struct part of_venue[PARTS] = {
    {BOE_VENUE_RUNNING_AT, 1},      {BOE_VENUE_TOLD_AT, 1},       {BOE_VENUE_PLACE_AT, 4},
    {BOE_VENUE_LOGIN_LENGTH_AT, 4}, {BOE_VENUE_LENGTH_AT, 4},     {BOE_VENUE_RECEIVED_AT, 4},
    {BOE_VENUE_THRESHOLDS_AT, 128}, {BOE_VENUE_TABLE_AT, 128},    {BOE_VENUE_PLACES_AT, 128}};
static const struct part *parts_of(const struct side *of) { return of == &member ? of_member : of_venue; }

static int state_words(const struct side *of, char *out) {
    char *at = out;
    for (const struct part *part = parts_of(of); part < parts_of(of) + PARTS; part++) {
        uint64_t sum = part->len == 1 ? of->state[part->at] : 0;
        for (size_t i = 0; i + 4 <= part->len; i += 4) sum += number_at(of->state + part->at + i);
        at += sprintf(at, at == out ? "%llu" : " %llu", (unsigned long long)sum);
    }
    return (int)(at - out);
}

/* m-state and v-state: the bytes are put at their places. */
static int set_state(struct side *of, char **word) {
    uint8_t bytes[BOE_TABLE_BYTES];
    for (int i = 0; i < PARTS; i++) {
        const struct part *part = parts_of(of) + i;
        if (part->len < sizeof bytes) put(bytes, part->len, strtoull(word[1 + i], NULL, 10));
        else if (bytes_of(word[1 + i], bytes, sizeof bytes) != sizeof bytes) return 0;
        memcpy(of->state + part->at, bytes, part->len);
    }
    return 1;
}

/* The words of an m-login as the 87 bytes of a login. */
static int login_of(char **word, uint8_t *login) {
    login[BOE_LOGIN_CHOICE_AT] = (uint8_t)atoi(word[0]);
    login[BOE_LOGIN_FLAG_AT] = (uint8_t)atoi(word[1]);
    login[BOE_LOGIN_COUNT_AT] = (uint8_t)atoi(word[2]);
    login[BOE_LOGIN_ACKNOWLEDGMENTS_AT] = (uint8_t)atoi(word[5]);
    login[BOE_LOGIN_ACKNOWLEDGMENTS_COUNT_AT] = (uint8_t)atoi(word[6]);
    login[BOE_LOGIN_EXECUTIONS_AT] = (uint8_t)atoi(word[8]);
    login[BOE_LOGIN_EXECUTIONS_COUNT_AT] = (uint8_t)atoi(word[9]);
    return bytes_of(word[3], login + BOE_LOGIN_UNITS_AT, BOE_UNITS) == BOE_UNITS &&
           bytes_of(word[4], login + BOE_LOGIN_SESSION_SUB_ID_AT, BOE_LOGIN_ACKNOWLEDGMENTS_AT) == BOE_LOGIN_ACKNOWLEDGMENTS_AT &&
           bytes_of(word[7], login + BOE_LOGIN_ACKNOWLEDGMENTS_BITFIELDS_AT, BOE_LOGIN_BITFIELDS_LEN) == BOE_LOGIN_BITFIELDS_LEN &&
           bytes_of(word[10], login + BOE_LOGIN_EXECUTIONS_BITFIELDS_AT, BOE_LOGIN_BITFIELDS_LEN) == BOE_LOGIN_BITFIELDS_LEN;
}
enum { LOGIN_WORDS = 11 };

/* What a line gives its call; 0 where its words are not the call's. */
static int read_call(struct call *c, char **word, int words) {
    int at = 1;
    long len = 0;
    for (const char *part = c->of->words; *part; part++) {
        int next = at + (*part == 'L' ? LOGIN_WORDS : 1);
        if (next > words) return 0;
        uint64_t value = strtoull(word[at], NULL, 10);
        if (*part == 'D') c->date = (uint32_t)value;
        if (*part == 'M') c->market = (uint8_t)value;
        if (*part == 'B') c->lent = value;
        if (*part == 'O') c->out_len = value;
        if (*part == 'X') len = bytes_of(word[at], c->bytes, GIVEN);
        if (*part == 'L') len = login_of(word + at, c->bytes) ? BOE_LOGIN_BYTES : -1;
        at = next;
    }
    c->len = (size_t)len;
    c->more = line % (AFTER + 1);
    return at == words && len >= 0 && c->lent <= BUFFER && c->out_len <= BUFFER;
}

/* A call's answer. */
static void tell(const struct call *c, uint32_t refusal, const struct side *of, char *out) {
    for (const char *part = c->of->answer; *part; part++) {
        if (part > c->of->answer) *out++ = ' ';
        if (*part == 'R') out += refusal_word(refusal, out);
        if (*part == 'T') out += sprintf(out, "%u", refusal ? BOE_NOTHING : of->number);
        if (*part == 'S') out += state_words(of, out);
        if (*part == 'O') out += hex_word(of->out, c->out_len, out);
    }
}

/* m-book and v-book: the book's bytes, or the log's, its table and its places. */
static void tell_book(const struct side *of, char *out) {
    size_t length = length_of(of) < BUFFER ? length_of(of) : BUFFER;
    out += hex_word(of->buffer, length, out);
    *out++ = ' ';
    out += hex_word(of->state + BOE_STATE_TABLE_AT, BOE_TABLE_BYTES, out);
    *out++ = ' ';
    hex_word(of->state + BOE_STATE_PLACES_AT, BOE_TABLE_BYTES, out);
}

/* m-last: the last message of a unit in so many bytes of the book's buffer. */
static int tell_last(char **word, char *out) {
    uint8_t unit = (uint8_t)atoi(word[1]);
    size_t lent = strtoul(word[2], NULL, 10);
    if (lent > BUFFER) return 0;
    size_t at = boe_last_at(unit, member.buffer, lent, book_of(&member), BOE_STATE_BYTES);
    size_t length = boe_last_length(unit, member.buffer, lent, book_of(&member), BOE_STATE_BYTES);
    if (at > lent || length > lent - at) return 0;
    out += refusal_word(boe_last_refusal(unit, member.buffer, lent, book_of(&member), BOE_STATE_BYTES), out);
    out += sprintf(out, " %zu ", at);
    hex_word(member.buffer + at, length, out);
    return 1;
}

/* ---- the lines */

/* Blank buffers with their guards behind them, and a state of zeros, which is a closed session with a blank book. */
static void begin(struct side *of, size_t state_len) {
    memset(of, GUARD, sizeof *of);
    memset(of->state, 0, state_len);
    memset(of->buffer, FILL, BUFFER);
}

/* Plays a call's line. */
static void play(const struct call *c, struct side *on, char *got) {
    size_t length = length_of(on);
    on->number = UNTOLD;
    memset(on->out, FILL, BUFFER);
    put_all_careless(c, on);
    if (c->of->put == put_login) ask_login(c);
    uint32_t refusal = put_watched(c, on);
    check_line(refusal == 0 || strchr(c->of->answer, 'R'), "a break is not refused");
    if (c->of->put == put_receive && refusal == 0 && on->number == BOE_BOOKED) ask_last(c, length);
    if (c->of->put == put_open || c->of->put == put_restart) ask_book(c, refusal);
    counts[c->of - kinds].put++;
    counts[c->of - kinds].taken += refusal == 0;
    tell(c, refusal, on, got);
}

/* Whether boe_session_receive answers a line as it stands. m-message takes sequenced messages alone and m-response a Login Response alone: to any other
 * type both answer 4, also where boe_session_receive takes it. They answer as it does where the session is closed, where there is no whole message, and to
 * their own types. */
static int taken_alike(const struct call *c) {
    int message = strcmp(c->of->name, "m-message") == 0;
    if (!message && strcmp(c->of->name, "m-response") != 0) return 1;
    if (boe_session_phase(session_in(&member), BOE_SESSION_BYTES) == BOE_CLOSED || boe_frame_length(c->bytes, c->len) == 0) return 1;
    return message ? boe_told(c->bytes[4]) == BOE_BOOKED : c->bytes[4] == BOE_LOGIN_RESPONSE;
}

enum how { PLAYED, SKIPPED, UNKNOWN };

/* A line that names a call. */
static enum how call_line(char **word, int words, char *got) {
    static struct call c;
    memset(&c, 0, sizeof c);
    for (c.of = kinds; c.of < kinds + COUNT_OF(kinds); c.of++)
        if (strcmp(word[0], c.of->name) == 0) break;
    if (c.of == kinds + COUNT_OF(kinds) || !read_call(&c, word, words)) return UNKNOWN;
    if (c.of->put == put_new) {
        begin(&member, BOE_SESSION_BYTES);
        begin(&venue, BOE_VENUE_BYTES);
        memset(venue.state, GUARD, BOE_VENUE_BYTES);
    }
    if (!taken_alike(&c)) {
        tell(&c, BOE_UNKNOWN_TYPE, &member, got);
        return SKIPPED;
    }
    play(&c, c.of->state_len == BOE_SESSION_BYTES ? &member : &venue, got);
    return PLAYED;
}

/* Any line: those that set a state or ask for a book have no call of their own. */
static enum how any_line(char **word, int words, char *got) {
    struct side *of = word[0][0] == 'm' ? &member : &venue;
    const char *name = word[0][0] && word[0][1] == '-' ? word[0] + 2 : "";
    if (strcmp(name, "state") == 0 && words == 1 + PARTS && set_state(of, word)) {
        state_words(of, got);
    } else if (strcmp(name, "book") == 0 && words == 1) {
        tell_book(of, got);
    } else if (strcmp(word[0], "m-last") == 0 && words == 3) {
        if (!tell_last(word, got)) return UNKNOWN;
    } else {
        return call_line(word, words, got);
    }
    return PLAYED;
}

/* The next line of both files without its end: 0 where both are over. */
static int next_line(FILE *scripts, FILE *answers, char *script, char *answer) {
    int more = fgets(script, LINE, scripts) != NULL;
    check((fgets(answer, ANSWER, answers) != NULL) == more, "as many answers as lines of scripts");
    script[strcspn(script, "\n")] = 0;
    answer[strcspn(answer, "\n")] = 0;
    line++;
    return more;
}

/* Every call was put many times, and taken as well as refused. */
static void check_counts(void) {
    for (size_t i = 0; i < COUNT_OF(kinds); i++) {
        check(counts[i].put > (kinds[i].put == put_new ? 20 : 100) && counts[i].taken > 20, "every call was played many times");
        check(counts[i].careless > 5000 && counts[i].careless_taken > 100, "and on states of any bytes");
    }
    check(found > 500, "booked messages were asked for");
    check(full_lists > 100, "full lists were asked for, by name");
}

void stored_scripts(FILE *scripts, FILE *answers) {
    static char script[LINE], expected[ANSWER], got[ANSWER];
    unsigned long played = 0, skipped = 0;
    begin(&member, BOE_SESSION_BYTES);
    begin(&venue, BOE_VENUE_BYTES);
    while (next_line(scripts, answers, script, expected)) {
        char *word[WORDS];
        int words = 0;
        enum how how = SKIPPED; /* a line outside the format, which is answered ?, names no call */
        if (strcmp(expected, "?") != 0) {
            for (char *next = strtok(script, " "); next && words < WORDS; next = strtok(NULL, " ")) word[words++] = next;
            how = words ? any_line(word, words, got) : UNKNOWN;
            check_line(how != UNKNOWN, "a line that the test does not know");
            if (how != UNKNOWN) check_told(expected, got);
            ask_phase(&member);
        }
        played += how == PLAYED;
        skipped += how == SKIPPED;
    }
    check_counts();
    printf("test_gateway: %lu lines of the scripts played, %lu skipped; each side's calls on %lu states of any bytes\n", played, skipped, careless);
}

/* ---- the calls without a state */

void pulse_and_version(void) {
    static const uint32_t clocks[] = {0, 1, 999, 1000, 4999, 5000, INT32_MAX, UINT32_MAX - 5000, UINT32_MAX - 4999, UINT32_MAX - 1000, UINT32_MAX - 999, UINT32_MAX};
    static const uint32_t waits[] = {0, 1, 999, 1000, 1001, 4999, 5000, 5001, INT32_MAX, UINT32_MAX};
    for (size_t i = 0; i < COUNT_OF(clocks); i++)
        for (size_t k = 0; k < COUNT_OF(waits); k++) {
            check(boe_heartbeat_due(clocks[i] + waits[k], clocks[i]) == (waits[k] >= 1000), "a heartbeat is due after a second");
            check(boe_peer_silent(clocks[i] + waits[k], clocks[i]) == (waits[k] >= 5000), "the peer is silent after five seconds");
        }
    check(boe_version() == BOE_VERSION, "the library is of this header's version");
}
