/* Says what stands in messages, part by part.
 *
 * usage: decode [--from member|venue|options-member] [--raw] [--json] [FILE]
 *        decode --help
 *
 * FILE, or standard input, has messages one after the other, at most 16,777,216 bytes: in hex digits, with white space anywhere and 0x before a word
 * or not, or with --raw as bytes. Each is read in the direction that --from names; without it in the direction that has its type, and a New Order as
 * one of an equities market.
 *
 * Standard output gets for each message a heading and then a line for each part, so that every byte of the message is in one of them: its place in
 * the message, its width, its name, its kind and its value, and in parentheses what helps to read it. The kinds are document 01's A, N, T, B and P, I
 * an identifier, D a day and R a reserved byte. With --json a message is one line, an object of the same content.
 *
 * Of a refused message it gets the refusal in words, the header as far as it is there, and the bytes around the place, with that byte marked. The
 * next message is read where framing knows its start: after 1, 2 and 3 the rest is left.
 *
 * The exit status is 0 where no message was refused, otherwise the number of the first refusal; 100 where a system call failed or the input is not
 * what it must be, 101 for wrong arguments. */
#define _XOPEN_SOURCE 700
#include "fields.h"
#include "places.h"
#include "tell.h"

#include <errno.h>
#include <fcntl.h>
#include <inttypes.h>
#include <string.h>
#include <unistd.h>

const char program[] = "decode";

static const char usage[] =
    "usage: decode [OPTION..] [FILE]    takes messages apart, one after the other, from FILE or standard input: hex text, with white space anywhere\n"
    "       decode --help\n"
    "\n"
    "  --from member|venue|options-member\n"
    "                    who has sent them; without it each message's type says, and a New Order is taken for one of equities\n"
    "  --raw             the input is the bytes themselves\n"
    "  --json            a JSON object a message, on a line; prices and numbers of 8 bytes are strings\n"
    "\n"
    "A message has a line of its own, and then a line for each of its fields, in its order: its place in the message, its width, its name, its kind (A\n"
    "letters, N letters and digits, T text, I an identifier, B a number, P a price, D a day) and its value. Every byte of the message belongs to one\n"
    "line. Of a message that is refused the number and name of the refusal are told, the field, why, and the bytes around its place. A Password is\n"
    "shown as it stands there.\n"
    "\n"
    "The exit status: 0 all are read; the number of the first refusal; 100 a system call failed; 101 wrong arguments.\n";

/* The directions by their numbers in boe.h, and what stands for none given. */
static const char *const directions[] = {"member", "venue", "options-member"};
enum { DIRECTIONS = sizeof directions / sizeof *directions, BY_TYPE = DIRECTIONS };

static bool raw, json;
static uint8_t asked_direction = BY_TYPE;

/* The input. */
static uint8_t bytes[BOE_BOOK_MOST_BYTES];
static size_t held;

/* A message, or what framing refuses: where it begins in the input, which one it is from 1 on, and when it is framed its direction and record. */
struct message {
    const uint8_t *bytes;
    size_t at, length;
    unsigned long number;
    uint8_t direction;
    struct boe_record record;
};

enum { HEADER = 10, TYPE_AT = 4, UNIT_AT = 5, NUMBER_AT = 6 };

/* How much further on a byte of a session message's body stands in the message than in the record. */
enum { FURTHER = HEADER - BOE_SESSION_BODY_AT };

/* ---- the input */

/* What the input is called, without what a terminal would not print. */
static const char *input_name(const char *path) {
    static char name[256];
    size_t length = 0;
    if (!path) return "standard input";
    for (; path[length] && length < sizeof name - 1; length++) name[length] = path[length] >= ' ' && path[length] <= '~' ? path[length] : '?';
    return name;
}

/* Takes a byte of the input. */
static void take_byte(uint8_t byte, const char *name) {
    if (held == sizeof bytes) fail_as(name, "more than 16,777,216 bytes");
    bytes[held++] = byte;
}

/* The value of a hex digit, or -1. */
static int digit_of(uint8_t c) {
    if (c >= '0' && c <= '9') return c - '0';
    if (c >= 'a' && c <= 'f') return c - 'a' + 10;
    if (c >= 'A' && c <= 'F') return c - 'A' + 10;
    return -1;
}

/* Where in hex text the input has come: its line, the characters of this word, and the digit that waits for its second, or -1. */
static struct {
    unsigned long line;
    size_t word;
    int waiting;
} text = {1, 0, -1};

/* Takes a character of hex text. An x is one of 0x where the 0 that its word begins with waits. */
static void take_character(uint8_t c, const char *name) {
    char why[64];
    int digit = digit_of(c);
    bool space = c == ' ' || (c >= '\t' && c <= '\r');
    if (digit >= 0 && text.waiting >= 0) take_byte((uint8_t)(text.waiting << 4 | digit), name);
    if (digit >= 0) {
        text.waiting = text.waiting >= 0 ? -1 : digit;
    } else if ((c == 'x' || c == 'X') && text.word == 1 && text.waiting == 0) {
        text.waiting = -1;
    } else if (!space) {
        snprintf(why, sizeof why, c > ' ' && c <= '~' ? "no hex digit on line %lu: %c" : "no hex digit on line %lu: the byte %02X", text.line, c);
        fail_as(name, why);
    }
    text.word = space ? 0 : text.word + 1;
    text.line += c == '\n';
}

/* Reads the whole input. */
static void read_input(const char *path) {
    static uint8_t piece[65536];
    const char *name = input_name(path);
    int file = path ? open(path, O_RDONLY) : STDIN_FILENO;
    if (file < 0) fail(name);
    for (ssize_t n; (n = read(file, piece, sizeof piece)) != 0;) {
        if (n < 0 && errno == EINTR) continue;
        if (n < 0) fail(name);
        for (ssize_t i = 0; i < n; i++) raw ? take_byte(piece[i], name) : take_character(piece[i], name);
    }
    if (text.waiting >= 0) fail_as(name, "an odd number of hex digits");
}

/* ---- a line for each part of a message */

/* Whether a line is the first of its message. */
static bool first;

/* Begins a line, up to the value. */
static void begin_line(size_t place, size_t width, const char *name, char kind) {
    if (json)
        printf("%s{\"place\":%zu,\"width\":%zu,\"name\":\"%s\",\"kind\":\"%c\",\"value\":", first ? "" : ",", place, width, name, kind);
    else
        printf("%6zu %4zu  %-28s %c  ", place, width, name, kind);
    first = false;
}

/* Ends a line, with a note where it is not empty. */
static void end_line(const char *note) {
    if (*note) printf(json ? ",\"note\":\"%s\"" : "  (%s)", note);
    printf(json ? "}" : "\n");
}

/* A number of the message, the lowest byte first. */
static void put_number(const uint8_t *p, size_t width) {
    uint64_t number = 0;
    while (width > 0) number = number << 8 | p[--width];
    printf("%" PRIu64, number);
}

/* Bytes of the message in their order. */
static void put_hex(const uint8_t *p, size_t count) {
    printf(json ? "\"0x" : "0x");
    for (size_t i = 0; i < count; i++) printf("%02X", p[i]);
    if (json) printf("\"");
}

/* The line of a number, and of bytes that are no number. */
static void number_line(const uint8_t *m, size_t place, size_t width, const char *name) {
    begin_line(place, width, name, 'B');
    put_number(m + place, width);
    end_line("");
}

static void hex_line(const uint8_t *m, size_t place, size_t width, const char *name, const char *note) {
    begin_line(place, width, name, 'B');
    put_hex(m + place, width);
    end_line(note);
}

/* A name that is counted from 1 on. It stays until the next is made. */
static const char *counted(const char *front, const char *name, size_t count) {
    static char whole[64];
    snprintf(whole, sizeof whole, "%s%s%zu", front, name, count);
    return whole;
}

/* The header, as far as so many bytes have it. */
static void header_lines(const uint8_t *m, size_t length) {
    if (length >= 2) hex_line(m, 0, 2, "StartOfMessage", "");
    if (length >= 4) number_line(m, 2, 2, "MessageLength");
    if (length > TYPE_AT) hex_line(m, TYPE_AT, 1, "MessageType", "");
    if (length > UNIT_AT) number_line(m, UNIT_AT, 1, "MatchingUnit");
    if (length >= HEADER) number_line(m, NUMBER_AT, 4, "SequenceNumber");
}

/* ---- order messages */

/* The names of the fields that a bitfield selects. They stay until the next are made. */
static const char *selected(const struct boe_record *record, unsigned byte) {
    static char names[256];
    size_t count, length = 0;
    const struct field *fields = fields_of(record->bytes[BOE_RECORD_TYPE_AT], &count);
    names[0] = 0;
    for (size_t i = 0; i < count && length < sizeof names; i++)
        if (fields[i].where.byte == byte && has_field(record, &fields[i]))
            length += (size_t)snprintf(names + length, sizeof names - length, "%s%s", length ? ", " : "", fields[i].name);
    return names;
}

/* The count of bitfields, and each of them. */
static void bitfield_lines(const struct message *of) {
    uint8_t type = of->record.bytes[BOE_RECORD_TYPE_AT];
    unsigned place = count_place(type), count = of->bytes[place];
    char name[64];
    snprintf(name, sizeof name, "NumberOf%sBitfields", bitfields_name(type));
    number_line(of->bytes, place, 1, name);
    for (unsigned i = 1; i <= count; i++)
        hex_line(of->bytes, place + i, 1, counted(bitfields_name(type), "Bitfield", i), selected(&of->record, i));
}

/* What helps to read a field's value: of a time the time, else nothing. */
static const char *note_of(const struct boe_record *record, const struct field *field) {
    static char note[40];
    bool time = strcmp(field->name, "TransactionTime") == 0 || strcmp(field->name, "ExpireTime") == 0;
    if (!time) return "";
    time_text(boe_number_of(record, field->where), note);
    return note;
}

/* The fields that begin from one place on and before another, and after RiskGroupIDCnt its ids. */
static void field_lines(const struct message *of, unsigned from, unsigned end) {
    size_t count;
    const struct field *fields = fields_of(of->record.bytes[BOE_RECORD_TYPE_AT], &count);
    for (size_t i = 0; i < count; i++) {
        const struct field *field = &fields[i];
        unsigned place = has_field(&of->record, field) ? field_place(&of->record, field) : end;
        if (place < from || place >= end) continue;
        begin_line(place, field->where.len, field->name, field->kind);
        print_value(stdout, &of->record, field, json);
        end_line(note_of(&of->record, field));
        if (strcmp(field->name, "RiskGroupIDCnt") != 0) continue;
        for (unsigned id = 0; id < of->bytes[place]; id++)
            number_line(of->bytes, place + 1 + BOE_RISK_GROUP_ID_LEN * id, BOE_RISK_GROUP_ID_LEN, counted("", "RiskGroupID", id + 1));
    }
}

/* ---- session messages */

/* Begins a part of a value that has several. */
static void begin_part(bool is_first, const char *name) {
    if (json)
        printf("%s\"%s\":", is_first ? "{" : ",", name);
    else
        printf("%s%s ", is_first ? "" : ", ", name);
}

/* Ends such a value and its line. */
static void end_parts(void) {
    if (json) printf("}");
    end_line("");
}

/* The pairs from a place on, and where they end. */
static size_t pair_lines(const uint8_t *m, size_t at, unsigned count) {
    for (unsigned i = 1; i <= count; i++, at += BOE_PAIR_LEN) {
        begin_line(at, BOE_PAIR_LEN, counted("", "UnitSequence", i), 'B');
        begin_part(true, "UnitNumber");
        put_number(m + at, 1);
        begin_part(false, "UnitSequence");
        put_number(m + at + 1, 4);
        end_parts();
    }
    return at;
}

/* A group, and of a group of units its pairs; and where it ends. */
static size_t group_lines(const uint8_t *m, size_t at, unsigned i) {
    const uint8_t *group = m + at;
    bool units = group[BOE_UNITS_GROUP_TYPE_AT] == BOE_UNITS_GROUP;
    unsigned count = group[BOE_UNITS_GROUP_NUMBER_OF_UNITS_AT];
    size_t width = units ? BOE_UNITS_GROUP_PAIRS_AT : BOE_BITFIELDS_GROUP_BITFIELDS_AT + count;
    begin_line(at, width, counted("", "ParamGroup", i), 'B');
    begin_part(true, "ParamGroupLength");
    put_number(group, BOE_UNITS_GROUP_LENGTH_LEN);
    begin_part(false, "ParamGroupType");
    put_hex(group + BOE_UNITS_GROUP_TYPE_AT, 1);
    begin_part(false, units ? "NoUnspecifiedUnitReplay" : "MessageType");
    units ? put_number(group + BOE_UNITS_GROUP_FLAG_AT, 1) : put_hex(group + BOE_BITFIELDS_GROUP_MESSAGE_TYPE_AT, 1);
    begin_part(false, units ? "NumberOfUnits" : "NumberOfReturnBitfields");
    printf("%u", count);
    if (!units && count > 0) {
        begin_part(false, "ReturnBitfields");
        put_hex(group + BOE_BITFIELDS_GROUP_BITFIELDS_AT, count);
    }
    end_parts();
    return units ? pair_lines(m, at + width, count) : at + width;
}

/* The pairs and groups of a session message. A Login Response has its number of groups behind the pairs. */
static void list_lines(const struct message *of) {
    const uint8_t *m = of->bytes;
    size_t groups_at = 0;
    if (m[TYPE_AT] == BOE_LOGOUT) pair_lines(m, BOE_LOGOUT_PAIRS_AT + FURTHER, m[BOE_LOGOUT_NUMBER_OF_UNITS_AT + FURTHER]);
    if (m[TYPE_AT] == BOE_LOGIN_REQUEST) groups_at = BOE_LOGIN_REQUEST_NUMBER_OF_GROUPS_AT + FURTHER;
    if (m[TYPE_AT] == BOE_LOGIN_RESPONSE) {
        groups_at = pair_lines(m, BOE_LOGIN_RESPONSE_PAIRS_AT + FURTHER, m[BOE_LOGIN_RESPONSE_NUMBER_OF_UNITS_AT + FURTHER]);
        number_line(m, groups_at, 1, "NumberOfParamGroups");
    }
    if (groups_at == 0) return;
    size_t at = groups_at + 1;
    for (unsigned i = 1; i <= m[groups_at]; i++) at = group_lines(m, at, i);
}

/* The lines of a message that was read. */
static void body_lines(const struct message *of) {
    unsigned count_at = count_place(of->record.bytes[BOE_RECORD_TYPE_AT]);
    if (count_at == 0) {
        field_lines(of, HEADER, BOE_MESSAGE_MOST_BYTES);
        list_lines(of);
    } else {
        field_lines(of, HEADER, count_at);
        bitfield_lines(of);
        field_lines(of, count_at, BOE_MESSAGE_MOST_BYTES);
    }
}

/* ---- refusals */

/* Why a message is refused, by the number of refusal. */
static const char *reason(uint32_t refusal) {
    switch (BOE_NUMBER(refusal)) {
    case BOE_BAD_START: return "one of the first two bytes is not BA";
    case BOE_BAD_LENGTH: return "a length under 8 or over 2,046";
    case BOE_INCOMPLETE: return "fewer than four bytes, or fewer than the total that the length gives";
    case BOE_UNKNOWN_TYPE: return "a type that this direction does not have";
    case BOE_BAD_UNIT: return "a unit or number that a message of this type does not have";
    case BOE_WRONG_TOTAL: return "a total unlike what the counts and widths give";
    case BOE_TOO_MANY_BITFIELDS: return "more bitfields than the message may have";
    case BOE_UNLISTED_BIT: return "a set bit that is not listed";
    case BOE_NOT_SELECTED: return "a required field is not selected";
    case BOE_BAD_VALUE: return "a value against its kind or range";
    case BOE_BAD_GROUP: return "a flag, a list of pairs or a group against its rules, lengths included";
    case BOE_CONFLICT: return "a lockout without F in front, or Symbol together with a MatchingUnit other than 0";
    default: return "not refused by reading";
    }
}

/* What stands for the place of a refusal that tells none. */
enum { UNTOLD = BOE_BOOK_MOST_BYTES + 1 };

/* The byte that a refusal is about: its place, or of 1 to 5 the byte that shows it. The end is one past the last byte. */
static size_t place_of(uint32_t refusal, const uint8_t *m, size_t length) {
    switch (BOE_NUMBER(refusal)) {
    case BOE_BAD_START: return m[0] == 0xBA;
    case BOE_BAD_LENGTH: return 2;
    case BOE_INCOMPLETE: return length;
    case BOE_UNKNOWN_TYPE: return TYPE_AT;
    case BOE_BAD_UNIT: return m[UNIT_AT] != 0 || m[TYPE_AT] == BOE_ACKNOWLEDGMENT || m[TYPE_AT] == BOE_EXECUTION ? UNIT_AT : NUMBER_AT;
    default: return BOE_PLACE(refusal) ? BOE_PLACE(refusal) : UNTOLD;
    }
}

/* The bytes around a place, of which its byte is marked, or [] where it is the end; all of them where no place is told. */
static void dump(const uint8_t *m, size_t length, size_t place) {
    enum { AROUND = 16 };
    size_t begin = place == UNTOLD || place < AROUND ? 0 : place - AROUND;
    size_t end = place == UNTOLD || length - begin < 2 * AROUND + 1 ? length : begin + 2 * AROUND + 1;
    if (json)
        printf(",\"bytes\":{\"place\":%zu,\"hex\":\"", begin);
    else if (begin < end)
        printf("  bytes %zu to %zu:", begin, end - 1);
    else
        printf("  no bytes:");
    for (size_t i = begin; i < end; i++) printf(json ? "%02X" : i == place ? " [%02X]" : " %02X", m[i]);
    if (!json)
        printf(place == end ? " []\n" : "\n");
    else if (place == UNTOLD)
        printf("\"}");
    else
        printf("\",\"marked\":%zu}", place);
}

/* The refusal's number and name, its place, what is there, and why. */
static void put_refusal(uint32_t refusal, const struct message *of) {
    if (!json) {
        printf("refused: ");
        print_refused(stdout, refusal, of->direction, of->bytes);
        printf(": %s\n", reason(refusal));
        return;
    }
    printf(",\"refusal\":{\"number\":%u,\"name\":\"%s\"", BOE_NUMBER(refusal), boe_refusal_name(refusal));
    if (BOE_PLACE(refusal)) {
        printf(",\"place\":%u,\"what\":\"", BOE_PLACE(refusal));
        print_what(stdout, refusal, of->direction, of->bytes);
        printf("\"");
    }
    printf(",\"why\":\"%s\"}", reason(refusal));
}

/* ---- a message */

/* Begins a message's heading. */
static void begin_message(const struct message *of) {
    first = true;
    printf(json ? "{\"message\":%lu,\"at\":%zu" : "message %lu at byte %zu: ", of->number, of->at);
}

/* Begins and ends its lines. */
static void begin_lines(void) {
    if (json) printf(",\"fields\":[");
}

static void end_lines(void) {
    if (json) printf("]");
}

/* Ends it. What could not be written ends the program, with the first message that shows it. */
static void end_message(void) {
    if (json) printf("}\n");
    if (ferror(stdout)) fail("standard output");
}

/* What framing refuses, and with it the rest of the input. Of the header it tells no more than framing has taken. */
static void tell_unframed(uint32_t refusal, const struct message *of) {
    size_t most = BOE_NUMBER(refusal) == BOE_BAD_START ? 2 : BOE_NUMBER(refusal) == BOE_BAD_LENGTH ? 4 : HEADER;
    begin_message(of);
    if (json)
        printf(",\"left\":%zu", of->length);
    else
        printf("no whole message\n");
    put_refusal(refusal, of);
    begin_lines();
    header_lines(of->bytes, of->length < most ? of->length : most);
    end_lines();
    dump(of->bytes, of->length, place_of(refusal, of->bytes, of->length));
    if (!json) printf("stopped at byte %zu: %zu of %zu bytes are left\n", of->at, of->length, held);
    end_message();
}

/* Of a New Order that is refused, and that the other market's members send: that it is read so, since its type does not tell the market. */
static void put_hint(const struct message *of) {
    struct boe_record unused;
    if (asked_direction != BY_TYPE || of->bytes[TYPE_AT] != BOE_NEW_ORDER) return;
    if (boe_read(BOE_FROM_OPTIONS_MEMBER, of->bytes, of->length, &unused, sizeof unused) != 0) return;
    printf(json ? ",\"read_by\":\"--from options-member\"" : "  --from options-member reads it\n");
}

/* A whole message, read or refused. */
static void tell_framed(uint32_t refusal, const struct message *of) {
    uint8_t type = of->bytes[TYPE_AT];
    begin_message(of);
    printf(json ? ",\"type\":\"0x%02X\",\"name\":\"%s\",\"from\":\"%s\",\"length\":%zu" : "0x%02X %s from %s, %zu bytes\n", type,
           type_name(record_type(of->direction, type)), directions[of->direction], of->length);
    if (refusal) put_refusal(refusal, of);
    begin_lines();
    header_lines(of->bytes, of->length);
    if (!refusal) body_lines(of);
    end_lines();
    if (refusal) {
        dump(of->bytes, of->length, place_of(refusal, of->bytes, of->length));
        put_hint(of);
    }
    end_message();
}

/* The direction in which a message of a type is read. */
static uint8_t direction_of(uint8_t type) {
    if (asked_direction != BY_TYPE) return asked_direction;
    switch (type) {
    case BOE_NEW_ORDER:
    case BOE_CANCEL_ORDER:
    case BOE_MODIFY_ORDER:
    case BOE_PURGE_ORDERS:
    case BOE_LOGIN_REQUEST:
    case BOE_CLIENT_HEARTBEAT: return BOE_FROM_MEMBER;
    default: return BOE_FROM_VENUE;
    }
}

/* Tells every message of the input, and answers the number of the first refusal, or 0. No bytes at all are refused by framing. */
static int tell_all(void) {
    struct message of = {0};
    uint32_t first_refusal = 0, refusal;
    do {
        of.bytes = bytes + of.at;
        of.length = held - of.at;
        of.number++;
        refusal = boe_frame_refusal(of.bytes, of.length);
        if (refusal) {
            tell_unframed(refusal, &of);
            of.at = held;
        } else {
            of.length = boe_frame_length(of.bytes, of.length);
            of.direction = direction_of(of.bytes[TYPE_AT]);
            refusal = boe_read(of.direction, of.bytes, of.length, &of.record, sizeof of.record);
            tell_framed(refusal, &of);
            of.at += of.length;
        }
        if (first_refusal == 0) first_refusal = refusal;
    } while (of.at < held);
    return (int)BOE_NUMBER(first_refusal);
}

/* ---- the program */

/* The direction of a word: whether it is one. */
static bool take_direction(const char *word) {
    for (uint8_t i = 0; word && i < DIRECTIONS; i++) {
        if (strcmp(word, directions[i]) != 0) continue;
        asked_direction = i;
        return true;
    }
    return false;
}

/* The arguments, and the file among them: whether they are as the usage says. */
static bool take_arguments(char **words, const char **path) {
    for (; *words; words++) {
        if (strcmp(*words, "--raw") == 0)
            raw = true;
        else if (strcmp(*words, "--json") == 0)
            json = true;
        else if (strcmp(*words, "--from") == 0) {
            if (!take_direction(*++words)) return false;
        } else if (**words == 0 || **words == '-' || *path)
            return false;
        else
            *path = *words;
    }
    return true;
}

int main(int argc, char **argv) {
    const char *path = NULL;
    int status = 0;
    keep_standard_streams();
    look_at_version();
    if (argc == 2 && strcmp(argv[1], "--help") == 0) {
        printf("%s", usage);
    } else if (argc < 1 || !take_arguments(argv + 1, &path)) {
        fprintf(stderr, "%s", usage);
        return WRONG_USAGE;
    } else {
        read_input(path);
        status = tell_all();
    }
    if (fflush(stdout) != 0 || ferror(stdout)) fail("standard output");
    return status;
}
