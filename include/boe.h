/* The C entry points of the proved core: numbers and byte buffers only.
 *
 * Every call takes any bytes, any numbers and any buffer length, and answers. A call that answers a refusal has changed no byte. A refusal has
 * a number, and some have a place: BOE_NUMBER and BOE_PLACE.
 * A buffer is a pointer and a length. The pointer is not null, also where the length is 0, and points to that many bytes. Of all calls: the
 * buffers of one call do not overlap, and their bytes are not changed by another thread while it runs.
 *
 * The arguments stand in one order: numbers first, then what is only read, then what is written, and of these the state last. A record and a
 * state are structs of their bytes, so that the compiler refuses one in the place of the other or of a plain buffer; each has its length
 * beside it, `sizeof` of the struct, since a call takes any length. A struct of bytes is aligned to 1: a longer or shorter buffer may be cast
 * to it, with its own length.
 *
 * A number that is lent for an answer (`told`, `sent`) is a pointer that is not null; a refused call leaves it as it was.
 *
 * A gateway makes the calls of the session, boe_session_*: the day's promises are theirs. The calls of the book, boe_book_* and boe_restart, are for a
 * gateway that has a session of its own. The calls of the bench venue, boe_venue_*, are a venue to try a gateway against.
 *
 * Link libgateway.a (`c/library gateway` writes it to target/staticlib/); it is x86-64 code. */
#ifndef BOE_H
#define BOE_H

#include <stdbool.h>
#include <stddef.h>
#include <stdint.h>

#ifdef __cplusplus
extern "C" {
#endif

/* The version of this header. boe_version answers that of the library: where they differ, calls or layouts do, and a program ends before it calls
 * anything else. */
#define BOE_VERSION 1
uint32_t boe_version(void);

/* The numbers of refusal. 0 is no refusal. */
enum boe_refusal {
    BOE_BAD_START = 1,          /* a byte present at place 0 or 1 is not BA */
    BOE_BAD_LENGTH = 2,         /* four bytes are present, and the length is under 8 or over 2,046 */
    BOE_INCOMPLETE = 3,         /* fewer than four bytes, or fewer than the total */
    BOE_UNKNOWN_TYPE = 4,       /* a type unknown in this direction */
    BOE_BAD_UNIT = 5,           /* a unit or number against the rules */
    BOE_WRONG_TOTAL = 6,        /* a total unlike what the counts and widths give */
    BOE_TOO_MANY_BITFIELDS = 7, /* a bitfield count above the message's most */
    BOE_UNLISTED_BIT = 8,       /* a set bit that is not listed */
    BOE_NOT_SELECTED = 9,       /* a required field that is not selected */
    BOE_BAD_VALUE = 10,         /* a value against its kind or range */
    BOE_BAD_GROUP = 11,         /* a login group against its rules, lengths included */
    BOE_NOT_ZERO = 12,          /* writer: an unselected field that is not zero */
    BOE_NO_ROOM = 13,           /* a buffer too short for the whole result */
    BOE_ALREADY_TAKEN = 14,     /* a unit's number at or below the table's */
    BOE_GAP = 15,               /* a number two or more above the table's */
    BOE_OUT_OF_PHASE = 16,      /* a session call that its phase does not take */
    BOE_OTHER_DATE = 17,        /* the first mark has another date than asked */
    BOE_BAD_BOOK = 18,          /* a book neither whole nor torn */
    BOE_NOT_A_DAY = 19,         /* not a calendar day of 1970 to 2099 */
    BOE_NUMBERS_USED_UP = 20,   /* the outgoing number 4,294,967,295 is already used */
    BOE_OLD_NUMBER = 21,        /* venue: a nonzero number at or below the last one */
    BOE_NO_FIRST_MARK = 22,     /* restart on a book under 16 bytes */
    BOE_CONFLICT = 23,          /* Purge Orders: a lockout without F, or Symbol together with a MatchingUnit other than 0 */
    BOE_NONE = 26               /* a unit that has no message in the book */
};

/* The highest of these numbers; no call answers 24 or 25. */
#define BOE_REFUSALS 26

/* What a call answers: a refusal's number in the low byte, and above it the place, 0 where there is none. 6 to 10 have a place, and no other:
 * a byte of the message, counted from its first, which is 0. None is below 10. A bad field at byte 60 is 10 + 256 * 60.
 *
 *   number  place
 *        6  the message's end: its total, one past its last byte
 *        7  the count byte
 *        8  the first bitfield that has a set bit that is not listed
 *        9  the last bitfield, or the count byte where there are none
 *       10  the first byte of the first bad field in the order of the message, the fixed part first
 *
 * Writing tells the place in the message that would be written: a byte of a record's fixed part, or of a session message's body, stands there 4
 * bytes further on, but for RiskGroupIDCnt, which stands behind the bitfields. Compare the number with the names above, and not the whole; use
 * it alone as an index or an exit status. A caller that keeps the answer in a uint8_t has the number.
 *
 * 9 comes before the total's 6 where the bits alone decide, and after 10 where a selected field's value does. This late 9 is, in Modify Order, for
 * no Price and an OrdType other than '1', market; in Purge Orders for a MassCancelInst whose first character is F and no ClearingFirm, or whose
 * second is S or B and no MassCancelID. A field that is selected is there, blank or not. After it comes 23: for a MassCancelInst whose third
 * character is L and whose first is not F; and for Symbol and MatchingUnit both selected, and a MatchingUnit other than 0.
 *
 * Of a message, 5 is for a unit other than 0 from a member; for a unit outside 1 to 32 in an acknowledgment or execution; and for a unit or a
 * number other than 0 in a rejection or a session message. */
#define BOE_NUMBER(refusal) ((uint32_t)(refusal) & 0xFF)
#define BOE_PLACE(refusal) ((uint32_t)(refusal) >> 8)

/* The name of a refusal, that of its number in the table without BOE_. */
static inline const char *boe_refusal_name(uint32_t refusal) {
    switch (BOE_NUMBER(refusal)) {
    case 0: return "no refusal";
    case BOE_BAD_START: return "BAD_START";
    case BOE_BAD_LENGTH: return "BAD_LENGTH";
    case BOE_INCOMPLETE: return "INCOMPLETE";
    case BOE_UNKNOWN_TYPE: return "UNKNOWN_TYPE";
    case BOE_BAD_UNIT: return "BAD_UNIT";
    case BOE_WRONG_TOTAL: return "WRONG_TOTAL";
    case BOE_TOO_MANY_BITFIELDS: return "TOO_MANY_BITFIELDS";
    case BOE_UNLISTED_BIT: return "UNLISTED_BIT";
    case BOE_NOT_SELECTED: return "NOT_SELECTED";
    case BOE_BAD_VALUE: return "BAD_VALUE";
    case BOE_BAD_GROUP: return "BAD_GROUP";
    case BOE_NOT_ZERO: return "NOT_ZERO";
    case BOE_NO_ROOM: return "NO_ROOM";
    case BOE_ALREADY_TAKEN: return "ALREADY_TAKEN";
    case BOE_GAP: return "GAP";
    case BOE_OUT_OF_PHASE: return "OUT_OF_PHASE";
    case BOE_OTHER_DATE: return "OTHER_DATE";
    case BOE_BAD_BOOK: return "BAD_BOOK";
    case BOE_NOT_A_DAY: return "NOT_A_DAY";
    case BOE_NUMBERS_USED_UP: return "NUMBERS_USED_UP";
    case BOE_OLD_NUMBER: return "OLD_NUMBER";
    case BOE_NO_FIRST_MARK: return "NO_FIRST_MARK";
    case BOE_CONFLICT: return "CONFLICT";
    case BOE_NONE: return "NONE";
    default: return "unknown refusal";
    }
}

/* The longest message that framing takes; the longest that writing stores, a Login Response; and the longest Login Request. */
#define BOE_MESSAGE_MOST_BYTES 2048
#define BOE_WRITTEN_MOST_BYTES 443
#define BOE_LOGIN_MOST_BYTES 234

/* 0 where the bytes start with a whole message, or 1, 2 or 3. */
uint32_t boe_frame_refusal(const uint8_t *bytes, size_t len);

/* The length of the first whole message, which starts at `bytes`; 0 where framing refuses. */
size_t boe_frame_length(const uint8_t *bytes, size_t len);

/* The units, 1 to 32, and the bytes of a sequence table: the last number of unit 1, of unit 2 and on to unit 32, each in 4 bytes, the lowest
 * first. A new day's table is all zero. */
#define BOE_UNITS 32
#define BOE_TABLE_BYTES 128

/* A message of a unit with a number, for a gateway that has a table and no day book. 0: it is the next of its unit, and the table now has its
 * number. Otherwise the table is as it was: 5 for a unit outside 1 to 32, 13 for a table under 128 bytes, 14 for a number at or below the
 * table's, 15 for one two or more above it, in this order. Bytes past 128 are not touched. */
uint32_t boe_table_step(uint8_t unit, uint32_t number, uint8_t *table, size_t table_len);

/* The day book. Its bytes stand in a buffer of the caller's: the book is the first `length` bytes of it, and the caller keeps them in its file.
 * What is known of a book beside its bytes is its state, 272 bytes of the caller's with the lowest byte of a number first:
 *
 *   place  bytes
 *       0    128   the sequence table, as above
 *     128      4   the date of its marks, as YYYYMMDD
 *     132      4   the book's length in bytes
 *     136      4   where its last mark starts
 *     140      4   its messages
 *     144    128   where the last message of unit 1 starts in the book, of unit 2 and on to unit 32, each in 4 bytes; 0 where there is none
 *
 * Any 272 bytes are taken as a state: a length past the buffer or past 16,777,216, a last mark past the length, or more than 16,777,216
 * messages are no room. A state's buffer may be longer; its bytes past 272 are not touched. */
#define BOE_STATE_BYTES 272
#define BOE_STATE_TABLE_AT 0
#define BOE_STATE_DATE_AT 128
#define BOE_STATE_LENGTH_AT 132
#define BOE_STATE_LAST_MARK_AT 136
#define BOE_STATE_MESSAGES_AT 140
#define BOE_STATE_PLACES_AT 144
#define BOE_MARK_BYTES 16
#define BOE_BOOK_MOST_BYTES 16777216

struct boe_state {
    uint8_t bytes[BOE_STATE_BYTES];
};

/* Opens a book for a date. 0: its first mark stands in the front of the buffer, and the state is that of a book of 16 bytes with a table of
 * zeros and places of zeros. Otherwise buffer and state are as they were: 19, then 13 for a buffer under 16 bytes or a state under 272. What the
 * buffer held before plays no part, so that a book of 22 is opened afresh by this call. */
uint32_t boe_book_open(uint32_t date, uint8_t *buffer, size_t buffer_len, struct boe_state *state, size_t state_len);

/* Appends the first whole message of the bytes to the book. 0: its bytes stand at the book's end, and the state has the message: its unit's
 * number, and its place, which is the length before; the length, the messages. Otherwise buffer and state are as they were: 13 for a state under
 * 272 bytes, which comes first, since there is no book to judge by; then 1 to 10 by the message (4 for a type other than 0x25 and 0x2C, so for a
 * rejection too; the places of these refusals are counted in the message, not in the book), 14 and 15 by the table, and last 13 if the message
 * finds no room in the buffer or within 16,777,216 bytes. */
uint32_t boe_book_append(const uint8_t *bytes, size_t len, uint8_t *buffer, size_t buffer_len, struct boe_state *state, size_t state_len);

/* The mark at a session's end. 0: the mark stands at the book's end, and the state has it, its table and places as they were; or it found no
 * room, and buffer and state are as they were: the length tells. 13 for a state under 272 bytes, and both are as they were. */
uint32_t boe_book_close(uint8_t *buffer, size_t buffer_len, struct boe_state *state, size_t state_len);

/* Restarts from the book in the bytes, all of them, for a date. 0: the state, places and all, is that of the book without its torn tail, if it has
 * one. The bytes of a torn tail are to be cut off the file: the next message or mark goes where they start. Otherwise the state is as it was: 19,
 * 22, 18 for a bad first mark, 17, 18, and after all of these 13 for a state under 272 bytes. An 18 has no place, also where it is for a message
 * that reading refuses with one. A book that has a rejection is 18. */
uint32_t boe_restart(uint32_t date, const uint8_t *bytes, size_t len, struct boe_state *state, size_t state_len);

/* The last message of a unit, as a part of the book: it starts at boe_last_at and has boe_last_length bytes. The bytes are the book's buffer, and
 * the book is the first `length` of them, which the state has, or all where there are fewer. No other byte of the book plays a part, and nothing is
 * stored.
 *
 * boe_last_refusal is 0 where there is one. Otherwise the two others answer 0, and it is, in this order: 5 for a unit outside 1 to 32; 13 for a state
 * under 272 bytes; 26 where the unit's number is 0, whatever its place; 18 where state and bytes do not belong together, which is unless at the
 * unit's place, within the book, a whole message of type 0x25 or 0x2C begins that reading takes, of this unit and with its number. A state that
 * these calls have left is never 18 of its own book. */
uint32_t boe_last_refusal(uint8_t unit, const uint8_t *bytes, size_t len, const struct boe_state *state, size_t state_len);
size_t boe_last_at(uint8_t unit, const uint8_t *bytes, size_t len, const struct boe_state *state, size_t state_len);
size_t boe_last_length(uint8_t unit, const uint8_t *bytes, size_t len, const struct boe_state *state, size_t state_len);

/* What becomes of a message from the venue that a session takes. */
enum boe_fate {
    BOE_NOTHING = 0, /* there is nothing in it for the desk: session messages */
    BOE_BOOKED = 1,  /* it is booked, and its number counts in its unit: 0x25 and 0x2C */
    BOE_HANDED = 2   /* it is handed to the desk, and neither booked nor counted: the rejections, 0x26, 0x29 and 0x2B */
};

/* The fate of a message, by its type: 1, 2, or 0 for every other type. A rejection is unsequenced: it carries unit 0 and number 0. It comes at any
 * time while a session runs, between replayed messages too; one that is lost by a break is never sent again, and no table tells that it is
 * missing. boe_book_append refuses it with 4: hand it to the desk when it is read. */
uint32_t boe_told(uint8_t type);

/* The bytes of the longest record, a session message's: a buffer of as many has room for the record of any type here. */
#define BOE_RECORD_LEN 439

struct boe_record {
    uint8_t bytes[BOE_RECORD_LEN];
};

/* Every record starts alike; its type says which of the two forms it has. Numbers have the lowest byte first. */
#define BOE_RECORD_TYPE_AT 0
#define BOE_RECORD_UNIT_AT 1
#define BOE_RECORD_NUMBER_AT 2

/* A record of an order message, the first BOE_ORDER_RECORD_LEN bytes of its buffer. Order messages are those with bitfields: New Order of either
 * market, Cancel Order, Modify Order, Purge Orders, Order Acknowledgment, Order Execution, and the three rejections, Order Rejected, Cancel Rejected
 * and User Modify Rejected. Prices are signed and in ten-thousandths.
 *
 *   place  bytes
 *       0      1   type: the message's, but 0xB8 for an options New Order
 *       1      1   unit: 0 from a member and in a rejection, else 1 to 32
 *       2      4   number: 0 in a rejection
 *       6     90   the fixed part as on the wire, from byte 10 of the message up to its count byte; of Purge Orders also what stands between
 *                  the bitfields and the optional fields, RiskGroupIDCnt and the RiskGroupIDs; zero after it
 *      96      1   how many bitfields
 *      97     19   the bitfields; zero after the last
 *     116    175   the optional fields in the full layout: every listed bit has a place of its field's width, whether it is selected
 *                  or not; zero where it is not selected, and zero after the last
 *
 * A field is selected if its bit is set in its bitfield byte and that byte is one of the first `how many` bitfields. */
#define BOE_ORDER_RECORD_LEN 291
#define BOE_RECORD_FIXED_AT 6
#define BOE_RECORD_FIXED_LEN 90
#define BOE_RECORD_COUNT_AT 96
#define BOE_RECORD_BITFIELDS_AT 97
#define BOE_RECORD_BITFIELDS_LEN 19
#define BOE_RECORD_FIELDS_AT 116
#define BOE_RECORD_FIELDS_LEN 175

/* A record of a session message (Login Request, Client Heartbeat, Login Response, Logout, Server Heartbeat, Replay Complete), all
 * BOE_RECORD_LEN bytes of its buffer.
 *
 *   place  bytes
 *       0      1   type
 *       1      1   unit: 0
 *       2      4   number: 0
 *       6    433   the body as on the wire, from byte 10 of the message to its end; zero after it
 *
 * A pair is a unit, 1 to 32, and its number (4); no unit stands twice in one list of pairs. A group starts with its length, which counts the
 * whole group; a login has at most one group of units and at most one group of bitfields for each of the two message types. */
#define BOE_SESSION_BODY_AT 6
#define BOE_SESSION_BODY_LEN 433
#define BOE_PAIR_LEN 5

/* A group of units: place and width in the group. As many pairs as it has units stand from BOE_UNITS_GROUP_PAIRS_AT on. */
#define BOE_UNITS_GROUP 0x80
#define BOE_UNITS_GROUP_LENGTH_AT 0
#define BOE_UNITS_GROUP_LENGTH_LEN 2
#define BOE_UNITS_GROUP_TYPE_AT 2
#define BOE_UNITS_GROUP_TYPE_LEN 1
#define BOE_UNITS_GROUP_FLAG_AT 3
#define BOE_UNITS_GROUP_FLAG_LEN 1
#define BOE_UNITS_GROUP_NUMBER_OF_UNITS_AT 4
#define BOE_UNITS_GROUP_NUMBER_OF_UNITS_LEN 1
#define BOE_UNITS_GROUP_PAIRS_AT 5

/* A group of bitfields for one message type, 0x25 or 0x2C: place and width in the group. At most 15 bitfields, of any values. */
#define BOE_BITFIELDS_GROUP 0x81
#define BOE_BITFIELDS_GROUP_LENGTH_AT 0
#define BOE_BITFIELDS_GROUP_LENGTH_LEN 2
#define BOE_BITFIELDS_GROUP_TYPE_AT 2
#define BOE_BITFIELDS_GROUP_TYPE_LEN 1
#define BOE_BITFIELDS_GROUP_MESSAGE_TYPE_AT 3
#define BOE_BITFIELDS_GROUP_MESSAGE_TYPE_LEN 1
#define BOE_BITFIELDS_GROUP_COUNT_AT 4
#define BOE_BITFIELDS_GROUP_COUNT_LEN 1
#define BOE_BITFIELDS_GROUP_BITFIELDS_AT 5

/* The directions: from a member of an equities market, from the venue, and from a member of an options market. A member's messages are read and
 * written alike in both markets, but for New Order: the type 0x38 is the equities New Order in direction 0 and the options New Order in
 * direction 2, and each has its own bits and fields. The venue's messages are the same in both markets.
 *
 * The record of an options New Order has the type 0xB8, though its message has 0x38 on the wire. So a record tells its own dictionary: the same
 * bits and places mean other fields in the other market, and no record is taken for one of it. A record of type 0xB8 is 4 in every direction but 2,
 * one of type 0x38 is 4 in every direction but 0, and a message of type 0xB8 is 4 in every direction. */
#define BOE_FROM_MEMBER 0
#define BOE_FROM_VENUE 1
#define BOE_FROM_OPTIONS_MEMBER 2

/* Reads the first whole message of the bytes into a record: 0, and the record stands in its buffer, in the first 291 bytes for an order
 * message, in the first 439 for a session message; the bytes after these stay. Otherwise the buffer is as it was: 1 to 11 and 23 by the message
 * (4 also for a direction other than these three), and after all of these 13 for a buffer under the 291 or 439 bytes of this message's record.
 * Bytes after the message play no part. */
uint32_t boe_read(uint8_t direction, const uint8_t *bytes, size_t len, struct boe_record *record, size_t record_len);

/* Writes the message of a record: 0, and the message stands in the front of the buffer; its length less 2 is in its bytes 2 and 3.
 * Otherwise the buffer is as it was: 13 for an empty record, which has no type; 4 (also for a direction other than these three, and for a New
 * Order of the other market), however short the record is; 13 for a record under the bytes of its own type, 291 for an order message and 439 for a
 * session message; 5; and then in this order
 *   for an order message 7, 8, 9, 10, the late 9, 23 (these two by selected fields alone), 12;
 *   for Login Request, Login Response and Logout 10, 11 (also for a byte that is not zero after the last group or pair);
 *   for a heartbeat and Replay Complete 12 (a byte of the body that is not zero);
 * and last 13 for a buffer under the message's length. Bytes past 291 in the record of an order message, and past 439 in that of a session
 * message, play no part. */
uint32_t boe_write(uint8_t direction, const struct boe_record *record, size_t record_len, uint8_t *out, size_t out_len);

/* ---- the member's session
 *
 * A session's state is 278 bytes of the caller's: the state of its book in the front, as above, so that boe_last_refusal, boe_last_at and boe_last_length
 * take it too (boe_session_book), and after it
 *
 *   place  bytes
 *     272      4   the number of the last order that went out
 *     276      1   the phase: 1, 2 or 3 of the names below; any other byte is 0, closed
 *     277      1   the market: 0 equities, any other byte options
 *
 * Any 278 bytes are a state. A state's buffer may be longer; its bytes past 278 are not touched. It is kept in no file: restart makes it from the book.
 * Each call is 13 for a state under 278 bytes, before all its other refusals, since there is no session to judge by. */
#define BOE_SESSION_BYTES 278
#define BOE_SESSION_OUTGOING_AT 272
#define BOE_SESSION_PHASE_AT 276
#define BOE_SESSION_MARKET_AT 277

struct boe_session {
    uint8_t bytes[BOE_SESSION_BYTES];
};

/* The book's state in the front of a session's; its length is BOE_STATE_BYTES. */
static inline const struct boe_state *boe_session_book(const struct boe_session *state) { return (const struct boe_state *)state; }

enum boe_phase {
    BOE_CLOSED = 0,    /* no session */
    BOE_ASKED = 1,     /* a login is written, and not yet answered */
    BOE_REPLAYING = 2, /* the venue has answered with status A, and replays */
    BOE_LIVE = 3       /* Replay Complete has come: orders go out */
};

enum boe_market { BOE_EQUITIES = 0, BOE_OPTIONS = 1 };

/* The phase of a state; of one under 278 bytes 0. */
uint32_t boe_session_phase(const struct boe_session *state, size_t state_len);

/* Opens a book for a date, and a closed session for a market (0 equities, any other options) in which no order has gone out. 0: as boe_book_open. Otherwise
 * buffer and state are as they were: 13 for the state, 19, 13 for a buffer under 16 bytes. */
uint32_t boe_session_open(uint32_t date, uint8_t market, uint8_t *buffer, size_t buffer_len, struct boe_session *state, size_t state_len);

/* Restarts from the book in the bytes, all of them, for a date, with a closed session for a market, which the book does not have: it is told again. 0: as
 * boe_restart. Otherwise the state is as it was: 13 for the state, 19, 22, 18 for a bad first mark, 17, 18. */
uint32_t boe_session_restart(uint32_t date, uint8_t market, const uint8_t *bytes, size_t len, struct boe_session *state, size_t state_len);

/* What a login is given beside the table: 87 bytes. Zeros after the names ask for no bitfields and give no choice of units: the login then lists, with flag 0,
 * the units whose number in the table is above 0. The full list of 32 units with flag 1 is asked for by boe_login_all_units. Of a unit that is not listed the
 * venue replays everything with flag 0, and nothing with flag 1. */
#define BOE_LOGIN_BYTES 87
#define BOE_LOGIN_SESSION_SUB_ID_AT 0
#define BOE_LOGIN_SESSION_SUB_ID_LEN 4
#define BOE_LOGIN_USERNAME_AT 4
#define BOE_LOGIN_USERNAME_LEN 4
#define BOE_LOGIN_PASSWORD_AT 8
#define BOE_LOGIN_PASSWORD_LEN 10
/* the bitfields that acknowledgments, and executions, shall have: 0 for none asked for, how many, and 15 of them */
#define BOE_LOGIN_ACKNOWLEDGMENTS_AT 18
#define BOE_LOGIN_ACKNOWLEDGMENTS_COUNT_AT 19
#define BOE_LOGIN_ACKNOWLEDGMENTS_BITFIELDS_AT 20
#define BOE_LOGIN_EXECUTIONS_AT 35
#define BOE_LOGIN_EXECUTIONS_COUNT_AT 36
#define BOE_LOGIN_EXECUTIONS_BITFIELDS_AT 37
#define BOE_LOGIN_BITFIELDS_LEN 15
/* the choice of units: 0 none given, 1 the first `count` of those listed, with the flag, any other no group of units */
#define BOE_LOGIN_CHOICE_AT 52
#define BOE_LOGIN_FLAG_AT 53
#define BOE_LOGIN_COUNT_AT 54
#define BOE_LOGIN_UNITS_AT 55

struct boe_login {
    uint8_t bytes[BOE_LOGIN_BYTES];
};

/* The full list by name: all 32 units, with flag 1. */
static inline void boe_login_all_units(struct boe_login *login) {
    login->bytes[BOE_LOGIN_CHOICE_AT] = 1;
    login->bytes[BOE_LOGIN_FLAG_AT] = 1;
    login->bytes[BOE_LOGIN_COUNT_AT] = BOE_UNITS;
    for (unsigned i = 0; i < BOE_UNITS; i++) login->bytes[BOE_LOGIN_UNITS_AT + i] = (uint8_t)(i + 1);
}

/* A login with the table's numbers, which the caller cannot give. 0: it stands in the front of `out`, boe_frame_length of it is its length, and the session is
 * asked. Otherwise buffer and state are as they were: 13 for the state, 13 for a login under 87 bytes, 16 unless closed, 10, 11, 13 for `out`. */
uint32_t boe_session_login(const struct boe_login *login, size_t login_len, uint8_t *out, size_t out_len, struct boe_session *state, size_t state_len);

/* Any bytes from the venue, of which the first whole message counts, with the book's buffer. 0: the state is that after the message, `told` is what became
 * of it, a number of enum boe_fate, and the book's buffer has it if it is booked, or a mark where it has ended the session. Otherwise buffer, told and
 * state are as they were: 13 for the state, 16 if closed, 1 to 11 by the message, 16 for a type that the phase does not take, and of an acknowledgment or
 * execution 14, 15 and 13.
 *
 * A Login Response of status A leads from asked to replaying, any other status to closed; Replay Complete from replaying to live; a Logout to closed.
 * A booked message stands in the book before it is handed on: write the book's file from the length before the call on. */
uint32_t boe_session_receive(const uint8_t *bytes, size_t len, uint32_t *told, uint8_t *buffer, size_t buffer_len, struct boe_session *state,
                             size_t state_len);

/* An order: the record of a New Order of the session's market, a Cancel Order, a Modify Order or a Purge Orders. Its number plays no part: it goes out
 * under the next outgoing number. 0: its message stands in the front of `out`, and the state has its number. Otherwise buffer and state are as they
 * were, and no number is used up: 13 for the state, 16 unless live, 20, 13 for a record under 291 bytes, 4 for what is not an order of the market, and the
 * writer's: 5, 7 to 10, 23, 12, 13. */
uint32_t boe_session_order(const struct boe_record *record, size_t record_len, uint8_t *out, size_t out_len, struct boe_session *state, size_t state_len);

/* A heartbeat. 0: it stands in the front of `out`, 10 bytes. Otherwise the buffer is as it was: 13 for the state, 16 unless replaying or live, 13. */
uint32_t boe_session_heartbeat(const struct boe_session *state, size_t state_len, uint8_t *out, size_t out_len);

/* The line is broken. 0: the session is closed, and where one ran the book has a mark, if it finds room. 13 for the state, and both are as they were. After
 * it no byte of the broken line is given to boe_session_receive. */
uint32_t boe_session_break(uint8_t *buffer, size_t buffer_len, struct boe_session *state, size_t state_len);

/* The pulse, on a millisecond clock of 32 bits that wraps: 1 where a heartbeat is due, a second after the last message went out, and where the peer is silent,
 * five seconds after it was last heard; else 0. */
uint32_t boe_heartbeat_due(uint32_t now, uint32_t sent);
uint32_t boe_peer_silent(uint32_t now, uint32_t heard);

/* ---- the bench venue
 *
 * A venue that keeps its log in a buffer of the caller's and replays it as document 01 says. Its state is 402 bytes of the caller's:
 *
 *   place  bytes
 *       0    128   the last number of each unit in the log, as in a sequence table
 *     128      4   the place in the log up to which the session has come
 *     132      4   the log's length
 *     136      4   the log's length when the session's login was taken
 *     140      4   the last number that a member's order had
 *     144    128   where the last message of each unit starts in the log
 *     272    128   of each unit the number above which the login wants its messages, as in a sequence table
 *     400      1   not 0: a session runs
 *     401      1   not 0: Replay Complete was sent in it
 *
 * Any 402 bytes are a state; bytes past them are not touched. Each call is 13 for a state under 402 bytes, before all its other refusals. */
#define BOE_VENUE_BYTES 402
#define BOE_VENUE_TABLE_AT 0
#define BOE_VENUE_PLACE_AT 128
#define BOE_VENUE_LENGTH_AT 132
#define BOE_VENUE_LOGIN_LENGTH_AT 136
#define BOE_VENUE_RECEIVED_AT 140
#define BOE_VENUE_PLACES_AT 144
#define BOE_VENUE_THRESHOLDS_AT 272
#define BOE_VENUE_RUNNING_AT 400
#define BOE_VENUE_TOLD_AT 401

struct boe_venue {
    uint8_t bytes[BOE_VENUE_BYTES];
};

/* A venue with a new log and no session. */
uint32_t boe_venue_new(struct boe_venue *state, size_t state_len);

/* Appends the first whole message of the bytes to the log, which takes what a day book would take. 0: its bytes stand at the log's end. Otherwise buffer and
 * state are as they were: 13 for the state, 1 to 10, 14, 15, 13. */
uint32_t boe_venue_log(const uint8_t *bytes, size_t len, uint8_t *buffer, size_t buffer_len, struct boe_venue *state, size_t state_len);

/* Takes a login while no session runs. 0: the Login Response stands in the front of `out`, `sent` is its length, and the session has begun. Otherwise all
 * is as it was: 13 for the state, 16 during a session, 1 to 11, 4 for any other type among them, 13 for `out`. */
uint32_t boe_venue_login(const uint8_t *bytes, size_t len, uint32_t *sent, uint8_t *out, size_t out_len, struct boe_venue *state, size_t state_len);

/* A step of a session over the log's buffer. 0: the next message that the login wants, or Replay Complete, stands in the front of `out`, and `sent` is its
 * length; or nothing comes next, `sent` is 0 and `out` is as it was. Otherwise all is as it was: 13 for the state, 16 outside a session, 13 for `out`. */
uint32_t boe_venue_step(const uint8_t *log, size_t log_len, uint32_t *sent, uint8_t *out, size_t out_len, struct boe_venue *state, size_t state_len);

/* Takes what a member of a market (0 equities, any other options) sends in a session, an order or a heartbeat. 0: its number is kept, where it has one.
 * Otherwise the state is as it was: 13 for the state, 16 outside a session, 1 to 10, 23, and 21 for a number at or below the last one. */
uint32_t boe_venue_order(uint8_t market, const uint8_t *bytes, size_t len, struct boe_venue *state, size_t state_len);

/* The line of the session is broken: nothing is left of it but the last number that an order had. */
uint32_t boe_venue_break(struct boe_venue *state, size_t state_len);

/* New Order (0x38), from a member of an equities market: place and width in a record; for an optional field also its bitfield byte, counted from
 * 1, and its bit */
#define BOE_NEW_ORDER 0x38
#define BOE_NEW_ORDER_CL_ORD_ID_AT 6
#define BOE_NEW_ORDER_CL_ORD_ID_LEN 20
#define BOE_NEW_ORDER_SIDE_AT 26
#define BOE_NEW_ORDER_SIDE_LEN 1
#define BOE_NEW_ORDER_ORDER_QTY_AT 27
#define BOE_NEW_ORDER_ORDER_QTY_LEN 4
#define BOE_NEW_ORDER_CLEARING_FIRM_AT (BOE_RECORD_FIELDS_AT + 0)
#define BOE_NEW_ORDER_CLEARING_FIRM_LEN 4
#define BOE_NEW_ORDER_CLEARING_FIRM_BYTE 1
#define BOE_NEW_ORDER_CLEARING_FIRM_BIT 0x01
#define BOE_NEW_ORDER_CLEARING_ACCOUNT_AT (BOE_RECORD_FIELDS_AT + 4)
#define BOE_NEW_ORDER_CLEARING_ACCOUNT_LEN 4
#define BOE_NEW_ORDER_CLEARING_ACCOUNT_BYTE 1
#define BOE_NEW_ORDER_CLEARING_ACCOUNT_BIT 0x02
#define BOE_NEW_ORDER_PRICE_AT (BOE_RECORD_FIELDS_AT + 8)
#define BOE_NEW_ORDER_PRICE_LEN 8
#define BOE_NEW_ORDER_PRICE_BYTE 1
#define BOE_NEW_ORDER_PRICE_BIT 0x04
#define BOE_NEW_ORDER_EXEC_INST_AT (BOE_RECORD_FIELDS_AT + 16)
#define BOE_NEW_ORDER_EXEC_INST_LEN 1
#define BOE_NEW_ORDER_EXEC_INST_BYTE 1
#define BOE_NEW_ORDER_EXEC_INST_BIT 0x08
#define BOE_NEW_ORDER_ORD_TYPE_AT (BOE_RECORD_FIELDS_AT + 17)
#define BOE_NEW_ORDER_ORD_TYPE_LEN 1
#define BOE_NEW_ORDER_ORD_TYPE_BYTE 1
#define BOE_NEW_ORDER_ORD_TYPE_BIT 0x10
#define BOE_NEW_ORDER_TIME_IN_FORCE_AT (BOE_RECORD_FIELDS_AT + 18)
#define BOE_NEW_ORDER_TIME_IN_FORCE_LEN 1
#define BOE_NEW_ORDER_TIME_IN_FORCE_BYTE 1
#define BOE_NEW_ORDER_TIME_IN_FORCE_BIT 0x20
#define BOE_NEW_ORDER_MIN_QTY_AT (BOE_RECORD_FIELDS_AT + 19)
#define BOE_NEW_ORDER_MIN_QTY_LEN 4
#define BOE_NEW_ORDER_MIN_QTY_BYTE 1
#define BOE_NEW_ORDER_MIN_QTY_BIT 0x40
#define BOE_NEW_ORDER_MAX_FLOOR_AT (BOE_RECORD_FIELDS_AT + 23)
#define BOE_NEW_ORDER_MAX_FLOOR_LEN 4
#define BOE_NEW_ORDER_MAX_FLOOR_BYTE 1
#define BOE_NEW_ORDER_MAX_FLOOR_BIT 0x80
#define BOE_NEW_ORDER_SYMBOL_AT (BOE_RECORD_FIELDS_AT + 27)
#define BOE_NEW_ORDER_SYMBOL_LEN 8
#define BOE_NEW_ORDER_SYMBOL_BYTE 2
#define BOE_NEW_ORDER_SYMBOL_BIT 0x01
#define BOE_NEW_ORDER_SYMBOL_SFX_AT (BOE_RECORD_FIELDS_AT + 35)
#define BOE_NEW_ORDER_SYMBOL_SFX_LEN 8
#define BOE_NEW_ORDER_SYMBOL_SFX_BYTE 2
#define BOE_NEW_ORDER_SYMBOL_SFX_BIT 0x02
#define BOE_NEW_ORDER_CAPACITY_AT (BOE_RECORD_FIELDS_AT + 43)
#define BOE_NEW_ORDER_CAPACITY_LEN 1
#define BOE_NEW_ORDER_CAPACITY_BYTE 2
#define BOE_NEW_ORDER_CAPACITY_BIT 0x40
#define BOE_NEW_ORDER_ROUTING_INST_AT (BOE_RECORD_FIELDS_AT + 44)
#define BOE_NEW_ORDER_ROUTING_INST_LEN 4
#define BOE_NEW_ORDER_ROUTING_INST_BYTE 2
#define BOE_NEW_ORDER_ROUTING_INST_BIT 0x80
#define BOE_NEW_ORDER_ACCOUNT_AT (BOE_RECORD_FIELDS_AT + 48)
#define BOE_NEW_ORDER_ACCOUNT_LEN 16
#define BOE_NEW_ORDER_ACCOUNT_BYTE 3
#define BOE_NEW_ORDER_ACCOUNT_BIT 0x01
#define BOE_NEW_ORDER_LOCATE_REQD_AT (BOE_RECORD_FIELDS_AT + 64)
#define BOE_NEW_ORDER_LOCATE_REQD_LEN 1
#define BOE_NEW_ORDER_LOCATE_REQD_BYTE 3
#define BOE_NEW_ORDER_LOCATE_REQD_BIT 0x40
#define BOE_NEW_ORDER_EXPIRE_TIME_AT (BOE_RECORD_FIELDS_AT + 65)
#define BOE_NEW_ORDER_EXPIRE_TIME_LEN 8
#define BOE_NEW_ORDER_EXPIRE_TIME_BYTE 3
#define BOE_NEW_ORDER_EXPIRE_TIME_BIT 0x80
#define BOE_NEW_ORDER_DISPLAY_RANGE_AT (BOE_RECORD_FIELDS_AT + 73)
#define BOE_NEW_ORDER_DISPLAY_RANGE_LEN 4
#define BOE_NEW_ORDER_DISPLAY_RANGE_BYTE 6
#define BOE_NEW_ORDER_DISPLAY_RANGE_BIT 0x01
#define BOE_NEW_ORDER_STOP_PX_AT (BOE_RECORD_FIELDS_AT + 77)
#define BOE_NEW_ORDER_STOP_PX_LEN 8
#define BOE_NEW_ORDER_STOP_PX_BYTE 6
#define BOE_NEW_ORDER_STOP_PX_BIT 0x02
#define BOE_NEW_ORDER_EX_DESTINATION_AT (BOE_RECORD_FIELDS_AT + 85)
#define BOE_NEW_ORDER_EX_DESTINATION_LEN 1
#define BOE_NEW_ORDER_EX_DESTINATION_BYTE 6
#define BOE_NEW_ORDER_EX_DESTINATION_BIT 0x10
#define BOE_NEW_ORDER_ECHO_TEXT_AT (BOE_RECORD_FIELDS_AT + 86)
#define BOE_NEW_ORDER_ECHO_TEXT_LEN 64
#define BOE_NEW_ORDER_ECHO_TEXT_BYTE 6
#define BOE_NEW_ORDER_ECHO_TEXT_BIT 0x20
#define BOE_NEW_ORDER_LOCATE_BROKER_AT (BOE_RECORD_FIELDS_AT + 150)
#define BOE_NEW_ORDER_LOCATE_BROKER_LEN 4
#define BOE_NEW_ORDER_LOCATE_BROKER_BYTE 10
#define BOE_NEW_ORDER_LOCATE_BROKER_BIT 0x02

/* Options New Order (0xB8 in a record, 0x38 on the wire), from a member of an options market: place and width in a record; for an optional field
 * also its bitfield byte, counted from 1, and its bit. A MaturityDate that is selected is a calendar day of 1970 to 2099 as YYYYMMDD, else 10; 0 is
 * no day. StrikePrice is a price. */
#define BOE_OPTIONS_NEW_ORDER 0xB8
#define BOE_OPTIONS_NEW_ORDER_CL_ORD_ID_AT 6
#define BOE_OPTIONS_NEW_ORDER_CL_ORD_ID_LEN 20
#define BOE_OPTIONS_NEW_ORDER_SIDE_AT 26
#define BOE_OPTIONS_NEW_ORDER_SIDE_LEN 1
#define BOE_OPTIONS_NEW_ORDER_ORDER_QTY_AT 27
#define BOE_OPTIONS_NEW_ORDER_ORDER_QTY_LEN 4
#define BOE_OPTIONS_NEW_ORDER_CLEARING_FIRM_AT (BOE_RECORD_FIELDS_AT + 0)
#define BOE_OPTIONS_NEW_ORDER_CLEARING_FIRM_LEN 4
#define BOE_OPTIONS_NEW_ORDER_CLEARING_FIRM_BYTE 1
#define BOE_OPTIONS_NEW_ORDER_CLEARING_FIRM_BIT 0x01
#define BOE_OPTIONS_NEW_ORDER_CLEARING_ACCOUNT_AT (BOE_RECORD_FIELDS_AT + 4)
#define BOE_OPTIONS_NEW_ORDER_CLEARING_ACCOUNT_LEN 4
#define BOE_OPTIONS_NEW_ORDER_CLEARING_ACCOUNT_BYTE 1
#define BOE_OPTIONS_NEW_ORDER_CLEARING_ACCOUNT_BIT 0x02
#define BOE_OPTIONS_NEW_ORDER_PRICE_AT (BOE_RECORD_FIELDS_AT + 8)
#define BOE_OPTIONS_NEW_ORDER_PRICE_LEN 8
#define BOE_OPTIONS_NEW_ORDER_PRICE_BYTE 1
#define BOE_OPTIONS_NEW_ORDER_PRICE_BIT 0x04
#define BOE_OPTIONS_NEW_ORDER_EXEC_INST_AT (BOE_RECORD_FIELDS_AT + 16)
#define BOE_OPTIONS_NEW_ORDER_EXEC_INST_LEN 1
#define BOE_OPTIONS_NEW_ORDER_EXEC_INST_BYTE 1
#define BOE_OPTIONS_NEW_ORDER_EXEC_INST_BIT 0x08
#define BOE_OPTIONS_NEW_ORDER_ORD_TYPE_AT (BOE_RECORD_FIELDS_AT + 17)
#define BOE_OPTIONS_NEW_ORDER_ORD_TYPE_LEN 1
#define BOE_OPTIONS_NEW_ORDER_ORD_TYPE_BYTE 1
#define BOE_OPTIONS_NEW_ORDER_ORD_TYPE_BIT 0x10
#define BOE_OPTIONS_NEW_ORDER_TIME_IN_FORCE_AT (BOE_RECORD_FIELDS_AT + 18)
#define BOE_OPTIONS_NEW_ORDER_TIME_IN_FORCE_LEN 1
#define BOE_OPTIONS_NEW_ORDER_TIME_IN_FORCE_BYTE 1
#define BOE_OPTIONS_NEW_ORDER_TIME_IN_FORCE_BIT 0x20
#define BOE_OPTIONS_NEW_ORDER_MIN_QTY_AT (BOE_RECORD_FIELDS_AT + 19)
#define BOE_OPTIONS_NEW_ORDER_MIN_QTY_LEN 4
#define BOE_OPTIONS_NEW_ORDER_MIN_QTY_BYTE 1
#define BOE_OPTIONS_NEW_ORDER_MIN_QTY_BIT 0x40
#define BOE_OPTIONS_NEW_ORDER_MAX_FLOOR_AT (BOE_RECORD_FIELDS_AT + 23)
#define BOE_OPTIONS_NEW_ORDER_MAX_FLOOR_LEN 4
#define BOE_OPTIONS_NEW_ORDER_MAX_FLOOR_BYTE 1
#define BOE_OPTIONS_NEW_ORDER_MAX_FLOOR_BIT 0x80
#define BOE_OPTIONS_NEW_ORDER_SYMBOL_AT (BOE_RECORD_FIELDS_AT + 27)
#define BOE_OPTIONS_NEW_ORDER_SYMBOL_LEN 8
#define BOE_OPTIONS_NEW_ORDER_SYMBOL_BYTE 2
#define BOE_OPTIONS_NEW_ORDER_SYMBOL_BIT 0x01
#define BOE_OPTIONS_NEW_ORDER_CAPACITY_AT (BOE_RECORD_FIELDS_AT + 35)
#define BOE_OPTIONS_NEW_ORDER_CAPACITY_LEN 1
#define BOE_OPTIONS_NEW_ORDER_CAPACITY_BYTE 2
#define BOE_OPTIONS_NEW_ORDER_CAPACITY_BIT 0x40
#define BOE_OPTIONS_NEW_ORDER_ROUTING_INST_AT (BOE_RECORD_FIELDS_AT + 36)
#define BOE_OPTIONS_NEW_ORDER_ROUTING_INST_LEN 4
#define BOE_OPTIONS_NEW_ORDER_ROUTING_INST_BYTE 2
#define BOE_OPTIONS_NEW_ORDER_ROUTING_INST_BIT 0x80
#define BOE_OPTIONS_NEW_ORDER_ACCOUNT_AT (BOE_RECORD_FIELDS_AT + 40)
#define BOE_OPTIONS_NEW_ORDER_ACCOUNT_LEN 16
#define BOE_OPTIONS_NEW_ORDER_ACCOUNT_BYTE 3
#define BOE_OPTIONS_NEW_ORDER_ACCOUNT_BIT 0x01
#define BOE_OPTIONS_NEW_ORDER_MATURITY_DATE_AT (BOE_RECORD_FIELDS_AT + 56)
#define BOE_OPTIONS_NEW_ORDER_MATURITY_DATE_LEN 4
#define BOE_OPTIONS_NEW_ORDER_MATURITY_DATE_BYTE 4
#define BOE_OPTIONS_NEW_ORDER_MATURITY_DATE_BIT 0x01
#define BOE_OPTIONS_NEW_ORDER_STRIKE_PRICE_AT (BOE_RECORD_FIELDS_AT + 60)
#define BOE_OPTIONS_NEW_ORDER_STRIKE_PRICE_LEN 8
#define BOE_OPTIONS_NEW_ORDER_STRIKE_PRICE_BYTE 4
#define BOE_OPTIONS_NEW_ORDER_STRIKE_PRICE_BIT 0x02
#define BOE_OPTIONS_NEW_ORDER_PUT_OR_CALL_AT (BOE_RECORD_FIELDS_AT + 68)
#define BOE_OPTIONS_NEW_ORDER_PUT_OR_CALL_LEN 1
#define BOE_OPTIONS_NEW_ORDER_PUT_OR_CALL_BYTE 4
#define BOE_OPTIONS_NEW_ORDER_PUT_OR_CALL_BIT 0x04
#define BOE_OPTIONS_NEW_ORDER_OPEN_CLOSE_AT (BOE_RECORD_FIELDS_AT + 69)
#define BOE_OPTIONS_NEW_ORDER_OPEN_CLOSE_LEN 1
#define BOE_OPTIONS_NEW_ORDER_OPEN_CLOSE_BYTE 4
#define BOE_OPTIONS_NEW_ORDER_OPEN_CLOSE_BIT 0x10

/* Cancel Order (0x39), from a member: place and width in a record; for an optional field also its bitfield byte, counted from 1, and its bit */
#define BOE_CANCEL_ORDER 0x39
#define BOE_CANCEL_ORDER_ORIG_CL_ORD_ID_AT 6
#define BOE_CANCEL_ORDER_ORIG_CL_ORD_ID_LEN 20
#define BOE_CANCEL_ORDER_CLEARING_FIRM_AT (BOE_RECORD_FIELDS_AT + 0)
#define BOE_CANCEL_ORDER_CLEARING_FIRM_LEN 4
#define BOE_CANCEL_ORDER_CLEARING_FIRM_BYTE 1
#define BOE_CANCEL_ORDER_CLEARING_FIRM_BIT 0x01

/* Modify Order (0x3A), from a member: place and width in a record; for an optional field also its bitfield byte, counted from 1, and its bit */
#define BOE_MODIFY_ORDER 0x3A
#define BOE_MODIFY_ORDER_CL_ORD_ID_AT 6
#define BOE_MODIFY_ORDER_CL_ORD_ID_LEN 20
#define BOE_MODIFY_ORDER_ORIG_CL_ORD_ID_AT 26
#define BOE_MODIFY_ORDER_ORIG_CL_ORD_ID_LEN 20
#define BOE_MODIFY_ORDER_CLEARING_FIRM_AT (BOE_RECORD_FIELDS_AT + 0)
#define BOE_MODIFY_ORDER_CLEARING_FIRM_LEN 4
#define BOE_MODIFY_ORDER_CLEARING_FIRM_BYTE 1
#define BOE_MODIFY_ORDER_CLEARING_FIRM_BIT 0x01
#define BOE_MODIFY_ORDER_ORDER_QTY_AT (BOE_RECORD_FIELDS_AT + 4)
#define BOE_MODIFY_ORDER_ORDER_QTY_LEN 4
#define BOE_MODIFY_ORDER_ORDER_QTY_BYTE 1
#define BOE_MODIFY_ORDER_ORDER_QTY_BIT 0x04
#define BOE_MODIFY_ORDER_PRICE_AT (BOE_RECORD_FIELDS_AT + 8)
#define BOE_MODIFY_ORDER_PRICE_LEN 8
#define BOE_MODIFY_ORDER_PRICE_BYTE 1
#define BOE_MODIFY_ORDER_PRICE_BIT 0x08
#define BOE_MODIFY_ORDER_ORD_TYPE_AT (BOE_RECORD_FIELDS_AT + 16)
#define BOE_MODIFY_ORDER_ORD_TYPE_LEN 1
#define BOE_MODIFY_ORDER_ORD_TYPE_BYTE 1
#define BOE_MODIFY_ORDER_ORD_TYPE_BIT 0x10
#define BOE_MODIFY_ORDER_CANCEL_ORIG_ON_REJECT_AT (BOE_RECORD_FIELDS_AT + 17)
#define BOE_MODIFY_ORDER_CANCEL_ORIG_ON_REJECT_LEN 1
#define BOE_MODIFY_ORDER_CANCEL_ORIG_ON_REJECT_BYTE 1
#define BOE_MODIFY_ORDER_CANCEL_ORIG_ON_REJECT_BIT 0x20
#define BOE_MODIFY_ORDER_EXEC_INST_AT (BOE_RECORD_FIELDS_AT + 18)
#define BOE_MODIFY_ORDER_EXEC_INST_LEN 1
#define BOE_MODIFY_ORDER_EXEC_INST_BYTE 1
#define BOE_MODIFY_ORDER_EXEC_INST_BIT 0x40
#define BOE_MODIFY_ORDER_SIDE_AT (BOE_RECORD_FIELDS_AT + 19)
#define BOE_MODIFY_ORDER_SIDE_LEN 1
#define BOE_MODIFY_ORDER_SIDE_BYTE 1
#define BOE_MODIFY_ORDER_SIDE_BIT 0x80
#define BOE_MODIFY_ORDER_MAX_FLOOR_AT (BOE_RECORD_FIELDS_AT + 20)
#define BOE_MODIFY_ORDER_MAX_FLOOR_LEN 4
#define BOE_MODIFY_ORDER_MAX_FLOOR_BYTE 2
#define BOE_MODIFY_ORDER_MAX_FLOOR_BIT 0x01
#define BOE_MODIFY_ORDER_STOP_PX_AT (BOE_RECORD_FIELDS_AT + 24)
#define BOE_MODIFY_ORDER_STOP_PX_LEN 8
#define BOE_MODIFY_ORDER_STOP_PX_BYTE 2
#define BOE_MODIFY_ORDER_STOP_PX_BIT 0x02
#define BOE_MODIFY_ORDER_LOCATE_BROKER_AT (BOE_RECORD_FIELDS_AT + 32)
#define BOE_MODIFY_ORDER_LOCATE_BROKER_LEN 4
#define BOE_MODIFY_ORDER_LOCATE_BROKER_BYTE 2
#define BOE_MODIFY_ORDER_LOCATE_BROKER_BIT 0x80

/* Purge Orders (0x47), from a member: place and width in a record; for an optional field also its bitfield byte, counted from 1, and its bit. In
 * the message RiskGroupIDCnt, at most 10, and as many RiskGroupIDs of any value stand between the bitfields and the optional fields. The record has
 * them in its fixed part, behind the reserved byte that the message has before its count byte: ten places, zero after the last id. */
#define BOE_PURGE_ORDERS 0x47
#define BOE_PURGE_ORDERS_RISK_GROUP_ID_CNT_AT 7
#define BOE_PURGE_ORDERS_RISK_GROUP_ID_CNT_LEN 1
#define BOE_PURGE_ORDERS_RISK_GROUP_IDS_AT 8
#define BOE_RISK_GROUP_ID_LEN 2
#define BOE_RISK_GROUP_IDS_MOST 10
#define BOE_PURGE_ORDERS_CLEARING_FIRM_AT (BOE_RECORD_FIELDS_AT + 0)
#define BOE_PURGE_ORDERS_CLEARING_FIRM_LEN 4
#define BOE_PURGE_ORDERS_CLEARING_FIRM_BYTE 1
#define BOE_PURGE_ORDERS_CLEARING_FIRM_BIT 0x01
#define BOE_PURGE_ORDERS_MASS_CANCEL_INST_AT (BOE_RECORD_FIELDS_AT + 4)
#define BOE_PURGE_ORDERS_MASS_CANCEL_INST_LEN 16
#define BOE_PURGE_ORDERS_MASS_CANCEL_INST_BYTE 1
#define BOE_PURGE_ORDERS_MASS_CANCEL_INST_BIT 0x04
#define BOE_PURGE_ORDERS_MASS_CANCEL_ID_AT (BOE_RECORD_FIELDS_AT + 20)
#define BOE_PURGE_ORDERS_MASS_CANCEL_ID_LEN 20
#define BOE_PURGE_ORDERS_MASS_CANCEL_ID_BYTE 1
#define BOE_PURGE_ORDERS_MASS_CANCEL_ID_BIT 0x10
#define BOE_PURGE_ORDERS_SYMBOL_AT (BOE_RECORD_FIELDS_AT + 40)
#define BOE_PURGE_ORDERS_SYMBOL_LEN 8
#define BOE_PURGE_ORDERS_SYMBOL_BYTE 2
#define BOE_PURGE_ORDERS_SYMBOL_BIT 0x01
#define BOE_PURGE_ORDERS_SYMBOL_SFX_AT (BOE_RECORD_FIELDS_AT + 48)
#define BOE_PURGE_ORDERS_SYMBOL_SFX_LEN 8
#define BOE_PURGE_ORDERS_SYMBOL_SFX_BYTE 2
#define BOE_PURGE_ORDERS_SYMBOL_SFX_BIT 0x02
#define BOE_PURGE_ORDERS_MATCHING_UNIT_AT (BOE_RECORD_FIELDS_AT + 56)
#define BOE_PURGE_ORDERS_MATCHING_UNIT_LEN 1
#define BOE_PURGE_ORDERS_MATCHING_UNIT_BYTE 2
#define BOE_PURGE_ORDERS_MATCHING_UNIT_BIT 0x80

/* Order Acknowledgment (0x25), from the venue: place and width in a record; for an optional field also its bitfield byte, counted from 1, and its bit */
#define BOE_ACKNOWLEDGMENT 0x25
#define BOE_ACKNOWLEDGMENT_TRANSACTION_TIME_AT 6
#define BOE_ACKNOWLEDGMENT_TRANSACTION_TIME_LEN 8
#define BOE_ACKNOWLEDGMENT_CL_ORD_ID_AT 14
#define BOE_ACKNOWLEDGMENT_CL_ORD_ID_LEN 20
#define BOE_ACKNOWLEDGMENT_ORDER_ID_AT 34
#define BOE_ACKNOWLEDGMENT_ORDER_ID_LEN 8
#define BOE_ACKNOWLEDGMENT_SIDE_AT (BOE_RECORD_FIELDS_AT + 0)
#define BOE_ACKNOWLEDGMENT_SIDE_LEN 1
#define BOE_ACKNOWLEDGMENT_SIDE_BYTE 1
#define BOE_ACKNOWLEDGMENT_SIDE_BIT 0x01
#define BOE_ACKNOWLEDGMENT_PRICE_AT (BOE_RECORD_FIELDS_AT + 1)
#define BOE_ACKNOWLEDGMENT_PRICE_LEN 8
#define BOE_ACKNOWLEDGMENT_PRICE_BYTE 1
#define BOE_ACKNOWLEDGMENT_PRICE_BIT 0x04
#define BOE_ACKNOWLEDGMENT_EXEC_INST_AT (BOE_RECORD_FIELDS_AT + 9)
#define BOE_ACKNOWLEDGMENT_EXEC_INST_LEN 1
#define BOE_ACKNOWLEDGMENT_EXEC_INST_BYTE 1
#define BOE_ACKNOWLEDGMENT_EXEC_INST_BIT 0x08
#define BOE_ACKNOWLEDGMENT_ORD_TYPE_AT (BOE_RECORD_FIELDS_AT + 10)
#define BOE_ACKNOWLEDGMENT_ORD_TYPE_LEN 1
#define BOE_ACKNOWLEDGMENT_ORD_TYPE_BYTE 1
#define BOE_ACKNOWLEDGMENT_ORD_TYPE_BIT 0x10
#define BOE_ACKNOWLEDGMENT_TIME_IN_FORCE_AT (BOE_RECORD_FIELDS_AT + 11)
#define BOE_ACKNOWLEDGMENT_TIME_IN_FORCE_LEN 1
#define BOE_ACKNOWLEDGMENT_TIME_IN_FORCE_BYTE 1
#define BOE_ACKNOWLEDGMENT_TIME_IN_FORCE_BIT 0x20
#define BOE_ACKNOWLEDGMENT_MIN_QTY_AT (BOE_RECORD_FIELDS_AT + 12)
#define BOE_ACKNOWLEDGMENT_MIN_QTY_LEN 4
#define BOE_ACKNOWLEDGMENT_MIN_QTY_BYTE 1
#define BOE_ACKNOWLEDGMENT_MIN_QTY_BIT 0x40
#define BOE_ACKNOWLEDGMENT_SYMBOL_AT (BOE_RECORD_FIELDS_AT + 16)
#define BOE_ACKNOWLEDGMENT_SYMBOL_LEN 8
#define BOE_ACKNOWLEDGMENT_SYMBOL_BYTE 2
#define BOE_ACKNOWLEDGMENT_SYMBOL_BIT 0x01
#define BOE_ACKNOWLEDGMENT_SYMBOL_SFX_AT (BOE_RECORD_FIELDS_AT + 24)
#define BOE_ACKNOWLEDGMENT_SYMBOL_SFX_LEN 8
#define BOE_ACKNOWLEDGMENT_SYMBOL_SFX_BYTE 2
#define BOE_ACKNOWLEDGMENT_SYMBOL_SFX_BIT 0x02
#define BOE_ACKNOWLEDGMENT_CAPACITY_AT (BOE_RECORD_FIELDS_AT + 32)
#define BOE_ACKNOWLEDGMENT_CAPACITY_LEN 1
#define BOE_ACKNOWLEDGMENT_CAPACITY_BYTE 2
#define BOE_ACKNOWLEDGMENT_CAPACITY_BIT 0x40
#define BOE_ACKNOWLEDGMENT_ACCOUNT_AT (BOE_RECORD_FIELDS_AT + 33)
#define BOE_ACKNOWLEDGMENT_ACCOUNT_LEN 16
#define BOE_ACKNOWLEDGMENT_ACCOUNT_BYTE 3
#define BOE_ACKNOWLEDGMENT_ACCOUNT_BIT 0x01
#define BOE_ACKNOWLEDGMENT_CLEARING_FIRM_AT (BOE_RECORD_FIELDS_AT + 49)
#define BOE_ACKNOWLEDGMENT_CLEARING_FIRM_LEN 4
#define BOE_ACKNOWLEDGMENT_CLEARING_FIRM_BYTE 3
#define BOE_ACKNOWLEDGMENT_CLEARING_FIRM_BIT 0x02
#define BOE_ACKNOWLEDGMENT_CLEARING_ACCOUNT_AT (BOE_RECORD_FIELDS_AT + 53)
#define BOE_ACKNOWLEDGMENT_CLEARING_ACCOUNT_LEN 4
#define BOE_ACKNOWLEDGMENT_CLEARING_ACCOUNT_BYTE 3
#define BOE_ACKNOWLEDGMENT_CLEARING_ACCOUNT_BIT 0x04
#define BOE_ACKNOWLEDGMENT_MAX_FLOOR_AT (BOE_RECORD_FIELDS_AT + 57)
#define BOE_ACKNOWLEDGMENT_MAX_FLOOR_LEN 4
#define BOE_ACKNOWLEDGMENT_MAX_FLOOR_BYTE 3
#define BOE_ACKNOWLEDGMENT_MAX_FLOOR_BIT 0x10
#define BOE_ACKNOWLEDGMENT_ORDER_QTY_AT (BOE_RECORD_FIELDS_AT + 61)
#define BOE_ACKNOWLEDGMENT_ORDER_QTY_LEN 4
#define BOE_ACKNOWLEDGMENT_ORDER_QTY_BYTE 3
#define BOE_ACKNOWLEDGMENT_ORDER_QTY_BIT 0x40
#define BOE_ACKNOWLEDGMENT_LEAVES_QTY_AT (BOE_RECORD_FIELDS_AT + 65)
#define BOE_ACKNOWLEDGMENT_LEAVES_QTY_LEN 4
#define BOE_ACKNOWLEDGMENT_LEAVES_QTY_BYTE 5
#define BOE_ACKNOWLEDGMENT_LEAVES_QTY_BIT 0x02
#define BOE_ACKNOWLEDGMENT_LAST_SHARES_AT (BOE_RECORD_FIELDS_AT + 69)
#define BOE_ACKNOWLEDGMENT_LAST_SHARES_LEN 4
#define BOE_ACKNOWLEDGMENT_LAST_SHARES_BYTE 5
#define BOE_ACKNOWLEDGMENT_LAST_SHARES_BIT 0x04
#define BOE_ACKNOWLEDGMENT_LAST_PX_AT (BOE_RECORD_FIELDS_AT + 73)
#define BOE_ACKNOWLEDGMENT_LAST_PX_LEN 8
#define BOE_ACKNOWLEDGMENT_LAST_PX_BYTE 5
#define BOE_ACKNOWLEDGMENT_LAST_PX_BIT 0x08
#define BOE_ACKNOWLEDGMENT_EXPIRE_TIME_AT (BOE_RECORD_FIELDS_AT + 81)
#define BOE_ACKNOWLEDGMENT_EXPIRE_TIME_LEN 8
#define BOE_ACKNOWLEDGMENT_EXPIRE_TIME_BYTE 5
#define BOE_ACKNOWLEDGMENT_EXPIRE_TIME_BIT 0x80

/* Order Execution (0x2C), from the venue: place and width in a record; for an optional field also its bitfield byte, counted from 1, and its bit */
#define BOE_EXECUTION 0x2C
#define BOE_EXECUTION_TRANSACTION_TIME_AT 6
#define BOE_EXECUTION_TRANSACTION_TIME_LEN 8
#define BOE_EXECUTION_CL_ORD_ID_AT 14
#define BOE_EXECUTION_CL_ORD_ID_LEN 20
#define BOE_EXECUTION_EXEC_ID_AT 34
#define BOE_EXECUTION_EXEC_ID_LEN 8
#define BOE_EXECUTION_LAST_SHARES_AT 42
#define BOE_EXECUTION_LAST_SHARES_LEN 4
#define BOE_EXECUTION_LAST_PX_AT 46
#define BOE_EXECUTION_LAST_PX_LEN 8
#define BOE_EXECUTION_LEAVES_QTY_AT 54
#define BOE_EXECUTION_LEAVES_QTY_LEN 4
#define BOE_EXECUTION_BASE_LIQUIDITY_INDICATOR_AT 58
#define BOE_EXECUTION_BASE_LIQUIDITY_INDICATOR_LEN 1
#define BOE_EXECUTION_SUB_LIQUIDITY_INDICATOR_AT 59
#define BOE_EXECUTION_SUB_LIQUIDITY_INDICATOR_LEN 1
#define BOE_EXECUTION_CONTRA_BROKER_AT 60
#define BOE_EXECUTION_CONTRA_BROKER_LEN 4
#define BOE_EXECUTION_SIDE_AT (BOE_RECORD_FIELDS_AT + 0)
#define BOE_EXECUTION_SIDE_LEN 1
#define BOE_EXECUTION_SIDE_BYTE 1
#define BOE_EXECUTION_SIDE_BIT 0x01
#define BOE_EXECUTION_PRICE_AT (BOE_RECORD_FIELDS_AT + 1)
#define BOE_EXECUTION_PRICE_LEN 8
#define BOE_EXECUTION_PRICE_BYTE 1
#define BOE_EXECUTION_PRICE_BIT 0x04
#define BOE_EXECUTION_EXEC_INST_AT (BOE_RECORD_FIELDS_AT + 9)
#define BOE_EXECUTION_EXEC_INST_LEN 1
#define BOE_EXECUTION_EXEC_INST_BYTE 1
#define BOE_EXECUTION_EXEC_INST_BIT 0x08
#define BOE_EXECUTION_ORD_TYPE_AT (BOE_RECORD_FIELDS_AT + 10)
#define BOE_EXECUTION_ORD_TYPE_LEN 1
#define BOE_EXECUTION_ORD_TYPE_BYTE 1
#define BOE_EXECUTION_ORD_TYPE_BIT 0x10
#define BOE_EXECUTION_TIME_IN_FORCE_AT (BOE_RECORD_FIELDS_AT + 11)
#define BOE_EXECUTION_TIME_IN_FORCE_LEN 1
#define BOE_EXECUTION_TIME_IN_FORCE_BYTE 1
#define BOE_EXECUTION_TIME_IN_FORCE_BIT 0x20
#define BOE_EXECUTION_MIN_QTY_AT (BOE_RECORD_FIELDS_AT + 12)
#define BOE_EXECUTION_MIN_QTY_LEN 4
#define BOE_EXECUTION_MIN_QTY_BYTE 1
#define BOE_EXECUTION_MIN_QTY_BIT 0x40
#define BOE_EXECUTION_SYMBOL_AT (BOE_RECORD_FIELDS_AT + 16)
#define BOE_EXECUTION_SYMBOL_LEN 8
#define BOE_EXECUTION_SYMBOL_BYTE 2
#define BOE_EXECUTION_SYMBOL_BIT 0x01
#define BOE_EXECUTION_SYMBOL_SFX_AT (BOE_RECORD_FIELDS_AT + 24)
#define BOE_EXECUTION_SYMBOL_SFX_LEN 8
#define BOE_EXECUTION_SYMBOL_SFX_BYTE 2
#define BOE_EXECUTION_SYMBOL_SFX_BIT 0x02
#define BOE_EXECUTION_CAPACITY_AT (BOE_RECORD_FIELDS_AT + 32)
#define BOE_EXECUTION_CAPACITY_LEN 1
#define BOE_EXECUTION_CAPACITY_BYTE 2
#define BOE_EXECUTION_CAPACITY_BIT 0x40
#define BOE_EXECUTION_ACCOUNT_AT (BOE_RECORD_FIELDS_AT + 33)
#define BOE_EXECUTION_ACCOUNT_LEN 16
#define BOE_EXECUTION_ACCOUNT_BYTE 3
#define BOE_EXECUTION_ACCOUNT_BIT 0x01
#define BOE_EXECUTION_CLEARING_FIRM_AT (BOE_RECORD_FIELDS_AT + 49)
#define BOE_EXECUTION_CLEARING_FIRM_LEN 4
#define BOE_EXECUTION_CLEARING_FIRM_BYTE 3
#define BOE_EXECUTION_CLEARING_FIRM_BIT 0x02
#define BOE_EXECUTION_CLEARING_ACCOUNT_AT (BOE_RECORD_FIELDS_AT + 53)
#define BOE_EXECUTION_CLEARING_ACCOUNT_LEN 4
#define BOE_EXECUTION_CLEARING_ACCOUNT_BYTE 3
#define BOE_EXECUTION_CLEARING_ACCOUNT_BIT 0x04
#define BOE_EXECUTION_MAX_FLOOR_AT (BOE_RECORD_FIELDS_AT + 57)
#define BOE_EXECUTION_MAX_FLOOR_LEN 4
#define BOE_EXECUTION_MAX_FLOOR_BYTE 3
#define BOE_EXECUTION_MAX_FLOOR_BIT 0x10
#define BOE_EXECUTION_ORDER_QTY_AT (BOE_RECORD_FIELDS_AT + 61)
#define BOE_EXECUTION_ORDER_QTY_LEN 4
#define BOE_EXECUTION_ORDER_QTY_BYTE 3
#define BOE_EXECUTION_ORDER_QTY_BIT 0x40

/* Order Rejected (0x26), from the venue: place and width in a record; for an optional field also its bitfield byte, counted from 1, and its bit */
#define BOE_REJECTION 0x26
#define BOE_REJECTION_TRANSACTION_TIME_AT 6
#define BOE_REJECTION_TRANSACTION_TIME_LEN 8
#define BOE_REJECTION_CL_ORD_ID_AT 14
#define BOE_REJECTION_CL_ORD_ID_LEN 20
#define BOE_REJECTION_ORDER_REJECT_REASON_AT 34
#define BOE_REJECTION_ORDER_REJECT_REASON_LEN 1
#define BOE_REJECTION_TEXT_AT 35
#define BOE_REJECTION_TEXT_LEN 60
#define BOE_REJECTION_SIDE_AT (BOE_RECORD_FIELDS_AT + 0)
#define BOE_REJECTION_SIDE_LEN 1
#define BOE_REJECTION_SIDE_BYTE 1
#define BOE_REJECTION_SIDE_BIT 0x01
#define BOE_REJECTION_PEG_DIFFERENCE_AT (BOE_RECORD_FIELDS_AT + 1)
#define BOE_REJECTION_PEG_DIFFERENCE_LEN 8
#define BOE_REJECTION_PEG_DIFFERENCE_BYTE 1
#define BOE_REJECTION_PEG_DIFFERENCE_BIT 0x02
#define BOE_REJECTION_PRICE_AT (BOE_RECORD_FIELDS_AT + 9)
#define BOE_REJECTION_PRICE_LEN 8
#define BOE_REJECTION_PRICE_BYTE 1
#define BOE_REJECTION_PRICE_BIT 0x04
#define BOE_REJECTION_EXEC_INST_AT (BOE_RECORD_FIELDS_AT + 17)
#define BOE_REJECTION_EXEC_INST_LEN 1
#define BOE_REJECTION_EXEC_INST_BYTE 1
#define BOE_REJECTION_EXEC_INST_BIT 0x08
#define BOE_REJECTION_ORD_TYPE_AT (BOE_RECORD_FIELDS_AT + 18)
#define BOE_REJECTION_ORD_TYPE_LEN 1
#define BOE_REJECTION_ORD_TYPE_BYTE 1
#define BOE_REJECTION_ORD_TYPE_BIT 0x10
#define BOE_REJECTION_TIME_IN_FORCE_AT (BOE_RECORD_FIELDS_AT + 19)
#define BOE_REJECTION_TIME_IN_FORCE_LEN 1
#define BOE_REJECTION_TIME_IN_FORCE_BYTE 1
#define BOE_REJECTION_TIME_IN_FORCE_BIT 0x20
#define BOE_REJECTION_MIN_QTY_AT (BOE_RECORD_FIELDS_AT + 20)
#define BOE_REJECTION_MIN_QTY_LEN 4
#define BOE_REJECTION_MIN_QTY_BYTE 1
#define BOE_REJECTION_MIN_QTY_BIT 0x40
#define BOE_REJECTION_SYMBOL_AT (BOE_RECORD_FIELDS_AT + 24)
#define BOE_REJECTION_SYMBOL_LEN 8
#define BOE_REJECTION_SYMBOL_BYTE 2
#define BOE_REJECTION_SYMBOL_BIT 0x01
#define BOE_REJECTION_SYMBOL_SFX_AT (BOE_RECORD_FIELDS_AT + 32)
#define BOE_REJECTION_SYMBOL_SFX_LEN 8
#define BOE_REJECTION_SYMBOL_SFX_BYTE 2
#define BOE_REJECTION_SYMBOL_SFX_BIT 0x02
#define BOE_REJECTION_CAPACITY_AT (BOE_RECORD_FIELDS_AT + 40)
#define BOE_REJECTION_CAPACITY_LEN 1
#define BOE_REJECTION_CAPACITY_BYTE 2
#define BOE_REJECTION_CAPACITY_BIT 0x40
#define BOE_REJECTION_ACCOUNT_AT (BOE_RECORD_FIELDS_AT + 41)
#define BOE_REJECTION_ACCOUNT_LEN 16
#define BOE_REJECTION_ACCOUNT_BYTE 3
#define BOE_REJECTION_ACCOUNT_BIT 0x01
#define BOE_REJECTION_CLEARING_FIRM_AT (BOE_RECORD_FIELDS_AT + 57)
#define BOE_REJECTION_CLEARING_FIRM_LEN 4
#define BOE_REJECTION_CLEARING_FIRM_BYTE 3
#define BOE_REJECTION_CLEARING_FIRM_BIT 0x02
#define BOE_REJECTION_CLEARING_ACCOUNT_AT (BOE_RECORD_FIELDS_AT + 61)
#define BOE_REJECTION_CLEARING_ACCOUNT_LEN 4
#define BOE_REJECTION_CLEARING_ACCOUNT_BYTE 3
#define BOE_REJECTION_CLEARING_ACCOUNT_BIT 0x04
#define BOE_REJECTION_DISPLAY_INDICATOR_AT (BOE_RECORD_FIELDS_AT + 65)
#define BOE_REJECTION_DISPLAY_INDICATOR_LEN 1
#define BOE_REJECTION_DISPLAY_INDICATOR_BYTE 3
#define BOE_REJECTION_DISPLAY_INDICATOR_BIT 0x08
#define BOE_REJECTION_MAX_FLOOR_AT (BOE_RECORD_FIELDS_AT + 66)
#define BOE_REJECTION_MAX_FLOOR_LEN 4
#define BOE_REJECTION_MAX_FLOOR_BYTE 3
#define BOE_REJECTION_MAX_FLOOR_BIT 0x10
#define BOE_REJECTION_DISCRETION_AMOUNT_AT (BOE_RECORD_FIELDS_AT + 70)
#define BOE_REJECTION_DISCRETION_AMOUNT_LEN 2
#define BOE_REJECTION_DISCRETION_AMOUNT_BYTE 3
#define BOE_REJECTION_DISCRETION_AMOUNT_BIT 0x20
#define BOE_REJECTION_ORDER_QTY_AT (BOE_RECORD_FIELDS_AT + 72)
#define BOE_REJECTION_ORDER_QTY_LEN 4
#define BOE_REJECTION_ORDER_QTY_BYTE 3
#define BOE_REJECTION_ORDER_QTY_BIT 0x40
#define BOE_REJECTION_PREVENT_MATCH_AT (BOE_RECORD_FIELDS_AT + 76)
#define BOE_REJECTION_PREVENT_MATCH_LEN 3
#define BOE_REJECTION_PREVENT_MATCH_BYTE 3
#define BOE_REJECTION_PREVENT_MATCH_BIT 0x80
#define BOE_REJECTION_SECONDARY_ORDER_ID_AT (BOE_RECORD_FIELDS_AT + 79)
#define BOE_REJECTION_SECONDARY_ORDER_ID_LEN 8
#define BOE_REJECTION_SECONDARY_ORDER_ID_BYTE 6
#define BOE_REJECTION_SECONDARY_ORDER_ID_BIT 0x01
#define BOE_REJECTION_ATTRIBUTED_QUOTE_AT (BOE_RECORD_FIELDS_AT + 87)
#define BOE_REJECTION_ATTRIBUTED_QUOTE_LEN 1
#define BOE_REJECTION_ATTRIBUTED_QUOTE_BYTE 6
#define BOE_REJECTION_ATTRIBUTED_QUOTE_BIT 0x08
#define BOE_REJECTION_EXT_EXEC_INST_AT (BOE_RECORD_FIELDS_AT + 88)
#define BOE_REJECTION_EXT_EXEC_INST_LEN 1
#define BOE_REJECTION_EXT_EXEC_INST_BYTE 6
#define BOE_REJECTION_EXT_EXEC_INST_BIT 0x10
#define BOE_REJECTION_ECHO_TEXT_AT (BOE_RECORD_FIELDS_AT + 89)
#define BOE_REJECTION_ECHO_TEXT_LEN 64
#define BOE_REJECTION_ECHO_TEXT_BYTE 8
#define BOE_REJECTION_ECHO_TEXT_BIT 0x02
#define BOE_REJECTION_STOP_PX_AT (BOE_RECORD_FIELDS_AT + 153)
#define BOE_REJECTION_STOP_PX_LEN 8
#define BOE_REJECTION_STOP_PX_BYTE 8
#define BOE_REJECTION_STOP_PX_BIT 0x04
#define BOE_REJECTION_ROUTING_INST_AT (BOE_RECORD_FIELDS_AT + 161)
#define BOE_REJECTION_ROUTING_INST_LEN 4
#define BOE_REJECTION_ROUTING_INST_BYTE 8
#define BOE_REJECTION_ROUTING_INST_BIT 0x08
#define BOE_REJECTION_ROUT_STRATEGY_AT (BOE_RECORD_FIELDS_AT + 165)
#define BOE_REJECTION_ROUT_STRATEGY_LEN 6
#define BOE_REJECTION_ROUT_STRATEGY_BYTE 8
#define BOE_REJECTION_ROUT_STRATEGY_BIT 0x10
#define BOE_REJECTION_ROUTE_DELIVERY_METHOD_AT (BOE_RECORD_FIELDS_AT + 171)
#define BOE_REJECTION_ROUTE_DELIVERY_METHOD_LEN 3
#define BOE_REJECTION_ROUTE_DELIVERY_METHOD_BYTE 8
#define BOE_REJECTION_ROUTE_DELIVERY_METHOD_BIT 0x20
#define BOE_REJECTION_EX_DESTINATION_AT (BOE_RECORD_FIELDS_AT + 174)
#define BOE_REJECTION_EX_DESTINATION_LEN 1
#define BOE_REJECTION_EX_DESTINATION_BYTE 8
#define BOE_REJECTION_EX_DESTINATION_BIT 0x40

/* Cancel Rejected (0x2B), from the venue: place and width in a record; for an optional field also its bitfield byte, counted from 1, and its bit */
#define BOE_CANCEL_REJECTION 0x2B
#define BOE_CANCEL_REJECTION_TRANSACTION_TIME_AT 6
#define BOE_CANCEL_REJECTION_TRANSACTION_TIME_LEN 8
#define BOE_CANCEL_REJECTION_CL_ORD_ID_AT 14
#define BOE_CANCEL_REJECTION_CL_ORD_ID_LEN 20
#define BOE_CANCEL_REJECTION_CANCEL_REJECT_REASON_AT 34
#define BOE_CANCEL_REJECTION_CANCEL_REJECT_REASON_LEN 1
#define BOE_CANCEL_REJECTION_TEXT_AT 35
#define BOE_CANCEL_REJECTION_TEXT_LEN 60
#define BOE_CANCEL_REJECTION_SIDE_AT (BOE_RECORD_FIELDS_AT + 0)
#define BOE_CANCEL_REJECTION_SIDE_LEN 1
#define BOE_CANCEL_REJECTION_SIDE_BYTE 1
#define BOE_CANCEL_REJECTION_SIDE_BIT 0x01
#define BOE_CANCEL_REJECTION_PEG_DIFFERENCE_AT (BOE_RECORD_FIELDS_AT + 1)
#define BOE_CANCEL_REJECTION_PEG_DIFFERENCE_LEN 8
#define BOE_CANCEL_REJECTION_PEG_DIFFERENCE_BYTE 1
#define BOE_CANCEL_REJECTION_PEG_DIFFERENCE_BIT 0x02
#define BOE_CANCEL_REJECTION_PRICE_AT (BOE_RECORD_FIELDS_AT + 9)
#define BOE_CANCEL_REJECTION_PRICE_LEN 8
#define BOE_CANCEL_REJECTION_PRICE_BYTE 1
#define BOE_CANCEL_REJECTION_PRICE_BIT 0x04
#define BOE_CANCEL_REJECTION_EXEC_INST_AT (BOE_RECORD_FIELDS_AT + 17)
#define BOE_CANCEL_REJECTION_EXEC_INST_LEN 1
#define BOE_CANCEL_REJECTION_EXEC_INST_BYTE 1
#define BOE_CANCEL_REJECTION_EXEC_INST_BIT 0x08
#define BOE_CANCEL_REJECTION_ORD_TYPE_AT (BOE_RECORD_FIELDS_AT + 18)
#define BOE_CANCEL_REJECTION_ORD_TYPE_LEN 1
#define BOE_CANCEL_REJECTION_ORD_TYPE_BYTE 1
#define BOE_CANCEL_REJECTION_ORD_TYPE_BIT 0x10
#define BOE_CANCEL_REJECTION_TIME_IN_FORCE_AT (BOE_RECORD_FIELDS_AT + 19)
#define BOE_CANCEL_REJECTION_TIME_IN_FORCE_LEN 1
#define BOE_CANCEL_REJECTION_TIME_IN_FORCE_BYTE 1
#define BOE_CANCEL_REJECTION_TIME_IN_FORCE_BIT 0x20
#define BOE_CANCEL_REJECTION_MIN_QTY_AT (BOE_RECORD_FIELDS_AT + 20)
#define BOE_CANCEL_REJECTION_MIN_QTY_LEN 4
#define BOE_CANCEL_REJECTION_MIN_QTY_BYTE 1
#define BOE_CANCEL_REJECTION_MIN_QTY_BIT 0x40
#define BOE_CANCEL_REJECTION_SYMBOL_AT (BOE_RECORD_FIELDS_AT + 24)
#define BOE_CANCEL_REJECTION_SYMBOL_LEN 8
#define BOE_CANCEL_REJECTION_SYMBOL_BYTE 2
#define BOE_CANCEL_REJECTION_SYMBOL_BIT 0x01
#define BOE_CANCEL_REJECTION_SYMBOL_SFX_AT (BOE_RECORD_FIELDS_AT + 32)
#define BOE_CANCEL_REJECTION_SYMBOL_SFX_LEN 8
#define BOE_CANCEL_REJECTION_SYMBOL_SFX_BYTE 2
#define BOE_CANCEL_REJECTION_SYMBOL_SFX_BIT 0x02
#define BOE_CANCEL_REJECTION_CAPACITY_AT (BOE_RECORD_FIELDS_AT + 40)
#define BOE_CANCEL_REJECTION_CAPACITY_LEN 1
#define BOE_CANCEL_REJECTION_CAPACITY_BYTE 2
#define BOE_CANCEL_REJECTION_CAPACITY_BIT 0x40
#define BOE_CANCEL_REJECTION_ECHO_TEXT_AT (BOE_RECORD_FIELDS_AT + 41)
#define BOE_CANCEL_REJECTION_ECHO_TEXT_LEN 64
#define BOE_CANCEL_REJECTION_ECHO_TEXT_BYTE 8
#define BOE_CANCEL_REJECTION_ECHO_TEXT_BIT 0x02
#define BOE_CANCEL_REJECTION_STOP_PX_AT (BOE_RECORD_FIELDS_AT + 105)
#define BOE_CANCEL_REJECTION_STOP_PX_LEN 8
#define BOE_CANCEL_REJECTION_STOP_PX_BYTE 8
#define BOE_CANCEL_REJECTION_STOP_PX_BIT 0x04

/* User Modify Rejected (0x29), from the venue: place and width in a record. It has no optional field; its bitfields, if any, are zero */
#define BOE_MODIFY_REJECTION 0x29
#define BOE_MODIFY_REJECTION_TRANSACTION_TIME_AT 6
#define BOE_MODIFY_REJECTION_TRANSACTION_TIME_LEN 8
#define BOE_MODIFY_REJECTION_CL_ORD_ID_AT 14
#define BOE_MODIFY_REJECTION_CL_ORD_ID_LEN 20
#define BOE_MODIFY_REJECTION_MODIFY_REJECT_REASON_AT 34
#define BOE_MODIFY_REJECTION_MODIFY_REJECT_REASON_LEN 1
#define BOE_MODIFY_REJECTION_TEXT_AT 35
#define BOE_MODIFY_REJECTION_TEXT_LEN 60

/* Login Request (0x37), from a member: place and width in a record. The groups stand one after the other. */
#define BOE_LOGIN_REQUEST 0x37
#define BOE_LOGIN_REQUEST_SESSION_SUB_ID_AT 6
#define BOE_LOGIN_REQUEST_SESSION_SUB_ID_LEN 4
#define BOE_LOGIN_REQUEST_USERNAME_AT 10
#define BOE_LOGIN_REQUEST_USERNAME_LEN 4
#define BOE_LOGIN_REQUEST_PASSWORD_AT 14
#define BOE_LOGIN_REQUEST_PASSWORD_LEN 10
#define BOE_LOGIN_REQUEST_NUMBER_OF_GROUPS_AT 24
#define BOE_LOGIN_REQUEST_NUMBER_OF_GROUPS_LEN 1
#define BOE_LOGIN_REQUEST_GROUPS_AT 25

/* Login Response (0x24), from the venue: place and width in a record. After the last pair stands the number of groups (1), and after it
 * the groups: with n units at BOE_LOGIN_RESPONSE_PAIRS_AT + n * BOE_PAIR_LEN. */
#define BOE_LOGIN_RESPONSE 0x24
#define BOE_LOGIN_RESPONSE_STATUS_AT 6
#define BOE_LOGIN_RESPONSE_STATUS_LEN 1
#define BOE_LOGIN_RESPONSE_TEXT_AT 7
#define BOE_LOGIN_RESPONSE_TEXT_LEN 60
#define BOE_LOGIN_RESPONSE_FLAG_AT 67
#define BOE_LOGIN_RESPONSE_FLAG_LEN 1
#define BOE_LOGIN_RESPONSE_LAST_RECEIVED_NUMBER_AT 68
#define BOE_LOGIN_RESPONSE_LAST_RECEIVED_NUMBER_LEN 4
#define BOE_LOGIN_RESPONSE_NUMBER_OF_UNITS_AT 72
#define BOE_LOGIN_RESPONSE_NUMBER_OF_UNITS_LEN 1
#define BOE_LOGIN_RESPONSE_PAIRS_AT 73

/* Logout (0x08), from the venue: place and width in a record */
#define BOE_LOGOUT 0x08
#define BOE_LOGOUT_REASON_AT 6
#define BOE_LOGOUT_REASON_LEN 1
#define BOE_LOGOUT_TEXT_AT 7
#define BOE_LOGOUT_TEXT_LEN 60
#define BOE_LOGOUT_LAST_RECEIVED_NUMBER_AT 67
#define BOE_LOGOUT_LAST_RECEIVED_NUMBER_LEN 4
#define BOE_LOGOUT_NUMBER_OF_UNITS_AT 71
#define BOE_LOGOUT_NUMBER_OF_UNITS_LEN 1
#define BOE_LOGOUT_PAIRS_AT 72

/* The messages that are their header alone: Client Heartbeat from a member, Server Heartbeat and Replay Complete from the venue */
#define BOE_CLIENT_HEARTBEAT 0x03
#define BOE_SERVER_HEARTBEAT 0x09
#define BOE_REPLAY_COMPLETE 0x13

/* The fields by name: a setter and a getter for each. */
#include "boe_fields.h"

#ifdef __cplusplus
}
#endif

#endif
