/* The fields of every message by the protocol's names, and their values as text. */
#ifndef FIELDS_H
#define FIELDS_H

#include "boe.h"

#include <stdio.h>

/* A field of the records of a type. Its kind is document 01's letter: A, N and T are texts, B a number, P a price; and I an identifier, D a day as
 * YYYYMMDD, R a reserved byte. */
struct field {
    struct boe_field where;
    char kind;
    const char *name;
};

/* The fields of a type of record in the order of the message, fixed ones first; NULL, and a count of 0, for a type that has none. RiskGroupIDCnt,
 * which stands behind the bitfields, is between the fixed fields and the optional ones; its ids, and the pairs and groups of session messages, are
 * no fields. */
const struct field *fields_of(uint8_t type, size_t *count);

/* The field of a type of record with a name; NULL where there is none. Capital and small letters are the same. */
const struct field *field_named(uint8_t type, const char *name);

/* The name of a type of record, "Order Acknowledgment"; "unknown" where there is none. */
const char *type_name(uint8_t type);

/* The name of a type's bitfields, "NewOrder" of NumberOfNewOrderBitfields and NewOrderBitfield1; "" where there are none. */
const char *bitfields_name(uint8_t type);

/* The type of the record of a message: only the direction tells of which market a New Order is. */
uint8_t record_type(uint8_t direction, uint8_t type);

/* The place of the count byte in an order message, by the type of its record; 0 for a session message. */
unsigned count_place(uint8_t type);

/* Where a field that the record has begins in its message. */
unsigned field_place(const struct boe_record *record, const struct field *field);

/* Whether the record has the field: a fixed one always, an optional one where its bit is set. */
bool has_field(const struct boe_record *record, const struct field *field);

/* A price in ten-thousandths with four decimals, "-12.3400": at most 22 characters with its NUL. */
void price_text(int64_t price, char text[24]);

/* Nanoseconds since 1970 as a time, "2025-08-19T13:30:00.123456789Z": 31 characters with its NUL. */
void time_text(uint64_t nanoseconds, char text[40]);

/* Prints the value of a field that the record has: a number in decimals, a price with four, a text as it is. With `quoted`, a text in double quotes with
 * JSON's escapes, and a price and a number of 8 bytes in quotes too, so that no reader makes a binary fraction of them. A text's NULs are not printed; without
 * `quoted` a blank is printed as -, and a byte outside 32 to 126 as ?. */
void print_value(FILE *to, const struct boe_record *record, const struct field *field, bool quoted);

/* Prints the fields that a record has, but for reserved bytes, as members of a JSON object that has others before them. */
void print_json_fields(FILE *to, const struct boe_record *record);

/* Sets a field from text: a price with up to four decimals, a number, or a text. False, and nothing is changed, for what is no such value or does not
 * fit its width; whether a value is good the writer says. */
bool set_value(struct boe_record *record, const struct field *field, const char *text);

#endif
