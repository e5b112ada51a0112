/* The desk's lines. */
#include "desk.h"

#include "fields.h"
#include "places.h"
#include "tell.h"

#include <string.h>

bool desk_json;

void desk_flush(void) {
    if (fflush(stdout) != 0 || ferror(stdout)) fail("standard output");
}

void print_json_text(const char *text) {
    putchar('"');
    for (; *text; text++) {
        unsigned char c = (unsigned char)*text;
        if (c == '"' || c == '\\') putchar('\\');
        if (c < ' ' || c > '~') printf("\\u%04x", c);
        else putchar(c);
    }
    putchar('"');
}

/* A value of a line of text: quoted where it would not be one word, or would look like a blank. */
static void print_word(const struct boe_record *record, const struct field *field) {
    char text[BOE_RECORD_LEN];
    bool is_text = strchr("ANTI", field->kind) != NULL;
    bool quoted = is_text && boe_get_text(record, field->where, text) && (strpbrk(text, " \"=") != NULL || strcmp(text, "-") == 0);
    if (strcmp(field->name, "TransactionTime") == 0) {
        time_text(boe_number_of(record, field->where), text);
        printf("%s", text);
    } else {
        print_value(stdout, record, field, quoted);
    }
}

/* The fields that a record has, but for reserved bytes, as words. */
static void print_words(const struct boe_record *record) {
    size_t count;
    const struct field *fields = fields_of(record->bytes[BOE_RECORD_TYPE_AT], &count);
    for (size_t i = 0; i < count; i++) {
        if (fields[i].kind == 'R' || !has_field(record, &fields[i])) continue;
        printf(" %s=", fields[i].name);
        print_word(record, &fields[i]);
    }
}

void desk_book(uint32_t messages) { printf(desk_json ? "{\"event\":\"book\",\"messages\":%lu}\n" : "book %lu\n", (unsigned long)messages); }

/* Its type, unit and number, its type's name and its fields. What stands in the book, or was taken by the session, the reader reads. */
void desk_message(const uint8_t *message, size_t length) {
    struct boe_record record;
    unsigned type = message[4], unit = message[5];
    unsigned long number = number_at(message + 6);
    if (boe_read(BOE_FROM_VENUE, message, length, &record, sizeof record) != 0) fail_as("the library", "it does not read what it has booked");
    if (desk_json)
        printf("{\"event\":\"%s\",\"type\":\"%02X\",\"name\":\"%s\",\"unit\":%u,\"number\":%lu", boe_told(message[4]) == BOE_BOOKED ? "booked" : "handed",
               type, type_name((uint8_t)type), unit, number);
    else
        printf("%02X %u %lu %s", type, unit, number, type_name((uint8_t)type));
    if (desk_json) print_json_fields(stdout, &record);
    else print_words(&record);
    printf(desk_json ? "}\n" : "\n");
}

void desk_phase(uint32_t phase) {
    static const char *const names[] = {"closed", "asked", "replaying", "live"};
    printf(desk_json ? "{\"event\":\"session\",\"phase\":\"%s\"}\n" : "session %s\n", names[phase]);
}

/* Every order has its ClOrdID, or the one that it is about, first behind the header, but for a Purge Orders. */
void desk_sent(const uint8_t *message, size_t length) {
    unsigned type = message[4];
    unsigned long number = number_at(message + 6);
    char id[BOE_NEW_ORDER_CL_ORD_ID_LEN + 1] = "";
    if (type != BOE_PURGE_ORDERS && length > 30) memcpy(id, message + 10, sizeof id - 1);
    if (desk_json) {
        printf("{\"event\":\"sent\",\"number\":%lu,\"type\":\"%02X\",\"id\":", number, type);
        print_json_text(id);
        printf("}\n");
    } else {
        printf("sent %lu %02X%s%s\n", number, type, *id ? " " : "", id);
    }
}

void desk_unsent(uint32_t refusal, const char *why, const char *order, const struct boe_record *record) {
    if (desk_json) {
        printf("{\"event\":\"unsent\",\"refusal\":%u,\"place\":%u,\"why\":", BOE_NUMBER(refusal), BOE_PLACE(refusal));
        print_json_text(refusal ? boe_refusal_name(refusal) : why);
        printf(",\"order\":");
        print_json_text(order);
        printf("}\n");
        return;
    }
    printf("unsent ");
    if (refusal) print_unwritten(stdout, refusal, record);
    else printf("%s", why);
    printf(": ");
    for (; *order; order++) putchar(*order >= ' ' && *order <= '~' ? *order : '?');
    printf("\n");
}

void desk_unreceived(uint32_t first, uint32_t last) {
    printf(desk_json ? "{\"event\":\"unreceived\",\"first\":%lu,\"last\":%lu}\n" : "unreceived %lu %lu\n", (unsigned long)first, (unsigned long)last);
}

void desk_unread(uint32_t refusal, const uint8_t *message) {
    unsigned type = message[4], unit = message[5];
    unsigned long number = number_at(message + 6);
    if (desk_json) {
        printf("{\"event\":\"unread\",\"type\":\"%02X\",\"unit\":%u,\"number\":%lu,\"refusal\":%u,\"place\":%u,\"why\":\"%s\"}\n", type, unit, number,
               BOE_NUMBER(refusal), BOE_PLACE(refusal), boe_refusal_name(refusal));
        return;
    }
    printf("unread %02X %u %lu ", type, unit, number);
    print_refused(stdout, refusal, BOE_FROM_VENUE, message);
    printf("\n");
}

void desk_end(uint32_t messages, size_t length, unsigned long handed, const unsigned long refused[BOE_REFUSALS + 1]) {
    unsigned long all = 0;
    for (unsigned i = 0; i <= BOE_REFUSALS; i++) all += refused[i];
    if (desk_json)
        printf("{\"event\":\"end\",\"messages\":%lu,\"length\":%zu,\"handed\":%lu,\"refused\":%lu", (unsigned long)messages, length, handed, all);
    else
        printf("messages %lu length %zu handed %lu refused %lu", (unsigned long)messages, length, handed, all);
    for (unsigned i = 0; i <= BOE_REFUSALS; i++)
        if (refused[i]) printf(desk_json ? ",\"refused_%u\":%lu" : " %u:%lu", i, refused[i]);
    printf(desk_json ? "}\n" : "\n");
}
