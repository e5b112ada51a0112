/* The desk's orders as lines of text. */
#include "orders.h"

#include "fields.h"
#include "tell.h"

#include <errno.h>
#include <string.h>
#include <strings.h>
#include <unistd.h>

/* The type of the record of an order of a market; 0 where a word names none. */
static uint8_t type_of(const char *word, uint8_t market) {
    if (strcmp(word, "new") == 0) return market == BOE_EQUITIES ? BOE_NEW_ORDER : BOE_OPTIONS_NEW_ORDER;
    if (strcmp(word, "cancel") == 0) return BOE_CANCEL_ORDER;
    if (strcmp(word, "modify") == 0) return BOE_MODIFY_ORDER;
    return strcmp(word, "purge") == 0 ? BOE_PURGE_ORDERS : 0;
}

/* The next word of a line, ended by a NUL, or NULL. Double quotes keep spaces together, and go. NULL too, with a line that is not empty, where a quote is
 * not closed. */
static char *next_word(char **line) {
    char *from = *line + strspn(*line, " \t"), *to = from, *word = from;
    bool quoted = false;
    if (*from == 0) {
        *line = from;
        return NULL;
    }
    for (; *from && (quoted || (*from != ' ' && *from != '\t')); from++) {
        if (*from == '"') quoted = !quoted;
        else *to++ = *from;
    }
    if (quoted) return NULL;
    *line = *from ? from + 1 : from;
    *to = 0;
    return word;
}

/* A RiskGroupID of a Purge Orders, which may stand more than once, goes behind those before it. */
static bool add_risk_group(struct boe_record *record, const char *value) {
    uint8_t count = 0;
    uint64_t id;
    return boe_purge_orders_get_risk_group_id_cnt(record, &count) && number_of(value, UINT16_MAX, &id) &&
           boe_purge_orders_set_risk_group_id(record, count, (uint16_t)id);
}

/* Whether a field is there for the first time; of each of a message's fields a bit tells that it was. */
static bool is_first(const struct boe_record *record, const struct field *field, uint64_t *seen) {
    size_t count;
    uint64_t bit = (uint64_t)1 << (field - fields_of(record->bytes[BOE_RECORD_TYPE_AT], &count));
    bool first = (*seen & bit) == 0;
    *seen |= bit;
    return first;
}

/* Sets the field that NAME=VALUE tells: NULL, or why not. The count of RiskGroupIDs is theirs to set. */
static const char *set_field(struct boe_record *record, char *word, uint64_t *seen) {
    char *value = strchr(word, '=');
    if (!value) return "a word that is not NAME=VALUE";
    *value++ = 0;
    uint8_t type = record->bytes[BOE_RECORD_TYPE_AT];
    if (type == BOE_PURGE_ORDERS && strcasecmp(word, "RiskGroupID") == 0)
        return add_risk_group(record, value) ? NULL : "a RiskGroupID that is no number of 16 bits, or an eleventh";
    const struct field *field = field_named(type, word);
    if (!field || field->kind == 'R' || strcmp(field->name, "RiskGroupIDCnt") == 0) return "a field that this order does not have";
    if (!is_first(record, field, seen)) return "a field that stands twice";
    return set_value(record, field, value) ? NULL : "a value that its field cannot hold";
}

bool order_of(char *line, uint8_t market, struct boe_record *record, const char **why) {
    uint64_t seen = 0;
    *why = "a line that is too long";
    if (strlen(line) >= ORDER_LINE - 1) return false;
    char *word = next_word(&line);
    uint8_t type = word ? type_of(word, market) : 0;
    *why = "not new, cancel, modify or purge";
    if (type == 0) return false;
    *record = boe_blank_record(type);
    while ((word = next_word(&line)) != NULL)
        if ((*why = set_field(record, word, &seen)) != NULL) return false;
    *why = "a double quote that is not closed";
    return *line == 0;
}

bool orders_wanted(const struct orders *orders) { return !orders->over && orders->count < ORDERS_WAITING; }

/* The line that has come so far is ended, or broken off. A carriage return before its end goes with it. */
static void end_line(struct orders *orders, bool whole) {
    if (orders->length > 0 && orders->line[orders->length - 1] == '\r') orders->length--;
    orders->line[orders->length] = 0;
    if (orders->length > 0 && orders->line[0] != '#') {
        size_t at = (orders->first + orders->count++) % ORDERS_WAITING;
        orders->waiting[at].came = orders->read_at;
        orders->waiting[at].whole = whole;
        memcpy(orders->waiting[at].text, orders->line, orders->length + 1);
    }
    orders->length = 0;
}

/* Cuts what was read into lines, as long as there is room for them. A NUL, which would end a line's text, becomes a character that no field takes. */
static void cut_lines(struct orders *orders) {
    while (orders->read_from < orders->read_to && orders->count < ORDERS_WAITING) {
        char c = orders->read[orders->read_from++];
        if (c == '\n') end_line(orders, true);
        else if (orders->length < ORDER_LINE - 1) orders->line[orders->length++] = c ? c : '\x7F';
    }
}

int orders_read(struct orders *orders, int descriptor) {
    ssize_t n = 1;
    if (orders->read_from == orders->read_to) {
        n = read(descriptor, orders->read, sizeof orders->read);
        if (n < 0 && (errno == EINTR || errno == EAGAIN)) return 0;
        orders->read_from = 0;
        orders->read_to = n > 0 ? (size_t)n : 0;
        orders->read_at = clock_now();
    }
    cut_lines(orders);
    if (n > 0) return 0;
    end_line(orders, false);
    orders->over = true;
    return n < 0 ? -1 : 0;
}

const struct waiting *orders_front(const struct orders *orders) { return orders->count ? &orders->waiting[orders->first] : NULL; }

void orders_drop(struct orders *orders) {
    orders->first = (orders->first + 1) % ORDERS_WAITING;
    orders->count--;
    cut_lines(orders);
}
