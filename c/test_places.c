/* Prints refusals in words (places.h), for c/test_example.
 *
 * usage: test_places DIRECTION MESSAGE         how the message, in hex, is refused by reading: a line, or none
 *        test_places DIRECTION MESSAGE BYTE    a message that is not refused: how it is with each byte after its header replaced by BYTE in turn,
 *                                              and so its record by writing; what is the same as before it is left out */
#include "places.h"

#include <stdlib.h>

enum { HEADER = 10 };

static uint8_t direction, message[BOE_MESSAGE_MOST_BYTES];
static struct boe_record record;
static size_t length;
static uint32_t last;

/* Whether a refusal is told: no refusal and what was told last are not. */
static int is_news(uint32_t refusal) {
    int news = refusal && refusal != last;
    last = refusal;
    return news;
}

static void tell_reading(void) {
    struct boe_record unused;
    uint32_t refusal = boe_read(direction, message, length, &unused, sizeof unused);
    if (!is_news(refusal)) return;
    printf("read ");
    print_refused(stdout, refusal, direction, message);
    printf("\n");
}

static void tell_writing(void) {
    uint8_t out[BOE_WRITTEN_MOST_BYTES];
    uint32_t refusal = boe_write(direction, &record, sizeof record, out, sizeof out);
    if (!is_news(refusal)) return;
    printf("write ");
    print_unwritten(stdout, refusal, &record);
    printf("\n");
}

/* Tells with each of the bytes from one on replaced in turn. */
static void replace_each(uint8_t *bytes, size_t from, size_t end, uint8_t byte, void (*tell)(void)) {
    for (size_t at = from; at < end; at++) {
        uint8_t kept = bytes[at];
        bytes[at] = byte;
        tell();
        bytes[at] = kept;
    }
}

static void unhex(const char *hex) {
    unsigned byte;
    for (; length < sizeof message && hex[0] && hex[1] && sscanf(hex, "%2x", &byte) == 1; hex += 2) message[length++] = (uint8_t)byte;
}

int main(int argc, char **argv) {
    if (argc != 3 && argc != 4) {
        fprintf(stderr, "usage: test_places DIRECTION MESSAGE [BYTE]\n");
        return 2;
    }
    direction = (uint8_t)atoi(argv[1]);
    unhex(argv[2]);
    if (argc == 3) {
        tell_reading();
        return 0;
    }
    uint8_t byte = (uint8_t)strtoul(argv[3], NULL, 16);
    if (boe_read(direction, message, length, &record, sizeof record) != 0) {
        fprintf(stderr, "test_places: the message is refused\n");
        return 1;
    }
    replace_each(message, HEADER, length, byte, tell_reading);
    replace_each(record.bytes, BOE_RECORD_FIXED_AT, sizeof record, byte, tell_writing);
    return 0;
}
