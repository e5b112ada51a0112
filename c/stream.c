/* Makes what a venue sends on one line, the same bytes each time from a seed: a Login Response, COUNT acknowledgments and executions of
 * several units with any choice of optional fields, Replay Complete among them, and a Logout. Between them stand heartbeats, rejections of the
 * three types, and messages that no book may take: old numbers with other bytes, and messages that the reader refuses, rejections with a unit or
 * a number among them. With GAP, after so many messages stands one more with a number that its unit has not reached; a GAP of COUNT is none.
 * The messages that a book must hold are written to a second file. What the desk must be handed is written to a third: a line for each of these
 * messages and for each rejection, in their order.
 *
 * usage: stream SEED COUNT MESSAGES [GAP [DESK]] > LINE */
#include "fill.h"
#include "tell.h"

#include <stdlib.h>
#include <string.h>

const char program[] = "stream";

enum { UNITS = 9, GAP = 1000000, LONGEST = BOE_MESSAGE_MOST_BYTES };

static struct chance chance;

/* A rejection of one of the three types, which have one fixed part: some without a text, and none with a blank for its reason. */
static size_t rejection(uint8_t *out) {
    static const uint8_t types[] = {BOE_REJECTION, BOE_CANCEL_REJECTION, BOE_MODIFY_REJECTION};
    struct boe_record record = any_record(&chance, types[below(&chance, 3)], BOE_RECORD_BITFIELDS_LEN);
    record.bytes[BOE_REJECTION_ORDER_REJECT_REASON_AT] = (uint8_t)('A' + below(&chance, 26));
    if (below(&chance, 4) == 0) memset(record.bytes + BOE_REJECTION_TEXT_AT, 0, BOE_REJECTION_TEXT_LEN);
    return written(&record, out);
}

/* What the desk is handed of a message that is booked, and of a rejection, by their places on the wire. */
static void tell_booked(FILE *desk, const uint8_t *message) {
    fprintf(desk, "%02X %u %lu\n", message[4], message[5], message[6] | (unsigned long)message[7] << 8 | (unsigned long)message[8] << 16);
}

static void tell_rejection(FILE *desk, const uint8_t *message) {
    fprintf(desk, "%02X %.20s %c%s%.60s\n", message[4], (const char *)message + 18, message[38], message[39] ? " " : "", (const char *)message + 39);
}

/* A session message: a Login Response or Logout without units and groups, or one that is its header alone. */
static size_t session(uint8_t type, uint8_t *out) {
    struct boe_record made = {{0}};
    uint8_t *record = made.bytes;
    record[BOE_RECORD_TYPE_AT] = type;
    if (type == BOE_LOGIN_RESPONSE) {
        record[BOE_LOGIN_RESPONSE_STATUS_AT] = 'A';
        memcpy(record + BOE_LOGIN_RESPONSE_TEXT_AT, "Accepted", 8);
        record[BOE_LOGIN_RESPONSE_FLAG_AT] = 1;
    } else if (type == BOE_LOGOUT) {
        record[BOE_LOGOUT_REASON_AT] = 'U';
        memcpy(record + BOE_LOGOUT_TEXT_AT, "User", 4);
    }
    return written(&made, out);
}

int main(int argc, char **argv) {
    if (argc < 4 || argc > 6) {
        fprintf(stderr, "usage: stream SEED COUNT MESSAGES [GAP [DESK]] > LINE\n");
        return 2;
    }
    chance = chance_from(strtoull(argv[1], NULL, 10));
    unsigned long count = strtoul(argv[2], NULL, 10), gap = argc >= 5 ? strtoul(argv[4], NULL, 10) : count;
    FILE *messages = fopen(argv[3], "wb"), *desk = fopen(argc == 6 ? argv[5] : "/dev/null", "w");
    if (!messages || !desk) {
        perror("stream");
        return 1;
    }
    uint8_t out[LONGEST];
    uint32_t last[UNITS + 1] = {0};
    fwrite(out, 1, session(BOE_LOGIN_RESPONSE, out), stdout);
    for (unsigned long i = 0; i < count; i++) {
        /* a number that the unit never reaches, since a later start with a fuller table would rightly take one that it does */
        if (i == gap) fwrite(out, 1, any_sequenced(&chance, 1, last[1] + GAP, out), stdout);
        uint8_t unit = (uint8_t)(1 + below(&chance, UNITS));
        switch (below(&chance, 16)) {
        case 0:
            fwrite(out, 1, session(BOE_SERVER_HEARTBEAT, out), stdout);
            break;
        case 1: /* an old number */
            fwrite(out, 1, any_sequenced(&chance, unit, below(&chance, last[unit] + 1), out), stdout);
            break;
        case 2: { /* the unit's next number in a message of a wrong total, which the reader refuses */
            size_t length = any_sequenced(&chance, unit, last[unit] + 1, out);
            out[2]++;
            if (out[2] == 0) out[3]++;
            out[length] = 0;
            fwrite(out, 1, length + 1, stdout);
            break;
        }
        case 3:
            fwrite(out, 1, rejection(out), stdout);
            tell_rejection(desk, out);
            break;
        case 4: { /* a rejection with a unit, a number or both, which the reader refuses */
            size_t length = rejection(out);
            unsigned wrong = below(&chance, 3);
            if (wrong != 0) out[5] = unit;
            if (wrong != 1) out[6] = (uint8_t)(last[unit] % 255 + 1);
            fwrite(out, 1, length, stdout);
            break;
        }
        default:
            break;
        }
        size_t length = any_sequenced(&chance, unit, ++last[unit], out);
        fwrite(out, 1, length, stdout);
        fwrite(out, 1, length, messages);
        tell_booked(desk, out);
        if (i == count / 3) fwrite(out, 1, session(BOE_REPLAY_COMPLETE, out), stdout);
    }
    fwrite(out, 1, session(BOE_LOGOUT, out), stdout);
    if (fflush(stdout) != 0 || ferror(stdout) || ferror(messages) || fclose(messages) != 0 || ferror(desk) || fclose(desk) != 0) {
        perror("stream");
        return 1;
    }
    return 0;
}
