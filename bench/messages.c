/* The messages a to e and j to l, the three rejections, and five more orders. */
#include "messages.h"

#include <string.h>

struct workload workloads[WORKLOADS + REJECTIONS + ORDERS];

void add(struct workload *w, const char *bytes, size_t n, size_t width) {
    memcpy(w->message + w->total, bytes, n);
    memset(w->message + w->total + n, 0, width - n);
    w->total += width;
}

/* The next of the workloads, without a byte. */
static struct workload *start(const char *name, uint8_t direction) {
    static size_t started;
    struct workload *w = &workloads[started++];
    w->name = name;
    w->direction = direction;
    w->total = 0;
    return w;
}

void finish(struct workload *w) {
    w->message[2] = (uint8_t)(w->total - 2);
    w->message[3] = (uint8_t)((w->total - 2) >> 8);
}

void make_workloads(void) {
    /* a: 000's New Order, table 25 */
    struct workload *w = start("a", BOE_FROM_MEMBER);
    ADD("\xBA\xBA\x00\x00\x38\x00\x64\x00\x00\x00", 10);
    ADD("ABC123", 20);
    ADD("1\xE8\x03\x00\x00", 5);
    ADD("\x03\x04\xC1\x01", 4);
    ADD("\x44\xD6\x12", 8);
    ADD("MSFT", 8);
    ADD("P", 1);
    ADD("R", 4);
    ADD("DEFG", 16);
    finish(w);

    /* b: New Order with all listed bits, its texts filled */
    w = start("b", BOE_FROM_MEMBER);
    ADD("\xBA\xBA\x00\x00\x38\x00\x64\x00\x00\x00", 10);
    ADD("ABCDEFGHIJ0123456789", 20);
    ADD("1\xE8\x03\x00\x00", 5);
    ADD("\x0A\xFF\xC3\xC1\x00\x00\x33\x00\x00\x00\x02", 11);
    ADD("TEST", 4);                                                             /* ClearingFirm */
    ADD("123C", 4);                                                             /* ClearingAccount */
    ADD("\x44\xD6\x12", 8);                                                     /* Price */
    ADD("G", 1);                                                                /* ExecInst */
    ADD("2", 1);                                                                /* OrdType */
    ADD("0", 1);                                                                /* TimeInForce */
    ADD("\x64", 4);                                                             /* MinQty */
    ADD("\xC8", 4);                                                             /* MaxFloor */
    ADD("MSFTMSFT", 8);                                                         /* Symbol */
    ADD("SUFFIXES", 8);                                                         /* SymbolSfx */
    ADD("P", 1);                                                                /* Capacity */
    ADD("R123", 4);                                                             /* RoutingInst */
    ADD("DEFGHIJKLMNOPQRS", 16);                                                /* Account */
    ADD("Y", 1);                                                                /* LocateReqd */
    ADD("\xE0\xFA\x20\xF7\x36\x71\xF8\x11", 8);                                 /* ExpireTime */
    ADD("\x0A", 4);                                                             /* DisplayRange */
    ADD("\x08\xE2\x01", 8);                                                     /* StopPx */
    ADD("X", 1);                                                                /* ExDestination */
    ADD("Text of sixty-four characters that the venue sends back as it is", 64); /* EchoText */
    ADD("ABCD", 4);                                                             /* LocateBroker */
    finish(w);

    /* c: 000's smallest acknowledgment, table 35: no bitfields */
    w = start("c", BOE_FROM_VENUE);
    ADD("\xBA\xBA\x00\x00\x25\x03\x64\x00\x00\x00", 10);
    ADD("\xE0\xFA\x20\xF7\x36\x71\xF8\x11", 8);
    ADD("ABC123", 20);
    ADD("\x05\x10\x1E\xB7\x5E\x39\x2F\x02", 8);
    ADD("\x00\x00", 2);
    finish(w);

    /* d: an acknowledgment with 15 bitfields and all listed bits, its texts filled */
    w = start("d", BOE_FROM_VENUE);
    ADD("\xBA\xBA\x00\x00\x25\x03\x64\x00\x00\x00", 10);
    ADD("\xE0\xFA\x20\xF7\x36\x71\xF8\x11", 8);
    ADD("ABCDEFGHIJ0123456789", 20);
    ADD("\x05\x10\x1E\xB7\x5E\x39\x2F\x02", 8);
    ADD("\x00\x0F\x7D\x43\x57\x00\x8E", 2 + 15);
    ADD("1", 1);                                /* Side */
    ADD("\x44\xD6\x12", 8);                     /* Price */
    ADD("G", 1);                                /* ExecInst */
    ADD("2", 1);                                /* OrdType */
    ADD("0", 1);                                /* TimeInForce */
    ADD("\x64", 4);                             /* MinQty */
    ADD("MSFTMSFT", 8);                         /* Symbol */
    ADD("SUFFIXES", 8);                         /* SymbolSfx */
    ADD("P", 1);                                /* Capacity */
    ADD("DEFGHIJKLMNOPQRS", 16);                /* Account */
    ADD("TEST", 4);                             /* ClearingFirm */
    ADD("123C", 4);                             /* ClearingAccount */
    ADD("\xC8", 4);                             /* MaxFloor */
    ADD("\xE8\x03", 4);                         /* OrderQty */
    ADD("\x84\x03", 4);                         /* LeavesQty */
    ADD("\x64", 4);                             /* LastShares */
    ADD("\x08\xE2\x01", 8);                     /* LastPx */
    ADD("\xE0\xFA\x20\xF7\x36\x71\xF8\x11", 8); /* ExpireTime */
    finish(w);

    /* e: 000's Order Execution, table 50 */
    w = start("e", BOE_FROM_VENUE);
    ADD("\xBA\xBA\x00\x00\x2C\x03\x64\x00\x00\x00", 10);
    ADD("\xE0\xFA\x20\xF7\x36\x71\xF8\x11", 8);
    ADD("ABC123", 20);
    ADD("\x01\xF0\xB7\xD9\x71\x21\x00\x00", 8);
    ADD("\x64", 4);
    ADD("\x08\xE2\x01", 8);
    ADD("\x14", 4);
    ADD("A", 2);
    ADD("BATS", 4);
    ADD("\x00\x03\x00\x00\x46", 5);
    ADD("TEST", 4);
    ADD("123C", 4);
    ADD("\x78", 4);
    finish(w);

    /* j: 000's Modify Order, table 29 */
    w = start("j", BOE_FROM_MEMBER);
    ADD("\xBA\xBA\x00\x00\x3A\x00\x64\x00\x00\x00", 10);
    ADD("ABC124", 20);
    ADD("ABC123", 20);
    ADD("\x01\x0C", 2);
    ADD("\xE0\x2E", 4);
    ADD("\x08\xE2\x01", 8);
    finish(w);

    /* k: 000's Purge Orders by symbol, table 32, with the length of its bytes */
    w = start("k", BOE_FROM_MEMBER);
    ADD("\xBA\xBA\x00\x00\x47\x00\x64\x00\x00\x00", 10);
    ADD("\x00\x02\x15\x01", 4);
    ADD("\x00", 1);
    ADD("TEST", 4);
    ADD("FSL", 16);
    ADD("ABC123", 20);
    ADD("ABCDE", 8);
    finish(w);

    /* l: 002's options New Order */
    w = start("l", BOE_FROM_OPTIONS_MEMBER);
    ADD("\xBA\xBA\x00\x00\x38\x00\x01\x00\x00\x00", 10);
    ADD("ABC123", 20);
    ADD("1\x0A\x00\x00\x00", 5);
    ADD("\x04\x04\xC1\x01\x17", 5);
    ADD("\x70\x17", 8);
    ADD("MSFT", 8);
    ADD("C", 1);
    ADD("R", 4);
    ADD("DEFG", 16);
    ADD("\xEF\xDB\x32\x01", 4);
    ADD("\x98\xAB\x02", 8);
    ADD("1", 1);
    ADD("O", 1);
    finish(w);

    /* Order Rejected with 19 bitfields and all listed bits, its texts filled */
    w = start("Order Rejected", BOE_FROM_VENUE);
    ADD("\xBA\xBA\x00\x00\x26\x00\x00\x00\x00\x00", 10);
    ADD("\xE0\xFA\x20\xF7\x36\x71\xF8\x11", 8);
    ADD("ABCDEFGHIJ0123456789", 20);
    ADD("D", 1);
    ADD("A reason in words that takes up all sixty characters of Text", 60);
    ADD("\x00\x13\x7F\x43\xFF\x00\x00\x19\x00\x7E", 2 + 19);
    ADD("1", 1);                                                                /* Side */
    ADD("\x44\xD6\x12", 8);                                                     /* PegDifference */
    ADD("\x44\xD6\x12", 8);                                                     /* Price */
    ADD("G", 1);                                                                /* ExecInst */
    ADD("2", 1);                                                                /* OrdType */
    ADD("0", 1);                                                                /* TimeInForce */
    ADD("\x64", 4);                                                             /* MinQty */
    ADD("MSFTMSFT", 8);                                                         /* Symbol */
    ADD("SUFFIXES", 8);                                                         /* SymbolSfx */
    ADD("P", 1);                                                                /* Capacity */
    ADD("DEFGHIJKLMNOPQRS", 16);                                                /* Account */
    ADD("TEST", 4);                                                             /* ClearingFirm */
    ADD("123C", 4);                                                             /* ClearingAccount */
    ADD("V", 1);                                                                /* DisplayIndicator */
    ADD("\xC8", 4);                                                             /* MaxFloor */
    ADD("\x0A", 2);                                                             /* DiscretionAmount */
    ADD("\xE8\x03", 4);                                                         /* OrderQty */
    ADD("NM1", 3);                                                              /* PreventMatch */
    ADD("\x05\x10\x1E\xB7\x5E\x39\x2F\x02", 8);                                 /* SecondaryOrderID */
    ADD("Y", 1);                                                                /* AttributedQuote */
    ADD("N", 1);                                                                /* ExtExecInst */
    ADD("Text of sixty-four characters that the venue sends back as it is", 64); /* EchoText */
    ADD("\x08\xE2\x01", 8);                                                     /* StopPx */
    ADD("R123", 4);                                                             /* RoutingInst */
    ADD("ROUTES", 6);                                                           /* RoutStrategy */
    ADD("RTF", 3);                                                              /* RouteDeliveryMethod */
    ADD("X", 1);                                                                /* ExDestination */
    finish(w);

    /* Cancel Rejected with all listed bits */
    w = start("Cancel Rejected", BOE_FROM_VENUE);
    ADD("\xBA\xBA\x00\x00\x2B\x00\x00\x00\x00\x00", 10);
    ADD("\xE0\xFA\x20\xF7\x36\x71\xF8\x11", 8);
    ADD("ABC123", 20);
    ADD("J", 1);
    ADD("TOO LATE", 60);
    ADD("\x00\x08\x7F\x43\x00\x00\x00\x00\x00\x06", 2 + 8);
    ADD("1", 1);                                                                /* Side */
    ADD("\x44\xD6\x12", 8);                                                     /* PegDifference */
    ADD("\x44\xD6\x12", 8);                                                     /* Price */
    ADD("G", 1);                                                                /* ExecInst */
    ADD("2", 1);                                                                /* OrdType */
    ADD("0", 1);                                                                /* TimeInForce */
    ADD("\x64", 4);                                                             /* MinQty */
    ADD("MSFT", 8);                                                             /* Symbol */
    ADD("", 8);                                                                 /* SymbolSfx */
    ADD("P", 1);                                                                /* Capacity */
    ADD("Text of sixty-four characters that the venue sends back as it is", 64); /* EchoText */
    ADD("\x08\xE2\x01", 8);                                                     /* StopPx */
    finish(w);

    /* User Modify Rejected, which lists no bit, with two bitfields */
    w = start("User Modify Rejected", BOE_FROM_VENUE);
    ADD("\xBA\xBA\x00\x00\x29\x00\x00\x00\x00\x00", 10);
    ADD("\xE0\xFA\x20\xF7\x36\x71\xF8\x11", 8);
    ADD("ABC123", 20);
    ADD("P", 1);
    ADD("Pending", 60);
    ADD("\x00\x02\x00\x00", 2 + 2);
    finish(w);

    /* options New Order with 10 bitfields and all listed bits, its texts filled */
    w = start("Options New Order", BOE_FROM_OPTIONS_MEMBER);
    ADD("\xBA\xBA\x00\x00\x38\x00\x64\x00\x00\x00", 10);
    ADD("ABCDEFGHIJ0123456789", 20);
    ADD("1\xE8\x03\x00\x00", 5);
    ADD("\x0A\xFF\xC1\x01\x17", 1 + 10);
    ADD("TEST", 4);             /* ClearingFirm */
    ADD("123C", 4);             /* ClearingAccount */
    ADD("\x70\x17", 8);         /* Price */
    ADD("G", 1);                /* ExecInst */
    ADD("2", 1);                /* OrdType */
    ADD("0", 1);                /* TimeInForce */
    ADD("\x64", 4);             /* MinQty */
    ADD("\xC8", 4);             /* MaxFloor */
    ADD("MSFTMSFT", 8);         /* Symbol */
    ADD("C", 1);                /* Capacity */
    ADD("R123", 4);             /* RoutingInst */
    ADD("DEFGHIJKLMNOPQRS", 16); /* Account */
    ADD("\xA5\x02\x33\x01", 4); /* MaturityDate: 29 February 2012 */
    ADD("\x98\xAB\x02", 8);     /* StrikePrice */
    ADD("0", 1);                /* PutOrCall */
    ADD("C", 1);                /* OpenClose */
    finish(w);

    /* Modify Order with all listed bits, its texts filled */
    w = start("Modify Order", BOE_FROM_MEMBER);
    ADD("\xBA\xBA\x00\x00\x3A\x00\x64\x00\x00\x00", 10);
    ADD("ABCDEFGHIJ0123456789", 20);
    ADD("9876543210JIHGFEDCBA", 20);
    ADD("\x02\xFD\x83", 3);
    ADD("TEST", 4);         /* ClearingFirm */
    ADD("\xE0\x2E", 4);     /* OrderQty */
    ADD("\x08\xE2\x01", 8); /* Price */
    ADD("2", 1);            /* OrdType */
    ADD("Y", 1);            /* CancelOrigOnReject */
    ADD("G", 1);            /* ExecInst */
    ADD("1", 1);            /* Side */
    ADD("\xC8", 4);         /* MaxFloor */
    ADD("\x44\xD6\x12", 8); /* StopPx */
    ADD("ABCD", 4);         /* LocateBroker */
    finish(w);

    /* Modify Order without Price, its identifiers a character each */
    w = start("Modify Order at the market", BOE_FROM_MEMBER);
    ADD("\xBA\xBA\x00\x00\x3A\x00\x64\x00\x00\x00", 10);
    ADD("2", 20);
    ADD("1", 20);
    ADD("\x01\x14", 2);
    ADD("\xE0\x2E", 4); /* OrderQty */
    ADD("1", 1);        /* OrdType */
    finish(w);

    /* Purge Orders with ten RiskGroupIDs and all listed bits, its texts filled */
    w = start("Purge Orders", BOE_FROM_MEMBER);
    ADD("\xBA\xBA\x00\x00\x47\x00\x64\x00\x00\x00", 10);
    ADD("\x5A\x02\x15\x83", 4);
    ADD("\x0A\xBF\xBE\xC0\xBE", 1 + 18);
    ADD("\xC1\xBE", 2);
    ADD("TEST", 4);                  /* ClearingFirm */
    ADD("FBLNNNNNNNNNNNNN", 16);     /* MassCancelInst */
    ADD("A text as an id, 20.", 20); /* MassCancelID */
    ADD("MSFTMSFT", 8);              /* Symbol */
    ADD("SUFFIXES", 8);              /* SymbolSfx */
    ADD("\x00", 1);                  /* MatchingUnit */
    finish(w);

    /* Purge Orders with MassCancelInst alone, a character, and no RiskGroupIDs */
    w = start("Purge Orders by its instruction alone", BOE_FROM_MEMBER);
    ADD("\xBA\xBA\x00\x00\x47\x00\x64\x00\x00\x00", 10);
    ADD("\x00\x01\x04\x00", 4);
    ADD("A", 16);
    finish(w);
}
