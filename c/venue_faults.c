/* The faults of the bench venue. */
#include "venue_faults.h"

#include <string.h>

enum { BYTES_MOST = 4000, MESSAGES_MOST = 20, MILLISECONDS_MOST = 800, PAUSE_MOST = 1500, LONG_PAUSE = 6000 };

/* Lists the kind of a name of so many characters: whether there is one, and not twice. */
static bool list_fault(struct faults *faults, const char *name, size_t length) {
    static const char *const names[] = {NULL, "break", "pause", "half", "logout", "status"};
    for (unsigned kind = FAULT_BREAK; kind <= FAULT_STATUS; kind++) {
        if (strlen(names[kind]) != length || memcmp(names[kind], name, length) != 0) continue;
        for (unsigned i = 0; i < faults->count; i++)
            if (faults->listed[i] == kind) return false;
        faults->listed[faults->count++] = (enum fault_kind)kind;
        return true;
    }
    return false;
}

bool list_faults(struct faults *faults, const char *list) {
    faults->count = 0;
    if (strcmp(list, "all") == 0) list = "break,pause,half,logout,status";
    for (;;) {
        size_t length = strcspn(list, ",");
        if (!list_fault(faults, list, length)) return false;
        if (list[length] == 0) return true;
        list += length + 1;
    }
}

/* Each session takes as many chances as any other, so that what comes in it does not depend on how the ones before it ended. Short distances are more
 * frequent than long ones: a break falls into the Login Response, the replay and what follows it alike. */
struct fault next_fault(struct faults *faults) {
    static const char statuses[] = "NDBSQIFM";
    struct chance *chance = &faults->chance;
    bool comes = below(chance, 100) < faults->rate && faults->made < faults->most;
    struct fault fault = {.kind = faults->count ? faults->listed[below(chance, faults->count)] : NO_FAULT};
    uint32_t bytes = 1 + below(chance, 1 + below(chance, BYTES_MOST));
    uint32_t message = 1 + below(chance, MESSAGES_MOST), moment = below(chance, MILLISECONDS_MOST);
    fault.after = fault.kind == FAULT_BREAK ? bytes : fault.kind == FAULT_HALF ? message : moment;
    fault.lasting = 1 + below(chance, PAUSE_MOST);
    if (faults->long_pause) fault.lasting = LONG_PAUSE;
    fault.status = statuses[below(chance, sizeof statuses - 1)];
    if (!comes) fault.kind = NO_FAULT;
    return fault;
}
