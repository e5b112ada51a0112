/* Makes inputs of the stored questions and of the stored scripts. See README.md. */
#include "plain.h"
#include "boe.h"
#include <stdlib.h>
#include <string.h>

enum { MOST_LINE = 1 << 17, MOST_WORDS = 14, EACH = 40 };

/* ---- seeds of stored questions */

static void put(unsigned value, size_t width) {
    for (; width > 0; width--, value >>= 8) input[input_len++] = (uint8_t)value;
}

static unsigned digit(int c) { return c >= 'A' ? (unsigned)(c - 'A' + 10) : (unsigned)(c - '0'); }

/* The bytes of a word, and how many they are. */
static size_t put_bytes(const char *word) {
    size_t n = strcmp(word, "-") == 0 ? 0 : strlen(word) / 2;
    for (size_t i = 0; i < n && input_len < sizeof input; i++) put(digit(word[2 * i]) * 16 + digit(word[2 * i + 1]), 1);
    return n;
}

static unsigned value(const char *word) { return (unsigned)strtoul(word, NULL, 10); }

/* Splits a line into its words. */
static int words_of(char *line, char **word) {
    int words = 0;
    line[strcspn(line, "\n")] = 0;
    for (char *next = strtok(line, " "); next && words < MOST_WORDS; next = strtok(NULL, " ")) word[words++] = next;
    return words;
}

/* The input of a question: 0 where it asks for none of the calls. */
static int input_of(char **word, int words) {
    const char *call = word[0];
    input_len = 0;
    if (words == 2 && strcmp(call, "frame") == 0) {
        put(FRAME, 1);
        put_bytes(word[1]);
    } else if (words == 2 && strcmp(call, "told") == 0) {
        put(TOLD, 1);
        put(value(word[1]), 1);
    } else if (words == 3 && (strcmp(call, "due") == 0 || strcmp(call, "silent") == 0)) {
        put(PULSE, 1);
        put(value(word[1]), 4);
        put(value(word[2]), 4);
    } else if (words == 4 && strcmp(call, "step") == 0) {
        put(STEP, 1);
        put(value(word[2]), 1);
        put(value(word[3]), 4);
        put_bytes(word[1]);
    } else if (words == 3 && strcmp(call, "read") == 0) {
        put(READ, 1);
        put(value(word[1]), 1);
        put(0, 1);
        put_bytes(word[2]);
    } else if (words == 4 && strcmp(call, "write") == 0) {
        put(WRITE, 1);
        put(value(word[1]), 1);
        put(0xEE, 1);
        put(strcmp(word[3], "-") == 0 ? 0 : (unsigned)strlen(word[3]) / 2, 2);
        put_bytes(word[2]);
    } else if (words == 3 && (strcmp(call, "open") == 0 || strcmp(call, "restart") == 0)) {
        put(call[0] == 'o' ? OPEN : RESTART, 1);
        put(0, 1);
        put(value(word[1]), 4);
        put_bytes(word[2]);
    } else if (words == 5 && strcmp(call, "append") == 0) {
        put(APPEND, 1);
        put(value(word[1]), 4);
        put(value(word[3]), 2);
        put((unsigned)(strcmp(word[4], "-") == 0 ? 0 : strlen(word[4]) / 2), 2);
        put_bytes(word[4]);
        put_bytes(word[2]);
    } else if (words == 4 && strcmp(call, "close") == 0) {
        put(CLOSE, 1);
        put(value(word[1]), 4);
        put(value(word[3]), 2);
        put_bytes(word[2]);
    } else if (words == 4 && strcmp(call, "last") == 0) {
        put(LAST, 1);
        put(value(word[1]), 4);
        put(0, 2);
        put(value(word[2]), 1);
        put_bytes(word[3]);
    } else if (words == 4 && strcmp(call, "last-state") == 0) {
        size_t len = strcmp(word[1], "-") == 0 ? 0 : strlen(word[1]) / 2;
        put(LAST_ON, 1);
        put(len < BOE_STATE_BYTES ? (unsigned)(192 + len * 64 / BOE_STATE_BYTES) : 0, 1);
        put(value(word[2]), 1);
        size_t from = input_len;
        put_bytes(word[1]);
        for (input_len = from + BOE_STATE_BYTES; len < BOE_STATE_BYTES; len++) input[from + len] = 0;
        put_bytes(word[3]);
    } else {
        return 0;
    }
    return input_len <= MOST_INPUT;
}

/* The input of an append, a close or a question for a unit's last message on the state that a restart from its book leaves: 0 where restart
 * refuses. */
static int input_on(char **word, int words) {
    static uint8_t book[sizeof input];
    static struct boe_state state;
    int last = strcmp(word[0], "last") == 0;
    input_len = 0;
    size_t n = put_bytes(word[last ? 3 : 2]);
    memcpy(book, input, n);
    if (boe_restart(value(word[1]), book, n, &state, sizeof state) != 0) return 0;
    input_len = 0;
    put(last ? LAST_ON : words == 5 ? APPEND_ON : CLOSE_ON, 1);
    put(0, 1);
    if (last) put(value(word[2]), 1);
    else put((unsigned)n + value(word[3]), 2);
    memcpy(input + input_len, state.bytes, sizeof state);
    input_len += sizeof state;
    if (last) put_bytes(word[3]);
    else if (words == 5) put_bytes(word[4]);
    return input_len <= MOST_INPUT;
}

static void write_input(const char *folder, unsigned long line, const char *form) {
    char path[4096];
    snprintf(path, sizeof path, "%s/%lu%s", folder, line, form);
    FILE *to = file(path, "wb");
    fwrite(input, 1, input_len, to);
    if (fclose(to) != 0) fail(path);
}

/* The type of a message or record in hex, or -- for one that no direction has. */
static void type_of(const char *hex, size_t at, char *type) {
    static const char known[] = "03 08 09 13 24 25 26 29 2B 2C 37 38 39 3A 47 B8";
    memcpy(type, "--", 3);
    if (strlen(hex) < at + 2) return;
    memcpy(type, hex + at, 2);
    if (!strstr(known, type)) memcpy(type, "--", 3);
}

/* What a seed is for: the call, a reading's or writing's direction and type, and the refusals. */
static void kind_of(char **word, const char *answer, char *kind, size_t room) {
    int refusal = 0, then = 0, reading = strcmp(word[0], "read") == 0;
    char type[3] = "";
    sscanf(answer, "%d %d", &refusal, &then);
    if (reading || strcmp(word[0], "write") == 0) {
        type_of(word[2], reading ? 8 : 0, type);
        snprintf(kind, room, "%s %s %s %d", word[0], strlen(word[1]) == 1 && word[1][0] < '3' ? word[1] : "-", type, refusal);
    } else {
        snprintf(kind, room, "%.20s %d %d", word[0], refusal, strcmp(word[0], "append") == 0 || strcmp(word[0], "last") == 0 ? then : 0);
    }
}

unsigned long question_seeds(const char *questions, const char *answers, const char *folder, unsigned long *known_kinds) {
    static char line[MOST_LINE], answer[MOST_LINE];
    static struct { char of[64]; int made; } kinds[4096];
    FILE *from = file(questions, "r"), *beside = file(answers, "r");
    unsigned long at = 0, made = 0, known = 0;
    while (fgets(line, sizeof line, from) && fgets(answer, sizeof answer, beside)) {
        char *word[MOST_WORDS], kind[64];
        int words = words_of(line, word);
        at++;
        if (words == 0 || answer[0] == '?' || !input_of(word, words)) continue;
        kind_of(word, answer, kind, sizeof kind);
        size_t i = 0;
        while (i < known && strcmp(kinds[i].of, kind) != 0) i++;
        if (i == known) {
            if (known == sizeof kinds / sizeof kinds[0]) continue;
            strcpy(kinds[known++].of, kind);
        }
        if (kinds[i].made == EACH) continue;
        kinds[i].made++;
        made++;
        write_input(folder, at, "");
        if ((strcmp(word[0], "append") == 0 || strcmp(word[0], "close") == 0 || strcmp(word[0], "last") == 0) && input_on(word, words)) {
            made++;
            write_input(folder, at, "-on");
        }
    }
    *known_kinds = known;
    return made;
}

/* ---- seeds of stored scripts */

enum { SCRIPT_BYTES = 1800 }; /* the most of a seed */

/* The head of a step; how many bytes it is given is put when they are known. */
static void put_head(enum step_kind kind, unsigned how, const char *room) {
    put(kind, 1);
    put(how, 1);
    put(value(room), 2);
    put(0, 2);
}

/* The words of a state's line, as bytes at their places. */
static void put_state(char **word, const struct part *parts, size_t len) {
    size_t from = input_len;
    for (int i = 0; i < PARTS; i++) {
        input_len = from + parts[i].at;
        if (parts[i].len < BOE_TABLE_BYTES) put(value(word[1 + i]), parts[i].len);
        else put_bytes(word[1 + i]);
    }
    input_len = from + len;
}

/* The words of a login's line, as its 87 bytes. */
static void put_login(char **word) {
    put_bytes(word[5]);
    for (int i = 6; i <= 9; i += 3) {
        put(value(word[i]), 1);
        put(value(word[i + 1]), 1);
        put_bytes(word[i + 2]);
    }
    for (int i = 1; i <= 3; i++) put(value(word[i]), 1);
    put_bytes(word[4]);
}

/* What a side sent last in a script: the output of its last call that was not refused. */
static char member_sent[MOST_LINE], venue_sent[MOST_LINE];

/* A message's step: where the other side has sent it, it is not given again; where it was taken, it has the number that comes next. */
static void put_message(enum step_kind kind, unsigned how, const char *room, const char *message, const char *sent, int taken) {
    size_t n = strlen(message);
    int as_sent = n > 1 && strncmp(message, sent, n) == 0;
    put_head(kind, how | (as_sent ? AS_SENT : 0) | (taken ? MENDED : 0), room);
    if (!as_sent) put_bytes(message);
}

/* The step of a member's line; 0 where there is none. */
static int member_step(char **word, int words, int taken) {
    const char *call = word[0] + 2;
    if (words == 4 && (strcmp(call, "open") == 0 || strcmp(call, "restart") == 0)) {
        int restart = call[0] == 'r';
        put_head(restart ? M_RESTART : M_OPEN, value(word[3]) | (restart && taken ? MENDED | AS_SENT : 0), word[2]);
        put(value(word[1]), 4);
    } else if (words == 13 && strcmp(call, "login") == 0) {
        put_head(M_LOGIN, 0, word[12]);
        put_login(word);
    } else if (words == 3 && (strcmp(call, "get") == 0 || strcmp(call, "message") == 0 || strcmp(call, "response") == 0)) {
        put_message(M_GET, 0, word[2], word[1], venue_sent, taken);
    } else if (words == 3 && strcmp(call, "order") == 0) {
        put_head(M_ORDER, 0, word[2]);
        put_bytes(word[1]);
    } else if (words == 2 && (strcmp(call, "beat") == 0 || strcmp(call, "break") == 0)) {
        put_head(call[1] == 'e' ? M_BEAT : M_BREAK, 0, word[1]);
    } else if (words == 10 && strcmp(call, "state") == 0) {
        put_head(M_STATE, 0, "0");
        put_state(word, member_parts, BOE_SESSION_BYTES);
    } else if (words == 3 && strcmp(call, "last") == 0) {
        put_head(M_LAST, 0, word[2]);
        put(value(word[1]), 1);
    } else {
        return 0;
    }
    return 1;
}

/* The step of a venue's line; 0 where there is none. */
static int venue_step(char **word, int words, int taken) {
    const char *call = word[0] + 2;
    if (words == 3 && strcmp(call, "log") == 0) {
        put_message(V_LOG, 0, word[2], word[1], "", taken);
    } else if (words == 3 && strcmp(call, "login") == 0) {
        put_message(V_LOGIN, 0, word[2], word[1], member_sent, taken);
    } else if (words == 3 && strcmp(call, "step") == 0) {
        put_head(V_STEP, 0, word[2]);
        put(value(word[1]), 2);
    } else if (words == 3 && strcmp(call, "order") == 0) {
        put_message(V_ORDER, value(word[1]), "0", word[2], member_sent, taken);
    } else if (words == 1 && strcmp(call, "break") == 0) {
        put_head(V_BREAK, 0, "0");
    } else if (words == 10 && strcmp(call, "state") == 0) {
        put_head(V_STATE, 0, "0");
        put_state(word, venue_parts, BOE_VENUE_BYTES);
    } else {
        return 0;
    }
    return 1;
}

/* The step of a line, in the input; 0 where there is none. */
static int step_of(char **word, int words, const char *answer) {
    int member = word[0][0] == 'm', taken = strncmp(answer, "0 ", 2) == 0;
    input_len = 0;
    if (strlen(word[0]) < 3 || word[0][1] != '-' || !(member ? member_step : venue_step)(word, words, taken)) return 0;
    size_t given = input_len - STEP_BYTES;
    input[4] = (uint8_t)given;
    input[5] = (uint8_t)(given / 256);
    const char *output = strrchr(answer, ' ');
    if (taken && strncmp(output, " BABA", 5) == 0) strcpy(member ? member_sent : venue_sent, output + 1);
    return input_len <= SCRIPT_BYTES;
}

/* A step of all the scripts, and whether a seed starts with it. */
static struct { uint8_t *bytes; size_t len; int starts; } step_at[1 << 15];
static unsigned long steps;

static void keep_step(int starts) {
    if (steps == sizeof step_at / sizeof step_at[0]) return;
    if (!(step_at[steps].bytes = malloc(input_len))) fail("malloc");
    memcpy(step_at[steps].bytes, input, input_len);
    step_at[steps].len = input_len;
    step_at[steps++].starts = starts;
}

/* A seed starts where a member is opened or a state is set, unless the line before has done so, and goes on as long as it may. */
static unsigned long write_scripts(const char *folder) {
    unsigned long made = 0;
    for (unsigned long from = 0; from < steps; from++) {
        if (!step_at[from].starts || (from > 0 && step_at[from - 1].starts)) continue;
        input_len = 0;
        put(STEPS, 1);
        for (unsigned long i = from; i < steps && i < from + MOST_STEPS && input_len + step_at[i].len <= SCRIPT_BYTES; i++) {
            memcpy(input + input_len, step_at[i].bytes, step_at[i].len);
            input_len += step_at[i].len;
        }
        write_input(folder, from, "-steps");
        made++;
    }
    return made;
}

unsigned long script_seeds(const char *scripts, const char *answers, const char *folder) {
    static char line[MOST_LINE], answer[MOST_LINE];
    FILE *from = file(scripts, "r"), *beside = file(answers, "r");
    while (fgets(line, sizeof line, from) && fgets(answer, sizeof answer, beside)) {
        char *word[MOST_WORDS];
        int words = words_of(line, word);
        answer[strcspn(answer, "\n")] = 0;
        if (words > 0 && answer[0] != '?' && step_of(word, words, answer)) keep_step(input[0] == M_OPEN || input[0] == M_STATE || input[0] == V_STATE);
    }
    return write_scripts(folder);
}
