/* The coverage-guided run: libFuzzer makes the inputs, and the second program is asked in the same process. See README.md. */
#include "fuzz.h"
#include <stdio.h>
#include <stdlib.h>
#include <string.h>

size_t second_answers(const uint8_t *questions, size_t len, uint8_t *out, size_t room); /* answers/src/lib.rs */
size_t LLVMFuzzerMutate(uint8_t *data, size_t size, size_t most);                       /* libFuzzer's own */
int LLVMFuzzerTestOneInput(const uint8_t *data, size_t size);
size_t LLVMFuzzerCustomMutator(uint8_t *data, size_t size, size_t most, unsigned seed);

void compare(const char *questions, const char *proved) {
    static char answers[1 << 17];
    size_t len = second_answers((const uint8_t *)questions, strlen(questions), (uint8_t *)answers, sizeof answers);
    if (len == strlen(proved) && memcmp(answers, proved, len) == 0) return;
    fprintf(stderr, "fuzz: DIFFERENT\nquestion:\n%ssecond:\n%.*sproved:\n%s", questions, (int)(len < sizeof answers ? len : 0), answers, proved);
    abort();
}

int LLVMFuzzerTestOneInput(const uint8_t *data, size_t size) {
    try_input(data, size);
    return 0;
}

/* libFuzzer's own changes, or one time in four a step put in; and one time in three what they seldom get right is put right after them. */
size_t LLVMFuzzerCustomMutator(uint8_t *data, size_t size, size_t most, unsigned seed) {
    random_state = seed;
    size_t with_step = below(4) == 0 ? put_step_in(data, size, most) : size;
    size = with_step == size ? LLVMFuzzerMutate(data, size, most) : with_step;
    if (seed % 3 == 0) mend(data, size);
    return size;
}
