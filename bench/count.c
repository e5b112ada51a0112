/* It counts itself: with the processor's trap flag set, each instruction ends in a SIGTRAP, and the handler counts. The flag works the same
 * on an x86-64 processor and under an emulator of one. */
#include "count.h"

static long syscall4(long number, long a, long b, long c, long d) {
    long answer;
    register long fourth __asm__("r10") = d;
    __asm__ volatile("syscall" : "=a"(answer) : "a"(number), "D"(a), "S"(b), "d"(c), "r"(fourth) : "rcx", "r11", "memory");
    return answer;
}

void end(int status) {
    for (;;)
        syscall4(231, status, 0, 0, 0);
}

void say(int file, const char *text) {
    size_t n = 0;
    while (text[n] != 0)
        n++;
    syscall4(1, file, (long)text, (long)n, 0);
}

void say_number(int file, uint64_t number) {
    char digits[24];
    size_t at = sizeof digits - 1;
    digits[at] = 0;
    do {
        digits[--at] = (char)('0' + number % 10);
        number /= 10;
    } while (number != 0);
    say(file, digits + at);
}

uint64_t nanoseconds(void) {
    struct {
        uint64_t seconds, nanoseconds;
    } now;
    if (syscall4(228, 1, (long)&now, 0, 0) != 0) {
        say(2, "bench: no clock\n");
        end(1);
    }
    return 1000000000 * now.seconds + now.nanoseconds;
}

/* Makes a call with the trap flag set. `nothing` is a call that returns at once. */
uint32_t stepped(counted *function, const union words *arguments);
counted nothing;
void back_from_signal(void);

__asm__(".text\n"
        ".globl _start, stepped, nothing, back_from_signal\n"
        "_start:\n"
        "    mov %rsp, %rdi\n"
        "    and $-16, %rsp\n"
        "    call begin\n"
        "nothing:\n"
        "    ret\n"
        "back_from_signal:\n"
        "    mov $15, %eax\n"
        "    syscall\n"
        "stepped:\n"
        "    push %rbx\n"
        "    mov %rdi, %rax\n"
        "    mov %rsi, %rbx\n"
        "    sub $8, %rsp\n"
        "    push 48(%rbx)\n" /* the seventh argument stands on the stack */
        "    pushfq\n"
        "    orq $0x100, (%rsp)\n"
        "    popfq\n"
        "    mov (%rbx), %rdi\n"
        "    mov 8(%rbx), %rsi\n"
        "    mov 16(%rbx), %rdx\n"
        "    mov 24(%rbx), %rcx\n"
        "    mov 32(%rbx), %r8\n"
        "    mov 40(%rbx), %r9\n"
        "    call *%rax\n"
        "    pushfq\n"
        "    andq $~0x100, (%rsp)\n"
        "    popfq\n"
        "    add $16, %rsp\n"
        "    pop %rbx\n"
        "    ret\n");

static volatile uint64_t steps;

static void trapped(int signal) {
    (void)signal;
    steps++;
}

void count_traps(void) {
    static struct {
        void (*handler)(int);
        unsigned long flags;
        void (*restorer)(void);
        unsigned long mask;
    } action = {trapped, 0x04000000, back_from_signal, 0};
    if (syscall4(13, 5, (long)&action, 0, 8) != 0) {
        say(2, "bench: no handler for SIGTRAP\n");
        end(1);
    }
}

static uint64_t steps_of(counted *function, const union words *arguments, uint32_t *refusal) {
    steps = 0;
    *refusal = stepped(function, arguments);
    return steps;
}

uint64_t count(counted *function, const union words *arguments, size_t how_many, uint32_t *refusal) {
    uint32_t none;
    uint64_t least = steps_of(nothing, arguments, &none); /* six arguments, the call and the return, and the flag's own */
    uint64_t all = steps_of(function, arguments, refusal);
    if (least < 8 || all <= least) {
        say(2, "bench: the trap flag counts nothing here\n");
        end(1);
    }
    return all - least + how_many + 2;
}
