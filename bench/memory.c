/* memcpy and its kin for both sides, as a C library has them for any x86-64 processor: up to 32 bytes by two moves that may
 * overlap, above that 16 bytes a step. With them the counts do not hang on what a C library picks for the processor at hand. */
#include <stddef.h>
#include <stdint.h>

typedef uint16_t two __attribute__((aligned(1), may_alias));
typedef uint32_t four __attribute__((aligned(1), may_alias));
typedef uint64_t eight __attribute__((aligned(1), may_alias));
typedef uint64_t sixteen __attribute__((vector_size(16), aligned(1), may_alias));

void *memmove(void *to, const void *from, size_t n) {
    uint8_t *t = to;
    const uint8_t *f = from;
    if (n > 32) {
        sixteen first = *(const sixteen *)f, last = *(const sixteen *)(f + n - 16);
        if ((size_t)(t - f) >= n) {
            for (size_t i = 16; i < n - 16; i += 16)
                *(sixteen *)(t + i) = *(const sixteen *)(f + i);
        } else {
            for (size_t i = n - 16; i > 16; i -= 16)
                *(sixteen *)(t + i - 16) = *(const sixteen *)(f + i - 16);
        }
        *(sixteen *)t = first;
        *(sixteen *)(t + n - 16) = last;
    } else if (n >= 16) {
        sixteen first = *(const sixteen *)f, last = *(const sixteen *)(f + n - 16);
        *(sixteen *)t = first;
        *(sixteen *)(t + n - 16) = last;
    } else if (n >= 8) {
        eight first = *(const eight *)f, last = *(const eight *)(f + n - 8);
        *(eight *)t = first;
        *(eight *)(t + n - 8) = last;
    } else if (n >= 4) {
        four first = *(const four *)f, last = *(const four *)(f + n - 4);
        *(four *)t = first;
        *(four *)(t + n - 4) = last;
    } else if (n >= 2) {
        two first = *(const two *)f, last = *(const two *)(f + n - 2);
        *(two *)t = first;
        *(two *)(t + n - 2) = last;
    } else if (n == 1) {
        *t = *f;
    }
    return to;
}

void *memcpy(void *to, const void *from, size_t n) __attribute__((alias("memmove")));

void *memset(void *to, int byte, size_t n) {
    uint8_t *t = to;
    uint64_t all = 0x0101010101010101u * (uint8_t)byte;
    if (n >= 16) {
        sixteen fill = {all, all};
        for (size_t i = 0; i < n - 16; i += 16)
            *(sixteen *)(t + i) = fill;
        *(sixteen *)(t + n - 16) = fill;
    } else if (n >= 8) {
        *(eight *)t = all;
        *(eight *)(t + n - 8) = all;
    } else if (n >= 4) {
        *(four *)t = (uint32_t)all;
        *(four *)(t + n - 4) = (uint32_t)all;
    } else if (n >= 2) {
        *(two *)t = (uint16_t)all;
        *(two *)(t + n - 2) = (uint16_t)all;
    } else if (n == 1) {
        *t = (uint8_t)byte;
    }
    return to;
}

int memcmp(const void *one, const void *other, size_t n) {
    const uint8_t *o = one, *p = other;
    size_t i = 0;
    while (i + 8 <= n && *(const eight *)(o + i) == *(const eight *)(p + i))
        i += 8;
    for (; i < n; i++)
        if (o[i] != p[i])
            return o[i] - p[i];
    return 0;
}

int bcmp(const void *one, const void *other, size_t n) __attribute__((alias("memcmp")));
