/*
 * requests SEED COUNT: writes COUNT requests of each kind of kinds.txt, the kinds by turns, to standard output. Half of the
 * arguments are any bit pattern. The others are of a size from 2^-40 up to 2^10, where the regions of the functions are, and
 * half of these have few digits, so that whole numbers and halves are among them.
 */
#include <stdint.h>
#include <stdio.h>
#include <stdlib.h>

struct kind {
    uint8_t number;
    size_t body;
};

static const struct kind KINDS[] = {
#define KIND(number, name, body, values, tail) {number, body},
#include "kinds.h"
#undef KIND
};

enum { KIND_COUNT = sizeof KINDS / sizeof KINDS[0] };

static uint64_t state;

static uint64_t next(void) { /* splitmix64 */
    uint64_t z = state += 0x9e3779b97f4a7c15u;
    z = (z ^ z >> 30) * 0xbf58476d1ce4e5b9u;
    z = (z ^ z >> 27) * 0x94d049bb133111ebu;
    return z ^ z >> 31;
}

/* A pattern of a format by the digits of its mantissa and its exponent's bias. */
static uint64_t pattern(unsigned digits, unsigned bias) {
    uint64_t any = next(), how = next();
    if (how % 2 == 0)
        return any;
    uint64_t mantissa = any & (((uint64_t)1 << digits) - 1), exponent = bias - 40 + (how >> 8) % 50, sign = any >> 63;
    if (how % 4 == 1)
        mantissa &= ~(((uint64_t)1 << (digits - (how >> 32) % 12)) - 1);
    return sign << (digits == 52 ? 63 : 31) | exponent << digits | mantissa;
}

int main(int count, char **words) {
    if (count != 3) {
        fprintf(stderr, "usage: requests SEED COUNT\n");
        return 2;
    }
    state = strtoull(words[1], NULL, 10);
    unsigned long long rounds = strtoull(words[2], NULL, 10);
    for (unsigned long long i = 0; i < rounds; i++)
        for (size_t k = 0; k < KIND_COUNT; k++) {
            uint64_t x = KINDS[k].body == 8 ? pattern(52, 1023) : pattern(23, 127);
            putchar(KINDS[k].number);
            for (size_t j = 0; j < KINDS[k].body; j++)
                putchar((int)(x >> 8 * j & 255));
        }
    return fflush(stdout) != 0 || ferror(stdout);
}
