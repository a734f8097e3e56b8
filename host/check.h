/*
 * check.h: what the tests of the entries share. Checks that are counted; guard bytes round what is lent;
 * blocks of the very length, where a memory checker sees a step outside; the stored streams, and a record
 * of every kind out of them; noise.
 */
#ifndef CHECK_H
#define CHECK_H

#include <stdio.h>
#include <stdlib.h>
#include <string.h>

#include "plan.h"

enum { GUARD = 64, BYTES = 256, SHOWN = 20 };

static unsigned long checks, failures;

/* Says a failure, where few have been said. */
static void check(int good, const char *what, size_t at) {
    checks++;
    if (good || failures++ >= SHOWN)
        return;
    printf("failed: %s (at %zu)\n", what, at);
}

/* The last line, and the status. */
static int end(void) {
    printf("%lu checks, %lu failed\n", checks, failures);
    return failures != 0;
}

static void give_up(const char *what, const char *why) {
    fprintf(stderr, "test: %s: %s\n", what, why);
    exit(2);
}

/* ---- what is lent */

static int all(const uint8_t *bytes, size_t count, uint8_t fill) {
    return count == 0 || (bytes[0] == fill && memcmp(bytes, bytes + 1, count - 1) == 0);
}

/* A block of `size` bytes between guards begins with the `count` bytes of `front`, and the rest is as it was lent. */
static int holds(const uint8_t *block, size_t size, uint8_t fill, const uint8_t *front, size_t count) {
    return all(block, GUARD, fill) && memcmp(block + GUARD, front, count) == 0 &&
           all(block + GUARD + count, size - count + GUARD, fill);
}

/* A copy in a block of the very length. */
static uint8_t *block(const uint8_t *bytes, size_t count) {
    uint8_t *copy = malloc(count);
    if (copy == NULL && count > 0)
        give_up("a block", "no memory");
    if (bytes != NULL && count > 0)
        memcpy(copy, bytes, count);
    return copy;
}

/* ---- the stored streams */

/* The requests, the answers but for the closing bytes, and the stop code. */
struct stored {
    uint8_t requests[MOST], answers[MOST];
    size_t length, written;
    uint64_t code;
};

static size_t load(const char *name, uint8_t *to) {
    FILE *file = fopen(name, "rb");
    if (file == NULL) {
        perror(name);
        exit(2);
    }
    size_t count = fread(to, 1, MOST, file);
    if (ferror(file))
        give_up(name, "cannot be read");
    if (count == MOST && fgetc(file) != EOF)
        give_up(name, "longer than the test takes");
    fclose(file);
    return count;
}

/* The answers close with byte 255 and the stop code. */
static const struct stored *stored(const char *requests, const char *answers) {
    static struct stored s;
    s.length = load(requests, s.requests);
    size_t count = load(answers, s.answers);
    if (count < 2 || s.answers[count - 2] != 255)
        give_up(answers, "no closing bytes");
    s.written = count - 2;
    s.code = s.answers[count - 1];
    return &s;
}

/* ---- one record of each kind, as the streams have them */

struct sample {
    uint8_t bytes[RVT_LONGEST_REQUEST * KIND_COUNT];
    size_t count, kinds;
    int has[BYTES];
};

static void take_samples(struct sample *s, const uint8_t *requests, const struct plan *p) {
    for (size_t n = 0; n < p->records; n++) {
        size_t at = p->read[n], size = p->read[n + 1] - at;
        if (s->has[requests[at]]++ > 0)
            continue;
        memcpy(s->bytes + s->count, requests + at, size);
        s->count += size;
        s->kinds++;
    }
}

/* ---- noise */

static void noise_bytes(uint8_t *bytes, size_t count, uint64_t *seed) {
    for (size_t at = 0; at < count; at++) {
        *seed = *seed * 6364136223846793005u + 1442695040888963407u;
        bytes[at] = (uint8_t)(*seed >> 56);
    }
}

/* Most of it with records of known kinds at the front. */
static void noise_records(uint8_t *bytes, size_t count, uint64_t *seed) {
    noise_bytes(bytes, count, seed);
    for (size_t at = 0; at < count && bytes[at] % 8 != 0;) {
        const struct kind *k = &KINDS[bytes[at] % KIND_COUNT];
        bytes[at] = k->number;
        at += 1 + k->body;
    }
}

#endif
