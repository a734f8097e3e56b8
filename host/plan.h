/*
 * plan.h: what a batch has to do on some requests, at any room, over the table of kinds (kinds.h, made
 * from kinds.txt). Values and signs are those of the functions' own entries.
 */
#ifndef PLAN_H
#define PLAN_H

#include <stddef.h>
#include <stdint.h>

#include "raveltrellis.h"

/* The most bytes of requests, and the most records in them. */
enum { MOST = 1 << 17, RECORDS = MOST / 5 };

/* ---- the kinds, and each function by the entry of its name */

struct kind {
    uint8_t number;
    size_t body, values, tail;
};

static const struct kind KINDS[] = {
#define KIND(number, name, body, values, tail) {number, body, values, tail},
#include "kinds.h"
#undef KIND
};

enum { KIND_COUNT = sizeof KINDS / sizeof KINDS[0] };

static const struct kind *kind_of(uint8_t number) {
    for (size_t i = 0; i < KIND_COUNT; i++)
        if (KINDS[i].number == number)
            return &KINDS[i];
    return NULL;
}

/* An argument by the bytes of the body; a value's entry and a sign by the bytes of the tail, which is
 * the sign where there is one; and the bytes of the values: one, or a pair, which its entry writes. */
#define ARGUMENT_8(x) (x)
#define ARGUMENT_4(x) ((uint32_t)(x))
#define VALUE_0(name) rvt_##name
#define VALUE_1(name) rvt_##name##_value
#define SIGN_0(name, x) 0
#define SIGN_1(name, x) rvt_##name##_sign(x)
#define VALUES_4(to, name, tail, x) put(to, 4, VALUE_##tail(name)(x))
#define VALUES_8(to, name, tail, x) put(to, 8, VALUE_##tail(name)(x))
#define VALUES_16(to, name, tail, x) rvt_##name(x, to, RVT_PAIR_BYTES)

static uint64_t get(const uint8_t *bytes, size_t width) {
    uint64_t x = 0;
    while (width-- > 0)
        x = x << 8 | bytes[width];
    return x;
}

static void put(uint8_t *bytes, size_t width, uint64_t x) {
    for (size_t i = 0; i < width; i++)
        bytes[i] = (uint8_t)(x >> 8 * i);
}

static void put_values(uint8_t *to, uint8_t kind, uint64_t x) {
    switch (kind) {
#define KIND(number, name, body, values, tail) \
    case number: VALUES_##values(to, name, tail, ARGUMENT_##body(x)); break;
#include "kinds.h"
#undef KIND
    }
}

static int sign(uint8_t kind, uint64_t x) {
    switch (kind) {
#define KIND(number, name, body, values, tail) \
    case number: return SIGN_##tail(name, ARGUMENT_##body(x));
#include "kinds.h"
#undef KIND
    default: return 0;
    }
}

/* 1 for plus and 255 for minus; 0, which no answer has, for a number that is no sign. */
static uint8_t sign_byte(int s) { return s == 1 ? 1 : s == -1 ? 255 : 0; }

/* Writes the answer to a whole record, and gives its length. */
static size_t answer(uint8_t *to, const uint8_t *record) {
    const struct kind *k = kind_of(record[0]);
    uint64_t x = get(record + 1, k->body);
    to[0] = (uint8_t)(k->number + 128);
    put_values(to + 1, k->number, x);
    if (k->tail > 0)
        to[1 + k->values] = sign_byte(sign(k->number, x));
    return 1 + k->values + k->tail;
}

/* ---- the plan: what a batch does on some requests, at any room */

/* The code where there is room for all; the answers; and, for each count of records, the bytes read
 * and written by then. */
struct plan {
    uint64_t code;
    size_t records, read[RECORDS + 1], written[RECORDS + 1];
    uint8_t answers[2 * MOST];
};

/* What can stop a batch at the bytes that are left. Before a whole record that is the room alone. */
static uint64_t stop(const uint8_t *requests, size_t left) {
    if (left == 0)
        return RVT_DONE;
    const struct kind *k = kind_of(requests[0]);
    if (k == NULL)
        return RVT_UNKNOWN;
    return left < 1 + k->body ? RVT_CUT : RVT_FULL;
}

static const struct plan *plan(const uint8_t *requests, size_t length) {
    static struct plan p;
    size_t read = 0, written = 0, n = 0;
    p.read[0] = p.written[0] = 0;
    while ((p.code = stop(requests + read, length - read)) == RVT_FULL) {
        written += answer(p.answers + written, requests + read);
        read += 1 + kind_of(requests[read])->body;
        n++;
        p.read[n] = read;
        p.written[n] = written;
    }
    p.records = n;
    return &p;
}

/* The four numbers of a batch: code, records, bytes read, bytes written. */
enum { CODE, DONE, READ, WRITTEN, NUMBERS };

struct did {
    uint64_t number[NUMBERS];
};

static struct did at_room(const struct plan *p, size_t room) {
    size_t n = 0;
    while (n < p->records && p->written[n + 1] <= room)
        n++;
    struct did d = {{n < p->records ? RVT_FULL : p->code, n, p->read[n], p->written[n]}};
    return d;
}

#endif
