/*
 * driver.c: the port beside crate libm, glibc and musl on the same arguments, its feed beside its batch on the same records,
 * and its records of erf, of erfc and of both beside each other on the same arguments, for bench/run.
 *
 *     driver names                        what can be timed: lines WHAT LIBRARY LIBRARY.., those that are compared
 *     driver same SEED                    a pass of each, whose answers are compared
 *     driver times SEED                   times all of it: lines WHAT LIBRARY NANOSECONDS-A-CALL
 *     driver passes WHAT LIBRARY COUNT    so many passes of one library, for a counter of instructions
 *
 * A pass is 4,000 arguments spread evenly over the function's regions, of both signs, shuffled. The libraries take turns,
 * and the best of REPEATS passes counts. After each turn every answer of the port is held to the Rust's, of the feed to
 * the batch's, and of both error functions to those of erf and of erfc: where one differs, the function and the argument are
 * said and the status is 1. musl's functions are those of its libc.a with the prefix musl_, where HAVE_MUSL is set; the entries of an
 * earlier port have the prefix earlier_, where HAVE_EARLIER is set, and its answers are held to the port's. The feed is timed
 * where HAVE_FEED is set, records of both error functions where HAVE_BOTH is; tgammaf and erf_erfc where WITHOUT_tgammaf and
 * WITHOUT_erf_erfc are not. kinds.h is made from kinds.txt, and a function finds its kind there by its name.
 */
#define _GNU_SOURCE
#include "raveltrellis.h"
#include <inttypes.h>
#include <math.h>
#include <stdio.h>
#include <stdlib.h>
#include <string.h>
#include <time.h>
#include <unistd.h>

enum { COUNT = 4000, REPEATS = 300, PORT = 0, RUST = 1, EARLIER = 2, LIBRARIES = 5, LONGEST = 32, SHOWN = 20, ALL = -1 };

#include "functions.h"

/* ---- arguments */

static uint64_t state;

static uint64_t next(void) { /* splitmix64 */
    uint64_t z = state += 0x9e3779b97f4a7c15;
    z = (z ^ z >> 30) * 0xbf58476d1ce4e5b9;
    z = (z ^ z >> 27) * 0x94d049bb133111eb;
    return z ^ z >> 31;
}

/* The bits of an argument of a region, or of a random one for ALL: a pattern within it, then a sign. */
static uint64_t argument(const struct function *f, int region) {
    if (region == ALL) region = (int)(next() % (uint64_t)f->regions->count);
    uint64_t from = bits_of(f->regions->at[region]), upto = bits_of(f->regions->at[region + 1]);
    double x = f64_of(from + next() % (upto - from));
    if (next() % 2) x = -x;
    return f->f32[PORT] ? bits_of_f32((float)x) : bits_of(x);
}

/* What one pass works on: arguments, or the requests of COUNT records. */
static uint64_t arguments[COUNT];
static uint8_t requests[LONGEST * COUNT];
static size_t requests_length;

static void make_arguments(const struct function *f) {
    for (int i = 0; i < COUNT; i++) arguments[i] = argument(f, ALL);
}

/* A record behind the requests. */
static void ask(const struct function *f, uint64_t bits) {
    const struct kind *k = kind_named(f->name);
    requests[requests_length++] = (uint8_t)k->number;
    for (size_t j = 0; j < k->body; j++) requests[requests_length++] = (uint8_t)(bits >> 8 * j);
}

/* Requests of erf, or of every function by turns. */
static void make_requests(int of_erf) {
    const struct function *only = of_erf ? function_named("erf") : NULL;
    requests_length = 0;
    for (int i = 0; i < COUNT; i++) {
        const struct function *f = only ? only : &FUNCTIONS[next() % FUNCTION_COUNT];
        ask(f, argument(f, ALL));
    }
}

/* ---- a pass */

static uint64_t values[LIBRARIES][2 * COUNT];
static uint8_t answers[SIDES][LONGEST * COUNT];

static void functions_pass(const struct function *f, int library) {
    uint64_t (*wide)(uint64_t) = f->f64[library], *to = values[library];
    uint32_t (*narrow)(uint32_t) = f->f32[library];
    void (*both)(uint64_t, uint64_t *) = f->both[library];
    if (wide)
        for (int i = 0; i < COUNT; i++) to[i] = wide(arguments[i]);
    else if (both)
        for (int i = 0; i < COUNT; i++) both(arguments[i], to + 2 * i);
    else
        for (int i = 0; i < COUNT; i++) to[i] = narrow((uint32_t)arguments[i]);
}

/* Those that answer the same records: the port's batch, the Rust and the earlier port's batch; or, in pieces of so many bytes, the
 * port's feed and its batch. */
struct pair {
    const char *name;
    int of_erf;
    size_t piece;
};

static const char *const FEED[2] = {"feed", "batch"};
static const char *const *sides(const struct pair *p) { return p->piece ? FEED : LIBRARY; }
static int side_count(const struct pair *p) { return p->piece ? 2 : SIDES; }

#ifdef HAVE_FEED
#define FEEDS(of, of_erf) {of "feed_4k", of_erf, 4096}, {of "feed_9", of_erf, 9}, {of "feed_1", of_erf, 1},

/* The feed, with room for all. */
static uint64_t feed_pass(size_t piece, uint8_t *to) {
    uint8_t feed[RVT_FEED_BYTES] = {0}, *end = to + sizeof answers[0];
    for (size_t at = 0; at < requests_length; at += piece) {
        size_t rest = requests_length - at;
        uint64_t code = rvt_feed_push(feed, sizeof feed, requests + at, rest < piece ? rest : piece, to, (size_t)(end - to));
        if (code != RVT_DONE) return code;
        to += rvt_number(feed + 24);
    }
    return rvt_feed_close(feed, sizeof feed);
}
#else
#define FEEDS(of, of_erf)
#define feed_pass(piece, to) RVT_DONE
#endif

/* A feed stands behind the batch whose records it takes. */
static const struct pair PAIRS[] = {{"batch", 0, 0}, FEEDS("", 0) {"erf_records", 1, 0}, FEEDS("erf_", 1)};

enum { PAIR_COUNT = sizeof PAIRS / sizeof PAIRS[0] };

static const struct pair *pair_named(const char *name) {
    for (const struct pair *p = PAIRS; p < PAIRS + PAIR_COUNT; p++)
        if (strcmp(p->name, name) == 0) return p;
    fprintf(stderr, "driver: there is no %s\n", name);
    exit(2);
}

/* The feed; the port's batch, or the earlier port's; the Rust's batch, or its loop where the records are erf's alone. */
static void records_pass(const struct pair *p, int side) {
    uint8_t *to = answers[side];
    uint64_t code = 0;
    if (p->piece && side == 0)
        code = feed_pass(p->piece, to);
    else if (p->piece || side == PORT)
        code = rvt_batch_code(requests, requests_length, to, sizeof answers[0]);
    else if (side == EARLIER)
        code = earlier_rvt_batch_code(requests, requests_length, to, sizeof answers[0]);
    else if (p->of_erf)
        rust_erf_records(requests, COUNT, to);
    else
        code = rust_batch_code(requests, requests_length, to, sizeof answers[0]);
    if (code == 0) return;
    fprintf(stderr, "driver: %s: the %s stopped with code %d\n", p->name, sides(p)[side], (int)code);
    exit(1);
}

/* ---- answers that differ */

/* Says a difference, where few have been said. */
static void differs(const char *what, const char *name, uint64_t x, const char *by, uint64_t one, const char *other, uint64_t two) {
    static int said;
    if (said++ >= SHOWN) return;
    fprintf(stderr, "bench: %s: %s of 0x%" PRIx64 ": %s 0x%" PRIx64 ", %s 0x%" PRIx64 "\n", what, name, x, by, one, other, two);
}

/* The port's answers are the Rust's, and the earlier port's. */
static void same_values(const struct function *f) {
    const uint64_t *ours = values[PORT];
    int each = f->both[PORT] ? 2 : 1;
    for (int l = RUST; l < SIDES; l++) {
        if (memcmp(ours, values[l], sizeof values[0]) == 0) continue;
        for (int i = 0; i < each * COUNT; i++)
            if (ours[i] != values[l][i]) differs("function", f->name, arguments[i / each], LIBRARY[PORT], ours[i], LIBRARY[l], values[l][i]);
        exit(1);
    }
}

static uint64_t word(const uint8_t *bytes, size_t width) {
    uint64_t x = 0;
    while (width > 0) x = x << 8 | bytes[--width];
    return x;
}

/* The records are told apart by their kinds. What is shown of an answer is its first value, or its second where that alone differs. */
static void same_bytes(const struct pair *p, int side) {
    const char *ours = sides(p)[0], *other = sides(p)[side];
    if (memcmp(answers[0], answers[side], sizeof answers[0]) == 0) return;
    for (size_t read = 0, at = 0; read < requests_length;) {
        const struct kind *k = kind_numbered(requests[read]);
        const uint8_t *one = answers[0] + at, *two = answers[side] + at;
        size_t length = 1 + k->values + k->tail;
        size_t shown = k->values > k->body && memcmp(one, two, 1 + k->body) == 0 ? 1 + k->body : 1;
        if (memcmp(one, two, length) != 0)
            differs(p->name, k->name, word(requests + read + 1, k->body), ours, word(one + shown, k->body), other, word(two + shown, k->body));
        read += 1 + k->body;
        at += length;
    }
    fprintf(stderr, "bench: %s: %s and %s wrote different bytes\n", p->name, ours, other);
    exit(1);
}

static void same_answers(const struct pair *p) {
    for (int side = 1; side < side_count(p); side++) same_bytes(p, side);
}

/* ---- the clock */

static double now(void) {
    struct timespec t;
    clock_gettime(CLOCK_MONOTONIC, &t);
    return t.tv_sec * 1e9 + t.tv_nsec;
}

static void print_times(const char *what, const char *const *library, const double *best, int count) {
    for (int l = 0; l < count; l++)
        if (best[l] < 1e300) printf("%s %s %.2f\n", what, library[l], best[l] / COUNT);
    fflush(stdout);
}

static void time_function(const struct function *f) {
    double best[LIBRARIES] = {1e300, 1e300, 1e300, 1e300, 1e300};
    make_arguments(f);
    for (int n = 0; n < REPEATS; n++) {
        for (int l = 0; l < LIBRARIES; l++) {
            if (!f->f64[l] && !f->f32[l] && !f->both[l]) continue;
            memset(values[l], 0, sizeof values[l]);
            double start = now();
            functions_pass(f, l);
            best[l] = fmin(best[l], now() - start);
        }
        same_values(f);
    }
    print_times(f->name, LIBRARY, best, LIBRARIES);
}

static void time_records(const struct pair *p) {
    double best[LIBRARIES] = {1e300, 1e300, 1e300, 1e300, 1e300};
    if (!p->piece) make_requests(p->of_erf);
    for (int n = 0; n < REPEATS; n++) {
        for (int side = 0; side < side_count(p); side++) {
            memset(answers[side], 0, sizeof answers[side]);
            double start = now();
            records_pass(p, side);
            best[side] = fmin(best[side], now() - start);
        }
        same_answers(p);
    }
    print_times(p->name, sides(p), best, side_count(p));
}

#include "both.h"

/* ---- the commands */

static void print_names(const char *what, const char *const *library, int count) {
    printf("%s", what);
    for (int l = 0; l < count; l++) printf(" %s", library[l]);
    puts("");
}

static int names(void) {
    for (size_t i = 0; i < FUNCTION_COUNT; i++) print_names(FUNCTIONS[i].name, LIBRARY, SIDES);
    for (const struct pair *p = PAIRS; p < PAIRS + PAIR_COUNT; p++) print_names(p->name, sides(p), side_count(p));
#ifdef HAVE_BOTH
    for (const struct sizes *s = SIZES; s < SIZES + SIZE_COUNT; s++) print_names(s->name, BOTH, BOTH_COUNT);
#endif
    for (size_t i = 0; i < KIND_COUNT; i++)
        if (!function_named(KINDS[i].name)) fprintf(stderr, "bench: kind %d, %s, is not timed\n", KINDS[i].number, KINDS[i].name);
    return 0;
}

static void progress(const char *what) {
    if (isatty(2)) fprintf(stderr, "bench: %s\n", what);
}

static int times(uint64_t seed) {
    state = seed;
    for (size_t i = 0; i < FUNCTION_COUNT; i++) {
        progress(FUNCTIONS[i].name);
        time_function(&FUNCTIONS[i]);
    }
    for (const struct pair *p = PAIRS; p < PAIRS + PAIR_COUNT; p++) {
        progress(p->name);
        time_records(p);
    }
#ifdef HAVE_BOTH
    for (const struct sizes *s = SIZES; s < SIZES + SIZE_COUNT; s++) {
        progress(s->name);
        time_both(s);
    }
#endif
    return 0;
}

static int same(uint64_t seed) {
    state = seed;
    for (size_t i = 0; i < FUNCTION_COUNT; i++) {
        make_arguments(&FUNCTIONS[i]);
        for (int l = 0; l < SIDES; l++) functions_pass(&FUNCTIONS[i], l);
        same_values(&FUNCTIONS[i]);
    }
    for (const struct pair *p = PAIRS; p < PAIRS + PAIR_COUNT; p++) {
        if (!p->piece) make_requests(p->of_erf);
        memset(answers, 0, sizeof answers);
        for (int side = 0; side < side_count(p); side++) records_pass(p, side);
        same_answers(p);
    }
#ifdef HAVE_BOTH
    for (const struct sizes *s = SIZES; s < SIZES + SIZE_COUNT; s++) {
        make_both(s);
        for (int side = 0; side < BOTH_COUNT; side++) both_pass(s, side);
        same_both(s);
    }
#endif
    return 0;
}

static int passes(const char *what, const char *library, long count) {
#ifdef HAVE_BOTH
    for (const struct sizes *s = SIZES; s < SIZES + SIZE_COUNT; s++)
        if (strcmp(what, s->name) == 0) return both_passes(s, library, count);
#endif
    const struct function *f = function_named(what);
    const struct pair *p = f ? NULL : pair_named(what);
    const char *const *library_of = p ? sides(p) : LIBRARY;
    int side = 0, sides_of = p ? side_count(p) : SIDES;
    while (side < sides_of && strcmp(library, library_of[side]) != 0) side++;
    if (side == sides_of) {
        fprintf(stderr, "driver: %s has no library %s here\n", what, library);
        return 2;
    }
    state = 1;
    if (f) make_arguments(f);
    else make_requests(p->of_erf);
    for (long n = 0; n < count; n++) {
        if (f) functions_pass(f, side);
        else records_pass(p, side);
    }
    return 0;
}

int main(int count, char **words) {
    if (count == 2 && strcmp(words[1], "names") == 0) return names();
    if (count == 3 && strcmp(words[1], "same") == 0) return same(strtoull(words[2], NULL, 10));
    if (count == 3 && strcmp(words[1], "times") == 0) return times(strtoull(words[2], NULL, 10));
    if (count == 5 && strcmp(words[1], "passes") == 0) return passes(words[2], words[3], strtol(words[4], NULL, 10));
    fprintf(stderr, "usage: driver names | same SEED | times SEED | passes WHAT LIBRARY COUNT\n");
    return 2;
}
