/*
 * raveltrellis.h: gamma, log-gamma and the error functions, the batch and the feed, and the distance of two
 * floats, from C and C++.
 *
 * The library is libraveltrellis.a as `bin/install` puts it beside this header, or
 * crates/entries_c/out/libentries_c.a as `rt lib` proves and writes it there, for Linux on x86-64.
 * It allocates nothing, keeps nothing between calls, and calls nothing, so any number of threads may
 * use it at once.
 *
 * Every entry answers every bit pattern and every content of the buffers, and returns. It asks of its
 * caller what C does: a pointer with the length of what it points to, or any pointer with length 0,
 * also a null one; the buffers of a call do not overlap; nobody else writes to the requests or the
 * piece, or reads or writes the answers, the report, the feed or the pair, before the call returns; and the
 * processor's float control is as a program finds it (rounding to nearest, subnormal numbers kept).
 *
 * The entries are numbers and bytes, and they are what is proved. The functions that are written out
 * here turn C's types into them, and do nothing else.
 */
#ifndef RAVELTRELLIS_H
#define RAVELTRELLIS_H

#include <stddef.h>
#include <stdint.h>
#include <string.h>

/* The version of this interface. What is added raises the second number, what changes or goes the
 * first. */
#define RVT_VERSION_MAJOR 1
#define RVT_VERSION_MINOR 4
#define RVT_VERSION_PATCH 0
#define RVT_VERSION (RVT_VERSION_MAJOR * 10000 + RVT_VERSION_MINOR * 100 + RVT_VERSION_PATCH)

#ifdef __cplusplus
extern "C" {
#endif

/* ---- The functions, by bits. */

/* From the bits of an f64 to the bits of an f64. A NaN's answer is 0x7FF8000000000000. */

/* The gamma function. */
uint64_t rvt_tgamma(uint64_t x);

/* The logarithm of the size of the gamma function, and the gamma function's sign, 1 or -1. At a pole the
 * value is +inf and the sign 1; of -0 the sign is -1. */
uint64_t rvt_lgamma_r_value(uint64_t x);
int32_t rvt_lgamma_r_sign(uint64_t x);

/* The error function and its complement. */
uint64_t rvt_erf(uint64_t x);
uint64_t rvt_erfc(uint64_t x);

/* Both of one number (with kind 7, from version 1.4 on), worked out together: their bits, erf's and then
 * erfc's, as the RVT_PAIR_BYTES bytes of the pair, eight each, the lowest byte first. The result is
 * RVT_DONE, or RVT_OTHER_LENGTH where the pair has another length, and then it is not touched. */
uint64_t rvt_erf_erfc(uint64_t x, uint8_t *pair, size_t pair_length);

/* The same from the bits of an f32 to the bits of an f32. A NaN's answer is 0x7FC00000. The sign that
 * rvt_lgammaf_r_sign reports is the one that rvt_lgamma_r_sign reports of the same number. rvt_tgammaf
 * (with kind 18, from version 1.3 on) is rvt_tgamma of the same number, rounded once to f32; what overflows
 * or vanishes thereby becomes the infinity or the zero of its sign. */
uint32_t rvt_lgammaf_r_value(uint32_t x);
int32_t rvt_lgammaf_r_sign(uint32_t x);
uint32_t rvt_tgammaf(uint32_t x);
uint32_t rvt_erff(uint32_t x);
uint32_t rvt_erfcf(uint32_t x);

/* ---- The batch. */

/*
 * A batch answers whole records from the front of the requests, one after another, until one of the
 * codes says why it stopped. A request is a byte of kind and the argument's bits, the lowest byte
 * first; an answer is the kind plus 128, the value's bits, for kind 7 those of erf and then of erfc,
 * and, for kinds 2 and 17, a sign byte, 1 for plus and 255 for minus.
 *
 *     kind  function   request bytes  answer bytes
 *     1     tgamma     9              9
 *     2     lgamma_r   9              10
 *     3     erf        9              9
 *     4     erfc       9              9
 *     7     erf_erfc   9              17
 *     17    lgammaf_r  5              6
 *     18    tgammaf    5              5
 *     19    erff       5              5
 *     20    erfcf      5              5
 */
enum rvt_kind {
    RVT_TGAMMA = 1,
    RVT_LGAMMA_R = 2,
    RVT_ERF = 3,
    RVT_ERFC = 4,
    RVT_ERF_ERFC = 7,
    RVT_LGAMMAF_R = 17,
    RVT_TGAMMAF = 18,
    RVT_ERFF = 19,
    RVT_ERFCF = 20
};

/* The bytes of the longest request, of the longest answer, of a report, of a feed and of a pair. A buffer
 * with room for the longest answer to every request is never too short. Before version 1.4 the longest answer
 * had 10 bytes, and only kind 7 has a longer one. So a host with room for 10 gets on as before where it sends no
 * kind 7; one that does had RVT_UNKNOWN before, and has RVT_FULL now, however often it offers the rest again. */
#define RVT_LONGEST_REQUEST 9
#define RVT_LONGEST_ANSWER 17
#define RVT_REPORT_BYTES 24
#define RVT_FEED_BYTES 32
#define RVT_PAIR_BYTES 16

/* The codes that a call ends with. */
enum rvt_stop {
    RVT_DONE = 0,         /* the requests, or the piece, are used up; the pair is written; of a distance, both floats are
                           * numbers */
    RVT_UNKNOWN = 1,      /* the kind at the front is not in the table */
    RVT_CUT = 2,          /* the kind is known, and its body is incomplete */
    RVT_FULL = 3,         /* the record is whole, and its answer is longer than the room left */
    RVT_NO_DISTANCE = 4,  /* a distance was asked of a NaN */
    RVT_OTHER_LENGTH = 10 /* the report, the feed or the pair has another length than its bytes: nothing is touched */
};

/* The name that version 1.0 had for the last of them. */
#define RVT_REPORT_LENGTH RVT_OTHER_LENGTH

/* What a batch did: the records answered, the bytes read and the bytes written. */
struct rvt_report {
    uint64_t records, read, written;
};

/*
 * The batch. The requests stay as they are, the answers stand at the front of the answer buffer, and
 * the bytes behind them stay as they were. The result is the code, and the report has the three
 * numbers of struct rvt_report one after another, eight bytes each, the lowest byte first.
 */
uint64_t rvt_batch(const uint8_t *requests, size_t requests_length, uint8_t *answers, size_t answers_length,
                   uint8_t *report, size_t report_length);

/*
 * Each of these does the whole batch too, and gives one number: the stop code, the records answered,
 * the bytes read, the bytes written. A host that wants more than one of them pays less by rvt_batch.
 */
uint64_t rvt_batch_code(const uint8_t *requests, size_t requests_length, uint8_t *answers, size_t answers_length);
uint64_t rvt_batch_records(const uint8_t *requests, size_t requests_length, uint8_t *answers, size_t answers_length);
uint64_t rvt_batch_read(const uint8_t *requests, size_t requests_length, uint8_t *answers, size_t answers_length);
uint64_t rvt_batch_written(const uint8_t *requests, size_t requests_length, uint8_t *answers, size_t answers_length);

/* ---- The feed. */

/*
 * A feed answers a stream that comes in pieces of any size, each record as soon as its last byte is
 * there. It is RVT_FEED_BYTES bytes that the host keeps from call to call, all zero to begin with, and
 * holds at most the start of one record: 16 bytes of state, which are zero whenever the feed is empty, and
 * then, of the last call, how many bytes of the piece it took and how many it wrote, eight bytes each, the
 * lowest byte first. These two are not looked at. A state that no call has left is answered too: as that of
 * a feed that has stopped, where the bytes held are no start of a record.
 *
 * Take a piece: the answers stand at the front of the answer buffer, and the bytes behind them stay as
 * they were. The result is the code.
 *   RVT_DONE     the piece is taken whole
 *   RVT_UNKNOWN  the next byte is no kind. It is not taken, and the feed has stopped: from now on it takes
 *                nothing, writes nothing, and gives this code to every call
 *   RVT_FULL     the next byte is the last of a record, whose answer is longer than the room left. It is
 *                not taken: send the answers, and offer the rest of the piece again
 * With room for RVT_LONGEST_ANSWER a call on a piece that is not empty takes a byte at least, or stops on
 * an unknown kind.
 */
uint64_t rvt_feed_push(uint8_t *feed, size_t feed_length, const uint8_t *piece, size_t piece_length,
                       uint8_t *answers, size_t answers_length);

/*
 * Close the feed, where nothing more is to come: RVT_DONE, or RVT_CUT where a record has begun, and the
 * feed is as before the first call, all of its bytes zero; RVT_UNKNOWN where it has stopped: it stays so,
 * its counts are 0, and a state that no call has left becomes that of a feed that has stopped.
 */
uint64_t rvt_feed_close(uint8_t *feed, size_t feed_length);

/* ---- The distance. */

/*
 * How far two floats of one width lie apart, from their bits: the number of steps from one to the other
 * along the representable numbers of that width. -0 and +0 are one place, and each infinity is one step past
 * the largest finite number; so the numbers next to zero on its two sides are 2 apart. Of two numbers it is
 * 0 exactly where they are equal, the same in either order, and never longer than by way of a third number.
 * Where either is a NaN the distance is 0 too, and only the code, RVT_NO_DISTANCE, tells that from equal
 * numbers; else the code is RVT_DONE.
 */
uint64_t rvt_distance(uint64_t a, uint64_t b);
uint64_t rvt_distance_code(uint64_t a, uint64_t b);

/* The same from the bits of two f32s. */
uint64_t rvt_distancef(uint32_t a, uint32_t b);
uint64_t rvt_distancef_code(uint32_t a, uint32_t b);

/* ---- The same on C's own types. */

/* The number that eight bytes make, the lowest first, on a host of any byte order. Written out, since
 * a compiler then makes one load of it. */
static inline uint64_t rvt_number(const uint8_t *bytes) {
    uint64_t x = bytes[7];
    x = x << 8 | bytes[6];
    x = x << 8 | bytes[5];
    x = x << 8 | bytes[4];
    x = x << 8 | bytes[3];
    x = x << 8 | bytes[2];
    x = x << 8 | bytes[1];
    return x << 8 | bytes[0];
}

/* The batch, with its report in a struct. */
static inline uint64_t rvt_batch_run(const uint8_t *requests, size_t requests_length, uint8_t *answers,
                                     size_t answers_length, struct rvt_report *report) {
    uint8_t bytes[RVT_REPORT_BYTES];
    uint64_t code = rvt_batch(requests, requests_length, answers, answers_length, bytes, sizeof bytes);
    report->records = rvt_number(bytes);
    report->read = rvt_number(bytes + 8);
    report->written = rvt_number(bytes + 16);
    return code;
}

/* A feed as a struct, all zero to begin with. */
struct rvt_feed {
    uint8_t state[16];
    uint64_t taken, written;
};

/* The feed's bytes, once a call has left them. */
static inline void rvt_feed_of_bytes(struct rvt_feed *feed, const uint8_t *bytes) {
    memcpy(feed->state, bytes, sizeof feed->state);
    feed->taken = rvt_number(bytes + 16);
    feed->written = rvt_number(bytes + 24);
}

/* Takes a piece, as rvt_feed_push does. */
static inline uint64_t rvt_feed_take(struct rvt_feed *feed, const uint8_t *piece, size_t piece_length,
                                     uint8_t *answers, size_t answers_length) {
    uint8_t bytes[RVT_FEED_BYTES] = {0};
    memcpy(bytes, feed->state, sizeof feed->state);
    uint64_t code = rvt_feed_push(bytes, sizeof bytes, piece, piece_length, answers, answers_length);
    rvt_feed_of_bytes(feed, bytes);
    return code;
}

/* Closes the feed, as rvt_feed_close does. */
static inline uint64_t rvt_feed_end(struct rvt_feed *feed) {
    uint8_t bytes[RVT_FEED_BYTES] = {0};
    memcpy(bytes, feed->state, sizeof feed->state);
    uint64_t code = rvt_feed_close(bytes, sizeof bytes);
    rvt_feed_of_bytes(feed, bytes);
    return code;
}

static inline uint64_t rvt_bits_f64(double x) {
    uint64_t bits;
    memcpy(&bits, &x, sizeof bits);
    return bits;
}

static inline double rvt_of_bits_f64(uint64_t bits) {
    double x;
    memcpy(&x, &bits, sizeof x);
    return x;
}

static inline uint32_t rvt_bits_f32(float x) {
    uint32_t bits;
    memcpy(&bits, &x, sizeof bits);
    return bits;
}

static inline float rvt_of_bits_f32(uint32_t bits) {
    float x;
    memcpy(&x, &bits, sizeof x);
    return x;
}

static inline double rvt_tgamma_f64(double x) { return rvt_of_bits_f64(rvt_tgamma(rvt_bits_f64(x))); }
static inline double rvt_erf_f64(double x) { return rvt_of_bits_f64(rvt_erf(rvt_bits_f64(x))); }
static inline double rvt_erfc_f64(double x) { return rvt_of_bits_f64(rvt_erfc(rvt_bits_f64(x))); }
static inline float rvt_tgammaf_f32(float x) { return rvt_of_bits_f32(rvt_tgammaf(rvt_bits_f32(x))); }
static inline float rvt_erff_f32(float x) { return rvt_of_bits_f32(rvt_erff(rvt_bits_f32(x))); }
static inline float rvt_erfcf_f32(float x) { return rvt_of_bits_f32(rvt_erfcf(rvt_bits_f32(x))); }

/* erf and erfc of one number, by one call (from version 1.4 on). */
struct rvt_erf_pair {
    double erf, erfc;
};

static inline struct rvt_erf_pair rvt_erf_erfc_f64(double x) {
    uint8_t bytes[RVT_PAIR_BYTES];
    struct rvt_erf_pair both;
    rvt_erf_erfc(rvt_bits_f64(x), bytes, sizeof bytes);
    both.erf = rvt_of_bits_f64(rvt_number(bytes));
    both.erfc = rvt_of_bits_f64(rvt_number(bytes + 8));
    return both;
}

/* Log-gamma and, where `sign` is not null, the gamma function's sign, 1 or -1, which costs a second
 * call. */
static inline double rvt_lgamma_r_f64(double x, int *sign) {
    uint64_t bits = rvt_bits_f64(x);
    if (sign)
        *sign = rvt_lgamma_r_sign(bits);
    return rvt_of_bits_f64(rvt_lgamma_r_value(bits));
}

static inline float rvt_lgammaf_r_f32(float x, int *sign) {
    uint32_t bits = rvt_bits_f32(x);
    if (sign)
        *sign = rvt_lgammaf_r_sign(bits);
    return rvt_of_bits_f32(rvt_lgammaf_r_value(bits));
}

/* The distance of two numbers; 0 also where one is a NaN, which the code of their bits tells apart. */
static inline uint64_t rvt_distance_f64(double a, double b) { return rvt_distance(rvt_bits_f64(a), rvt_bits_f64(b)); }
static inline uint64_t rvt_distancef_f32(float a, float b) { return rvt_distancef(rvt_bits_f32(a), rvt_bits_f32(b)); }

#ifdef __cplusplus
}
#endif

#endif
