/*
 * header.c: what include/raveltrellis.h writes out itself, tried from C and from C++ (the file is
 * both): the kinds and codes, the functions and the distance on double and float, and the pair, the
 * report and the feed as structs. Says which are wrong.
 */
#include <stdio.h>

#include "raveltrellis.h"

static int failures;

static void check(int good, const char *what) {
    if (good)
        return;
    failures++;
    printf("failed: %s\n", what);
}

/* Equal bits: a NaN is itself, and -0 is not 0. */
static int same(double x, uint64_t bits) { return rvt_bits_f64(x) == bits; }
static int same_f32(float x, uint32_t bits) { return rvt_bits_f32(x) == bits; }

static void kinds(void) {
    check(RVT_TGAMMA == 1 && RVT_LGAMMA_R == 2 && RVT_ERF == 3 && RVT_ERFC == 4 && RVT_ERF_ERFC == 7, "the kinds of f64");
    check(RVT_LGAMMAF_R == 17 && RVT_TGAMMAF == 18 && RVT_ERFF == 19 && RVT_ERFCF == 20, "the kinds of f32");
    check(RVT_DONE == 0 && RVT_UNKNOWN == 1 && RVT_CUT == 2 && RVT_FULL == 3, "the codes");
    check(RVT_NO_DISTANCE == 4, "the code of no distance");
    check(RVT_OTHER_LENGTH == 10 && RVT_REPORT_LENGTH == 10, "the code of another length, by both names");
    check(RVT_VERSION == 10000 * RVT_VERSION_MAJOR + 100 * RVT_VERSION_MINOR + RVT_VERSION_PATCH, "the version");
    check(sizeof(struct rvt_report) == RVT_REPORT_BYTES, "the bytes of a report");
    check(sizeof(struct rvt_feed) == RVT_FEED_BYTES, "the bytes of a feed");
    check(sizeof(struct rvt_erf_pair) == RVT_PAIR_BYTES, "the bytes of a pair");
}

static void doubles(void) {
    int sign = 0;
    check(same(rvt_tgamma_f64(5.0), 0x4038000000000000), "tgamma of 5 is 24");
    check(same(rvt_tgamma_f64(-1.0), 0x7FF8000000000000), "tgamma of -1 is the NaN");
    check(same(rvt_erf_f64(-0.0), 0x8000000000000000), "erf of -0 is -0");
    check(same(rvt_erf_f64(6.0), 0x3FF0000000000000), "erf of 6 is 1");
    check(same(rvt_erfc_f64(-6.0), 0x4000000000000000), "erfc of -6 is 2");
    check(same(rvt_lgamma_r_f64(1.0, &sign), 0) && sign == 1, "log-gamma of 1 is 0, its sign plus");
    check(rvt_lgamma_r_f64(-0.5, &sign) > 1.26 && sign == -1, "log-gamma of -0.5, its sign minus");
    check(same(rvt_lgamma_r_f64(-0.5, NULL), rvt_lgamma_r_value(0xBFE0000000000000)), "log-gamma with no sign");
}

/* Each value of a pair is that of its own function, beside every cut, of both signs, and of what is no number;
 * the pair is filled, and nothing round it; and one of another length is left alone. */
static void pairs(void) {
    static const uint64_t at[] = {0, 1, 0x3C6FFFFFFFFFFFFF, 0x3C70000000000000, 0x3E2FFFFFFFFFFFFF, 0x3E30000000000000,
                                  0x3FCFFFFFFFFFFFFF, 0x3FD0000000000000, 0x3FEAFFFFFFFFFFFF, 0x3FEB000000000000,
                                  0x3FF3FFFFFFFFFFFF, 0x3FF4000000000000, 0x4006DB6CFFFFFFFF, 0x4006DB6D00000000,
                                  0x4017FFFFFFFFFFFF, 0x4018000000000000, 0x403BFFFFFFFFFFFF, 0x403C000000000000,
                                  0x7FEFFFFFFFFFFFFF, 0x7FF0000000000000, 0x7FF0000000000001, 0x7FFFFFFFFFFFFFFF};
    struct rvt_erf_pair both = rvt_erf_erfc_f64(-0.0);
    check(same(both.erf, 0x8000000000000000) && same(both.erfc, 0x3FF0000000000000), "erf and erfc of -0 are -0 and 1");
    both = rvt_erf_erfc_f64(-6.0);
    check(same(both.erf, 0xBFF0000000000000) && same(both.erfc, 0x4000000000000000), "erf and erfc of -6 are -1 and 2");
    for (size_t i = 0; i < sizeof at / sizeof at[0]; i++)
        for (uint64_t minus = 0; minus < 2; minus++) {
            uint64_t x = at[i] | minus << 63;
            uint8_t bytes[2 + RVT_PAIR_BYTES];
            memset(bytes, 0xA5, sizeof bytes);
            check(rvt_erf_erfc(x, bytes + 1, RVT_PAIR_BYTES) == RVT_DONE, "both by one call");
            check(rvt_number(bytes + 1) == rvt_erf(x) && rvt_number(bytes + 9) == rvt_erfc(x), "each is that of its own function");
            check(bytes[0] == 0xA5 && bytes[1 + RVT_PAIR_BYTES] == 0xA5, "nothing round the pair");
        }
    for (size_t length = 0; length <= 2 * RVT_PAIR_BYTES; length++) {
        uint8_t bytes[2 * RVT_PAIR_BYTES];
        memset(bytes, 0xA5, sizeof bytes);
        if (length == RVT_PAIR_BYTES)
            continue;
        check(rvt_erf_erfc(at[0], length ? bytes : NULL, length) == RVT_OTHER_LENGTH, "a pair of another length");
        for (size_t i = 0; i < sizeof bytes; i++)
            check(bytes[i] == 0xA5, "it is left alone");
    }
}

static void floats(void) {
    int sign = 0;
    check(same_f32(rvt_tgammaf_f32(5.0f), 0x41C00000), "tgammaf of 5 is 24");
    check(same_f32(rvt_tgammaf_f32(-1.0f), 0x7FC00000), "tgammaf of -1 is the NaN");
    check(same_f32(rvt_tgammaf_f32(36.0f), 0x7F800000), "tgammaf of 36 overflows");
    check(same_f32(rvt_tgammaf_f32(-42.5f), 0x80000000), "tgammaf of -42.5 vanishes, its sign minus");
    check(same_f32(rvt_tgammaf_f32(-43.5f), 0), "tgammaf of -43.5 vanishes, its sign plus");
    check(same_f32(rvt_erff_f32(-0.0f), 0x80000000), "erff of -0 is -0");
    check(same_f32(rvt_erff_f32(6.0f), 0x3F800000), "erff of 6 is 1");
    check(same_f32(rvt_erfcf_f32(-6.0f), 0x40000000), "erfcf of -6 is 2");
    check(same_f32(rvt_lgammaf_r_f32(2.0f, &sign), 0) && sign == 1, "lgammaf of 2 is 0, its sign plus");
    check(rvt_lgammaf_r_f32(-0.5f, &sign) > 1.26f && sign == -1, "lgammaf of -0.5, its sign minus");
    check(same_f32(rvt_lgammaf_r_f32(-0.5f, NULL), rvt_lgammaf_r_value(0xBF000000)), "lgammaf with no sign");
}

static void distances(void) {
    double zero = 0.0, nan = zero / zero;
    float zero_f32 = 0.0f, nan_f32 = zero_f32 / zero_f32;
    check(rvt_distance_f64(2.0, 1.0) == 0x10000000000000, "from 2 to 1");
    check(rvt_distance_f64(-0.0, 0.0) == 0 && rvt_distance_f64(nan, 1.0) == 0, "the zeros, and a NaN");
    check(rvt_distancef_f32(1.0f, 2.0f) == 0x800000 && rvt_distancef_f32(-0.0f, 0.0f) == 0, "the same in float");
    check(rvt_distancef_f32(1.0f, nan_f32) == 0, "and a NaN of it");
}

static void batch(void) {
    const uint8_t requests[] = {RVT_ERF, 0, 0, 0, 0, 0, 0, 0x18, 0x40, RVT_LGAMMA_R, 0, 0, 0, 0, 0, 0, 0xF0, 0x3F};
    uint8_t answers[2 * RVT_LONGEST_ANSWER];
    struct rvt_report report;
    check(rvt_batch_run(requests, sizeof requests, answers, sizeof answers, &report) == RVT_DONE, "two records");
    check(report.records == 2 && report.read == 18 && report.written == 19, "their report");
    check(rvt_batch_run(requests, sizeof requests, answers, 18, &report) == RVT_FULL, "room for one of them");
    check(report.records == 1 && report.read == 9 && report.written == 9, "its report");
    check(rvt_number(answers + 1) == 0x3FF0000000000000, "its answer");
}

/* ---- the feed */

/* A record of erf, one of lgamma_r, and a byte that is no kind. The arguments' bytes are all different, and
 * none of them is zero: one that is lost shows. */
static const uint8_t ERF[] = {RVT_ERF, 0x87, 0x96, 0xA5, 0xB4, 0xC3, 0xD2, 0xE1, 0x3F};
static const uint8_t LGAMMA_R[] = {RVT_LGAMMA_R, 0xDE, 0xBC, 0x9A, 0x78, 0x56, 0x34, 0x12, 0xC0, 0};
static const uint64_t ERF_OF = 0x3FE1D2C3B4A59687, LGAMMA_R_OF = 0xC0123456789ABCDE;
enum { REQUEST = RVT_LONGEST_REQUEST, ERF_ANSWER = 9, LGAMMA_R_ANSWER = 10 };

/* Their answers are those of the functions' own entries. */
static int answers_erf(const uint8_t *answer) {
    return answer[0] == RVT_ERF + 128 && rvt_number(answer + 1) == rvt_erf(ERF_OF);
}

static int answers_lgamma_r(const uint8_t *answer) {
    return answer[0] == RVT_LGAMMA_R + 128 && rvt_number(answer + 1) == rvt_lgamma_r_value(LGAMMA_R_OF) &&
           answer[9] == (rvt_lgamma_r_sign(LGAMMA_R_OF) == 1 ? 1 : 255);
}

/* All bytes of a feed's state: so many of a record, zeros behind them, and a number. */
static int state(const struct rvt_feed *one, const uint8_t *record, size_t held, uint8_t number) {
    uint8_t wanted[16] = {0};
    memcpy(wanted, record, held);
    wanted[8] = number;
    return memcmp(one->state, wanted, sizeof wanted) == 0;
}

static int holds(const struct rvt_feed *one, const uint8_t *record, uint8_t held) {
    return state(one, record, held, held);
}

static int empty(const struct rvt_feed *one) { return state(one, ERF, 0, 0); }
static int stopped(const struct rvt_feed *one) { return state(one, ERF, 0, 9); }

static int counts(const struct rvt_feed *one, uint64_t taken, uint64_t written) {
    return one->taken == taken && one->written == written;
}

static void numbers(void) {
    check(rvt_number(ERF + 1) == ERF_OF, "the number of eight bytes");
    check(rvt_number(LGAMMA_R + 1) == LGAMMA_R_OF, "the number of eight other bytes");
}

/* Both records, with no room too much: each is held in part, and answered with its own bytes. */
static void feed(void) {
    uint8_t answers[RVT_LONGEST_ANSWER], rest[REQUEST + 3];
    struct rvt_feed one = {{0}, 7, 7};
    memcpy(rest, ERF + 6, 3);
    memcpy(rest + 3, LGAMMA_R, REQUEST);
    check(rvt_feed_take(&one, ERF, 6, answers, 0) == RVT_DONE, "the start of a record");
    check(counts(&one, 6, 0) && holds(&one, ERF, 6), "it is held");
    check(rvt_feed_take(&one, rest, sizeof rest, answers, ERF_ANSWER) == RVT_FULL, "the very room of one record");
    check(counts(&one, 11, ERF_ANSWER) && holds(&one, LGAMMA_R, 8), "the other is held but for a byte");
    check(answers_erf(answers), "the answer");
    check(rvt_feed_take(&one, NULL, 0, NULL, 0) == RVT_DONE, "an empty piece");
    check(counts(&one, 0, 0) && holds(&one, LGAMMA_R, 8), "it changes nothing");
    check(rvt_feed_take(&one, LGAMMA_R + 8, 2, answers, LGAMMA_R_ANSWER - 1) == RVT_FULL, "a byte too little room");
    check(counts(&one, 0, 0) && holds(&one, LGAMMA_R, 8), "it changes nothing either");
    check(rvt_feed_take(&one, LGAMMA_R + 8, 2, answers, LGAMMA_R_ANSWER) == RVT_UNKNOWN, "no kind behind them");
    check(counts(&one, 1, LGAMMA_R_ANSWER) && stopped(&one), "the feed has stopped");
    check(answers_lgamma_r(answers), "the other answer");
    check(rvt_feed_take(&one, ERF, sizeof ERF, answers, sizeof answers) == RVT_UNKNOWN, "it says so");
    check(counts(&one, 0, 0) && stopped(&one), "and stays so");
}

/* A copy that is closed is empty, and the other goes on. One that has stopped stays so. */
static void closed(void) {
    uint8_t answers[RVT_LONGEST_ANSWER];
    struct rvt_feed one = {{0}, 7, 7}, other;
    check(rvt_feed_take(&one, LGAMMA_R, 5, answers, 0) == RVT_DONE, "a record that has begun");
    other = one;
    one.written = 7;
    check(rvt_feed_end(&one) == RVT_CUT && counts(&one, 0, 0) && empty(&one), "it is closed");
    one.taken = 7;
    check(rvt_feed_end(&one) == RVT_DONE && counts(&one, 0, 0) && empty(&one), "and once more");
    check(rvt_feed_take(&other, LGAMMA_R + 5, 5, answers, sizeof answers) == RVT_UNKNOWN, "the copy goes on");
    check(counts(&other, 4, LGAMMA_R_ANSWER) && answers_lgamma_r(answers), "to the same answer");
    check(rvt_feed_end(&other) == RVT_UNKNOWN && counts(&other, 0, 0) && stopped(&other), "the copy is closed");
}

/* No start of a record, by each of the number's higher bytes in turn. */
static void made_up(void) {
    for (int i = 9; i < 16; i++) {
        struct rvt_feed one = {{RVT_ERF, 0, 0, 0, 0, 0, 0, 0, 1}, 7, 7}, other;
        one.state[i] = 1;
        other = one;
        check(rvt_feed_take(&one, NULL, 0, NULL, 0) == RVT_UNKNOWN && stopped(&one), "a made-up feed");
        check(rvt_feed_end(&other) == RVT_UNKNOWN && stopped(&other), "a made-up feed is closed");
    }
}

/* So many that none of the numbers is a byte's, with the very room. */
static void many(void) {
    enum { COUNT = 300 };
    static uint8_t requests[COUNT * REQUEST], answers[COUNT * LGAMMA_R_ANSWER];
    struct rvt_report report;
    struct rvt_feed one = {{0}, 0, 0};
    for (size_t i = 0; i < COUNT; i++)
        memcpy(requests + i * REQUEST, LGAMMA_R, REQUEST);
    check(rvt_batch_run(requests, sizeof requests, answers, sizeof answers, &report) == RVT_DONE, "many records");
    check(report.records == COUNT, "how many");
    check(report.read == sizeof requests && report.written == sizeof answers, "the rest of their report");
    memset(answers, 0, sizeof answers);
    check(rvt_feed_take(&one, requests, sizeof requests, answers, sizeof answers) == RVT_DONE, "many in a piece");
    check(counts(&one, sizeof requests, sizeof answers) && empty(&one), "nothing is left of it");
    check(answers_lgamma_r(answers), "the first answer");
    check(answers_lgamma_r(answers + sizeof answers - LGAMMA_R_ANSWER), "the last answer");
}

int main(void) {
    kinds();
    doubles();
    pairs();
    floats();
    distances();
    batch();
    numbers();
    feed();
    closed();
    made_up();
    many();
    return failures != 0;
}
