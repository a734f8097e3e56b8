/*
 * distance_test: holds the entries of the distance to the C library's nextafter, which goes from a number to
 * the next one: walks of single steps across every power of two, across zero and up to an infinity; to what
 * the formats say of long ways; to the sum of the two ways between three numbers from anywhere on the line;
 * and NaNs. Both widths go through one text, since a double has every value of a float. The last line is
 * 'N checks, M failed'.
 */
#include <float.h>
#include <math.h>
#include <stdio.h>

#include "raveltrellis.h"

enum { WALK = 70, TRIPLES = 200000, SHOWN = 20 };

static unsigned long checks, failures;

static void check(int good, const char *what, double a, double b) {
    checks++;
    if (good || failures++ >= SHOWN)
        return;
    printf("failed: %s (%a and %a)\n", what, a, b);
}

/* ---- the widths */

struct width {
    const char *name, *code_name;
    uint64_t (*distance)(double, double), (*code)(double, double);
    double (*next)(double, double);
    double least, least_normal, greatest;
    /* The binary digits of a normal number, and the exponents of the least and the greatest. */
    int digits, lowest, highest;
};

static uint64_t distance_f64(double a, double b) { return rvt_distance_f64(a, b); }
static uint64_t code_f64(double a, double b) { return rvt_distance_code(rvt_bits_f64(a), rvt_bits_f64(b)); }
static double next_f64(double x, double to) { return nextafter(x, to); }

static uint64_t distance_f32(double a, double b) { return rvt_distancef_f32((float)a, (float)b); }
static uint64_t code_f32(double a, double b) {
    return rvt_distancef_code(rvt_bits_f32((float)a), rvt_bits_f32((float)b));
}
static double next_f32(double x, double to) { return (double)nextafterf((float)x, (float)to); }

static const struct width WIDTHS[] = {
    {"the distance, f64", "its code, f64", distance_f64, code_f64, next_f64,
     0x1p-1074, DBL_MIN, DBL_MAX, 53, -1022, 1023},
    {"the distance, f32", "its code, f32", distance_f32, code_f32, next_f32,
     0x1p-149, (double)FLT_MIN, (double)FLT_MAX, 24, -126, 127},
};

/* Two numbers are so far apart, in either order. */
static void apart(const struct width *w, double a, double b, uint64_t steps) {
    check(w->distance(a, b) == steps && w->distance(b, a) == steps, w->name, a, b);
    check(w->code(a, b) == RVT_DONE && w->code(b, a) == RVT_DONE, w->code_name, a, b);
}

/* ---- steps */

/* From x on toward an end, step by step, as far as it goes. */
static void walk(const struct width *w, double x, double end) {
    double y = x;
    for (uint64_t steps = 0; steps < WALK; steps++) {
        apart(w, x, y, steps);
        if (y == end)
            return;
        y = w->next(y, end);
    }
}

static void walks(const struct width *w, double x) {
    walk(w, x, INFINITY);
    walk(w, x, -INFINITY);
    walk(w, -x, INFINITY);
    walk(w, -x, -INFINITY);
}

/* From every power of two, and from the 33rd number below it, so that a walk crosses it; and from the ends. */
static void every_power(const struct width *w) {
    for (int k = w->lowest - w->digits + 1; k <= w->highest; k++) {
        double x = ldexp(1.0, k);
        walks(w, x);
        for (int i = 0; i < 33; i++)
            x = w->next(x, 0.0);
        walks(w, x);
    }
    walks(w, 0.0);
    walks(w, w->greatest);
    walks(w, INFINITY);
}

/* ---- long ways */
static void formats(const struct width *w) {
    uint64_t binade = (uint64_t)1 << (w->digits - 1);
    uint64_t binades = (uint64_t)(w->highest - w->lowest + 1);
    for (int k = w->lowest; k < w->highest; k++)
        apart(w, ldexp(1.0, k), ldexp(1.0, k + 1), binade);
    apart(w, w->least, -w->least, 2);
    apart(w, 0.0, -0.0, 0);
    apart(w, -0.0, w->least, 1);
    apart(w, 0.0, w->least_normal, binade);
    apart(w, w->greatest, INFINITY, 1);
    apart(w, 0.0, INFINITY, (binades + 1) * binade);
    apart(w, -INFINITY, INFINITY, 2 * (binades + 1) * binade);
}

/* ---- the whole line: of three numbers the way from the least to the greatest is the sum of the two between */
static uint64_t state = 1;

static uint64_t noise(void) {
    uint64_t z = state += 0x9E3779B97F4A7C15;
    z = (z ^ z >> 30) * 0xBF58476D1CE4E5B9;
    z = (z ^ z >> 27) * 0x94D049BB133111EB;
    return z ^ z >> 31;
}

/* A number of the width, of any size and sign, often a small one. */
static double number(const struct width *w) {
    double x;
    do {
        uint64_t sign = noise() << 63, size = noise() >> 1;
        if (noise() % 2 == 0)
            size >>= noise() % 63;
        x = w->digits == 53 ? rvt_of_bits_f64(sign | size)
                            : (double)rvt_of_bits_f32((uint32_t)(sign >> 32 | (size & 0x7FFFFFFF)));
    } while (isnan(x));
    return x;
}

static void sums(const struct width *w) {
    for (int i = 0; i < TRIPLES; i++) {
        double low = number(w), middle = number(w), high = number(w), other;
        if (low > high)
            other = low, low = high, high = other;
        if (middle < low)
            other = middle, middle = low, low = other;
        if (middle > high)
            other = middle, middle = high, high = other;
        apart(w, low, high, w->distance(low, middle) + w->distance(middle, high));
        check((w->distance(low, high) == 0) == (low == high), "0 exactly for equal numbers", low, high);
    }
}

/* ---- NaNs: every payload of one bit, on either side of a zero, a number, an infinity or a NaN, in all signs */
static void nan_f64(uint64_t nan, uint64_t x) {
    double a = rvt_of_bits_f64(nan), b = rvt_of_bits_f64(x);
    check(rvt_distance(nan, x) == 0 && rvt_distance(x, nan) == 0, "the distance of a NaN, f64", a, b);
    check(rvt_distance_code(nan, x) == RVT_NO_DISTANCE && rvt_distance_code(x, nan) == RVT_NO_DISTANCE,
          "the code of a NaN, f64", a, b);
}

static void nan_f32(uint32_t nan, uint32_t x) {
    double a = (double)rvt_of_bits_f32(nan), b = (double)rvt_of_bits_f32(x);
    check(rvt_distancef(nan, x) == 0 && rvt_distancef(x, nan) == 0, "the distance of a NaN, f32", a, b);
    check(rvt_distancef_code(nan, x) == RVT_NO_DISTANCE && rvt_distancef_code(x, nan) == RVT_NO_DISTANCE,
          "the code of a NaN, f32", a, b);
}

static void nans(uint64_t sign, uint64_t other_sign) {
    const uint64_t doubles[] = {0, 1, 0x3FF0000000000000, 0x7FEFFFFFFFFFFFFF, 0x7FF0000000000000, 0x7FF8000000000000};
    const uint32_t floats[] = {0, 1, 0x3F800000, 0x7F7FFFFF, 0x7F800000, 0x7FC00000};
    for (size_t i = 0; i < sizeof doubles / sizeof *doubles; i++) {
        for (int k = 0; k < 52; k++)
            nan_f64(sign << 63 | 0x7FF0000000000000 | (uint64_t)1 << k, other_sign << 63 | doubles[i]);
        for (int k = 0; k < 23; k++)
            nan_f32((uint32_t)sign << 31 | 0x7F800000 | (uint32_t)1 << k, (uint32_t)other_sign << 31 | floats[i]);
    }
}

int main(void) {
    for (size_t i = 0; i < sizeof WIDTHS / sizeof *WIDTHS; i++) {
        every_power(&WIDTHS[i]);
        formats(&WIDTHS[i]);
        sums(&WIDTHS[i]);
    }
    for (uint64_t signs = 0; signs < 4; signs++)
        nans(signs % 2, signs / 2);
    printf("%lu checks, %lu failed\n", checks, failures);
    return failures != 0;
}
