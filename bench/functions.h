/*
 * functions.h: what bench/driver.c times, function by function: the port's entries, the Rust's, those of an earlier port, and
 * glibc's and musl's, by bits; their kinds, by kinds.h; and the regions from which the arguments are taken.
 */
uint64_t rust_tgamma(uint64_t x), rust_lgamma_r(uint64_t x), rust_erf(uint64_t x), rust_erfc(uint64_t x);
void rust_erf_erfc(uint64_t x, uint64_t *pair);
uint32_t rust_lgammaf_r(uint32_t x), rust_tgammaf(uint32_t x), rust_erff(uint32_t x), rust_erfcf(uint32_t x);
void rust_erf_records(const uint8_t *requests, size_t count, uint8_t *answers);
uint64_t rust_batch_code(const uint8_t *, size_t, uint8_t *, size_t);

static double f64_of(uint64_t x) { double d; memcpy(&d, &x, 8); return d; }
static uint64_t bits_of(double d) { uint64_t x; memcpy(&x, &d, 8); return x; }
static float f32_of(uint32_t x) { float d; memcpy(&d, &x, 4); return d; }
static uint32_t bits_of_f32(float d) { uint32_t x; memcpy(&x, &d, 4); return x; }

/* A function of a C library by bits. */
#define BY_BITS(name, call) \
    static uint64_t name(uint64_t x) { int sign; (void)sign; return bits_of(call); }
#define BY_BITS_F32(name, call) \
    static uint32_t name(uint32_t x) { int sign; (void)sign; return bits_of_f32(call); }

BY_BITS(glibc_tgamma, tgamma(f64_of(x)))
BY_BITS(glibc_lgamma_r, lgamma_r(f64_of(x), &sign))
BY_BITS(glibc_erf, erf(f64_of(x)))
BY_BITS(glibc_erfc, erfc(f64_of(x)))
BY_BITS_F32(glibc_lgammaf_r, lgammaf_r(f32_of(x), &sign))
BY_BITS_F32(glibc_tgammaf, tgammaf(f32_of(x)))
BY_BITS_F32(glibc_erff, erff(f32_of(x)))
BY_BITS_F32(glibc_erfcf, erfcf(f32_of(x)))

#ifdef HAVE_MUSL
double musl_tgamma(double), musl_lgamma_r(double, int *), musl_erf(double), musl_erfc(double);
float musl_lgammaf_r(float, int *), musl_tgammaf(float), musl_erff(float), musl_erfcf(float);
BY_BITS(by_musl_tgamma, musl_tgamma(f64_of(x)))
BY_BITS(by_musl_lgamma_r, musl_lgamma_r(f64_of(x), &sign))
BY_BITS(by_musl_erf, musl_erf(f64_of(x)))
BY_BITS(by_musl_erfc, musl_erfc(f64_of(x)))
BY_BITS_F32(by_musl_lgammaf_r, musl_lgammaf_r(f32_of(x), &sign))
BY_BITS_F32(by_musl_tgammaf, musl_tgammaf(f32_of(x)))
BY_BITS_F32(by_musl_erff, musl_erff(f32_of(x)))
BY_BITS_F32(by_musl_erfcf, musl_erfcf(f32_of(x)))
#define MUSL(name) by_musl_##name
#else
#define MUSL(name) NULL
#endif

#ifdef HAVE_EARLIER
uint64_t earlier_rvt_tgamma(uint64_t), earlier_rvt_lgamma_r_value(uint64_t), earlier_rvt_erf(uint64_t), earlier_rvt_erfc(uint64_t);
uint32_t earlier_rvt_lgammaf_r_value(uint32_t), earlier_rvt_tgammaf(uint32_t), earlier_rvt_erff(uint32_t), earlier_rvt_erfcf(uint32_t);
uint64_t earlier_rvt_batch_code(const uint8_t *, size_t, uint8_t *, size_t);
#define EARLIER_OF(entry) earlier_##entry
enum { SIDES = 3 };
#else
#define EARLIER_OF(entry) NULL
#define earlier_rvt_batch_code rvt_batch_code
enum { SIDES = 2 };
#endif

static const char *const LIBRARY[LIBRARIES] = {"port", "Rust", "earlier", "glibc", "musl"};

/* The kinds of kinds.txt. */
struct kind {
    int number;
    const char *name;
    size_t body, values, tail;
};

static const struct kind KINDS[] = {
#define KIND(number, name, body, values, tail) {number, #name, body, values, tail},
#include "kinds.h"
#undef KIND
};

enum { KIND_COUNT = sizeof KINDS / sizeof KINDS[0] };

static const struct kind *kind_named(const char *name) {
    for (size_t i = 0; i < KIND_COUNT; i++)
        if (strcmp(KINDS[i].name, name) == 0) return &KINDS[i];
    fprintf(stderr, "driver: kinds.txt has no kind %s\n", name);
    exit(2);
}

static const struct kind *kind_numbered(int number) {
    for (size_t i = 0; i < KIND_COUNT; i++)
        if (KINDS[i].number == number) return &KINDS[i];
    return NULL;
}

/* The regions of a function by the sizes where they begin; the last one ends the last region. */
struct regions {
    int count;
    double at[10];
};

static const struct regions GAMMA = {8, {0x1p-60, 0x1p-54, 0.5, 1, 5.5, 8, 23, 171.7, 184, 200}};
static const struct regions LGAMMA = {9, {0x1p-80, 0x1p-70, 0.23, 0.73, 1.23, 1.73, 2, 8, 0x1p58, 0x1p70}};
static const struct regions ERF = {9, {0x1p-60, 0x1p-56, 0x1p-28, 0.25, 0.84375, 1.25, 2.857, 6, 28, 40}};
static const struct regions GAMMAF = {9, {0x1p-60, 0x1p-54, 0.5, 1, 5.5, 8, 23, 35.04, 184, 200}};
static const struct regions LGAMMAF = {9, {0x1p-30, 0x1p-21, 0.23, 0.73, 1.23, 1.73, 2, 8, 0x1p58, 0x1p70}};

/* A function of each library: of f64, of f32, or of f64 with two values. A log-gamma is timed by its value. */
struct function {
    const char *name;
    const struct regions *regions;
    uint64_t (*f64[LIBRARIES])(uint64_t);
    uint32_t (*f32[LIBRARIES])(uint32_t);
    void (*both[LIBRARIES])(uint64_t, uint64_t *);
};

/* erf and erfc of one number: by the C entry, and by the two functions of a C library, which has no other way. */
#ifndef WITHOUT_erf_erfc
#define BY_ENTRY(name, entry) \
    static void name(uint64_t x, uint64_t *pair) { \
        uint8_t bytes[RVT_PAIR_BYTES]; \
        entry(x, bytes, sizeof bytes); \
        pair[0] = rvt_number(bytes); \
        pair[1] = rvt_number(bytes + 8); \
    }
#define BY_BOTH(name, erf, erfc) \
    static void name(uint64_t x, uint64_t *pair) { pair[0] = erf(x); pair[1] = erfc(x); }

BY_ENTRY(port_erf_erfc, rvt_erf_erfc)
BY_BOTH(glibc_erf_erfc, glibc_erf, glibc_erfc)
#ifdef HAVE_MUSL
BY_BOTH(by_musl_erf_erfc, by_musl_erf, by_musl_erfc)
#endif
#ifdef HAVE_EARLIER
uint64_t earlier_rvt_erf_erfc(uint64_t, uint8_t *, size_t);
BY_ENTRY(earlier_port_erf_erfc, earlier_rvt_erf_erfc)
#endif
#endif

static const struct function FUNCTIONS[] = {
#define OF(name, entry) {entry, rust_##name, EARLIER_OF(entry), glibc_##name, MUSL(name)}
    {"tgamma", &GAMMA, OF(tgamma, rvt_tgamma), {NULL}, {NULL}},
    {"lgamma_r", &LGAMMA, OF(lgamma_r, rvt_lgamma_r_value), {NULL}, {NULL}},
    {"erf", &ERF, OF(erf, rvt_erf), {NULL}, {NULL}},
    {"erfc", &ERF, OF(erfc, rvt_erfc), {NULL}, {NULL}},
#ifndef WITHOUT_erf_erfc
    {"erf_erfc", &ERF, {NULL}, {NULL}, OF(erf_erfc, port_erf_erfc)},
#endif
    {"lgammaf_r", &LGAMMAF, {NULL}, OF(lgammaf_r, rvt_lgammaf_r_value), {NULL}},
#ifndef WITHOUT_tgammaf
    {"tgammaf", &GAMMAF, {NULL}, OF(tgammaf, rvt_tgammaf), {NULL}},
#endif
    {"erff", &ERF, {NULL}, OF(erff, rvt_erff), {NULL}},
    {"erfcf", &ERF, {NULL}, OF(erfcf, rvt_erfcf), {NULL}},
#undef OF
};

enum { FUNCTION_COUNT = sizeof FUNCTIONS / sizeof FUNCTIONS[0] };

static const struct function *function_named(const char *name) {
    for (size_t i = 0; i < FUNCTION_COUNT; i++)
        if (strcmp(FUNCTIONS[i].name, name) == 0) return &FUNCTIONS[i];
    return NULL;
}
