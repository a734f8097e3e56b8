/*
 * both.h: records of erf, of erfc and of both beside each other on the same arguments, by their size, for bench/driver.c:
 * nothing where HAVE_BOTH is not set.
 */
#ifdef HAVE_BOTH
/* Records of kind 3, of kind 4 and of kind 7; and those of kinds 3 and 4 by the earlier port. */
enum { OF_ERF, OF_ERFC, OF_BOTH, EARLIER_ERF, EARLIER_ERFC, BOTH_SIDES, RECORD = 9, LONG_RECORD = 17 };

static const char *const BOTH[BOTH_SIDES] = {"erf", "erfc", "erf_erfc", "earlier_erf", "earlier_erfc"};
static const int ASKED[BOTH_SIDES] = {OF_ERF, OF_ERFC, OF_BOTH, OF_ERF, OF_ERFC};

enum { BOTH_COUNT = SIDES == 3 ? BOTH_SIDES : EARLIER_ERF };

/* All regions of ERF, or one of them, by what its sizes begin and end with. */
struct sizes {
    const char *name;
    int region;
};

static const struct sizes SIZES[] = {
    {"both", ALL}, {"both:2^-60:2^-56", 0}, {"both:2^-56:2^-28", 1}, {"both:2^-28:1/4", 2}, {"both:1/4:0.84375", 3},
    {"both:0.84375:1.25", 4}, {"both:1.25:2.857", 5}, {"both:2.857:6", 6}, {"both:6:28", 7}, {"both:28:40", 8}};

enum { SIZE_COUNT = sizeof SIZES / sizeof SIZES[0] };

static uint8_t asked[EARLIER_ERF][RECORD * COUNT], said[BOTH_SIDES][LONG_RECORD * COUNT];

static void make_both(const struct sizes *s) {
    for (int i = 0; i < COUNT; i++) {
        uint64_t bits = argument(function_named("erf"), s->region);
        for (int k = OF_ERF; k <= OF_BOTH; k++) {
            uint8_t *to = asked[k] + RECORD * i;
            to[0] = (uint8_t)kind_named(BOTH[k])->number;
            for (int j = 0; j < 8; j++) to[1 + j] = (uint8_t)(bits >> 8 * j);
        }
    }
}

static void both_pass(const struct sizes *s, int side) {
    const uint8_t *from = asked[ASKED[side]];
    uint64_t code = side < EARLIER_ERF ? rvt_batch_code(from, RECORD * COUNT, said[side], sizeof said[0])
                                       : earlier_rvt_batch_code(from, RECORD * COUNT, said[side], sizeof said[0]);
    if (code == 0) return;
    fprintf(stderr, "driver: %s: %s stopped with code %d\n", s->name, BOTH[side], (int)code);
    exit(1);
}

/* An answer to kind 7 says so, its two values are those of kinds 3 and 4, and these are the earlier port's. */
static void same_both(const struct sizes *s) {
    for (int i = 0; i < COUNT; i++)
        for (int k = OF_ERF; k <= OF_ERFC; k++) {
            const uint8_t *pair = said[OF_BOTH] + LONG_RECORD * i + 1 + 8 * k, *one = said[k] + RECORD * i;
            int is_seven = said[OF_BOTH][LONG_RECORD * i] == asked[OF_BOTH][RECORD * i] + 128;
            const uint8_t *before = said[SIDES == 3 ? EARLIER_ERF + k : k] + RECORD * i;
            if (is_seven && memcmp(one + 1, pair, 8) == 0 && memcmp(one, before, RECORD) == 0) continue;
            fprintf(stderr, "bench: %s: %s of 0x%" PRIx64 " is 0x%" PRIx64 ", of both 0x%" PRIx64 ", earlier 0x%" PRIx64 "\n", s->name,
                    BOTH[k], rvt_number(asked[k] + RECORD * i + 1), rvt_number(one + 1), rvt_number(pair), rvt_number(before + 1));
            exit(1);
        }
}

static void time_both(const struct sizes *s) {
    double best[BOTH_SIDES] = {1e300, 1e300, 1e300, 1e300, 1e300};
    make_both(s);
    for (int n = 0; n < REPEATS; n++) {
        for (int side = 0; side < BOTH_COUNT; side++) {
            memset(said[side], 0, sizeof said[side]);
            double start = now();
            both_pass(s, side);
            best[side] = fmin(best[side], now() - start);
        }
        same_both(s);
    }
    print_times(s->name, BOTH, best, BOTH_SIDES);
}

static int both_passes(const struct sizes *s, const char *library, long count) {
    for (int side = 0; side < BOTH_COUNT; side++) {
        if (strcmp(library, BOTH[side]) != 0) continue;
        state = 1;
        make_both(s);
        for (long n = 0; n < count; n++) both_pass(s, side);
        return 0;
    }
    fprintf(stderr, "driver: %s has no %s here\n", s->name, library);
    return 2;
}
#endif
