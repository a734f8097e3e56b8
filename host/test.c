/*
 * test REQUESTS ANSWERS ...: holds the C entries to stored streams, pair of files by pair of files, as
 * the program `answers` is held to them, and to the plan of plan.h. Every call is made between guard
 * bytes, and batches once more in blocks of the very length, where a memory checker sees a step
 * outside. The last line is 'N checks, M failed'.
 */
#include "check.h"
#include "raveltrellis.h"

enum { LONGEST_REPORT = 2 * RVT_REPORT_BYTES };

/* ---- calls between guard bytes */

typedef uint64_t entry(const uint8_t *, size_t, uint8_t *, size_t);

static entry *const ENTRIES[NUMBERS] = {rvt_batch_code, rvt_batch_records, rvt_batch_read, rvt_batch_written};

/* The requests of the calls, and beside them as they have to stay; the lent answers and report. */
static uint8_t requests_block[MOST + 2 * GUARD], requests_copy[MOST + 2 * GUARD];
static uint8_t answers_block[2 * MOST + 2 * GUARD], report_block[LONGEST_REPORT + 2 * GUARD];
static uint8_t *const requests = requests_block + GUARD, *const answers = answers_block + GUARD;
static uint8_t *const report = report_block + GUARD;
static size_t length;

static void ask(const uint8_t *bytes, size_t count) {
    length = count;
    memset(requests_block, 0xA5, count + 2 * GUARD);
    memcpy(requests, bytes, count);
    memcpy(requests_copy, requests_block, count + 2 * GUARD);
}

/* The answers and the report after a call: so many bytes of either are new, and the requests stand. */
static void look(const struct plan *p, size_t room, size_t size, uint8_t fill, const uint8_t *told, size_t written,
                 size_t count) {
    check(holds(answers_block, room, fill, p->answers, written), "the answers, and nothing else, are written", room);
    check(holds(report_block, size, fill, told, count), "the report, and nothing else, is written", size);
    check(memcmp(requests_block, requests_copy, length + 2 * GUARD) == 0, "the requests stay as they are", room);
}

static void lend(size_t room, size_t size, uint8_t fill) {
    memset(answers_block, fill, room + 2 * GUARD);
    memset(report_block, fill, size + 2 * GUARD);
}

/* One of the four entries that give a number. */
static void call_one(const struct plan *p, size_t room, uint8_t fill, int number) {
    struct did d = at_room(p, room);
    lend(room, 0, fill);
    check(ENTRIES[number](requests, length, answers, room) == d.number[number], "one number", room);
    look(p, room, 0, fill, report, d.number[WRITTEN], 0);
}

/* The batch in one call, with a report of `size` bytes. */
static void call(const struct plan *p, size_t room, size_t size, uint8_t fill) {
    struct did d = at_room(p, room);
    uint8_t told[RVT_REPORT_BYTES];
    int good = size == sizeof told;
    put(told, 8, d.number[DONE]);
    put(told + 8, 8, d.number[READ]);
    put(told + 16, 8, d.number[WRITTEN]);
    lend(room, size, fill);
    uint64_t code = rvt_batch(requests, length, answers, room, report, size);
    check(code == (good ? d.number[CODE] : RVT_OTHER_LENGTH), "code", room);
    look(p, room, size, fill, told, good ? d.number[WRITTEN] : 0, good ? sizeof told : 0);
}

/* The same in blocks of the very length. */
static void call_exactly(const struct plan *p, size_t room) {
    uint8_t *in = block(requests, length), *out = block(NULL, room), *told = block(NULL, RVT_REPORT_BYTES);
    check(rvt_batch(in, length, out, room, told, RVT_REPORT_BYTES) == at_room(p, room).number[CODE],
          "code in blocks of the very length", room);
    free(in);
    free(out);
    free(told);
}

/* A batch by all entries, over two fillings of what is lent. */
static void batch(const struct plan *p, size_t room) {
    for (int i = 0; i < 2 * NUMBERS; i++)
        call_one(p, room, i % 2 == 0 ? 0x55 : 0xAA, i / 2);
    call(p, room, RVT_REPORT_BYTES, 0x55);
    call(p, room, RVT_REPORT_BYTES, 0xAA);
    call_exactly(p, room);
}

/* The same in less time: the entries take turns from room to room. */
static void quick_batch(const struct plan *p, size_t room, size_t turn) {
    uint8_t fill = turn % 2 == 0 ? 0x55 : 0xAA;
    call_one(p, room, fill, (int)(turn / 2 % NUMBERS));
    call(p, room, RVT_REPORT_BYTES, fill);
    if (turn % 16 == 0)
        call_exactly(p, room);
}

/* ---- the stored streams */

/* The plan, and so each function's entry, has the stored answers and the stored stop code. */
static void as_stored(const struct plan *p, const struct stored *t) {
    check(p->written[p->records] == t->written, "as many bytes as stored", t->written);
    check(memcmp(p->answers, t->answers, t->written) == 0, "the stored answers", t->written);
    check(p->code == t->code, "the stored stop code", t->written);
}

/* Every room from none to more than enough, byte by byte. */
static void every_room(const struct plan *p) {
    size_t most = p->written[p->records] + RVT_LONGEST_ANSWER;
    for (size_t room = 0; room <= most; room++)
        if (most < 200)
            batch(p, room);
        else
            quick_batch(p, room, room);
}

static void stream(const struct stored *t, struct sample *s) {
    ask(t->requests, t->length);
    const struct plan *p = plan(requests, length);
    as_stored(p, t);
    take_samples(s, requests, p);
    batch(p, p->written[p->records]);
    if (length < 4096)
        every_room(p);
}

/* ---- the sample of every kind */

/* Every length of cut requests, byte by byte, at every room. */
static void every_cut(const struct sample *s) {
    for (size_t cut = 0; cut <= s->count; cut++) {
        ask(s->bytes, cut);
        const struct plan *p = plan(requests, length);
        for (size_t room = 0; room <= p->written[p->records] + RVT_LONGEST_ANSWER; room++)
            batch(p, room);
    }
}

/* Every byte replaced in turn by every other, so that every kind is tried in every place. */
static void damaged(const struct sample *s) {
    uint8_t copy[sizeof s->bytes];
    for (size_t at = 0; at < s->count; at++)
        for (unsigned byte = 0; byte < BYTES; byte++) {
            memcpy(copy, s->bytes, s->count);
            copy[at] = (uint8_t)byte;
            ask(copy, s->count);
            batch(plan(requests, length), s->count + byte % 32);
        }
}

/* Every length of report, at every room: where it is not the one, nothing is touched. */
static void every_report(const struct sample *s) {
    ask(s->bytes, s->count);
    const struct plan *p = plan(requests, length);
    for (size_t room = 0; room <= p->written[p->records] + RVT_LONGEST_ANSWER; room++)
        for (size_t size = 0; size <= LONGEST_REPORT; size++)
            call(p, room, size, size % 2 == 0 ? 0x55 : 0xAA);
}

/* Kinds that are in no table, alone and behind a record. */
static void unknown(const struct sample *s) {
    static const uint8_t NONE[] = {0, 200};
    for (size_t i = 0; i < sizeof NONE; i++) {
        uint8_t bytes[2 * RVT_LONGEST_REQUEST] = {0};
        size_t first = 1 + kind_of(s->bytes[0])->body;
        bytes[0] = NONE[i];
        ask(bytes, RVT_LONGEST_REQUEST);
        check(plan(requests, length)->code == RVT_UNKNOWN, "no kind of the table", NONE[i]);
        batch(plan(requests, length), RVT_LONGEST_ANSWER);
        memcpy(bytes, s->bytes, first);
        bytes[first] = NONE[i];
        ask(bytes, sizeof bytes);
        batch(plan(requests, length), 2 * RVT_LONGEST_ANSWER);
    }
}

/* Requests of noise, most of them with records of known kinds at the front. */
static void noise(void) {
    uint8_t bytes[BYTES];
    uint64_t seed = 1;
    for (int n = 0; n < 20000; n++) {
        noise_records(bytes, sizeof bytes, &seed);
        ask(bytes, (size_t)(seed >> 32) % (sizeof bytes + 1));
        batch(plan(requests, length), (size_t)(seed >> 40) % 300);
    }
}

/* A null pointer with length 0. */
static void empty(void) {
    const uint8_t *one = (const uint8_t *)"\3\0\0\0\0\0\0\030\100";
    uint8_t out[1] = {7}, told[RVT_REPORT_BYTES];
    check(rvt_batch_code(NULL, 0, NULL, 0) == RVT_DONE, "nothing at all", 0);
    check(rvt_batch_code(NULL, 0, out, 1) == RVT_DONE && out[0] == 7, "no requests", 0);
    check(rvt_batch_code(one, 9, NULL, 0) == RVT_FULL, "no room", 0);
    check(rvt_batch(NULL, 0, NULL, 0, told, sizeof told) == RVT_DONE, "nothing at all, and a report", 0);
    check(all(told, sizeof told, 0), "a report of nothing", 0);
    check(rvt_batch(one, 9, out, 1, NULL, 0) == RVT_OTHER_LENGTH && out[0] == 7, "no report", 0);
}

/* The longest request and answer of the header are those of the table. */
static void longest(void) {
    size_t request = 0, most = 0;
    for (size_t i = 0; i < KIND_COUNT; i++) {
        const struct kind *k = &KINDS[i];
        request = request < 1 + k->body ? 1 + k->body : request;
        most = most < 1 + k->values + k->tail ? 1 + k->values + k->tail : most;
    }
    check(request == RVT_LONGEST_REQUEST, "the longest request", request);
    check(most == RVT_LONGEST_ANSWER, "the longest answer", most);
}

int main(int count, char **words) {
    static struct sample s;
    if (count < 3 || count % 2 == 0)
        give_up("usage", "test REQUESTS ANSWERS ...");
    longest();
    for (int i = 1; i < count; i += 2)
        stream(stored(words[i], words[i + 1]), &s);
    check(s.kinds == KIND_COUNT, "every kind has a stored answer", s.kinds);
    every_cut(&s);
    damaged(&s);
    every_report(&s);
    unknown(&s);
    noise();
    empty();
    return end();
}
