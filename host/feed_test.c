/*
 * feed_test REQUESTS ANSWERS ...: holds the feed's C entries to stored streams, pair of files by pair of
 * files, and to the plan of plan.h. Every call is made between guard bytes, over two fillings, and once
 * more in blocks of the very length, where a memory checker sees a step outside. After each of them all
 * bytes of the feed are looked at. The last line is 'N checks, M failed'.
 */
#include "check.h"
#include "raveltrellis.h"

/* The most bytes that a feed holds, and the number in one that has stopped; where its numbers stand; the
 * longest feed that is lent; room for a record of every kind. */
enum { HELD = RVT_LONGEST_REQUEST - 1, STOPPED = 9, NUMBER = 8, TAKEN = 16, PUT = 24 };
enum { LONGEST_FEED = 2 * RVT_FEED_BYTES, ENOUGH = RVT_LONGEST_ANSWER * (KIND_COUNT + 1) };

static const uint8_t EMPTY[RVT_FEED_BYTES];

/* ---- what a call has to do */

/* A call: a feed of `size` bytes, which is closed, or takes a piece of `count` bytes with so much room. */
struct call {
    int close;
    const uint8_t *feed;
    size_t size;
    const uint8_t *piece;
    size_t count, room;
};

/* What it leaves: the code, how much it took and wrote, the answers at the front, and the feed. */
struct left {
    uint64_t code;
    size_t taken, written;
    const uint8_t *answers;
    uint8_t feed[LONGEST_FEED];
};

/* How many bytes of a record the feed holds, or STOPPED where they are no start of one. */
static size_t held(const uint8_t *feed) {
    uint64_t count = get(feed + NUMBER, 8);
    const struct kind *k = kind_of(feed[0]);
    if (count == 0)
        return 0;
    return k != NULL && count <= k->body ? (size_t)count : STOPPED;
}

/* The feed that a code leaves: one that has stopped, or the `keep` bytes of a record's start. */
static struct left leave(uint64_t code, const uint8_t *start, size_t keep, size_t taken, size_t written) {
    struct left l = {code, taken, written, start, {0}};
    memcpy(l.feed, start, keep);
    put(l.feed + NUMBER, 8, code == RVT_UNKNOWN ? STOPPED : keep);
    put(l.feed + TAKEN, 8, taken);
    put(l.feed + PUT, 8, written);
    return l;
}

/* A feed that holds `count` bytes does on a piece what a batch does on both. Behind the records that are
 * answered it takes nothing of an unknown kind, all but the last byte of a record whose answer has no
 * room, and else all that there is. */
static struct left pushed(const struct call *c, size_t count) {
    static uint8_t bytes[HELD + MOST];
    memcpy(bytes, c->feed, count);
    memcpy(bytes + count, c->piece, c->count);
    const struct plan *p = plan(bytes, count + c->count);
    struct did d = at_room(p, c->room);
    uint64_t code = d.number[CODE] == RVT_CUT ? RVT_DONE : d.number[CODE];
    size_t read = d.number[READ], keep = count + c->count - read;
    if (code != RVT_DONE)
        keep = code == RVT_FULL ? kind_of(bytes[read])->body : 0;
    struct left l = leave(code, bytes + read, keep, read + keep - count, d.number[WRITTEN]);
    l.answers = p->answers;
    return l;
}

static struct left wanted(const struct call *c) {
    if (c->size != RVT_FEED_BYTES) {
        struct left l = {RVT_OTHER_LENGTH, 0, 0, c->feed, {0}};
        memcpy(l.feed, c->feed, c->size);
        return l;
    }
    size_t count = held(c->feed);
    if (count == STOPPED)
        return leave(RVT_UNKNOWN, c->feed, 0, 0, 0);
    if (c->close)
        return leave(count > 0 ? RVT_CUT : RVT_DONE, c->feed, 0, 0, 0);
    return pushed(c, count);
}

/* ---- calls */

static uint8_t feed_block[LONGEST_FEED + 2 * GUARD], piece_block[MOST + 2 * GUARD], answers_block[2 * MOST + 2 * GUARD];

static uint64_t ask(const struct call *c, uint8_t *feed, const uint8_t *piece, uint8_t *answers) {
    if (c->close)
        return rvt_feed_close(feed, c->size);
    return rvt_feed_push(feed, c->size, piece, c->count, answers, c->room);
}

static void lend(uint8_t *block, const uint8_t *bytes, size_t count, uint8_t fill) {
    memset(block, fill, count + 2 * GUARD);
    memcpy(block + GUARD, bytes, count);
}

static void between_guards(const struct call *c, const struct left *l, uint8_t fill) {
    lend(feed_block, c->feed, c->size, fill);
    lend(piece_block, c->piece, c->count, fill);
    memset(answers_block, fill, c->room + 2 * GUARD);
    check(ask(c, feed_block + GUARD, piece_block + GUARD, answers_block + GUARD) == l->code, "code", c->room);
    check(holds(feed_block, c->size, fill, l->feed, c->size), "the feed, and nothing beside it", c->count);
    check(holds(piece_block, c->count, fill, c->piece, c->count), "the piece stays as it is", c->count);
    check(holds(answers_block, c->room, fill, l->answers, l->written), "the answers, and nothing else, are written",
          c->room);
}

/* The same in blocks of the very length. */
static void exactly(const struct call *c, const struct left *l) {
    uint8_t *feed = block(c->feed, c->size), *in = block(c->piece, c->count), *out = block(NULL, c->room);
    check(ask(c, feed, in, out) == l->code, "code in blocks of the very length", c->room);
    check(c->size == 0 || memcmp(feed, l->feed, c->size) == 0, "the feed in a block of the very length", c->count);
    check(l->written == 0 || memcmp(out, l->answers, l->written) == 0, "the answers in one", c->room);
    free(feed);
    free(in);
    free(out);
}

static struct left call(const struct call *c) {
    struct left l = wanted(c);
    between_guards(c, &l, 0x55);
    between_guards(c, &l, 0xAA);
    exactly(c, &l);
    return l;
}

static struct left push(const uint8_t *feed, const uint8_t *piece, size_t count, size_t room) {
    struct call c = {0, feed, RVT_FEED_BYTES, piece, count, room};
    return call(&c);
}

static struct left finish(const uint8_t *feed) {
    struct call c = {1, feed, RVT_FEED_BYTES, EMPTY, 0, 0};
    return call(&c);
}

/* ---- the stored streams */

/* A stream as a host feeds it, with the same room for each call: what a call does not take stands at the
 * front of the next piece. */
static void in_pieces(const struct stored *t, size_t most, size_t room) {
    static uint8_t got[2 * MOST];
    struct left l = push(EMPTY, EMPTY, 0, 0);
    size_t written = 0;
    for (size_t at = 0; at < t->length && l.code != RVT_UNKNOWN; at += l.taken) {
        size_t rest = t->length - at;
        l = push(l.feed, t->requests + at, rest < most ? rest : most, room);
        check(l.taken > 0 || l.code == RVT_UNKNOWN, "a call takes a byte", at);
        memcpy(got + written, answers_block + GUARD, l.written);
        written += l.written;
    }
    check(written == t->written, "as many bytes as stored", most);
    check(memcmp(got, t->answers, t->written) == 0, "the stored answers", most);
    check(finish(l.feed).code == t->code, "the stored stop code", most);
}

/* Room for one answer a call, and for all of a piece. */
static void stream(const struct stored *t, struct sample *s) {
    static const size_t PIECES[] = {1, 7, 64, 4096};
    for (size_t i = 0; i < sizeof PIECES / sizeof PIECES[0]; i++) {
        in_pieces(t, PIECES[i], RVT_LONGEST_ANSWER);
        in_pieces(t, PIECES[i], 2 * PIECES[i] + RVT_LONGEST_ANSWER);
    }
    in_pieces(t, MOST, 2 * MOST);
    take_samples(s, t->requests, plan(t->requests, t->length));
}

/* ---- the sample of every kind */

/* A piece at every room from none to more than enough. Where the room is too short, what is left of the
 * piece is pushed with room for all. */
static void every_room(const uint8_t *feed, const uint8_t *piece, size_t count) {
    size_t most = push(feed, piece, count, ENOUGH).written + RVT_LONGEST_ANSWER;
    for (size_t room = 0; room <= most; room++) {
        struct left l = push(feed, piece, count, room);
        if (l.code == RVT_FULL)
            push(l.feed, piece + l.taken, count - l.taken, ENOUGH);
    }
}

/* Every piece of it, also an empty one, behind the bytes before it, at every room. */
static void every_piece(const struct sample *s) {
    for (size_t from = 0; from <= s->count; from++) {
        struct left l = push(EMPTY, s->bytes, from, ENOUGH);
        finish(l.feed);
        for (size_t count = 0; count <= s->count - from; count++)
            every_room(l.feed, s->bytes + from, count);
    }
}

/* Every byte replaced in turn by every other, in one piece and in two. */
static void damaged(const struct sample *s) {
    uint8_t copy[sizeof s->bytes];
    for (size_t at = 0; at < s->count; at++)
        for (unsigned byte = 0; byte < BYTES; byte++) {
            memcpy(copy, s->bytes, s->count);
            copy[at] = (uint8_t)byte;
            push(EMPTY, copy, s->count, s->count + byte % 32);
            struct left l = push(EMPTY, copy, at, ENOUGH);
            push(l.feed, copy + at, s->count - at, ENOUGH);
        }
}

/* A feed that has stopped takes and writes nothing more, and closing it changes nothing. */
static void stays_stopped(struct left l, const struct sample *s) {
    check(l.code == RVT_UNKNOWN, "a feed that has stopped", l.taken);
    l = push(l.feed, s->bytes, 0, 0);
    l = push(l.feed, s->bytes, 1, 0);
    l = push(l.feed, s->bytes, s->count, ENOUGH);
    l = finish(l.feed);
    l = push(l.feed, s->bytes, s->count, ENOUGH);
    l = push(l.feed, s->bytes, 0, ENOUGH);
    check(finish(l.feed).code == RVT_UNKNOWN, "it stays so", l.taken);
}

/* Every byte that is no kind, first of all and behind a record. */
static void unknown(const struct sample *s) {
    size_t first = 1 + kind_of(s->bytes[0])->body;
    for (unsigned byte = 0; byte < BYTES; byte++) {
        uint8_t bytes[2 * RVT_LONGEST_REQUEST];
        if (kind_of((uint8_t)byte) != NULL)
            continue;
        memset(bytes, (int)byte, sizeof bytes);
        memcpy(bytes, s->bytes, first);
        every_room(EMPTY, bytes + first, sizeof bytes - first);
        every_room(EMPTY, bytes, sizeof bytes);
        stays_stopped(push(EMPTY, bytes + first, 1, 0), s);
        stays_stopped(push(EMPTY, bytes, sizeof bytes, RVT_LONGEST_ANSWER), s);
    }
}

/* ---- any feed */

static void any_feed(const uint8_t *feed, const struct sample *s) {
    finish(feed);
    push(feed, s->bytes, 0, 0);
    push(feed, s->bytes, 1, 0);
    push(feed, s->bytes, RVT_LONGEST_REQUEST, 0);
    push(feed, s->bytes, s->count, ENOUGH);
}

/* Feeds of noise but for the kind at the front and the number: from 0 to 10, alone and with a bit in each
 * of its higher bytes. */
static void made_up(const struct sample *s) {
    uint8_t feed[RVT_FEED_BYTES];
    uint64_t seed = 1;
    for (unsigned i = 0; i < BYTES * 8 * 11; i++) {
        noise_bytes(feed, sizeof feed, &seed);
        feed[0] = (uint8_t)(i % BYTES);
        put(feed + NUMBER, 8, i / BYTES / 8);
        if (i / BYTES % 8 > 0)
            feed[NUMBER + i / BYTES % 8] = (uint8_t)(1u << (seed >> 32) % 8);
        any_feed(feed, s);
    }
}

/* Feeds of every length, of which one is good: an empty one, one that holds a byte, and one that has
 * stopped, each with noise behind it. */
static void every_length(const struct sample *s) {
    static const uint8_t COUNTS[] = {0, 1, STOPPED};
    uint8_t feed[LONGEST_FEED];
    uint64_t seed = 1;
    for (size_t i = 0; i < 3 * (LONGEST_FEED + 1); i++) {
        noise_bytes(feed, sizeof feed, &seed);
        memset(feed, 0, TAKEN);
        feed[0] = i % 3 == 1 ? s->bytes[0] : 0;
        feed[NUMBER] = COUNTS[i % 3];
        struct call c = {0, feed, i / 3, s->bytes, s->count, ENOUGH};
        call(&c);
        c.close = 1;
        call(&c);
    }
}

/* Streams of noise in pieces of any length, at any room. */
static void noise(void) {
    uint8_t bytes[BYTES];
    uint64_t seed = 1;
    for (int n = 0; n < 2000; n++) {
        struct left l = push(EMPTY, EMPTY, 0, 0);
        noise_records(bytes, sizeof bytes, &seed);
        for (size_t at = 0, turn = 0; turn < BYTES / 4; at += l.taken, turn++) {
            size_t rest = sizeof bytes - at, count = bytes[turn] % 32, room = bytes[BYTES - 1 - turn] % 64;
            l = push(l.feed, bytes + at, rest < count ? rest : count, room);
        }
        finish(l.feed);
    }
}

/* A null pointer with length 0. */
static void empty(const struct sample *s) {
    uint8_t feed[RVT_FEED_BYTES] = {0};
    check(rvt_feed_push(feed, sizeof feed, NULL, 0, NULL, 0) == RVT_DONE, "nothing at all", 0);
    check(all(feed, sizeof feed, 0), "an empty feed", 0);
    check(rvt_feed_push(feed, sizeof feed, s->bytes, s->count, NULL, 0) == RVT_FULL, "no room", 0);
    check(rvt_feed_push(feed, sizeof feed, NULL, 0, NULL, 0) == RVT_DONE, "no piece", 0);
    check(held(feed) == kind_of(s->bytes[0])->body, "what was held before it", 0);
    check(rvt_feed_push(NULL, 0, s->bytes, s->count, NULL, 0) == RVT_OTHER_LENGTH, "no feed", 0);
    check(rvt_feed_close(NULL, 0) == RVT_OTHER_LENGTH, "no feed to close", 0);
}

int main(int count, char **words) {
    static struct sample s;
    if (count < 3 || count % 2 == 0)
        give_up("usage", "feed_test REQUESTS ANSWERS ...");
    for (int i = 1; i < count; i += 2)
        stream(stored(words[i], words[i + 1]), &s);
    check(s.kinds == KIND_COUNT, "every kind has a stored answer", s.kinds);
    every_piece(&s);
    damaged(&s);
    unknown(&s);
    made_up(&s);
    every_length(&s);
    noise();
    empty(&s);
    return end();
}
