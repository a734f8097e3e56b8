/*
 * line_test [-l] REQUESTS ANSWERS ... -- COMMAND..: holds a host of a serial line to stored streams, pair of
 * files by pair of files. It starts COMMAND with the name of a terminal behind it, plays the berth
 * controller at the terminal's other side, and looks at the answers that come back, at the host's status
 * and last line, and at the settings that it leaves. It ends at the first thing that is wrong. With
 * -l the host is one that has late.c in it, and that is all that is tried.
 */
#include "line.h"

/* The most streams, and the rounds of random cuts. */
enum { STREAMS = 16, ROUNDS = 5 };

/* ---- how a stream is cut, or a line read */

typedef void way(size_t count, struct verdict v);

static uint64_t seed = 1;

static size_t pick(size_t from, size_t to) {
    seed = seed * 6364136223846793005u + 1442695040888963407u;
    return from + (size_t)(seed >> 33) % (to - from + 1);
}

static void at_once(size_t count, struct verdict v) {
    (void)v;
    give(count);
}

/* Each answer comes before the next byte is sent. */
static void byte_by_byte(size_t count, struct verdict v) {
    while (host.given < v.taken && !ended()) {
        give(host.given + 1);
        settle();
        expect(verdict(host.s, host.given).says);
    }
    give(count);
}

/* Most pieces are short, and some are longer than what is on the way; half of them come alone. */
static void at_random(size_t count, struct verdict v) {
    while (host.given < count && !ended()) {
        size_t piece = pick(0, 63) > 0 ? pick(1, 40) : pick(1, 20000);
        give(piece < count - host.given ? host.given + piece : count);
        if (host.given <= v.taken && pick(0, 1) > 0)
            settle();
    }
}

/* The answers are read late, few at a time and with pauses, and the host is stopped now and then. */
static void slowly(size_t count, struct verdict v) {
    fill_line();
    for (unsigned long turn = 1; host.got < v.says && !ended(); turn++) {
        receive(pick(1, 12));
        send_some(count);
        in_time();
        if (turn % 32 == 0)
            rest(1000);
        if (turn % 512 == 0)
            kill(host.id, SIGSTOP);
        if (turn % 512 == 100)
            kill(host.id, SIGCONT);
    }
    kill(host.id, SIGCONT);
    give(count);
}

/* ---- the trials */

/* Looks at what the host has told and, where the line is still open, at what it has sent and left. */
static void look(struct told t, const char *by, struct verdict v) {
    char why[TEXT];
    struct termios now, *was = &host.before;
    snprintf(why, sizeof why, "%s%s ", by, reasons[v.code]);
    check(strcmp(t.why, why) == 0, t.why);
    check(t.code == v.code && t.taken == v.taken && t.sent + t.unsent == v.says, "another code, or other counts");
    check(t.status == (t.unsent > 0 ? 2 : v.code != DONE), "another status");
    if (host.line >= 0) {
        while (receive(TEXT) > 0)
            continue;
        check(host.got == t.sent, "it has not sent what it says");
        check(tcgetattr(host.terminal, &now) == 0 && now.c_iflag == was->c_iflag && now.c_oflag == was->c_oflag &&
                  now.c_cflag == was->c_cflag && now.c_lflag == was->c_lflag &&
                  memcmp(now.c_cc, was->c_cc, sizeof now.c_cc) == 0 && cfgetospeed(&now) == cfgetospeed(was),
              "the settings are not put back");
        close(host.line);
    }
    close(host.terminal);
}

/* The first `count` bytes of a stream, and all answers to them. Then the line hangs up, or a signal comes,
 * unless an unknown kind ends the host. */
static void play(const char *name, const struct stream *s, size_t count, way *by, int number) {
    struct verdict v = verdict(s, count);
    trial = name;
    start(s, v.code == UNKNOWN);
    by(count, v);
    expect(v.says);
    if (v.code != UNKNOWN) {
        settle();
        end(number);
    }
    look(finish(), v.code == UNKNOWN ? "" : cause(number), v);
    check(host.got == v.says, "not all answers");
}

/* A hang-up or a signal where the line is full: the host tells what it could not send. */
static void full(const struct stream *s, int number) {
    trial = "the end of a full line";
    start(s, 1);
    fill_line();
    end(number);
    struct told t = finish();
    check(t.unsent > 0, "all is sent, or not all is told");
    look(t, cause(number), verdict(s, t.taken));
}

/* A signal that the host gives itself, with so many bytes before it: by late.c a single byte has it come
 * just before the wait, and many have it come amid them, and then the host does not take them all first. */
static void late(const struct stream *s, size_t count) {
    trial = "a late signal";
    start(s, 1);
    kill(host.id, SIGSTOP);
    waitpid(host.id, NULL, WUNTRACED);
    give(count);
    kill(host.id, SIGCONT);
    struct told t = finish();
    check(count == 1 || t.taken < count, "the signal is minded too late");
    check(t.unsent == 0, "answers are kept back on a line that takes them");
    look(t, cause(SIGTERM), verdict(s, t.taken));
}

/* A hang-up and a signal in the first record of each kind: behind its kind, before its last byte, and
 * behind that. */
static void every_kind(const struct stream *s) {
    static const int ENDERS[] = {SIGTERM, SIGINT, SIGHUP};
    for (size_t i = 0; i < KIND_COUNT; i++) {
        const struct kind *k = &KINDS[i];
        size_t at = 0;
        while (at < s->asks && s->requests[at] != k->number)
            at += kind_of(s->requests[at])->asks;
        if (at == s->asks)
            stop(s->name, "a kind is missing");
        const size_t counts[] = {at + 1, at + k->asks - 1, at + k->asks};
        for (size_t n = 0; n < 3; n++) {
            play("a hang-up", s, counts[n], at_once, 0);
            play("a signal", s, counts[n], at_once, ENDERS[(i + n) % 3]);
        }
    }
}

static void stored(const struct stream *s) {
    play("at once", s, s->asks, at_once, 0);
    if (s->asks < 4096)
        play("byte by byte", s, s->asks, byte_by_byte, 0);
    for (int round = 0; round < ROUNDS; round++)
        play("cut at random", s, s->asks, at_random, 0);
}

/* The longest stream, of those that end between two records where that is asked. */
static const struct stream *longest(const struct stream *streams, size_t count, int whole) {
    const struct stream *found = NULL;
    for (const struct stream *s = streams; s < streams + count; s++)
        if ((!whole || verdict(s, s->asks).code == DONE) && (found == NULL || s->asks > found->asks))
            found = s;
    return found;
}

static void all(const struct stream *streams, size_t count) {
    const struct stream *most = longest(streams, count, 0);
    for (size_t i = 0; i < count; i++)
        stored(&streams[i]);
    every_kind(longest(streams, count, 1));
    play("a slow reader", most, most->asks, slowly, 0);
    full(most, 0);
    full(most, SIGTERM);
}

int main(int count, char **words) {
    static struct stream streams[STREAMS];
    int is_late = count > 1 && strcmp(words[1], "-l") == 0, at = 1 + is_late;
    size_t n = 0;
    for (; at + 1 < count && strcmp(words[at], "--") != 0 && n < STREAMS; at += 2)
        load_stream(&streams[n++], words[at], words[at + 1]);
    if (at + 1 >= count || strcmp(words[at], "--") != 0 || count - at > WORDS || longest(streams, n, 1) == NULL)
        stop("usage", "line_test [-l] REQUESTS ANSWERS ... -- COMMAND.., with a stream of code 0");
    while (++at < count)
        command[command_words++] = words[at];
    if (is_late) {
        late(longest(streams, n, 1), 1);
        late(longest(streams, n, 1), longest(streams, n, 1)->asks);
    } else {
        all(streams, n);
    }
    printf("line: %lu hosts, each as stored\n", hosts);
    return 0;
}
