/*
 * line.h: a host of a serial line at work, for line_test.c: the stored streams and what their first bytes have
 * to give, a terminal and the host's process behind it, and what passes over the line. What is wrong ends
 * the test.
 */
#ifndef LINE_H
#define LINE_H

#include <errno.h>
#include <fcntl.h>
#include <poll.h>
#include <signal.h>
#include <stdint.h>
#include <stdio.h>
#include <stdlib.h>
#include <string.h>
#include <sys/wait.h>
#include <termios.h>
#include <time.h>
#include <unistd.h>

/* The most bytes of a stream, and of what a host says; the most words of its command; and the seconds that it
 * has. */
enum { MOST = 1 << 17, TEXT = 4096, WORDS = 64, PATIENCE = 30 };

/* The codes, and what the host says of each. */
enum { DONE, UNKNOWN, CUT };
static const char *const reasons[] = {"requests used up", "unknown kind", "incomplete record"};

static const struct kind {
    uint8_t number;
    size_t asks, says;
} KINDS[] = {
#define KIND(number, name, body, values, tail) {number, 1 + body, 1 + values + tail},
#include "kinds.h"
#undef KIND
};

enum { KIND_COUNT = sizeof KINDS / sizeof KINDS[0] };

/* The speeds that hosts are given by turns; the first is given none, and finds that one. */
static const struct speed {
    const char *name;
    speed_t code;
} SPEEDS[] = {
    {NULL, B2400},    {"1200", B1200},   {"1800", B1800},   {"2400", B2400},   {"4800", B4800},
    {"9600", B9600},  {"19200", B19200}, {"38400", B38400}, {"57600", B57600}, {"115200", B115200},
};

enum { SPEED_COUNT = sizeof SPEEDS / sizeof SPEEDS[0] };

/* A stored stream, its answers without the closing bytes. */
struct stream {
    const char *name;
    size_t asks, says;
    uint8_t requests[MOST], answers[MOST];
};

/* The host at work: its process and what it says, the two sides of the line, and the settings that it
 * found; the stream, how many bytes of it the host was given, and how many bytes of its answers came. */
static struct {
    pid_t id;
    int said, line, terminal;
    struct termios before;
    time_t began;
    const struct stream *s;
    size_t given, got;
} host;

static char *command[WORDS + 4];
static size_t command_words;
static const char *trial;
static unsigned long hosts;

/* ---- the end of the test, and the time */

static void stop(const char *what, const char *why) {
    fprintf(stderr, "line_test: %s: %s\n", what, why);
    exit(2);
}

static void check(int good, const char *what) {
    char text[TEXT];
    if (good)
        return;
    fprintf(stderr, "line_test: %s, after %zu bytes of %s and %zu of its answers: %s\n", trial, host.given,
            host.s->name, host.got, what);
    if (host.id > 0) {
        kill(host.id, SIGKILL);
        ssize_t length = read(host.said, text, sizeof text);
        fprintf(stderr, "line_test: the host says: %.*s\n", length > 0 ? (int)length : 0, text);
    }
    exit(1);
}

static time_t seconds(void) {
    struct timespec now;
    clock_gettime(CLOCK_MONOTONIC, &now);
    return now.tv_sec;
}

static void rest(long microseconds) {
    struct timespec time = {0, microseconds * 1000};
    nanosleep(&time, NULL);
}

static void in_time(void) { check(seconds() - host.began < PATIENCE, "the host takes too long"); }

/* ---- what the first bytes of a stream have to give */

struct verdict {
    int code;
    size_t taken, says;
};

static const struct kind *kind_of(uint8_t number) {
    for (size_t i = 0; i < KIND_COUNT; i++)
        if (KINDS[i].number == number)
            return &KINDS[i];
    return NULL;
}

static struct verdict verdict(const struct stream *s, size_t count) {
    struct verdict v = {DONE, 0, 0};
    while (v.code == DONE && v.taken < count) {
        const struct kind *k = kind_of(s->requests[v.taken]);
        if (k == NULL) {
            v.code = UNKNOWN;
        } else if (count - v.taken < k->asks) {
            v.code = CUT;
            v.taken = count;
        } else {
            v.taken += k->asks;
            v.says += k->says;
        }
    }
    return v;
}

/* ---- the stored streams */

static size_t load(const char *name, uint8_t *to) {
    FILE *file = fopen(name, "rb");
    if (file == NULL)
        stop(name, strerror(errno));
    size_t count = fread(to, 1, MOST, file);
    if (ferror(file) || count == MOST)
        stop(name, "cannot be read, or is longer than the test takes");
    fclose(file);
    return count;
}

static void load_stream(struct stream *s, const char *requests, const char *answers) {
    s->name = requests;
    s->asks = load(requests, s->requests);
    s->says = load(answers, s->answers);
    struct verdict v = verdict(s, s->asks);
    if (s->says != v.says + 2 || s->answers[v.says] != 255 || s->answers[v.says + 1] != v.code)
        stop(answers, "are not as long as the requests have it, or close with another code");
    s->says = v.says;
}

/* ---- a host, from its start to its end */

/* Opens a line, at a terminal whose settings no other has. It answers nothing by itself where it is `still`:
 * an echo of what comes behind the host's end is no answer. */
static void open_line(int still) {
    struct termios *t = &host.before;
    host.line = posix_openpt(O_RDWR | O_NOCTTY);
    if (host.line < 0 || grantpt(host.line) < 0 || unlockpt(host.line) < 0)
        stop("a line", strerror(errno));
    host.terminal = open(ptsname(host.line), O_RDWR | O_NOCTTY);
    if (host.terminal < 0 || tcgetattr(host.terminal, t) < 0 || fcntl(host.line, F_SETFL, O_NONBLOCK) < 0)
        stop("a terminal", strerror(errno));
    if (still)
        t->c_iflag = t->c_lflag = 0;
    t->c_cflag |= CSTOPB;
    t->c_cc[VMIN] = 7;
    t->c_cc[VTIME] = 3;
    cfsetispeed(t, SPEEDS[0].code);
    cfsetospeed(t, SPEEDS[0].code);
    if (tcsetattr(host.terminal, TCSANOW, t) < 0 || tcgetattr(host.terminal, t) < 0)
        stop("a terminal", strerror(errno));
}

/* In the child: becomes the host, which knows the line by its name alone. */
static void become(int error, const struct speed *speed) {
    char name[TEXT], option[] = "-s", number[16];
    size_t n = command_words;
    if (speed->name != NULL) {
        snprintf(number, sizeof number, "%s", speed->name);
        command[n++] = option;
        command[n++] = number;
    }
    snprintf(name, sizeof name, "%s", ptsname(host.line));
    command[n] = name;
    /* whatever the test was started by */
    signal(SIGHUP, SIG_DFL);
    dup2(error, STDERR_FILENO);
    close(error);
    close(host.said);
    close(host.line);
    close(host.terminal);
    execvp(command[0], command);
    perror(command[0]);
    _exit(127);
}

/* Whether the host is at its end: nobody holds its standard error any more. */
static int ended(void) {
    struct pollfd p = {host.said, 0, 0};
    return poll(&p, 1, 0) > 0;
}

/* Waits until the host has set the terminal, before which nothing may be sent. */
static void wait_until_ready(const struct speed *speed) {
    struct termios now;
    do {
        rest(200);
        in_time();
        check(tcgetattr(host.terminal, &now) == 0 && !ended(), "the host ends before it is ready");
    } while (now.c_cc[VMIN] != 1);
    check(cfgetispeed(&now) == speed->code && cfgetospeed(&now) == speed->code, "another speed");
    check((now.c_lflag & (ICANON | ECHO)) == 0 && (now.c_cflag & CSTOPB) == 0 && now.c_cc[VTIME] == 0,
          "other settings");
}

static void start(const struct stream *s, int still) {
    const struct speed *speed = &SPEEDS[hosts++ % SPEED_COUNT];
    int ends[2];
    open_line(still);
    host.s = s;
    host.given = host.got = 0;
    host.began = seconds();
    if (pipe(ends) < 0)
        stop("a pipe", strerror(errno));
    host.said = ends[0];
    host.id = fork();
    if (host.id < 0)
        stop("a process", strerror(errno));
    if (host.id == 0)
        become(ends[1], speed);
    close(ends[1]);
    wait_until_ready(speed);
}

/* Ends a host: a signal, or a hang-up where that is 0. */
static void end(int number) {
    if (number != 0) {
        kill(host.id, number);
        return;
    }
    close(host.line);
    host.line = -1;
}

static const char *cause(int number) { return number != 0 ? "signal, " : "line hung up, "; }

/* What a host tells when it has ended. */
struct told {
    int status, code;
    size_t taken, sent, unsent;
    char why[TEXT];
};

static struct told finish(void) {
    static struct told t;
    static char text[TEXT];
    size_t length = 0;
    int status = 0;
    while (!ended()) {
        rest(200);
        in_time();
    }
    for (ssize_t got; (got = read(host.said, text + length, sizeof text - 1 - length)) > 0;)
        length += (size_t)got;
    text[length] = 0;
    close(host.said);
    waitpid(host.id, &status, 0);
    host.id = 0;
    check(WIFEXITED(status), "the host is ended from outside");
    t.status = WEXITSTATUS(status);
    const char *line = strstr(text, "stopped: ");
    check(line != NULL, text);
    check(sscanf(line, "stopped: %4000[^(] (code %d), %zu bytes taken, %zu bytes sent, %zu not sent", t.why, &t.code,
                 &t.taken, &t.sent, &t.unsent) == 5,
          text);
    return t;
}

/* ---- the line */

/* Takes answers that are there, `most` bytes at most. Gives how many came. */
static size_t receive(size_t most) {
    uint8_t bytes[TEXT];
    ssize_t got = read(host.line, bytes, most < sizeof bytes ? most : sizeof bytes);
    check(got > 0 || errno == EAGAIN, "the line cannot be read");
    if (got <= 0)
        return 0;
    check((size_t)got <= host.s->says - host.got, "more answers than are stored");
    check(memcmp(bytes, host.s->answers + host.got, (size_t)got) == 0, "an answer differs");
    host.got += (size_t)got;
    return (size_t)got;
}

/* Sends of the stream up to `to` what the line takes at once. */
static void send_some(size_t to) {
    if (host.given == to)
        return;
    ssize_t put = write(host.line, host.s->requests + host.given, to - host.given);
    check(put > 0 || errno == EAGAIN, "the line cannot be written");
    host.given += put > 0 ? (size_t)put : 0;
}

/* Sends the stream up to `to`, and takes the answers that come meanwhile. */
static void give(size_t to) {
    struct pollfd p = {host.line, POLLIN | POLLOUT, 0};
    while (host.given < to && !ended()) {
        poll(&p, 1, 20);
        in_time();
        receive(TEXT);
        send_some(to);
    }
}

/* Waits until so many bytes of answers have come. */
static void expect(size_t says) {
    struct pollfd p = {host.line, POLLIN, 0};
    while (host.got < says) {
        int over = ended();
        poll(&p, 1, 20);
        in_time();
        check(receive(TEXT) > 0 || !over, "the host ends before all its answers are there");
    }
}

/* Waits until the host has taken all that it was given. */
static void settle(void) {
    struct pollfd p = {host.terminal, POLLIN, 0};
    while (poll(&p, 1, 0) != 0 && !ended()) {
        rest(20);
        in_time();
        receive(TEXT);
    }
}

/* Sends the stream and takes no answer, until the host can neither send nor take any more. */
static void fill_line(void) {
    struct pollfd line = {host.line, POLLOUT, 0}, terminal = {host.terminal, POLLOUT, 0};
    for (int quiet = 0; quiet < 10; quiet++) {
        if (poll(&line, 1, 10) > 0 || poll(&terminal, 1, 0) > 0)
            quiet = 0;
        in_time();
        send_some(host.s->asks);
        check(host.given < host.s->asks, "the stream is too short to fill the line");
    }
}

#endif
