/*
 * gateway [FILE]: answers the request stream in FILE, or on standard input, through the library, as
 * the gateway's host does: two fixed buffers, and nothing grows. The answers go to standard output;
 * what stopped it, and the counts, go to standard error.
 *
 * Its status is 0 where every request is answered, 1 where a code stopped it, and 2 where the input or
 * the output failed or the command is another.
 */
#include <errno.h>
#include <fcntl.h>
#include <inttypes.h>
#include <signal.h>
#include <stdio.h>
#include <string.h>
#include <unistd.h>

#include "raveltrellis.h"

/* Any sizes serve from the longest request and the longest answer on. */
enum { REQUESTS = 4096, ANSWERS = 4096 };

enum status { DONE = 0, STOPPED = 1, FAILED = 2 };

/* The input or the output failed: no code of the library. */
enum { BROKEN = 255 };

static const char *const reasons[] = {
    [RVT_DONE] = "requests used up",
    [RVT_UNKNOWN] = "unknown kind",
    [RVT_CUT] = "incomplete record",
};

/* A stream: the requests that are not read yet, and what was done up to here. */
struct stream {
    uint8_t requests[REQUESTS];
    size_t have;
    struct rvt_report sum;
};

/* A signal may cut a read short before it has a byte, or a write before it has taken all: both go on. */

static ssize_t read_some(int from, uint8_t *bytes, size_t room) {
    ssize_t got;
    do
        got = read(from, bytes, room);
    while (got < 0 && errno == EINTR);
    return got;
}

static int write_all(int to, const uint8_t *bytes, size_t count) {
    while (count > 0) {
        ssize_t put = write(to, bytes, count);
        if (put < 0 && errno == EINTR)
            continue;
        if (put <= 0)
            return 0;
        bytes += put;
        count -= (size_t)put;
    }
    return 1;
}

/* Answers what is there, sends the answers, and moves the unread bytes to the front. Gives the stop code. */
static uint64_t turn(struct stream *s) {
    static uint8_t answers[ANSWERS];
    struct rvt_report did;
    uint64_t code = rvt_batch_run(s->requests, s->have, answers, sizeof answers, &did);
    s->sum.records += did.records;
    s->sum.read += did.read;
    s->sum.written += did.written;
    s->have -= (size_t)did.read;
    memmove(s->requests, s->requests + did.read, s->have);
    if (write_all(STDOUT_FILENO, answers, (size_t)did.written))
        return code;
    perror("gateway: output");
    return BROKEN;
}

/* Answers a stream to its end. Gives the stop code. */
static uint64_t serve(int from, struct stream *s) {
    for (;;) {
        ssize_t got = read_some(from, s->requests + s->have, sizeof s->requests - s->have);
        if (got < 0) {
            perror("gateway: input");
            return BROKEN;
        }
        s->have += (size_t)got;
        /* the room is used up: the answers are sent, and it goes on without a read */
        uint64_t code;
        do
            code = turn(s);
        while (code == RVT_FULL);
        /* the rest of an incomplete record may still come, until the input ends */
        if (code == BROKEN || code == RVT_UNKNOWN || got == 0)
            return code;
    }
}

int main(int count, char **words) {
    static struct stream s;
    if (count > 2 || (count == 2 && words[1][0] == '-')) {
        fputs("usage: gateway [FILE] < requests > answers\n", stderr);
        return FAILED;
    }
    int from = count == 2 ? open(words[1], O_RDONLY) : STDIN_FILENO;
    if (from < 0) {
        perror(words[1]);
        return FAILED;
    }
    /* an output that nobody reads is an error to tell, and no signal to end by */
    signal(SIGPIPE, SIG_IGN);
    uint64_t code = serve(from, &s);
    if (code == BROKEN)
        return FAILED;
    fprintf(stderr, "stopped: %s (code %d), %" PRIu64 " records, %" PRIu64 " bytes read, %" PRIu64 " bytes written\n",
            reasons[code], (int)code, s.sum.records, s.sum.read, s.sum.written);
    return code == RVT_DONE ? DONE : STOPPED;
}
