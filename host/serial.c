/*
 * serial [-s SPEED] DEVICE: answers the requests that come over a serial line, over the same line, as the
 * gateway's host does: a feed, two fixed buffers, and nothing grows. A hang-up, an unknown kind, SIGINT,
 * SIGTERM or SIGHUP ends it. What stopped it, and the counts, go to standard error.
 *
 * Its status is 0 where every request is answered, 1 where a code stopped it, and 2 where the device
 * failed, answers could not be sent, or the command is another.
 */
#include <errno.h>
#include <fcntl.h>
#include <inttypes.h>
#include <signal.h>
#include <stdio.h>
#include <string.h>
#include <sys/select.h>
#include <termios.h>
#include <unistd.h>

#include "raveltrellis.h"

/* Any sizes serve from one byte and the longest answer on. */
enum { PIECE = 512, ANSWERS = 256 };

enum status { DONE = 0, STOPPED = 1, FAILED = 2 };

/* What ended it: the code alone, or what happened to the line; and what the code says. */
static const char CODE[] = "", HANG_UP[] = "line hung up, ", SIGNAL[] = "signal, ";
static const char FAILURE[] = "line failed, ", SETTINGS[] = "settings not taken, ";
static const char *const reasons[] = {
    [RVT_DONE] = "requests used up", [RVT_UNKNOWN] = "unknown kind", [RVT_CUT] = "incomplete record"};

static const struct speed {
    const char *name;
    speed_t code;
} speeds[] = {
    {"1200", B1200},   {"1800", B1800},   {"2400", B2400},   {"4800", B4800},     {"9600", B9600},
    {"19200", B19200}, {"38400", B38400}, {"57600", B57600}, {"115200", B115200}, {NULL, B0},
};

/* A line: the bytes taken, and of the answers those sent and those that could not be. */
struct line {
    int device;
    struct rvt_feed feed;
    uint64_t taken, sent, unsent;
};

/* The signals that ask for the end, and whether one came. */
static sigset_t enders;
static volatile sig_atomic_t asked;

static void ask(int number) { asked = number; }

static void catch_signals(void) {
    struct sigaction was;
    sigemptyset(&enders);
    sigaddset(&enders, SIGINT);
    sigaddset(&enders, SIGTERM);
    sigaddset(&enders, SIGHUP);
    struct sigaction on = {.sa_handler = ask, .sa_mask = enders};
    sigaction(SIGINT, &on, NULL);
    sigaction(SIGTERM, &on, NULL);
    /* one that is to outlive its session, by nohup, does */
    if (sigaction(SIGHUP, NULL, &was) == 0 && was.sa_handler != SIG_IGN)
        sigaction(SIGHUP, &on, NULL);
    /* an error output that nobody reads is no signal to end by */
    signal(SIGPIPE, SIG_IGN);
}

/* Waits until the line can be read, or written. Gives 0 once a signal has asked for the end: the signals
 * are held back until the wait lets them in, so that none falls between the look and the wait. */
static int wait_for(int device, int to_write) {
    fd_set set;
    sigset_t before;
    FD_ZERO(&set);
    FD_SET(device, &set);
    sigprocmask(SIG_BLOCK, &enders, &before);
    if (!asked)
        pselect(device + 1, to_write ? NULL : &set, to_write ? &set : NULL, NULL, NULL, &before);
    sigprocmask(SIG_SETMASK, &before, NULL);
    return !asked;
}

/* After a read or a write that moved nothing: what ended it, or NULL to try again, since a signal cut it
 * short or the line was not ready and now is. */
static const char *stalled(int device, int to_write, ssize_t moved) {
    int why = moved == 0 ? EIO : errno;
    if (why == EINTR || (why == EAGAIN && wait_for(device, to_write)))
        return NULL;
    if (asked || why == EIO)
        return asked ? SIGNAL : HANG_UP;
    perror("serial: line");
    return FAILURE;
}

/* Sends answers. Where the line has hung up nobody gets them, and where a signal asks for the end it
 * sends what the line takes at once. What is left is counted, to be told, and no more is taken: the
 * controller has to ask again from the first answer that it lacks. */
static const char *send_answers(struct line *l, const uint8_t *answers, size_t count) {
    const char *ended = NULL;
    while (count > 0 && ended == NULL) {
        ssize_t put = write(l->device, answers, count);
        if (put <= 0) {
            ended = stalled(l->device, 1, put);
            continue;
        }
        answers += put;
        count -= (size_t)put;
        l->sent += (uint64_t)put;
    }
    l->unsent = count;
    return ended;
}

/* Takes a piece. Where the room is used up the answers are sent, and the rest is offered again. */
static const char *take(struct line *l, const uint8_t *piece, size_t left) {
    static uint8_t answers[ANSWERS];
    const char *ended;
    uint64_t code;
    do {
        code = rvt_feed_take(&l->feed, piece, left, answers, sizeof answers);
        piece += l->feed.taken;
        left -= (size_t)l->feed.taken;
        l->taken += l->feed.taken;
        ended = send_answers(l, answers, (size_t)l->feed.written);
    } while (code == RVT_FULL && ended == NULL);
    return ended == NULL && code != RVT_DONE ? CODE : ended;
}

/* Answers what comes, and gives what ended it. */
static const char *serve(struct line *l) {
    static uint8_t piece[PIECE];
    const char *ended = NULL;
    while (ended == NULL && !asked) {
        ssize_t got = read(l->device, piece, sizeof piece);
        ended = got > 0 ? take(l, piece, (size_t)got) : stalled(l->device, 0, got);
    }
    return ended == NULL ? SIGNAL : ended;
}

/* Sets a terminal to eight bits as they are, and drops what came before, by other settings. Gives 0 where
 * the device does not take all of it; a line that hangs up meanwhile is left to the first read. */
static int set_raw(int device, struct termios t, const struct speed *speed) {
    const tcflag_t frame = CSIZE | PARENB | CSTOPB | CREAD;
    struct termios now;
    t.c_iflag = t.c_oflag = t.c_lflag = 0;
    t.c_cflag = (t.c_cflag & ~frame) | CS8 | CREAD | CLOCAL;
    t.c_cc[VMIN] = 1;
    t.c_cc[VTIME] = 0;
    if (speed != NULL && (cfsetispeed(&t, speed->code) < 0 || cfsetospeed(&t, speed->code) < 0))
        return 0;
    if (tcsetattr(device, TCSAFLUSH, &t) < 0 || tcgetattr(device, &now) < 0)
        return errno == EIO;
    return (now.c_iflag | now.c_oflag | now.c_lflag | ((now.c_cflag ^ t.c_cflag) & frame)) == 0 &&
           cfgetospeed(&now) == cfgetospeed(&t);
}

/* Puts the settings back: once the answers are out, which one more signal ends, or at once where the
 * line takes none. One that has hung up has no settings. */
static void put_back(const struct line *l, const struct termios *before) {
    int failed = tcsetattr(l->device, l->unsent > 0 ? TCSANOW : TCSADRAIN, before);
    if (failed && errno == EINTR)
        failed = tcsetattr(l->device, TCSANOW, before);
    if (failed && errno != EIO)
        perror("serial: the settings are not put back");
}

/* Opens the line, and waits for no carrier. The standard streams that are closed are opened to nowhere first:
 * the line must not become the place for words. */
static int open_line(const char *name) {
    int taken;
    do
        taken = open("/dev/null", O_RDWR);
    while (taken >= 0 && taken <= STDERR_FILENO);
    if (taken > STDERR_FILENO)
        close(taken);
    return open(name, O_RDWR | O_NOCTTY | O_NONBLOCK);
}

static const struct speed *speed_of(const char *name) {
    for (const struct speed *s = speeds; s->name != NULL; s++)
        if (strcmp(s->name, name) == 0)
            return s;
    fprintf(stderr, "serial: no speed: %s\n", name);
    return NULL;
}

static int usage(void) {
    fputs("usage: serial [-s SPEED] DEVICE\n"
          "speeds: 1200, 1800, 2400, 4800, 9600, 19200, 38400, 57600, 115200\n", stderr);
    return FAILED;
}

int main(int count, char **words) {
    static struct line l;
    const struct speed *speed = NULL;
    struct termios before;
    for (int option; (option = getopt(count, words, "s:")) != -1;)
        if (option != 's' || (speed = speed_of(optarg)) == NULL)
            return usage();
    if (count - optind != 1)
        return usage();
    l.device = open_line(words[optind]);
    /* a descriptor that no wait takes counts as one too many */
    if (l.device >= FD_SETSIZE)
        errno = EMFILE;
    if (l.device < 0 || l.device >= FD_SETSIZE || tcgetattr(l.device, &before) < 0) {
        fprintf(stderr, "serial: %s: %s\n", words[optind], errno == ENOTTY ? "no terminal" : strerror(errno));
        return FAILED;
    }
    catch_signals();
    const char *ended = set_raw(l.device, before, speed) ? serve(&l) : SETTINGS;
    uint64_t code = rvt_feed_end(&l.feed);
    fprintf(stderr, "stopped: %s%s (code %d), %" PRIu64 " bytes taken, %" PRIu64 " bytes sent, %" PRIu64 " not sent\n",
            ended, reasons[code], (int)code, l.taken, l.sent, l.unsent);
    put_back(&l, &before);
    return ended == FAILURE || ended == SETTINGS || l.unsent > 0 ? FAILED : code == RVT_DONE ? DONE : STOPPED;
}
