/*
 * A sign on a UDP port of Linux: signd [OPTION ..] DESCRIPTION, and `signd --help` says the options. Without any it is
 * at 127.0.0.1:1161. Each datagram goes to the sign and its reply back; each second is a tick. SIGUSR1 takes the power
 * away, SIGUSR2 gives it back, and SIGINT or SIGTERM ends it. With --objects it publishes those of a file beside the
 * sign's, reads it again at a SIGHUP, and prints what managers set. With --write-from a SET of another address is
 * dropped before the sign hears it. With --log each datagram has its line. With a journal the sign goes on where it
 * was, also where wisangub-sign kept it; what the time without a process was, a loss of power or seconds, is told by the
 * kernel's boot id, or by --down. A journal of more octets than --keep is shortened to the sign's state, and any at a
 * SIGHUP.
 */
#define _GNU_SOURCE
#include <errno.h>
#include <fcntl.h>
#include <inttypes.h>
#include <poll.h>
#include <signal.h>
#include <stdio.h>
#include <stdlib.h>
#include <string.h>
#include <sys/signalfd.h>
#include <sys/timerfd.h>
#include <unistd.h>

#include "allowed.h"
#include "asked.h"
#include "described.h"
#include "firmware.h"
#include "journal.h"
#include "log.h"
#include "prints.h"
#include "say.h"
#include "shortening.h"
#include "sign_lines.h"
#include "silences.h"
#include "sockets.h"
#include "wisangub.h"
#include "writes.h"

/* The descriptors that are waited on. */
enum { SOCKET, TIMER, SIGNALS, READER, WAITED };

struct front_end {
    struct wisangub_sign sign;
    struct communities communities;
    struct allowed allowed;
    struct journal *journal;   /* null where nothing is kept */
    struct firmware *firmware; /* null where nothing is published */
    struct sets *sets;         /* of objects, what managers set */
    struct shortening shortening;
    struct writes writes;
    struct log log;
    struct power power;
    uint64_t changes;        /* of the picture, as the log has it */
    double up;               /* the moment up to which the sign was told its seconds */
    int socket, timer;       /* the timer is -1 where no seconds pass */
    int is_quiet;            /* nothing is printed of what managers do */
};

/* No file of ours gets the number of a standard file that is closed; a reader that goes away, and a limit on the size of
 * files, end nothing: a write fails then. */
static void keep_standard_files(void)
{
    int file;
    do {
        file = had(open("/dev/null", O_RDWR), "/dev/null");
    } while (file <= STDERR_FILENO);
    close(file);
    signal(SIGPIPE, SIG_IGN);
    signal(SIGXFSZ, SIG_IGN);
}

/* ---- descriptors */

/* A timer of the seconds after this moment since the machine's boot. */
static int seconds_after(double up)
{
    struct timespec first = {(time_t)up + 1, (long)((up - (double)(time_t)up) * 1e9)};
    struct itimerspec each = {{1, 0}, first};
    int made = had(timerfd_create(CLOCK_BOOTTIME, TFD_CLOEXEC | TFD_NONBLOCK), "timerfd_create");
    had(timerfd_settime(made, TFD_TIMER_ABSTIME, &each, NULL), "timerfd_settime");
    return made;
}

/* What signals tell waits until the sign has started, and ends nothing; a SIGHUP where something is done at it. */
static void hold_signals(sigset_t *held, int has_hangup)
{
    sigemptyset(held);
    sigaddset(held, SIGUSR1);
    sigaddset(held, SIGUSR2);
    if (has_hangup) {
        sigaddset(held, SIGHUP);
    }
    had(sigprocmask(SIG_BLOCK, held, NULL), "sigprocmask");
}

/* The signals that are heeded: those that were held, and those that end the sign, which end a start at once. */
static int signals(const sigset_t *held)
{
    sigset_t taken = *held;
    sigaddset(&taken, SIGINT);
    sigaddset(&taken, SIGTERM);
    had(sigprocmask(SIG_BLOCK, &taken, NULL), "sigprocmask");
    return had(signalfd(-1, &taken, SFD_CLOEXEC | SFD_NONBLOCK), "signalfd");
}

/* ---- datagrams */

/* Logs that another picture is shown. */
static void log_picture(struct front_end *front_end)
{
    char event[40];
    uint64_t changes = 0;
    wisangub_sign_changes(&front_end->sign, &changes);
    if (changes != front_end->changes) {
        front_end->changes = changes;
        snprintf(event, sizeof event, "picture %" PRIu64, changes);
        log_event(&front_end->log, NULL, event, NULL, 0);
    }
}

/* Records what changes the sign, with one sync. What the disk refuses is lost, as a datagram may be. */
static void keep(struct journal *journal, struct log *log, struct heard *heard, size_t count)
{
    static char lines[AT_ONCE * DATAGRAM_LINE];
    size_t size = 0;
    for (size_t at = 0; at < count; at++) {
        if (heard[at].size != LOST && heard[at].kind == DATAGRAM_SETS) {
            size += datagram_line(lines + size, heard[at].octets, heard[at].size);
        }
    }
    if (size == 0 || journal_keep(journal, lines, size)) {
        return;
    }
    for (size_t at = 0; at < count; at++) {
        if (heard[at].kind == DATAGRAM_SETS && heard[at].size != LOST) {
            log_event(log, &heard[at].peer, "not recorded", heard[at].octets, heard[at].size);
            heard[at].size = LOST;
        }
    }
}

/* Says which activation the sign accepted, by its reply. */
static void tell_activated(const uint8_t *reply, size_t size)
{
    const uint8_t *code = datagram_activated(reply, size);
    char digits[2 * CODE_SIZE + 1] = "";
    for (size_t at = 0; code != NULL && at < CODE_SIZE; at++) {
        snprintf(digits + 2 * at, 3, "%02x", code[at]);
    }
    if (code != NULL) {
        print("accepted %s\n", digits);
    }
}

/* Hands datagrams over, what changes the sign once it is recorded, and sends the replies. */
static void answer(struct front_end *front_end, struct heard *heard, size_t count)
{
    static struct replies replies;
    int by_kept = 0;
    replies.count = 0;
    if (front_end->firmware != NULL) {
        firmware_keep_time(front_end->firmware, running());
    }
    if (front_end->journal != NULL) {
        keep(front_end->journal, &front_end->log, heard, count);
    }
    for (struct heard *one = heard; one < heard + count; one++) {
        size_t made = replies.count;
        if (one->size == LOST) {
            continue;
        }
        log_event(&front_end->log, &one->peer, "in", one->octets, one->size);
        if (wisangub_sign_receive(&front_end->sign, one->octets, one->size, replies.octets[made], DATAGRAM_MOST,
                                  &replies.sizes[made]) != WISANGUB_DONE) {
            log_event(&front_end->log, &one->peer, "dropped", NULL, 0);
            continue;
        }
        log_event(&front_end->log, &one->peer, "out", replies.octets[made], replies.sizes[made]);
        replies.to[made] = one;
        replies.count++;
        by_kept |= one->kind == DATAGRAM_SETS;
        if (one->kind == DATAGRAM_SETS && !front_end->is_quiet) {
            tell_activated(replies.octets[made], replies.sizes[made]);
        }
    }
    send_all(front_end->socket, &replies);
    log_picture(front_end);
    if (by_kept && front_end->firmware != NULL) {
        firmware_tell(front_end->firmware);
    }
    if (front_end->journal != NULL && replies.count > 0) {
        int is_asked = !by_kept && front_end->journal->refused != 0;
        journal_heard(front_end->journal, by_kept,
                      is_asked ? silence_limit(&front_end->sign, &front_end->communities) : 0);
    }
}

/* What a datagram is to the sign. One that would change it, and comes from where that may not be, is lost. */
static void sort(struct front_end *front_end, struct heard *one)
{
    if (one->size == LOST) {
        log_event(&front_end->log, &one->peer, "lost", NULL, 0);
    }
    one->kind = one->size == LOST ? DATAGRAM_UNHEARD
                                  : datagram_kind(one->octets, one->size, &front_end->communities);
    if (one->kind == DATAGRAM_SETS && !allowed_has(&front_end->allowed, &one->peer)) {
        log_event(&front_end->log, &one->peer, "not allowed", one->octets, one->size);
        one->kind = DATAGRAM_UNHEARD;
        one->size = LOST;
    }
}

/* Answers what waits at the socket; where more changes the sign than is recorded in a second it waits on. */
static void hear(struct front_end *front_end)
{
    static struct heard heard[AT_ONCE];
    size_t count = received(front_end->socket, heard);
    for (struct heard *one = heard; one < heard + count; one++) {
        sort(front_end, one);
        if (front_end->journal != NULL && one->kind == DATAGRAM_SETS
            && (front_end->writes.count > 0 || !writes_take(&front_end->writes, running()))) {
            if (!writes_wait(&front_end->writes, one)) {
                log_event(&front_end->log, &one->peer, "too many", one->octets, one->size);
            }
            one->size = LOST;
        }
    }
    answer(front_end, heard, count);
}

/* Answers what has waited and may be recorded now. */
static void hear_waiting(struct front_end *front_end)
{
    static struct heard heard[AT_ONCE];
    const struct heard *next = NULL;
    size_t count = 0;
    while (count < AT_ONCE && (next = writes_next(&front_end->writes, running())) != NULL) {
        heard[count++] = *next;
    }
    if (count > 0) {
        answer(front_end, heard, count);
    }
}

/* ---- seconds and power */

/* Hands the sign the seconds that have passed. The clock counts them; the timer only ends the waiting for one. */
static void pass(struct front_end *front_end)
{
    double passed = front_end->timer >= 0 ? running() - front_end->up : 0;
    uint64_t seconds = passed >= 1 ? (uint64_t)passed : 0, expired;
    if (seconds == 0) {
        return;
    }
    for (uint64_t second = 0; second < seconds; second++) {
        wisangub_sign_tick(&front_end->sign);
    }
    (void)!read(front_end->timer, &expired, sizeof expired);
    front_end->up += (double)seconds;
    if (front_end->journal != NULL) {
        journal_tick(front_end->journal, seconds, front_end->up);
        writes_tell(&front_end->writes, front_end->up, 0);
    }
    log_picture(front_end);
}

/* Takes the power away, or gives it back, once that is recorded. A sign without power cannot lose it. */
static void switch_power(struct front_end *front_end, int is_lost)
{
    char line[32] = "power-lost\n";
    struct moment now = moment_at(running());
    if (is_lost == front_end->power.is_off) {
        return;
    }
    uint32_t seconds = is_lost ? 0 : seconds_between(&front_end->power.lost, &now);
    if (!is_lost) {
        snprintf(line, sizeof line, "power-back %u\n", (unsigned)seconds);
    }
    if (front_end->journal != NULL && !journal_keep(front_end->journal, line, strlen(line))) {
        say("the power stays as it is, since its change cannot be recorded\n");
        return;
    }
    front_end->power = (struct power){is_lost, now};
    line[strcspn(line, "\n")] = '\0';
    log_event(&front_end->log, NULL, line, NULL, 0);
    if (is_lost) {
        wisangub_sign_power_lost(&front_end->sign);
    } else {
        wisangub_sign_power_back(&front_end->sign, seconds);
    }
    log_picture(front_end);
}

/* Does what a signal asks: 0 where it asks to end. */
static int heed(struct front_end *front_end, int from)
{
    struct signalfd_siginfo told;
    if (read(from, &told, sizeof told) != (ssize_t)sizeof told) {
        return 1;
    }
    if (told.ssi_signo == SIGUSR1 || told.ssi_signo == SIGUSR2) {
        switch_power(front_end, told.ssi_signo == SIGUSR1);
        return 1;
    }
    if (told.ssi_signo == SIGHUP) {
        if (front_end->firmware != NULL) {
            firmware_again(front_end->firmware, running());
        }
        front_end->shortening.is_asked = 1;
        return 1;
    }
    return 0;
}

static void serve(struct front_end *front_end, int signals)
{
    struct pollfd waited[WAITED] = {[SOCKET] = {.fd = front_end->socket, .events = POLLIN},
                                    [TIMER] = {.fd = front_end->timer, .events = POLLIN},
                                    [SIGNALS] = {.fd = signals, .events = POLLIN},
                                    [READER] = {.events = POLLOUT}};
    int goes_on = 1;
    while (goes_on) {
        if (front_end->journal != NULL) {
            shortening_turn(&front_end->shortening, front_end->journal, &front_end->sign, &front_end->power,
                            &front_end->log);
        }
        int pause = writes_pause(&front_end->writes, running());
        waited[READER].fd = prints_wait() ? STDOUT_FILENO : -1;
        had(poll(waited, WAITED, pause) < 0 && errno != EINTR ? -1 : 0, "poll");
        /* Seconds that passed come before the datagrams that came meanwhile. */
        pass(front_end);
        if (waited[SIGNALS].revents != 0) {
            goes_on = heed(front_end, signals);
        }
        hear_waiting(front_end);
        if (waited[SOCKET].revents != 0) {
            hear(front_end);
        }
        prints_turn();
    }
    pass(front_end);
}

/* ---- a start and an end */

/* The sign begins in the state of a journal, or as it was made, with the objects of a file beside it. */
static size_t begin(void *to, const struct state *state)
{
    struct front_end *front_end = to;
    if (state->text != NULL) {
        wisangub_sign_free(&front_end->sign);
        size_t line = sign_in(&front_end->sign, front_end->shortening.described, state->text, state->size);
        if (line != 0) {
            return line;
        }
    }
    if (front_end->firmware != NULL) {
        firmware_publish(front_end->firmware, &front_end->sign, front_end->sets);
    }
    return 0;
}

static void hand(void *to, const struct line *line)
{
    struct front_end *front_end = to;
    hand_line(&front_end->sign, line);
}

/* The sign where its journal left it. */
static void open_journal(struct front_end *front_end, struct journal *journal, struct journal_asked asked)
{
    static const struct state none = {.text = NULL};
    front_end->sets = &journal->sets;
    if (asked.path == NULL) {
        say("nothing is kept: no --journal\n");
        begin(front_end, &none);
        return;
    }
    asked.digest = front_end->shortening.described->digest;
    journal_open(journal, asked, front_end->up, (struct handing){begin, hand, front_end}, &front_end->power);
    front_end->journal = journal;
}

/* Ends the journal: whether all is recorded. */
static int close_journal(struct front_end *front_end, double up)
{
    writes_tell(&front_end->writes, up, 1);
    writes_end(&front_end->writes);
    int is_kept = front_end->journal == NULL || journal_end(front_end->journal, up);
    sets_free(front_end->sets);
    return is_kept;
}

/* A sign, where its journal left it, with its objects. */
static void start(struct front_end *front_end, const struct asked *asked, const struct described *described)
{
    static struct journal journal;
    static struct firmware firmware;
    sign_of(&front_end->sign, described);
    front_end->communities = communities_of(&front_end->sign);
    front_end->shortening.described = described;
    writes_begin(&front_end->writes, (size_t)asked->most);
    front_end->up = running();
    if (asked->objects != NULL) {
        firmware_read(&firmware, asked->objects, front_end->up, asked->is_quiet);
        front_end->firmware = &firmware;
    }
    open_journal(front_end, &journal, asked->journal);
    wisangub_sign_changes(&front_end->sign, &front_end->changes);
    if (asked->has_ticks) {
        front_end->timer = seconds_after(front_end->up);
    }
}

int main(int count, char **words)
{
    struct asked asked = asked_for(count, words);
    sigset_t held;
    hold_signals(&held, asked.objects != NULL || asked.journal.path != NULL);
    keep_standard_files();
    atexit(prints_end);
    struct front_end front_end = {.socket = bound(asked.host, asked.port),
                                  .timer = -1,
                                  .allowed = asked.allowed,
                                  .shortening = asked.shortening,
                                  .is_quiet = asked.is_quiet};
    log_open(&front_end.log, asked.log);
    struct described described = description_of(asked.description);
    start(&front_end, &asked, &described);
    int waited = signals(&held);
    if (!asked.is_quiet) {
        announce(front_end.socket, asked.host);
    }
    if (front_end.firmware != NULL) {
        firmware_tell(front_end.firmware); /* what managers set in the journal's records */
    }
    log_event(&front_end.log, NULL, "start", NULL, 0);
    serve(&front_end, waited);
    log_event(&front_end.log, NULL, "end", NULL, 0);
    int is_kept = close_journal(&front_end, asked.has_ticks ? front_end.up : running());
    if (front_end.firmware != NULL) {
        firmware_end(front_end.firmware);
    }
    wisangub_sign_free(&front_end.sign);
    return is_kept ? 0 : 1;
}
