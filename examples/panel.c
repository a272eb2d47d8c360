/*
 * The firmware of a sign with a panel of lamps: panel [--port N] [--host ADDRESS] [--power FILE] [--watchdog FILE]
 * DESCRIPTION PANEL. PANEL takes each frame in one write, as an SPI device does; without options the sign is at
 * 127.0.0.1:1161. The lamps show the sign before the network is opened. Ten times a second it looks what has to be lit,
 * and at FILE, a power-fail input whose first octet is `0` without power (as /sys/class/gpio/gpio17/value). Where the
 * lamps took their frame, a watchdog is fed each second (/dev/watchdog, and systemd's: panel.service). SIGINT or
 * SIGTERM darkens the lamps and ends it. It keeps nothing over a restart: signd.c does (docs/C.md). `panel --version`
 * prints the version of the library.
 */
#define _GNU_SOURCE
#include <errno.h>
#include <fcntl.h>
#include <getopt.h>
#include <netdb.h>
#include <poll.h>
#include <signal.h>
#include <stdio.h>
#include <stdlib.h>
#include <string.h>
#include <sys/signalfd.h>
#include <sys/socket.h>
#include <sys/timerfd.h>
#include <time.h>
#include <unistd.h>

#include "controller.h"
#include "described.h"
#include "lamps.h"
#include "watchdogs.h"
#include "wisangub.h"

enum { SOCKET, TIMER, SIGNALS, WAITED };

/* A datagram that is longer than any that the sign hears still shows that it is, and so many are answered in a turn. */
enum { ROOM = WISANGUB_DATAGRAM + 1, AT_ONCE = 16, TENTH = 100000000 };

struct asked {
    const char *host, *port, *power, *watchdog, *description, *panel;
};

static struct wisangub_sign sign = {NULL};
static struct controller controller;

/* Ends with a message where a call failed. */
static int must(int result, const char *call)
{
    if (result < 0) {
        perror(call);
        exit(1);
    }
    return result;
}

/* ---- time */

/* The tenth of a second that it is; a moment between two of them is never the later one. */
static uint64_t tenths(void)
{
    struct timespec now;
    clock_gettime(CLOCK_BOOTTIME, &now);
    return (uint64_t)now.tv_sec * 10 + (uint64_t)now.tv_nsec / TENTH;
}

/* A timer that expires as each tenth of a second begins. */
static int each_tenth(void)
{
    struct itimerspec each = {{0, TENTH}, {(time_t)(tenths() / 10), (long)(tenths() % 10) * TENTH}};
    int made = must(timerfd_create(CLOCK_BOOTTIME, TFD_CLOEXEC | TFD_NONBLOCK), "timerfd_create");
    must(timerfd_settime(made, TFD_TIMER_ABSTIME, &each, NULL), "timerfd_settime");
    return made;
}

/* What ends it waits from now on until the lamps can be darkened. */
static int signals(void)
{
    sigset_t taken;
    sigemptyset(&taken);
    sigaddset(&taken, SIGINT);
    sigaddset(&taken, SIGTERM);
    must(sigprocmask(SIG_BLOCK, &taken, NULL), "sigprocmask");
    return must(signalfd(-1, &taken, SFD_CLOEXEC | SFD_NONBLOCK), "signalfd");
}

/* ---- the network */

static int bound_to(const char *host, const char *port)
{
    struct addrinfo hints = {.ai_socktype = SOCK_DGRAM, .ai_flags = AI_PASSIVE}, *found = NULL;
    int fault = getaddrinfo(host, port, &hints, &found);
    if (fault != 0) {
        fprintf(stderr, "panel: %s: %s\n", host, gai_strerror(fault));
        exit(1);
    }
    int made = must(socket(found->ai_family, SOCK_DGRAM | SOCK_CLOEXEC | SOCK_NONBLOCK, 0), "socket");
    must(bind(made, found->ai_addr, found->ai_addrlen), "bind");
    freeaddrinfo(found);
    return made;
}

/* Says where the socket is. */
static void announce(int socket)
{
    struct sockaddr_storage at;
    socklen_t size = sizeof at;
    char host[NI_MAXHOST] = "", port[NI_MAXSERV] = "";
    must(getsockname(socket, (struct sockaddr *)&at, &size), "getsockname");
    getnameinfo((struct sockaddr *)&at, size, host, sizeof host, port, sizeof port, NI_NUMERICHOST | NI_NUMERICSERV);
    fprintf(stderr, "panel: the sign is at %s port %s\n", host, port);
}

/* Answers what waits, and leaves the rest for the next turn: the lamps come first. */
static void answer(int socket)
{
    static uint8_t datagram[ROOM], reply[WISANGUB_DATAGRAM];
    for (int turn = 0; turn < AT_ONCE; turn++) {
        struct sockaddr_storage peer;
        socklen_t peer_size = sizeof peer;
        size_t reply_size = 0;
        ssize_t size = recvfrom(socket, datagram, sizeof datagram, 0, (struct sockaddr *)&peer, &peer_size);
        if (size < 0) {
            return;
        }
        if (wisangub_sign_receive(&sign, datagram, (size_t)size, reply, sizeof reply, &reply_size) == WISANGUB_DONE) {
            (void)!sendto(socket, reply, reply_size, 0, (struct sockaddr *)&peer, peer_size);
        }
    }
}

/* ---- the power */

/* Whether there is power. Without an input, or where it cannot be read, there is. */
static int has_power(int input)
{
    char octet = '1';
    return input < 0 || pread(input, &octet, 1, 0) != 1 || octet != '0';
}

static void serve(int input, int watchdog, int socket, int ends)
{
    struct pollfd waited[WAITED] = {[SOCKET] = {.fd = socket, .events = POLLIN},
                                    [TIMER] = {.fd = each_tenth(), .events = POLLIN},
                                    [SIGNALS] = {.fd = ends, .events = POLLIN}};
    uint64_t expired;
    while (waited[SIGNALS].revents == 0) {
        must(poll(waited, WAITED, -1) < 0 && errno != EINTR ? -1 : 0, "poll");
        uint64_t now = tenths();
        (void)!read(waited[TIMER].fd, &expired, sizeof expired);
        controller_power(&controller, has_power(input), now);
        uint32_t seconds = controller_pass(&controller, now);
        if (waited[SOCKET].revents != 0) {
            answer(socket);
        }
        controller_show(&controller, now);
        if (seconds > 0 && controller.is_lit) {
            watchdogs_feed(watchdog);
        }
    }
}

/* ---- the command line */

static void say_version(void)
{
    printf("panel %s\n", wisangub_version());
    exit(0);
}

static void misused(void)
{
    fputs("usage: panel [--port N] [--host ADDRESS] [--power FILE] [--watchdog FILE] DESCRIPTION PANEL\n", stderr);
    exit(2);
}

static struct asked asked_for(int count, char **words)
{
    static const struct option options[] = {{"host", required_argument, NULL, 'h'},
                                            {"port", required_argument, NULL, 'p'},
                                            {"power", required_argument, NULL, 'f'},
                                            {"watchdog", required_argument, NULL, 'w'},
                                            {"version", no_argument, NULL, 'v'},
                                            {NULL, 0, NULL, 0}};
    struct asked asked = {.host = "127.0.0.1", .port = "1161"};
    int found;
    while ((found = getopt_long(count, words, "", options, NULL)) != -1) {
        switch (found) {
        case 'h': asked.host = optarg; break;
        case 'p': asked.port = optarg; break;
        case 'f': asked.power = optarg; break;
        case 'w': asked.watchdog = optarg; break;
        case 'v': say_version(); break;
        default: misused();
        }
    }
    if (optind != count - 2) {
        misused();
    }
    asked.description = words[optind];
    asked.panel = words[optind + 1];
    return asked;
}

/* The lamps first, then what starts it anew where it is stuck, and the network last. */
int main(int count, char **words)
{
    struct asked asked = asked_for(count, words);
    char digest[65];
    uint16_t width = 0, height = 0;
    signal(SIGPIPE, SIG_IGN);
    make_sign(&sign, asked.description, digest);
    wisangub_sign_matrix(&sign, &width, &height);
    struct spi_panel panel = spi_panel(must(open(asked.panel, O_WRONLY | O_CLOEXEC), asked.panel), width, height);
    int ends = signals();
    controller_begin(&controller, &sign, &panel.lamps, tenths());
    fputs(controller.is_lit ? "panel: the lamps show the sign\n" : "panel: the lamps take no frame\n", stderr);
    int input = asked.power != NULL ? must(open(asked.power, O_RDONLY | O_CLOEXEC), asked.power) : -1;
    int watchdog = watchdog_open(asked.watchdog), socket = bound_to(asked.host, asked.port);
    announce(socket);
    systemd_tell("READY=1");
    serve(input, watchdog, socket, ends);
    controller_power(&controller, 0, tenths());
    controller_show(&controller, tenths());
    watchdogs_end(watchdog);
    wisangub_sign_free(&sign);
    return 0;
}
