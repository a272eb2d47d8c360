#define _GNU_SOURCE
#include "log.h"

#include <errno.h>
#include <fcntl.h>
#include <inttypes.h>
#include <netdb.h>
#include <poll.h>
#include <stdio.h>
#include <string.h>
#include <sys/stat.h>
#include <sys/statvfs.h>
#include <time.h>
#include <unistd.h>

#include "files.h"
#include "say.h"
#include "sockets.h"

enum { MODE = 0600, LINE = 2 * (DATAGRAM_MOST + 1) + NI_MAXHOST + 128 };
enum { OPENED = O_WRONLY | O_CREAT | O_APPEND | O_CLOEXEC | O_NOCTTY | O_NONBLOCK };
enum { MILLION = 1000000, LEFT = 4 }; /* so many millions of octets of its disk a log leaves to a journal */

/* A file of this name; a pipe is not waited for until somebody reads it. */
static int opened(const char *path)
{
    int file = open(path, OPENED, MODE);
    if (file < 0 && errno == ENXIO) {
        refuse(path, ": nobody reads it");
    }
    return had(file, path);
}

void log_open(struct log *log, const char *path)
{
    struct stat found;
    int is_own = path != NULL && strcmp(path, "-") != 0;
    *log = (struct log){.path = path, .file = STDOUT_FILENO};
    if (is_own) {
        log->file = opened(path);
    }
    log->is_on_disk = path != NULL && fstat(log->file, &found) == 0 && S_ISREG(found.st_mode);
    if (is_own && log->is_on_disk) {
        had(fchmod(log->file, MODE), path);
    }
}

/* The time, with milliseconds, in UTC. */
static size_t put_time(char *line, size_t room)
{
    struct timespec now;
    struct tm parts;
    clock_gettime(CLOCK_REALTIME, &now);
    gmtime_r(&now.tv_sec, &parts);
    size_t size = strftime(line, room, "%Y-%m-%dT%H:%M:%S", &parts);
    return size + (size_t)snprintf(line + size, room - size, ".%03dZ ", (int)(now.tv_nsec / 1000000));
}

static size_t put_peer(char *line, size_t room, const struct sockaddr_storage *peer)
{
    char host[NI_MAXHOST], port[16];
    if (peer == NULL
        || getnameinfo((const struct sockaddr *)peer, sizeof *peer, host, sizeof host, port, sizeof port,
                       NI_NUMERICHOST | NI_NUMERICSERV)
               != 0) {
        return (size_t)snprintf(line, room, "- ");
    }
    return (size_t)snprintf(line, room, peer->ss_family == AF_INET6 ? "[%s]:%s " : "%s:%s ", host, port);
}

static size_t put_octets(char *line, const uint8_t *octets, size_t size)
{
    static const char digits[] = "0123456789abcdef";
    char *at = line;
    if (size > 0) {
        *at++ = ' ';
    }
    for (size_t octet = 0; octet < size; octet++) {
        *at++ = digits[octets[octet] >> 4];
        *at++ = digits[octets[octet] & 15];
    }
    *at++ = '\n';
    return (size_t)(at - line);
}

/* Whether the disk has room for a log, of which whoever sends datagrams writes lines. */
static int has_room(const struct log *log)
{
    struct statvfs found;
    return !log->is_on_disk || fstatvfs(log->file, &found) != 0
           || (uint64_t)found.f_bavail * found.f_frsize >= (uint64_t)LEFT * MILLION;
}

/* Whether a line is taken at once: a reader that stands still, as of a pipe, does not hold the sign up. */
static int is_taken(const struct log *log)
{
    struct pollfd waited = {.fd = log->file, .events = POLLOUT};
    return log->is_on_disk || poll(&waited, 1, 0) != 0;
}

/* An event is left out, which is said of the first. */
static void leave_out(struct log *log, const char *why)
{
    if (log->left_out++ == 0) {
        say("the log %s is not written: %s\n", log->path, why);
    }
}

/* A line in one write, after a newline where the last one was written in part. */
static void put(struct log *log, const char *line, size_t size)
{
    if (!has_room(log)) {
        char why[64];
        snprintf(why, sizeof why, "its disk has less than %d MB left", LEFT);
        leave_out(log, why);
        return;
    }
    if (!is_taken(log)) {
        leave_out(log, "nobody takes its lines");
        return;
    }
    ssize_t written = write(log->file, log->is_torn ? line : line + 1, log->is_torn ? size : size - 1);
    if (written < 0) {
        leave_out(log, strerror(errno));
        return;
    }
    log->is_torn = (size_t)written < (log->is_torn ? size : size - 1);
    if (log->left_out > 0 && !log->is_torn) {
        say("the log %s is written again, without %" PRIu64 " events\n", log->path, log->left_out);
        log->left_out = 0;
    }
}

void log_event(struct log *log, const struct sockaddr_storage *peer, const char *event, const uint8_t *octets,
               size_t size)
{
    static char line[LINE] = "\n";
    size_t end = 1;
    if (log->path == NULL) {
        return;
    }
    end += put_time(line + end, sizeof line - end);
    end += put_peer(line + end, sizeof line - end, peer);
    end += (size_t)snprintf(line + end, 64, "%.63s", event);
    end += put_octets(line + end, octets, octets == NULL ? 0 : size);
    put(log, line, end);
}
