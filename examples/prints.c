#define _GNU_SOURCE
#include "prints.h"

#include <errno.h>
#include <inttypes.h>
#include <limits.h>
#include <poll.h>
#include <stdarg.h>
#include <stddef.h>
#include <stdint.h>
#include <stdio.h>
#include <string.h>
#include <time.h>
#include <unistd.h>

#include "say.h"

enum { PATIENCE = 1000, TOLD = 80 };

/* What waits, from `first` up to `end`; behind PRINTS_MOST octets there is room for what is told of lines left out. */
static char waits[PRINTS_MOST + TOLD];
static size_t first, end;
static uint64_t left_out;

/* Of what waits the octets that are written next: whole lines, so that nothing else stands within one, or a part of a
 * long one, as much as a pipe with room for any takes at once. */
static size_t next_part(void)
{
    size_t size = end - first;
    if (size <= PIPE_BUF) {
        return size;
    }
    const char *last = memrchr(waits + first, '\n', PIPE_BUF);
    return last == NULL ? PIPE_BUF : (size_t)(last - waits) + 1 - first;
}

/* Words for which there is room, behind those that wait. */
static void put(const char *format, va_list values)
{
    if (first > 0) {
        memmove(waits, waits + first, end - first);
        end -= first;
        first = 0;
    }
    int size = vsnprintf(waits + end, sizeof waits - end, format, values);
    end += size > 0 && (size_t)size < sizeof waits - end ? (size_t)size : 0;
}

__attribute__((format(printf, 1, 2))) static void put_words(const char *format, ...)
{
    va_list values;
    va_start(values, format);
    put(format, values);
    va_end(values);
}

/* How many lines were left out here, if any. */
static void tell_left_out(void)
{
    if (left_out > 0) {
        put_words("left out %" PRIu64 " line%s: nobody took them\n", left_out, left_out > 1 ? "s" : "");
        left_out = 0;
    }
}

static int64_t milliseconds(void)
{
    struct timespec now;
    clock_gettime(CLOCK_MONOTONIC, &now);
    return 1000 * (int64_t)now.tv_sec + now.tv_nsec / 1000000;
}

/* Whether the reader takes a part up to this moment; at 0 now. */
static int is_taken(int64_t ends)
{
    struct pollfd waited = {.fd = STDOUT_FILENO, .events = POLLOUT};
    int64_t left = ends == 0 ? 0 : ends - milliseconds();
    return poll(&waited, 1, left > 0 ? (int)left : 0) > 0;
}

/* Writes what waits, as far as it is taken up to a moment. What cannot be written, as where nobody reads it any more, is
 * gone. */
static void write_waiting(int64_t ends)
{
    while (first < end && is_taken(ends)) {
        ssize_t written = write(STDOUT_FILENO, waits + first, next_part());
        if (written < 0 && (errno == EAGAIN || errno == EINTR)) {
            return;
        }
        first += written < 0 ? end - first : (size_t)written;
        left_out = written < 0 ? 0 : left_out;
        if (first == end) {
            tell_left_out();
        }
    }
}

void print(const char *format, ...)
{
    va_list values;
    va_start(values, format);
    int size = vsnprintf(NULL, 0, format, values);
    va_end(values);
    prints_turn();
    if (size < 0 || end - first + (size_t)size > PRINTS_MOST) {
        if (left_out++ == 0) {
            say("nobody takes what is printed: lines are left out\n");
        }
        return;
    }
    tell_left_out();
    va_start(values, format);
    put(format, values);
    va_end(values);
    prints_turn();
}

void prints_turn(void) { write_waiting(0); }

int prints_wait(void) { return first < end; }

void prints_end(void) { write_waiting(milliseconds() + PATIENCE); }
