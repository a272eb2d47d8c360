#define _GNU_SOURCE
#include "say.h"

#include <inttypes.h>
#include <limits.h>
#include <poll.h>
#include <stdarg.h>
#include <stdint.h>
#include <stdio.h>
#include <unistd.h>

enum { PATIENCE = 1000, LINE = 2 * PATH_MAX + 1024 };

/* A part of a line, which a pipe with room for any takes at once: whether it was taken in these milliseconds. */
static int is_taken(const char *part, size_t size, int patience)
{
    struct pollfd waited = {.fd = STDERR_FILENO, .events = POLLOUT};
    return poll(&waited, 1, patience) > 0 && write(STDERR_FILENO, part, size) == (ssize_t)size;
}

/* A line of at most LINE octets; whether all of it was taken. After one that was taken in part a newline comes first. */
static int put(const char *line, size_t size, int patience)
{
    static int is_torn;
    if (is_torn && !is_taken("\n", 1, patience)) {
        return 0;
    }
    is_torn = 0;
    for (size_t done = 0; done < size;) {
        size_t part = size - done < PIPE_BUF ? size - done : PIPE_BUF;
        if (!is_taken(line + done, part, patience)) {
            is_torn = done > 0;
            return 0;
        }
        done += part;
    }
    return 1;
}

/* A line behind what was left out before it. */
static void say_within(int patience, const char *format, va_list values)
{
    static uint64_t left_out;
    static char line[LINE];
    if (left_out > 0) {
        int size = snprintf(line, sizeof line, "%" PRIu64 " %s left out here: nobody took what was said\n", left_out,
                            left_out > 1 ? "lines were" : "line was");
        if (!put(line, (size_t)size, 0)) {
            left_out++;
            return;
        }
        left_out = 0;
    }
    int size = vsnprintf(line, sizeof line, format, values);
    if (size > 0 && !put(line, (size_t)size < sizeof line ? (size_t)size : sizeof line - 1, patience)) {
        left_out++;
    }
}

void say(const char *format, ...)
{
    va_list values;
    va_start(values, format);
    say_within(0, format, values);
    va_end(values);
}

void say_last(const char *format, ...)
{
    va_list values;
    va_start(values, format);
    say_within(PATIENCE, format, values);
    va_end(values);
}
