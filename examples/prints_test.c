/*
 * Lines whose reader stands still, takes them late, or is gone: prints_test. They wait in their order and whole, of too
 * many it is told how many were left out, and nothing is waited for but at an end. It prints `ok`.
 */
#define _GNU_SOURCE
#undef NDEBUG
#include <assert.h>
#include <fcntl.h>
#include <limits.h>
#include <signal.h>
#include <stdint.h>
#include <stdio.h>
#include <stdlib.h>
#include <string.h>
#include <time.h>
#include <unistd.h>

#include "prints.h"

enum { LINE = 64, LINES = PRINTS_MOST / LINE, MORE = 1000, LONG = 5 * PIPE_BUF };

static char taken[2 * PRINTS_MOST];
static size_t size;

static double now(void)
{
    struct timespec found;
    clock_gettime(CLOCK_MONOTONIC, &found);
    return (double)found.tv_sec + (double)found.tv_nsec / 1e9;
}

/* Standard output is a pipe that is full: its end to read. */
static int full_pipe(void)
{
    int ends[2];
    static const char filling[PIPE_BUF] = {0};
    assert(pipe(ends) == 0 && fcntl(ends[1], F_SETFL, O_NONBLOCK) == 0);
    while (write(ends[1], filling, sizeof filling) > 0) {
    }
    assert(fcntl(ends[1], F_SETFL, 0) == 0 && fcntl(ends[0], F_SETFL, O_NONBLOCK) == 0);
    assert(dup2(ends[1], STDOUT_FILENO) >= 0 && close(ends[1]) == 0);
    size = 0;
    return ends[0];
}

/* Takes what the pipe has, without what it was filled with. */
static void take(int from)
{
    ssize_t more;
    while ((more = read(from, taken + size, sizeof taken - size)) > 0) {
        size_t kept = size;
        for (ssize_t at = 0; at < more; at++) {
            if (taken[size + (size_t)at] != '\0') {
                taken[kept++] = taken[size + (size_t)at];
            }
        }
        size = kept;
    }
}

static void take_all(int from)
{
    do {
        take(from);
        prints_turn();
    } while (prints_wait());
    take(from);
}

/* The next line of what was taken. */
static void expect(char **at, const char *wanted)
{
    char *newline = memchr(*at, '\n', size - (size_t)(*at - taken));
    assert(newline != NULL);
    *newline = '\0';
    assert(strcmp(*at, wanted) == 0);
    *at = newline + 1;
}

/* Fills what may wait, and more; the rest is told of in its place, before what is printed later. */
static void too_many(void)
{
    int from = full_pipe();
    char line[LINE + 1], *at = taken;
    double before = now();
    for (int number = 0; number < LINES + MORE; number++) {
        print("line %0*d\n", LINE - 6, number);
    }
    assert(prints_wait() && now() - before < 10);
    take(from);
    print("of later\n");
    take_all(from);
    for (int number = 0; number < LINES; number++) {
        snprintf(line, sizeof line, "line %0*d", LINE - 6, number);
        expect(&at, line);
    }
    snprintf(line, sizeof line, "left out %d lines: nobody took them", MORE);
    expect(&at, line);
    expect(&at, "of later");
    assert(at == taken + size);
    close(from);
}

/* What was left out last is told without another line, and a long line is written in parts. */
static void last_and_long(void)
{
    static char wide[LONG + 1], line[PRINTS_MOST - LONG];
    int from = full_pipe();
    char *at = taken;
    memset(wide, 'w', LONG);
    memset(line, 'l', sizeof line - 1);
    print("%s\n", wide);
    print("%s\n", line);
    take_all(from);
    expect(&at, wide);
    expect(&at, "left out 1 line: nobody took them");
    assert(at == taken + size);
    close(from);
}

/* A reader that stands still is waited for at an end alone, and no longer than a second; one that is gone ends nothing. */
static void end(void)
{
    int from = full_pipe();
    double before = now();
    print("the last\n");
    prints_end();
    assert(now() - before > 0.9 && now() - before < 10 && prints_wait());
    close(from);
    for (int number = 0; number < 3; number++) {
        print("nobody reads it\n");
        assert(!prints_wait());
    }
}

int main(int count, char **words)
{
    int kept = dup(STDOUT_FILENO);
    (void)words;
    if (count != 1) {
        return fputs("usage: prints_test\n", stderr), 2;
    }
    assert(kept >= 0 && dup2(open("/dev/null", O_WRONLY), STDERR_FILENO) >= 0);
    signal(SIGPIPE, SIG_IGN);
    too_many();
    last_and_long();
    end();
    assert(dup2(kept, STDOUT_FILENO) >= 0);
    print("ok\n");
    return 0;
}
