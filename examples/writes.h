/* How many datagrams that change the sign are recorded in a second, and those that wait for the next one. */
#ifndef WRITES_H
#define WRITES_H

#include <stddef.h>
#include <stdint.h>

#include "sockets.h"

enum { WRITES_MOST = 1000000, WRITES_USUAL = 50, WAIT_MOST = 64 };

struct writes {
    double *times;         /* of the last `most` that were recorded: a ring */
    size_t most, next;
    struct heard *waiting; /* a ring too */
    size_t first, count;
    uint64_t dropped;      /* since it was told last */
    double told;
};

/* At most so many in any second. */
void writes_begin(struct writes *writes, size_t most);

/* Whether one more may be recorded now; it counts then. */
int writes_take(struct writes *writes, double now);

/* A datagram waits: 0 where it is dropped and counted, since as many wait as may. */
int writes_wait(struct writes *writes, const struct heard *one);

/* The next that waits and may be recorded now; null where there is none. */
const struct heard *writes_next(struct writes *writes, double now);

/* The milliseconds until the next that waits may be recorded; -1 where none waits. */
int writes_pause(const struct writes *writes, double now);

/* Tells on standard error, at most once a minute or at an end, of those that were dropped. */
void writes_tell(struct writes *writes, double now, int is_end);

void writes_end(struct writes *writes);

#endif
