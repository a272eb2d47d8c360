/*
 * The seconds that a sign was handed, and the ends of its silences, that are in no record yet. While a disk takes no
 * records no datagram changes the sign, and then these are all that happens to it: they take no more room, however long
 * it lasts, and the lines that they are written as later leave the sign as it is.
 */
#ifndef WAITS_H
#define WAITS_H

#include <stddef.h>
#include <stdint.h>

struct waits {
    uint64_t first;  /* seconds up to the first end of a silence; then, as far as there are such ends: */
    uint64_t before; /* up to the last one before the silence on which the sign acted */
    uint64_t acted;  /* of that silence */
    uint64_t after;  /* from its end up to the last end */
    uint64_t last;   /* up to now */
    int is_heard;    /* that first end is not told yet */
    int has_acted;   /* the sign acted on a silence behind that first end */
};

/* Seconds passed. */
void waits_passed(struct waits *waits, uint64_t seconds);

/* A silence ended of a sign that acts on one of so many seconds, or on none where they are 0. */
void waits_heard(struct waits *waits, uint64_t limit);

/* All seconds that wait. */
uint64_t waits_seconds(const struct waits *waits);

/* Whether nothing waits. */
int waits_are_over(const struct waits *waits);

/* Writes as many lines as there is room for, from the first on, which then wait no more: their size. */
size_t waits_lines(struct waits *waits, char *lines, size_t room);

#endif
