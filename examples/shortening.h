/* When a sign's journal is shortened to the sign's state, and what is said of it. */
#ifndef SHORTENING_H
#define SHORTENING_H

#include <stddef.h>
#include <sys/types.h>

#include "described.h"
#include "journal.h"
#include "log.h"
#include "wisangub.h"

enum { KEEP_USUAL = 1000000, SHORTENING_WHY = 96 };

/* A journal has at most so many octets, but for a state that takes more than half of them. Where it cannot be shortened
 * the old one stays in force, and that is said once. */
struct shortening {
    off_t most;
    const char *archive; /* a folder that keeps what is cut off, or null */
    const struct described *described;
    int is_asked;        /* it is done at the next turn */
    double again;        /* when it is tried again, in seconds since the boot */
    char refused[SHORTENING_WHY];
};

/* A number of octets, with k for 1,000 of them and M for 1,000,000; 0 where it is none. */
off_t octets_of(const char *word);

/* Shortens the journal where it is long, or that is asked for: the sign was handed what it has, and nothing else. */
void shortening_turn(struct shortening *shortening, struct journal *journal, const struct wisangub_sign *sign,
                     const struct power *power, struct log *log);

#endif
