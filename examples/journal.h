/* The journal of a sign's front end (docs/JOURNAL.md): what the sign was handed, kept over the end of the process. */
#ifndef JOURNAL_H
#define JOURNAL_H

#include <stddef.h>
#include <stdint.h>
#include <sys/types.h>

#include "files.h"
#include "lines.h"
#include "moments.h"
#include "sets.h"
#include "states.h"
#include "waits.h"

/* What the time without a process was: told by the boot's id, a loss of power, or seconds. */
enum down { DOWN_BY_BOOT, DOWN_POWER, DOWN_PROCESS };

struct journal_asked {
    const char *path, *digest; /* of the description */
    enum down down;
    int accepts_damage;        /* it goes on from where the file is damaged */
    int is_needed;             /* the process ends where the disk takes no start */
};

/* The sign's power, and since when it has none. */
struct power {
    int is_off;
    struct moment lost;
};

/* Whoever lines are handed to: at first it begins in a state, or as it was made where that has no text. Where the state
 * is none of it, it answers the number of the line that is at fault, from 1; else 0. */
struct handing {
    size_t (*begin)(void *sign, const struct state *state);
    void (*hand)(void *sign, const struct line *line);
    void *sign;
};

/* What has to be done with a file before a record can follow what is kept of it. */
struct mending {
    off_t found;     /* the octets that it was found with */
    size_t kept;     /* of these */
    int is_older;    /* it is of form 1 */
    int is_readable; /* it was opened for reading alone */
    int is_aside;    /* what is not kept is put aside already */
    int error;       /* with which the disk refused much of it last */
    double again;    /* when it is tried again then, in seconds since the boot */
};

struct journal {
    struct journal_asked asked;
    struct place place;
    int file;               /* -1 where there is none yet */
    int refused;            /* the error with which the disk refused last; 0 where it takes records */
    int is_started;         /* the start is recorded */
    struct mending mending; /* before it */
    off_t size;
    uint64_t count;         /* of its records */
    uint64_t synced;        /* so many of them are known to be on the disk */
    char start[1024];       /* the lines that a start is recorded by */
    struct waits waits;     /* what is recorded with the next record */
    uint64_t since_clock;   /* seconds */
    int is_heard;           /* the silence is over since the last second */
    struct moment last;     /* up to which the sign was handed its seconds, of those that are recorded */
    off_t base;             /* the octets that were written with a state */
    struct sets sets;       /* what managers set of objects before that state, and since as others put it there */
};

/*
 * Opens the journal of this description's sign, hands over all that is in it, and what the time without a process was
 * up to this moment; *power is how the sign's stands then. What it cannot go on from is told on standard error, and the
 * process ends. Where the disk takes no records it goes on from what is there.
 */
void journal_open(struct journal *journal, struct journal_asked asked, double up, struct handing handing,
                  struct power *power);

/* Records the start, where that is not done yet: whether records may follow it. */
int journal_begun(struct journal *journal);

/* Records what waits: 0, or the disk's error. */
int journal_paid(struct journal *journal);

/* Whether these lines, each with a newline at its end, are on the disk, and so may be handed over. */
int journal_keep(struct journal *journal, const char *lines, size_t size);

/* Seconds passed up to this moment, and were handed over. */
void journal_tick(struct journal *journal, uint64_t seconds, double up);

/* A datagram was answered; by a line that was kept or by none. Where the disk refuses, the sign acts on a silence of so
 * many seconds, or on none where they are 0. */
void journal_heard(struct journal *journal, int by_kept, uint64_t limit);

/* The last seconds, up to this moment: whether all is recorded. */
int journal_end(struct journal *journal, double up);

#endif
