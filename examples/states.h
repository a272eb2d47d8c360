/* A state at the beginning of a sign's journal, in place of the lines that led to it (docs/JOURNAL.md). */
#ifndef STATES_H
#define STATES_H

#include <stddef.h>
#include <stdint.h>

#include "sets.h"

struct state {
    char *text;       /* its lines, each with a newline at its end; null where the journal begins with none */
    size_t size;
    struct sets sets; /* the values of objects behind it */
    uint64_t number;  /* of the last record up to these; 1 without a state */
    size_t behind;    /* the octets up to that record's end, and so up to the lines that are handed over */
    size_t base;      /* the octets that were written with it; 0 without a state */
};

/*
 * What stands behind the first record of a journal of form 2. It was whole when the file got its name: what of it is
 * not so now, or is none that a sign of this form has, is told and ends the process.
 */
struct state state_read(const char *path, const char *text, size_t size);

/* Whether a state stands behind a first record that is not whole, or stood there. */
int state_stood(const char *text, size_t size);

/* Whether the sign of this state is without power. */
int state_is_dark(const struct state *state);

/* Frees the text; the values of objects are others'. */
void state_free(struct state *state);

#endif
