/* What a journal's file says, read at a start. */
#ifndef READINGS_H
#define READINGS_H

#include <stddef.h>
#include <stdint.h>

#include "journal.h"

struct reading {
    unsigned form;  /* 0 where the file is to be begun */
    size_t kept;    /* the octets of its records, up to a start that was not finished */
    uint64_t count; /* of these records */
};

/* What a sign was handed, as far as it was recorded. */
struct past {
    int has_last;
    struct moment last; /* the moment of the last record, where it has one */
    struct power power;
};

/*
 * How far the records go that a sign goes on from, and the state with which they begin, or none. A file of something
 * else, damage that is not accepted, and a line that no sign's journal has, are told and end the process.
 */
struct reading journal_read(const struct journal_asked *asked, const char *text, size_t size, struct state *state);

/* Refuses a whole record with a line that no sign knows there, by name. */
_Noreturn void refuse_line(const char *path, const char *line, size_t size, uint64_t number, size_t at);

/* Hands over all lines behind a state, and keeps account of the time. */
struct past journal_replayed(const char *text, size_t kept, const struct state *state, struct handing handing);

#endif
