/* A journal that is written anew: a file beside it, which takes its place whole or not at all. */
#ifndef ANEW_H
#define ANEW_H

#include <stddef.h>
#include <stdint.h>
#include <sys/types.h>

#include "files.h"

struct anew {
    const struct place *place; /* of the journal */
    int file;                  /* -1 where there is none */
    off_t size;
    uint64_t count;            /* of its records, each of which is on the disk when the file has its name */
    size_t waits;              /* octets that are not written yet */
    int error;                 /* with which the disk refused; nothing is written then */
};

/* A file beside a journal, locked, with the journal's name and `.new`. */
void anew_begin(struct anew *anew, const struct place *place);

/* One more record. */
void anew_line(struct anew *anew, const char *line, size_t size);

/* All its records are on the disk: 0, or the disk's error. */
int anew_written(struct anew *anew);

/* It has the journal's name from here on: 0, or the disk's error, and then it has not. */
int anew_named(const struct anew *anew);

/* It is there no more. */
void anew_drop(const struct anew *anew);

#endif
