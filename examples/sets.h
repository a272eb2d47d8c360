/* The values of objects that managers set last, as a journal keeps them where it is shortened (docs/JOURNAL.md). */
#ifndef SETS_H
#define SETS_H

#include <stddef.h>
#include <stdint.h>

#include "names.h"
#include "object_lines.h"

/* An object's name, and as words its name and its value. */
struct set {
    struct name name;
    char *words;
    size_t size;
    int is_told; /* what reads standard output knows of it */
};

/* In the order of their names. */
struct sets {
    struct set *items;
    size_t count, room;
    int is_short; /* there was no memory for some */
};

/* The words of an object that was set, in place of those that were there: 0 where there is no memory for them. */
int sets_put(struct sets *sets, const char *words, size_t size);

/*
 * The object and the value that words say: 1, or 0 where they say none or there is no memory. Its octets are in *store,
 * which the caller frees, and which is null where there is no memory.
 */
int set_object(const char *words, size_t size, struct object *object, uint8_t **store);

void sets_free(struct sets *sets);

#endif
