/* A file of objects (docs/OBJECTS.md), read whole. */
#ifndef OBJECTS_H
#define OBJECTS_H

#include <stddef.h>

#include "object_lines.h"

enum { OBJECTS_MOST = 1 << 20, OBJECTS_WHY = OBJECT_WHY + 4200 };

/* The objects of a file, in the order of their names' octets; the octets of names and values are in `store`. `fonts` is
 * the number of the line that says that the objects of the sign's fonts can be read, 0 where none does. */
struct objects {
    struct object *items;
    size_t count, fonts;
    uint8_t *store;
};

/* What a file has: 1, or 0 and its first fault, with the file and the line. */
int objects_read(const char *path, struct objects *objects, char why[OBJECTS_WHY]);

void objects_free(struct objects *objects);

/* The object of the same name, or null. */
const struct object *objects_find(const struct objects *objects, const struct object *wanted);

/* Whether both read the same, and a manager may write the same to them. */
int objects_are_same(const struct object *one, const struct object *other);

#endif
