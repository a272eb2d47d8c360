/* Names of objects: as numbers with dots between them, and as the octets that the library takes (X.690, 8.19). */
#ifndef NAMES_H
#define NAMES_H

#include <stddef.h>
#include <stdint.h>

#include "wisangub.h"

/* The most octets of a name as a text, with its end: 128 numbers of ten digits. */
enum { NAME_TEXT = 128 * 11 };

struct name {
    uint8_t octets[WISANGUB_NAME];
    size_t size;
};

/* The name that so many octets of a text spell: 1, or 0 where they spell none. */
int name_read(const char *text, size_t size, struct name *name);

/* A name of which it is known that it is one. */
struct name name_of(const char *text);

int names_are_same(const struct name *one, const struct name *other);

/* The order of two names by their numbers: below 0, 0, or above it. */
int names_order(const struct name *one, const struct name *other);

/* The numbers of a name's octets, with dots between them and a null behind. */
void name_text(const uint8_t *octets, size_t size, char text[NAME_TEXT]);

#endif
