/* The lines of a file of objects, and values in their words (docs/OBJECTS.md). */
#ifndef OBJECT_LINES_H
#define OBJECT_LINES_H

#include <stddef.h>
#include <stdint.h>

#include "wisangub.h"

/* Room for why a line is none, the most octets of a line, and room for a value in words. */
enum { OBJECT_WHY = 512, OBJECT_LINE_MOST = 65536, VALUE_TEXT = 1536 + 2 * WISANGUB_DATAGRAM };

enum object_kind {
    OBJECT_FIXED,
    OBJECT_UPTIME, /* its number is the hundredths of a second since the start */
    OBJECT_CLOCK,  /* its number is the seconds since 1970 */
    OBJECT_FONTS   /* no object: the line `fonts` */
};

/* An object as wisangub_sign_publish takes it; its octets are not its own. */
struct object {
    enum object_kind kind;
    size_t line; /* of the file, from 1 */
    const uint8_t *name, *octets;
    size_t name_size, octets_size;
    struct wisangub_value value;
    struct wisangub_access access;
};

/*
 * The object of a line, without its end: 1, or 0 and why there is none. The octets of its name and its value are put to
 * *store, where there is room for as many as the line has, and *store is what is behind them.
 */
int object_read(const char *line, size_t size, struct object *object, uint8_t **store, char why[OBJECT_WHY]);

/* A value, of less octets than a datagram, as the word of its type and what it is: how many octets, with a null behind. */
size_t value_text(const struct wisangub_value *value, const uint8_t *octets, size_t size, char text[VALUE_TEXT]);

#endif
