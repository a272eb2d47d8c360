/*
 * What signd does in the place of firmware: it publishes the objects of a file beside its sign, keeps the times among
 * them, reads the file again where it is told to, and tells what managers set (docs/OBJECTS.md).
 */
#ifndef FIRMWARE_H
#define FIRMWARE_H

#include "objects.h"
#include "sets.h"
#include "wisangub.h"

struct firmware {
    struct wisangub_sign *sign;
    const char *path;
    struct objects objects;
    struct sets *sets; /* what managers set */
    double begun, told; /* when it began, and when the times were told last, in seconds since the boot */
    int is_quiet;
};

/* Reads the objects of a file. Where it is at fault this ends. */
void firmware_read(struct firmware *firmware, const char *path, double up, int is_quiet);

/* Publishes them, with those of the sign's fonts where the file says so; what managers set before is so again, where an
 * object of this name takes it. Where the sign has an object of one of these names this ends. */
void firmware_publish(struct firmware *firmware, struct wisangub_sign *sign, struct sets *sets);

/* Reads the file again: what is no more there is withdrawn, and what is new or another is published. Where it is at
 * fault this is said, and all stays as it was. */
void firmware_again(struct firmware *firmware, double up);

/* Before datagrams are handed over: the times are those of now, to a second. */
void firmware_keep_time(struct firmware *firmware, double up);

/* After datagrams: a line `set NAME VALUE` on standard output for each object that a manager set, which goes to the sets
 * too. The first time they are all that are known. */
void firmware_tell(struct firmware *firmware);

void firmware_end(struct firmware *firmware);

#endif
