/* The description of a sign, in a file. */
#ifndef DESCRIBED_H
#define DESCRIBED_H

#include <stddef.h>

#include "datagrams.h"
#include "wisangub.h"

struct described {
    const char *name, *text; /* of the file, and what it has */
    size_t size;
    char digest[65];         /* the description's SHA-256 */
};

/* The description of a file, of which one is read at a time, or the end of the process. */
struct described description_of(const char *name);

/* Makes the sign of a description, or ends the process. */
void sign_of(struct wisangub_sign *sign, const struct described *described);

/* The same in a state of a sign of it: 0, or the line for which that is none, and then nothing is made. */
size_t sign_in(struct wisangub_sign *sign, const struct described *described, const char *state, size_t size);

/* Makes the sign of a file's description, or ends the process; the description's SHA-256 is in `digest` then. */
void make_sign(struct wisangub_sign *sign, const char *name, char digest[65]);

/* The communities of a sign. */
struct communities communities_of(struct wisangub_sign *sign);

#endif
