/* A command of a central system carried out at a sign in the same process. */
#ifndef PUBLISH_H
#define PUBLISH_H

#include <stddef.h>

#include "wisangub.h"

/* Hands requests, replies and seconds over until it is done: how the last job ended. */
struct wisangub_status carry_out(struct wisangub_sign *sign, struct wisangub_centre *centre, const char *command,
                                 size_t size);

/* The command that publishes a text in row 1 of the changeable memory, shown for so many minutes: its size. */
size_t publication(char *line, const char *text, size_t text_size, unsigned minutes);

/* The most octets of such a command. */
enum { PUBLICATION_MOST = 2 * 512 + 80 };

#endif
