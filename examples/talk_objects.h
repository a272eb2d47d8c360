/* The lines of a live sign about objects beside its own, as `signtool sign` answers them. */
#ifndef TALK_OBJECTS_H
#define TALK_OBJECTS_H

#include "wisangub.h"

/* Whether a line is one of `object`, `no-object` and `objects`, which is answered then. */
int answer_objects(struct wisangub_sign *sign, const char *line);

#endif
