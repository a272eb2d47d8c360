/* The lines of a journal, handed to a sign. */
#ifndef SIGN_LINES_H
#define SIGN_LINES_H

#include "lines.h"

/* Hands a line to a struct wisangub_sign, as it was handed over when it was recorded. */
void hand_line(void *sign, const struct line *line);

#endif
