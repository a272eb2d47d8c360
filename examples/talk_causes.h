/* The lines of a talk that ask why something is refused. */
#ifndef TALK_CAUSES_H
#define TALK_CAUSES_H

#include "wisangub.h"

/* Says why octets are refused as `text`, `description` or `command`: `cause`, its numbers and its words; else `ok`. */
void answer_why(const struct wisangub_sign *sign, const char *what, const uint8_t *octets, size_t size);

#endif
