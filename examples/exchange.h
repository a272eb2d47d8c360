/* A journal is shortened: a state stands in the place of the lines that led to it. */
#ifndef EXCHANGE_H
#define EXCHANGE_H

#include "journal.h"

/*
 * The state of the sign, which was handed all that is recorded, and nothing else. Its journal goes on in a new file that
 * begins with it; the old one is kept in the archive before, where that is no null. 0, or the disk's error, and then the
 * old file stays in force.
 */
int journal_exchange(struct journal *journal, const char *state, size_t size, const struct power *power,
                     const char *archive);

#endif
