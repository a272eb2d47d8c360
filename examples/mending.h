/* A journal's file before the first record of a process: opened for writing, cut to what is kept, and of form 2. */
#ifndef MENDING_H
#define MENDING_H

#include "journal.h"

/* Does what is left of it: 0, or the disk's error, and then it may be called again. */
int journal_mended(struct journal *journal);

#endif
