/* The command line of signd. */
#ifndef ASKED_H
#define ASKED_H

#include "allowed.h"
#include "journal.h"
#include "shortening.h"

struct asked {
    struct journal_asked journal; /* its path is null where nothing is kept */
    struct allowed allowed;
    struct shortening shortening;
    const char *host, *objects, *log, *keep, *archive, *description; /* null where there is none */
    long port, most;
    int is_quiet, has_ticks;
};

/* What the words of a command line ask for. Where they are none of one, or ask for words alone, this ends. */
struct asked asked_for(int count, char **words);

#endif
