/* A heap for tests: the call whose number stands in the environment's REFUSED_CALL, counted from 1, finds no memory. */
#include <stdlib.h>

#include "wisangub.h"

static char none;

static int is_refused(void)
{
    static unsigned long calls, refused;
    if (calls == 0) {
        const char *word = getenv("REFUSED_CALL");
        refused = word != NULL ? strtoul(word, NULL, 10) : 0;
    }
    return ++calls == refused;
}

static struct rattle_had had(void *at) { return (struct rattle_had){at != NULL, at != NULL ? at : &none}; }

struct rattle_had rattle_alloc(size_t size, size_t align)
{
    return had(is_refused() ? NULL : malloc(size != 0 ? size : align));
}

struct rattle_had rattle_realloc(void *at, size_t kept, size_t size, size_t align)
{
    (void)kept;
    return had(is_refused() ? NULL : realloc(at, size != 0 ? size : align));
}

void rattle_dealloc(void *at) { free(at); }
