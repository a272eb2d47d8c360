/* The library's memory, over malloc. */
#include <stdlib.h>

#include "wisangub.h"

static char none;

static struct rattle_had had(void *at) { return (struct rattle_had){at != NULL, at != NULL ? at : &none}; }

struct rattle_had rattle_alloc(size_t size, size_t align) { return had(malloc(size != 0 ? size : align)); }

struct rattle_had rattle_realloc(void *at, size_t kept, size_t size, size_t align)
{
    (void)kept;
    return had(realloc(at, size != 0 ? size : align));
}

void rattle_dealloc(void *at) { free(at); }
