/* A heap over a static array. */
#ifndef ARENA_H
#define ARENA_H

#include <stddef.h>

#ifndef ARENA_OCTETS
#define ARENA_OCTETS (1 << 20)
#endif

/* How many octets of the array were ever taken, counted from its beginning. */
size_t arena_most(void);

#endif
