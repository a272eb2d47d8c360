/* Datagrams that are like others, for tests. */
#ifndef MUTATIONS_H
#define MUTATIONS_H

#include <stddef.h>
#include <stdint.h>

/* Any number below this one. */
uint64_t any(uint64_t below);

/* Reads datagrams as digits from standard input, a line each: how many. */
size_t mutations_begin(uint64_t seed);

/* A datagram like one of them, in a block of its own size. */
uint8_t *mutated(size_t *size);

/* One of them as it stands, in a block of its own too. */
uint8_t *unchanged(size_t *size);

#endif
