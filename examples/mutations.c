#include "mutations.h"

#include <stdio.h>
#include <stdlib.h>
#include <string.h>

#include "datagrams.h"

enum { SEEDS_MOST = 2000 };

static char line[8192];
static uint8_t seeds[SEEDS_MOST][DATAGRAM_MOST];
static size_t sizes[SEEDS_MOST], count;
static uint64_t random_state;

uint64_t any(uint64_t below)
{
    random_state ^= random_state << 13;
    random_state ^= random_state >> 7;
    random_state ^= random_state << 17;
    return random_state % below;
}

size_t mutations_begin(uint64_t seed)
{
    random_state = seed * 2 + 1;
    while (count < SEEDS_MOST && fgets(line, sizeof line, stdin) != NULL) {
        size_t size = strcspn(line, "\n") / 2;
        for (size_t at = 0; at < size && at < DATAGRAM_MOST; at++) {
            char pair[3] = {line[2 * at], line[2 * at + 1], '\0'};
            seeds[count][at] = (uint8_t)strtoul(pair, NULL, 16);
        }
        sizes[count++] = size < DATAGRAM_MOST ? size : DATAGRAM_MOST;
    }
    return count;
}

static uint8_t *block(size_t room)
{
    uint8_t *made = malloc(room > 0 ? room : 1);
    if (made == NULL) {
        fputs("out of memory\n", stderr);
        exit(1);
    }
    return made;
}

uint8_t *unchanged(size_t *size)
{
    uint64_t seed = any(count);
    uint8_t *made = block(sizes[seed]);
    *size = sizes[seed];
    memcpy(made, seeds[seed], *size);
    return made;
}

uint8_t *mutated(size_t *size)
{
    uint64_t seed = any(count);
    size_t room = sizes[seed] + any(8);
    uint8_t *made = block(room);
    memset(made, (int)any(256), room);
    memcpy(made, seeds[seed], sizes[seed]);
    for (uint64_t times = any(4); times > 0 && room > 0; times--) {
        made[any(room)] = (uint8_t)any(256);
    }
    *size = any(4) == 0 ? any(room + 1) : any(3) == 0 ? room : sizes[seed];
    return made;
}
