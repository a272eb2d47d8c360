/*
 * The library's memory, from a static array: for firmware that has no malloc, or whose rules forbid it. The first free
 * block that is large enough is taken, and free neighbours become one. It is for one thread. ARENA_OCTETS is a multiple
 * of 16, as much as a sign takes at most (docs/C.md, "What it takes"); arena_most says what was taken so far.
 */
#include "arena.h"

#include <stdalign.h>
#include <string.h>

#include "wisangub.h"

/* What stands before a block. Sizes are in heads, and count the block's own. */
struct head {
    uint32_t size, before; /* of the block, and of the one before it: 0 at the beginning */
    uint32_t is_taken, unused;
};

enum { HEADS = ARENA_OCTETS / sizeof(struct head) };

_Static_assert(sizeof(struct head) == 16 && ARENA_OCTETS % sizeof(struct head) == 0, "blocks are aligned to 16 octets");

static alignas(16) struct head arena[HEADS];
static size_t most;

/* The block behind this one, or null at the end. */
static struct head *next_of(struct head *block)
{
    struct head *next = block + block->size;
    return next < arena + HEADS ? next : NULL;
}

static void set_size(struct head *block, uint32_t size)
{
    block->size = size;
    struct head *next = next_of(block);
    if (next != NULL) {
        next->before = size;
    }
}

/* The free block behind a block becomes a part of it. */
static void join_next(struct head *block)
{
    struct head *next = next_of(block);
    if (next != NULL && !next->is_taken) {
        set_size(block, block->size + next->size);
    }
}

/* Takes so much of a block; what is left of it is a free block. */
static struct rattle_had take(struct head *block, uint32_t size)
{
    uint32_t left = block->size - size;
    if (left > 0) {
        set_size(block, size);
        block[size] = (struct head){.before = size};
        set_size(block + size, left);
    }
    block->is_taken = 1;
    size_t end = (size_t)(block - arena + size) * sizeof *block;
    most = end > most ? end : most;
    return (struct rattle_had){1, block + 1};
}

static struct rattle_had none(void) { return (struct rattle_had){0, arena}; }

/* The size of a block of so many octets; one that is larger than the arena has the size of none. */
static uint32_t heads_of(size_t octets)
{
    return octets >= sizeof arena ? HEADS + 1U : (uint32_t)((octets + 2 * sizeof *arena - 1) / sizeof *arena);
}

struct rattle_had rattle_alloc(size_t size, size_t align)
{
    uint32_t wanted = heads_of(size);
    (void)align;
    if (arena->size == 0) {
        arena->size = HEADS;
    }
    for (struct head *block = arena; block != NULL; block = next_of(block)) {
        if (!block->is_taken && block->size >= wanted) {
            return take(block, wanted);
        }
    }
    return none();
}

struct rattle_had rattle_realloc(void *at, size_t kept, size_t size, size_t align)
{
    struct head *block = (struct head *)at - 1;
    uint32_t wanted = heads_of(size), before = block->size;
    join_next(block);
    if (block->size >= wanted) {
        return take(block, wanted);
    }
    take(block, before);
    struct rattle_had moved = rattle_alloc(size, align);
    if (moved.has) {
        memcpy(moved.at, at, kept < size ? kept : size);
        rattle_dealloc(at);
    }
    return moved;
}

void rattle_dealloc(void *at)
{
    struct head *block = (struct head *)at - 1;
    block->is_taken = 0;
    join_next(block);
    if (block->before != 0 && !block[-(ptrdiff_t)block->before].is_taken) {
        join_next(block - block->before);
    }
}

size_t arena_most(void) { return most; }
