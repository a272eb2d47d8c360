/*
 * Blocks of the arena that are asked for, changed and given back in any order: arena_test SEED. None overlaps another
 * or what stands before it, each is aligned, and what is kept is kept; at the end all is one block again. It prints
 * `ok`.
 */
#undef NDEBUG
#include <assert.h>
#include <stdint.h>
#include <stdio.h>
#include <stdlib.h>
#include <string.h>

#include "arena.h"
#include "wisangub.h"

enum { BLOCKS = 200, TURNS = 200000, WHOLE = ARENA_OCTETS - 16 };

struct block {
    uint8_t *at; /* null where it is not taken */
    size_t size;
    uint8_t mark;
};

static struct block blocks[BLOCKS];
static uint64_t random_state;

static size_t any(size_t below)
{
    random_state ^= random_state << 13;
    random_state ^= random_state >> 7;
    random_state ^= random_state << 17;
    return (size_t)(random_state % below);
}

/* Small ones mostly, and some of a quarter of the arena. */
static size_t any_size(void) { return any(20) == 0 ? any(ARENA_OCTETS / 4) : any(300); }

static void look(const struct block *block, size_t size)
{
    assert((uintptr_t)block->at % 16 == 0);
    for (size_t at = 0; at < size; at++) {
        assert(block->at[at] == block->mark);
    }
}

static void put(struct block *block, struct rattle_had had, size_t size)
{
    *block = (struct block){had.at, size, (uint8_t)any(256)};
    memset(block->at, block->mark, size);
}

/* Asks for a block, gives it back, or gives it another size: 1 where there was no memory. */
static int turn(struct block *block)
{
    size_t size = any_size();
    if (block->at == NULL) {
        struct rattle_had had = rattle_alloc(size, 8);
        assert(had.at != NULL);
        if (had.has) {
            put(block, had, size);
        }
        return !had.has;
    }
    look(block, block->size);
    if (any(3) == 0) {
        rattle_dealloc(block->at);
        block->at = NULL;
        return 0;
    }
    size_t kept = block->size < size ? block->size : size;
    struct rattle_had had = rattle_realloc(block->at, kept, size, 8);
    assert(had.at != NULL);
    if (!had.has) {
        look(block, block->size);
        return 1;
    }
    block->at = had.at;
    look(block, kept);
    put(block, had, size);
    return 0;
}

static void give_all_back(void)
{
    for (struct block *block = blocks; block < blocks + BLOCKS; block++) {
        if (block->at != NULL) {
            look(block, block->size);
            rattle_dealloc(block->at);
            block->at = NULL;
        }
    }
}

/* The whole arena is one free block. */
static void all_is_one(void)
{
    struct rattle_had whole = rattle_alloc(WHOLE, 16);
    assert(whole.has && !rattle_alloc(0, 1).has && !rattle_realloc(whole.at, WHOLE, WHOLE + 1, 1).has);
    rattle_dealloc(whole.at);
    assert(!rattle_alloc(WHOLE + 1, 1).has && !rattle_alloc(SIZE_MAX, 1).has && arena_most() == ARENA_OCTETS);
}

int main(int count, char **words)
{
    int refused = 0;
    if (count != 2) {
        return fputs("usage: arena_test SEED\n", stderr), 2;
    }
    random_state = strtoull(words[1], NULL, 10) * 2 + 1;
    for (int done = 0; done < TURNS; done++) {
        refused += turn(blocks + any(BLOCKS));
        if (done % (TURNS / 20) == 0) {
            give_all_back();
            all_is_one();
        }
    }
    give_all_back();
    all_is_one();
    assert(refused > 0);
    puts("ok");
    return 0;
}
