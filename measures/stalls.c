/* Which loads wait for stores: `stalls WINDOW < TRACE`, a trace of valgrind's lackey (--trace-mem=yes).
 *
 * A processor hands a load the octets of a store that has not reached the cache yet where all of them are that store's.
 * Where they are several stores', or some lie in the cache, the load waits until the stores have reached it. The trace
 * knows no cycles: a store counts as not there yet for WINDOW instructions.
 *
 * Prints `instructions N`, then for each pair of a load and the last store that it waited for how often, and the
 * addresses of both instructions: `N LOAD STORE`. Where there is no memory, the exit status is 2. */
#include <inttypes.h>
#include <stdio.h>
#include <stdlib.h>

enum { OCTETS = 1 << 20, PAIRS = 1 << 16, LINE = 256 };

/* The last store to an octet. Octets that share a place drop each other: the trace looks back a little way only. */
struct octet {
    uint64_t address, store, when, instruction;
};

struct pair {
    uint64_t load, store, times;
};

static struct octet *octets;
static struct pair *pairs;

static uint64_t place(uint64_t value, uint64_t places) {
    return (value * UINT64_C(0x9E3779B97F4A7C15) >> 32) % places;
}

static struct octet *octet_at(uint64_t address) {
    return &octets[place(address, OCTETS)];
}

/* The newest store to these octets that is younger than the window, if they are not all its own. */
static const struct octet *awaited(uint64_t address, unsigned size, uint64_t now, uint64_t window) {
    const struct octet *newest = NULL;
    unsigned own = 0;
    for (unsigned at = 0; at < size; at++) {
        const struct octet *octet = octet_at(address + at);
        int is_young = octet->store && octet->address == address + at && now - octet->when <= window;
        if (is_young && (!newest || octet->store > newest->store))
            newest = octet;
    }
    for (unsigned at = 0; newest && at < size; at++) {
        const struct octet *octet = octet_at(address + at);
        own += octet->address == address + at && octet->store == newest->store;
    }
    return own == size ? NULL : newest;
}

static void note_wait(uint64_t load, uint64_t store) {
    uint64_t at = place(load * 31 + store, PAIRS);
    for (int tries = 0; tries < PAIRS; tries++, at = (at + 1) % PAIRS) {
        if (pairs[at].times && (pairs[at].load != load || pairs[at].store != store))
            continue;
        pairs[at] = (struct pair){load, store, pairs[at].times + 1};
        return;
    }
}

static void note_store(uint64_t address, unsigned size, struct octet store) {
    for (unsigned at = 0; at < size; at++) {
        store.address = address + at;
        *octet_at(address + at) = store;
    }
}

static void follow(FILE *trace, uint64_t window) {
    char line[LINE];
    uint64_t now = 0, instruction = 0, stores = 0;
    while (fgets(line, sizeof line, trace)) {
        uint64_t address;
        unsigned size;
        if (sscanf(line + 1, " %" SCNx64 ",%u", &address, &size) == 2 && line[0] == 'I') {
            instruction = address;
            now++;
            continue;
        }
        char kind = line[0] == ' ' ? line[1] : 0;
        if ((kind != 'L' && kind != 'S' && kind != 'M') || sscanf(line + 2, " %" SCNx64 ",%u", &address, &size) != 2)
            continue;
        const struct octet *store = kind == 'S' ? NULL : awaited(address, size, now, window);
        if (store)
            note_wait(instruction, store->instruction);
        if (kind != 'L')
            note_store(address, size, (struct octet){.store = ++stores, .when = now, .instruction = instruction});
    }
    printf("instructions %" PRIu64 "\n", now);
}

int main(int count, char **words) {
    octets = calloc(OCTETS, sizeof *octets);
    pairs = calloc(PAIRS, sizeof *pairs);
    if (count != 2 || !octets || !pairs)
        return 2;
    follow(stdin, strtoull(words[1], NULL, 10));
    for (int at = 0; at < PAIRS; at++)
        if (pairs[at].times)
            printf("%" PRIu64 " %" PRIx64 " %" PRIx64 "\n", pairs[at].times, pairs[at].load, pairs[at].store);
    return 0;
}
