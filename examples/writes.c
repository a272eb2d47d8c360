#include "writes.h"

#include <inttypes.h>
#include <stdio.h>
#include <stdlib.h>

#include "say.h"

enum { MINUTE = 60 };

void writes_begin(struct writes *writes, size_t most)
{
    *writes = (struct writes){.times = calloc(most, sizeof *writes->times),
                              .most = most,
                              .waiting = calloc(WAIT_MOST, sizeof *writes->waiting),
                              .told = -MINUTE};
    if (writes->times == NULL || writes->waiting == NULL) {
        say_last("out of memory\n");
        exit(1);
    }
    for (size_t at = 0; at < most; at++) {
        writes->times[at] = -1;
    }
}

int writes_take(struct writes *writes, double now)
{
    if (now - writes->times[writes->next] < 1) {
        return 0;
    }
    writes->times[writes->next] = now;
    writes->next = (writes->next + 1) % writes->most;
    return 1;
}

int writes_wait(struct writes *writes, const struct heard *one)
{
    if (writes->count == WAIT_MOST) {
        writes->dropped++;
        return 0;
    }
    writes->waiting[(writes->first + writes->count++) % WAIT_MOST] = *one;
    return 1;
}

const struct heard *writes_next(struct writes *writes, double now)
{
    if (writes->count == 0 || !writes_take(writes, now)) {
        return NULL;
    }
    const struct heard *found = writes->waiting + writes->first;
    writes->first = (writes->first + 1) % WAIT_MOST;
    writes->count--;
    return found;
}

int writes_pause(const struct writes *writes, double now)
{
    double left = writes->times[writes->next] + 1 - now;
    return writes->count == 0 ? -1 : left > 0 ? (int)(1000 * left) + 1 : 0;
}

void writes_tell(struct writes *writes, double now, int is_end)
{
    if (writes->dropped > 0 && (is_end || now - writes->told >= MINUTE)) {
        say("%" PRIu64 " datagrams that set something were dropped: at most %zu a second are recorded\n",
                writes->dropped, writes->most);
        writes->dropped = 0;
        writes->told = now;
    }
}

void writes_end(struct writes *writes)
{
    free(writes->times);
    free(writes->waiting);
}
