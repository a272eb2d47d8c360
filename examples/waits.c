#include "waits.h"

#include <inttypes.h>
#include <stdio.h>
#include <string.h>

/* A sign acts on a silence of whole minutes, so on none that is shorter than one. */
enum { SHORT_SILENCE = 59, LINES_ROOM = 48 };

void waits_passed(struct waits *waits, uint64_t seconds) { waits->last += seconds; }

/*
 * Silences on which the sign did not act may be told as others of the same length in all. When it acts the second time
 * it shows what it showed after the first, since nothing was changed between them: so these may be told so too. The
 * first silence may have begun before, and is told as it was.
 */
void waits_heard(struct waits *waits, uint64_t limit)
{
    int acts = limit > 0 && waits->last >= limit;
    if (!waits->is_heard && waits->before + waits->acted + waits->after == 0) {
        waits->first = waits->last;
        waits->is_heard = 1;
    } else if (acts && !waits->has_acted) {
        waits->acted = waits->last;
        waits->has_acted = 1;
    } else if (waits->acted > 0) {
        waits->after += waits->last;
    } else {
        waits->before += waits->last;
    }
    waits->last = 0;
}

uint64_t waits_seconds(const struct waits *waits)
{
    return waits->first + waits->before + waits->acted + waits->after + waits->last;
}

int waits_are_over(const struct waits *waits) { return !waits->is_heard && waits_seconds(waits) == 0; }

static size_t told(char *line, uint64_t seconds, const char *end)
{
    int size = seconds == 0 ? sprintf(line, "%s", end) : sprintf(line, "ticks %" PRIu64 "\n%s", seconds, end);
    return (size_t)size;
}

/* The next seconds, which an end of a silence follows, are told: whether there are any more. */
static int next_silence(struct waits *waits, uint64_t *seconds)
{
    uint64_t *run = waits->before > 0 ? &waits->before : waits->acted > 0 ? &waits->acted : &waits->after;
    *seconds = run != &waits->acted && *run > SHORT_SILENCE ? SHORT_SILENCE : *run;
    *run -= *seconds;
    return *seconds > 0;
}

size_t waits_lines(struct waits *waits, char *lines, size_t room)
{
    size_t size = 0;
    uint64_t seconds = 0;
    if (waits->is_heard && room >= LINES_ROOM) {
        size += told(lines, waits->first, "heard\n");
        waits->first = 0;
        waits->is_heard = 0;
    }
    while (room - size >= LINES_ROOM && next_silence(waits, &seconds)) {
        size += told(lines + size, seconds, "heard\n");
    }
    if (room - size >= LINES_ROOM && waits->before + waits->acted + waits->after == 0 && waits->last > 0) {
        size += told(lines + size, waits->last, "");
        waits->last = 0;
    }
    if (waits_are_over(waits)) {
        *waits = (struct waits){0};
    }
    return size;
}
