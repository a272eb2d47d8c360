#define _GNU_SOURCE
#include <errno.h>
#include <inttypes.h>
#include <stdio.h>
#include <string.h>
#include <sys/mman.h>
#include <sys/stat.h>

#include "files.h"
#include "journal.h"
#include "readings.h"

enum { MADE_UP_MOST = 86400 };

/* The lines that tell the sign what the time without a process was. */
static void tell_down(char *lines, size_t room, const struct past *past, const struct moment *now, enum down down)
{
    int is_same = is_same_boot(&past->last, now);
    if (down == DOWN_POWER || (down == DOWN_BY_BOOT && !is_same)) {
        const struct moment *lost = past->power.is_off ? &past->power.lost : &past->last;
        snprintf(lines, room, "power-lost\npower-back %" PRIu32 "\n", seconds_by_wall(lost, now));
        return;
    }
    uint32_t passed = seconds_between(&past->last, now);
    if (passed > 0) {
        snprintf(lines, room, "ticks %" PRIu32 "\n", passed < MADE_UP_MOST ? passed : (uint32_t)MADE_UP_MOST);
    }
}

/* Hands over what a text has, to a sign in the state with which it begins. */
static struct past handed_over(struct journal *journal, const char *text, size_t kept, struct state *state,
                               struct handing handing)
{
    char why[96];
    journal->sets = state->sets;
    journal->base = (off_t)state->base;
    size_t line = handing.begin(handing.sign, state);
    if (line != 0) {
        snprintf(why, sizeof why, ": state line %zu: no state of this sign", line);
        refuse(journal->asked.path, why);
    }
    struct past past = journal_replayed(text, kept, state, handing);
    state_free(state);
    return past;
}

/* Reads the file, and hands over what is in it. */
static struct past go_on(struct journal *journal, struct handing handing, int *is_new)
{
    struct stat found = {0};
    struct state state;
    const char *path = journal->asked.path;
    if (journal->file >= 0 && fstat(journal->file, &found) != 0) {
        lose(path, strerror(errno));
    }
    size_t size = (size_t)found.st_size;
    char *text = size > 0 ? mmap(NULL, size, PROT_READ, MAP_PRIVATE, journal->file, 0) : NULL;
    if (text == MAP_FAILED) {
        lose(path, strerror(errno));
    }
    struct reading reading = journal_read(&journal->asked, text != NULL ? text : "", size, &state);
    struct past past = handed_over(journal, text != NULL ? text : "", reading.kept, &state, handing);
    if (text != NULL) {
        munmap(text, size);
    }
    journal->mending.found = (off_t)size;
    journal->mending.kept = reading.kept;
    journal->mending.is_older = reading.form == 1;
    journal->count = reading.count;
    *is_new = reading.kept == 0;
    return past;
}

/* Hands over lines that are not read from a file. */
static void hand_over(const char *lines, struct handing handing, struct power *power)
{
    struct line line;
    for (const char *at = lines, *end; *at != '\0'; at = end + 1) {
        end = strchr(at, '\n');
        line_read(at, (size_t)(end - at), &line);
        handing.hand(handing.sign, &line);
        power->is_off &= line.kind != LINE_POWER_BACK;
    }
}

void journal_open(struct journal *journal, struct journal_asked asked, double up, struct handing handing,
                  struct power *power)
{
    char head[256] = "", told[96] = "";
    int refused = 0, is_new = 0;
    struct moment now = moment_at(up);
    *journal = (struct journal){.asked = asked, .place.path = asked.path, .last = now};
    journal->file = file_opened(&journal->place, &refused);
    journal->mending.is_readable = refused != 0;
    struct past past = go_on(journal, handing, &is_new);
    if (past.has_last) {
        tell_down(told, sizeof told, &past, &now, asked.down);
    }
    if (is_new) {
        snprintf(head, sizeof head, "journal 2 sign rules 1 description %s\n", asked.digest);
    }
    snprintf(journal->start, sizeof journal->start,
             "%sstart %s %" PRId64 " %" PRId64 "\n%sclock %" PRId64 " %" PRId64 "\n", head, now.boot, now.wall, now.up,
             told, now.wall, now.up);
    *power = past.power;
    (void)journal_begun(journal);
    hand_over(told, handing, power);
}
