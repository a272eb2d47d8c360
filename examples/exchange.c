#define _GNU_SOURCE
#include "exchange.h"

#include <errno.h>
#include <inttypes.h>
#include <stdio.h>
#include <string.h>
#include <unistd.h>

#include "anew.h"
#include "archive.h"
#include "files.h"

enum { WORDS = 128, SET_MOST = 1 << 16 };

static void put_words(struct anew *anew, const char *words) { anew_line(anew, words, strlen(words)); }

/* The state's lines. */
static void put_state(struct anew *anew, const char *state, size_t size)
{
    for (const char *line = state, *end; line < state + size; line = end + 1) {
        end = memchr(line, '\n', (size_t)(state + size - line));
        end = end != NULL ? end : state + size;
        anew_line(anew, line, (size_t)(end - line));
    }
}

/* The values of objects that managers set. */
static void put_sets(struct anew *anew, const struct sets *sets)
{
    static char line[SET_MOST];
    static const char word[] = "set ";
    for (const struct set *set = sets->items; set < sets->items + sets->count; set++) {
        size_t size = sizeof word - 1 + set->size;
        if (size > sizeof line) {
            anew->error = anew->error == 0 ? EFBIG : anew->error;
            return;
        }
        memcpy(line, word, sizeof word - 1);
        memcpy(line + sizeof word - 1, set->words, set->size);
        anew_line(anew, line, size);
    }
}

/* The moment up to which the sign was handed its seconds. */
static void put_moment(struct anew *anew, const struct moment *moment)
{
    char words[WORDS];
    snprintf(words, sizeof words, "start %s %" PRId64 " %" PRId64, moment->boot, moment->wall, moment->up);
    put_words(anew, words);
    snprintf(words, sizeof words, "clock %" PRId64 " %" PRId64, moment->wall, moment->up);
    put_words(anew, words);
}

/* All that the new file begins with; of a sign without power the moment at which it went comes first. */
static void put_all(struct anew *anew, const struct journal *journal, const char *state, size_t size,
                    const struct power *power)
{
    char head[256];
    snprintf(head, sizeof head, "journal 2 sign rules 1 description %s", journal->asked.digest);
    put_words(anew, head);
    put_state(anew, state, size);
    put_sets(anew, &journal->sets);
    if (power->is_off) {
        put_moment(anew, &power->lost);
    }
    put_moment(anew, &journal->last);
}

int journal_exchange(struct journal *journal, const char *state, size_t size, const struct power *power,
                     const char *archive)
{
    struct anew anew;
    if (!file_stands(journal->file, &journal->place, journal->size)) {
        lose(journal->asked.path, "another hand moved or changed it");
    }
    if (journal->sets.is_short) {
        return ENOMEM;
    }
    anew_begin(&anew, &journal->place);
    put_all(&anew, journal, state, size, power);
    int error = anew_written(&anew);
    if (error == 0 && archive != NULL) {
        error = archive_keep(archive, journal->place.real);
    }
    error = error == 0 ? anew_named(&anew) : error;
    if (error != 0) {
        anew_drop(&anew);
        return error;
    }
    close(journal->file);
    journal->file = anew.file;
    journal->size = journal->base = anew.size;
    journal->count = journal->synced = anew.count;
    return 0;
}
