#define _GNU_SOURCE
#include "shortening.h"

#include <inttypes.h>
#include <stdio.h>
#include <stdlib.h>
#include <string.h>

#include "exchange.h"
#include "say.h"

enum { AGAIN = 60, DIGITS = 12, THOUSAND = 1000, MILLION = 1000000 };

off_t octets_of(const char *word)
{
    size_t digits = strspn(word, "0123456789");
    const char *end = word + digits;
    off_t times = strcmp(end, "k") == 0 ? THOUSAND : strcmp(end, "M") == 0 ? MILLION : *end == '\0' ? 1 : 0;
    return digits > 0 && digits <= DIGITS ? (off_t)strtoll(word, NULL, 10) * times : 0;
}

/* ---- a state */

/* The octets of a state up to its line `end`: which values of objects a journal has is its own to say. */
static size_t own_size(const char *state, size_t size)
{
    static const char end[] = "\nend\n";
    const char *at = memmem(state, size, end, sizeof end - 1);
    return at != NULL ? (size_t)(at - state) + sizeof end - 1 : size;
}

/* The state of a sign in memory that is taken for it; null where there is none. */
static char *saved(const struct wisangub_sign *sign, size_t *size)
{
    size_t room = 0;
    if (wisangub_sign_save(sign, NULL, 0, &room) != WISANGUB_TOO_SMALL) {
        return NULL;
    }
    char *state = malloc(room);
    if (state == NULL || wisangub_sign_save(sign, state, room, size) != WISANGUB_DONE) {
        free(state);
        return NULL;
    }
    *size = own_size(state, *size);
    return state;
}

/* Whether another sign goes on from a state to the same; else why not, in words. */
static int is_gone_on_from(const struct described *described, const char *state, size_t size, char why[SHORTENING_WHY])
{
    struct wisangub_sign other = {NULL};
    uint32_t first;
    size_t line = 0, again = 0;
    enum wisangub_answer answer =
        wisangub_sign_restore(&other, described->text, described->size, state, size, &first, &line);
    if (answer == WISANGUB_MEMORY) {
        snprintf(why, SHORTENING_WHY, "no memory for another sign");
        return 0;
    }
    if (answer != WISANGUB_DONE) {
        snprintf(why, SHORTENING_WHY, "another sign does not go on from its state: line %zu", line);
        return 0;
    }
    char *found = saved(&other, &again);
    int is_same = found != NULL && again == size && memcmp(found, state, size) == 0;
    free(found);
    wisangub_sign_free(&other);
    snprintf(why, SHORTENING_WHY, "another sign goes on from its state to another one");
    return is_same;
}

/* The state takes the place of the lines: 1, or 0 and why not. */
static int is_done(const struct shortening *shortening, struct journal *journal, const struct wisangub_sign *sign,
                   const struct power *power, char why[SHORTENING_WHY])
{
    size_t size = 0;
    int error = journal_paid(journal);
    char *state = error == 0 ? saved(sign, &size) : NULL;
    snprintf(why, SHORTENING_WHY, "%s", error == 0 ? "no memory for its state" : strerror(error));
    int goes_on = state != NULL && is_gone_on_from(shortening->described, state, size, why);
    if (goes_on) {
        error = journal_exchange(journal, state, size, power, shortening->archive);
        snprintf(why, SHORTENING_WHY, "%s", strerror(error));
    }
    free(state);
    return goes_on && error == 0;
}

/* ---- what is said */

static void say_shortened(struct log *log, const struct journal *journal, off_t before)
{
    char event[64];
    snprintf(event, sizeof event, "shortened from %jd to %jd", (intmax_t)before, (intmax_t)journal->size);
    say("%s: %s octets\n", journal->asked.path, event);
    log_event(log, NULL, event, NULL, 0);
}

static void say_refused(struct log *log, const struct journal *journal, const char *why)
{
    char event[64];
    snprintf(event, sizeof event, "not shortened: %.48s", why);
    say("%s is not shortened: %s\n", journal->asked.path, why);
    log_event(log, NULL, event, NULL, 0);
}

void shortening_turn(struct shortening *shortening, struct journal *journal, const struct wisangub_sign *sign,
                     const struct power *power, struct log *log)
{
    char why[SHORTENING_WHY];
    off_t before = journal->size;
    int is_asked = shortening->is_asked, is_long = before > shortening->most && before > 2 * journal->base;
    if (!is_asked && (!is_long || running() < shortening->again)) {
        return;
    }
    shortening->is_asked = 0;
    if (is_done(shortening, journal, sign, power, why)) {
        shortening->again = 0;
        shortening->refused[0] = '\0';
        say_shortened(log, journal, before);
        return;
    }
    shortening->again = running() + AGAIN;
    if (is_asked || strcmp(why, shortening->refused) != 0) {
        say_refused(log, journal, why);
    }
    memcpy(shortening->refused, why, SHORTENING_WHY);
}
