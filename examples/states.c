#define _GNU_SOURCE
#include "states.h"

#include <inttypes.h>
#include <stdio.h>
#include <stdlib.h>
#include <string.h>

#include "files.h"
#include "lines.h"
#include "readings.h"
#include "records.h"
#include "say.h"

enum { SHOWN = 60, STATE_MOST = 1 << 20 }; /* octets in which a state ends: it has 110,000 at most */

static const char first[] = "state 1 sign", last[] = "end", behind_last[] = "\nend #", word[] = "state ",
                  set[] = "set ";

/* The record that is looked at. */
struct at {
    const char *path, *text, *line;
    size_t size, begin, end; /* of the file, and of the record */
    size_t line_size;
    uint64_t number;
};

/* ---- records */

/* Whether a whole record stands there, with the next number. */
static int is_whole(struct at *at)
{
    struct record found;
    at->end = line_end(at->text, at->size, at->begin);
    if (at->end == at->begin || !record_spelled(at->text, at->begin, at->end - 1, &found)
        || found.number != at->number) {
        return 0;
    }
    at->line = at->text + at->begin;
    at->line_size = record_line(at->text, at->begin, at->end);
    return 1;
}

static int is_line(const struct at *at, const char *line)
{
    return at->line_size == strlen(line) && memcmp(at->line, line, at->line_size) == 0;
}

static int begins(const struct at *at, const char *with)
{
    return at->line_size >= strlen(with) && memcmp(at->line, with, strlen(with)) == 0;
}

static _Noreturn void refuse_hole(const struct at *at)
{
    char why[128];
    snprintf(why, sizeof why, ": damaged at octet %zu: the state there is not whole", at->begin);
    refuse(at->path, why);
}

/* Goes on to the next record, which has to be there. */
static void next(struct at *at)
{
    at->begin = at->end;
    at->number++;
    if (!is_whole(at)) {
        refuse_hole(at);
    }
}

static _Noreturn void lack_memory(const char *path)
{
    say_last("%s: out of memory\n", path);
    exit(1);
}

/* ---- a state */

/* Whether a state stood there, whose first record is not whole: it begins so still, or has its last line. */
static int had_one(const struct at *at)
{
    size_t left = at->size - at->begin, most = left < STATE_MOST ? left : STATE_MOST;
    const char *from = at->text + at->begin;
    return (left >= strlen(word) && memcmp(from, word, strlen(word)) == 0)
           || memmem(from, most, behind_last, strlen(behind_last)) != NULL;
}

int state_stood(const char *text, size_t size)
{
    struct at at = {.text = text, .size = size, .begin = line_end(text, size, 0)};
    return had_one(&at);
}

/* Whether a state of this form begins there. */
static int is_begun(struct at *at)
{
    char why[SHOWN + 128];
    if (!is_whole(at)) {
        if (had_one(at)) {
            refuse_hole(at);
        }
        return 0;
    }
    if (!begins(at, word)) {
        return 0;
    }
    if (!is_line(at, first)) {
        int size = at->line_size < SHOWN ? (int)at->line_size : SHOWN;
        snprintf(why, sizeof why, ": it begins with '%.*s', and this front end knows '%s'", size, at->line, first);
        refuse(at->path, why);
    }
    return 1;
}

/* The lines from here on up to the last one, which the record then is. */
static void take_lines(struct at *at, struct state *state)
{
    size_t room = at->size - at->begin;
    state->text = malloc(room < STATE_MOST ? room : STATE_MOST);
    if (state->text == NULL) {
        lack_memory(at->path);
    }
    for (;;) {
        if (state->size + at->line_size >= STATE_MOST) {
            refuse(at->path, ": its state is too long for one");
        }
        memcpy(state->text + state->size, at->line, at->line_size);
        state->size += at->line_size;
        state->text[state->size++] = '\n';
        if (is_line(at, last)) {
            return;
        }
        next(at);
    }
}

/* The values of objects; the record is the one behind them then. */
static void take_sets(struct at *at, struct sets *sets)
{
    for (next(at); begins(at, set); next(at)) {
        struct object object;
        uint8_t *store;
        const char *words = at->line + strlen(set);
        size_t size = at->line_size - strlen(set);
        int is_object = set_object(words, size, &object, &store);
        int is_short = store == NULL || (is_object && !sets_put(sets, words, size));
        free(store);
        if (is_short) {
            lack_memory(at->path);
        }
        if (!is_object) {
            refuse_line(at->path, at->line, at->line_size, at->number, at->begin);
        }
    }
}

/* The line has to be one of this kind. */
static void want(const struct at *at, enum line_kind kind)
{
    struct line line;
    if (line_read(at->line, at->line_size, &line) != kind) {
        refuse_line(at->path, at->line, at->line_size, at->number, at->begin);
    }
}

struct state state_read(const char *path, const char *text, size_t size)
{
    size_t begin = line_end(text, size, 0);
    struct at at = {.path = path, .text = text, .size = size, .begin = begin, .number = 2};
    struct state state = {.number = 1, .behind = begin};
    if (!is_begun(&at)) {
        return state;
    }
    take_lines(&at, &state);
    take_sets(&at, &state.sets);
    state.number = at.number - 1;
    state.behind = at.begin;
    want(&at, LINE_START);
    next(&at);
    want(&at, LINE_CLOCK);
    state.base = at.end;
    return state;
}

int state_is_dark(const struct state *state)
{
    static const char dark[] = "\npowered 0\n";
    return state->text != NULL && memmem(state->text, state->size, dark, strlen(dark)) != NULL;
}

void state_free(struct state *state)
{
    free(state->text);
    state->text = NULL;
}
