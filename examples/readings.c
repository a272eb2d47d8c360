#define _GNU_SOURCE
#include "readings.h"

#include <inttypes.h>
#include <stdio.h>
#include <stdlib.h>
#include <string.h>

#include "files.h"
#include "older.h"
#include "records.h"
#include "tails.h"

enum { HEAD_MOST = 256, SHOWN = 60 };

static int begins(const char *text, size_t size, const char *word)
{
    return size >= strlen(word) && memcmp(text, word, strlen(word)) == 0;
}

static const char *head_of(char head[HEAD_MOST], unsigned form, const char *digest)
{
    snprintf(head, HEAD_MOST, "journal %u sign rules 1 description %s", form, digest);
    return head;
}

/* ---- what the file is */

/* Whether a part of a file without a whole record was a journal's. */
static int is_journal(const char *text, size_t size)
{
    struct record found;
    return begins(text, size, "journal ") || record_behind(text, size, 0, &found) || older_newline(text, size, 0, 0) < size;
}

/* Whether a front end was killed, or lost its power, at the first record. */
static int is_new(const char *text, size_t size, const char *digest)
{
    char head[HEAD_MOST], record[HEAD_MOST + RECORD_ROOM];
    head_of(head, 2, digest);
    size_t made = record_made(record, head, strlen(head), 1, 1);
    if (is_begun(text, size, record, made)) {
        return tail_of(text, size, 0, 1) != TAIL_DAMAGED;
    }
    made = older_first(record, head_of(head, 1, digest));
    return is_begun(text, size, record, made) && older_tail(text, size, 0) != TAIL_DAMAGED;
}

/* Goes on from what is damaged where that is accepted; else it is told, and the process ends. */
static void accept(const struct journal_asked *asked, const struct reading *found)
{
    char why[256];
    if (asked->accepts_damage) {
        return;
    }
    snprintf(why, sizeof why,
             ": the record %" PRIu64 ", at octet %zu, is damaged: --accept-damage once goes on from there, and puts the"
             " rest aside",
             found->count + 1, found->kept);
    refuse(asked->path, why);
}

/* How far the records are whole. */
static struct reading whole(const struct journal_asked *asked, const char *text, size_t size)
{
    struct reading found = {.form = 2};
    enum tail tail;
    found.kept = records_whole(text, size, &found.count);
    tail = found.kept > 0 ? tail_of(text, size, found.kept, found.count + 1) : TAIL_DAMAGED;
    if (found.kept == 0) {
        found.form = 1;
        found.kept = older_whole(text, size, &found.count);
        tail = found.kept > 0 ? older_tail(text, size, found.kept) : TAIL_DAMAGED;
    }
    if (found.kept == 0) {
        found.form = 0;
        tail = size == 0 || is_new(text, size, asked->digest) ? TAIL_NONE : TAIL_DAMAGED;
    }
    if (found.kept == 0 && tail == TAIL_DAMAGED && !is_journal(text, size)) {
        refuse(asked->path, " is no journal");
    }
    if (found.kept == 0 && tail == TAIL_DAMAGED && state_stood(text, size)) {
        refuse(asked->path, ": the record 1, at octet 0, is damaged, and behind it stands a state");
    }
    if (tail == TAIL_DAMAGED) {
        accept(asked, &found);
    }
    return found;
}

/* Refuses a journal of something else, by what differs. */
static void compare(const struct journal_asked *asked, const char *text, size_t size)
{
    char line[HEAD_MOST] = "", one[HEAD_MOST], two[HEAD_MOST], end[16] = "", digest[80] = "", why[128];
    unsigned form = 0, rules = 0;
    memcpy(line, text, size < sizeof line ? size : sizeof line - 1);
    if (strcmp(line, head_of(one, 1, asked->digest)) == 0 || strcmp(line, head_of(two, 2, asked->digest)) == 0) {
        return;
    }
    if (sscanf(line, "journal %u %15s rules %u description %79s", &form, end, &rules, digest) != 4) {
        refuse(asked->path, " is no journal");
    }
    if (strcmp(end, "sign") != 0) {
        snprintf(why, sizeof why, ": its end is %s, and this front end's sign", end);
    } else if (form != 2 && form != 1) {
        snprintf(why, sizeof why, ": its form is %u, and this front end's 2", form);
    } else if (rules != 1) {
        snprintf(why, sizeof why, ": its rules is %u, and this front end's 1", rules);
    } else {
        snprintf(why, sizeof why, " is the journal of another description");
    }
    refuse(asked->path, why);
}

/* ---- its lines */

/* A start without a clock behind it was not finished: it is not kept, nor what follows it. */
static void drop_unfinished(const char *text, struct reading *found)
{
    size_t start = 0;
    uint64_t number = 0, before = 0;
    for (size_t at = 0, end; at < found->kept; at = end, number++) {
        end = line_end(text, found->kept, at);
        if (start == 0 && begins(text + at, end - at, "start ")) {
            start = at;
            before = number;
        } else if (begins(text + at, end - at, "clock ")) {
            start = 0;
        }
    }
    if (start > 0) {
        found->kept = start;
        found->count = before;
    }
}

_Noreturn void refuse_line(const char *path, const char *line, size_t size, uint64_t number, size_t at)
{
    char shown[SHOWN + 1] = "", why[256];
    for (size_t octet = 0; octet < size && octet < SHOWN; octet++) {
        shown[octet] = line[octet];
        if (line[octet] < ' ' || line[octet] > '~') {
            shown[octet] = '?';
        }
    }
    snprintf(why, sizeof why, ": the record %" PRIu64 ", at octet %zu, is whole, and no sign knows its line: %s%s",
             number, at, shown, size > SHOWN ? ".." : "");
    refuse(path, why);
}

static void look_at_lines(const char *path, const char *text, size_t kept, const struct state *state)
{
    struct line line;
    uint64_t number = state->number;
    for (size_t at = state->behind, end; at < kept; at = end) {
        end = line_end(text, kept, at);
        size_t size = record_line(text, at, end);
        number++;
        if (line_read(text + at, size, &line) == LINE_UNKNOWN) {
            refuse_line(path, text + at, size, number, at);
        }
    }
}

/* Whether the first record is whole, and of form 2. */
static int has_first(const char *text, size_t size)
{
    struct record found;
    size_t end = line_end(text, size, 0);
    return end > 0 && begins(text, size, "journal 2 ") && record_spelled(text, 0, end - 1, &found) && found.number == 1;
}

struct reading journal_read(const struct journal_asked *asked, const char *text, size_t size, struct state *state)
{
    *state = (struct state){.number = 1, .behind = line_end(text, size, 0)};
    if (has_first(text, size)) {
        compare(asked, text, record_line(text, 0, line_end(text, size, 0)));
        *state = state_read(asked->path, text, size);
    }
    struct reading found = whole(asked, text, size);
    if (found.kept > 0) {
        compare(asked, text, record_line(text, 0, line_end(text, size, 0)));
        look_at_lines(asked->path, text, found.kept, state);
        drop_unfinished(text, &found);
    }
    return found;
}

/* ---- what the sign was handed */

/* Hands a line over, and moves the clock. A sign that is without power in its state lost it at the clock behind that. */
static void replay(struct past *past, const struct line *line, struct handing handing)
{
    if (line->kind == LINE_START) {
        past->last = line->moment;
        return;
    }
    if (line->kind == LINE_CLOCK) {
        past->last.wall = line->moment.wall;
        past->last.up = line->moment.up;
        if (past->power.is_off && !past->has_last) {
            past->power.lost = past->last;
        }
        past->has_last = 1;
        return;
    }
    if (line->kind == LINE_TICKS) {
        past->last.wall += (int64_t)line->seconds;
        past->last.up += (int64_t)line->seconds;
    } else if (line->kind == LINE_POWER_LOST && !past->power.is_off) {
        past->power = (struct power){1, past->last};
    } else if (line->kind == LINE_POWER_BACK) {
        past->power.is_off = 0;
    }
    handing.hand(handing.sign, line);
}

struct past journal_replayed(const char *text, size_t kept, const struct state *state, struct handing handing)
{
    struct past past = {.last = {.boot = "-"}, .power = {.is_off = state_is_dark(state)}};
    struct line line;
    for (size_t at = state->behind, end; at < kept; at = end) {
        end = line_end(text, kept, at);
        line_read(text + at, record_line(text, at, end), &line);
        replay(&past, &line, handing);
    }
    return past;
}
