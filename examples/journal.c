#define _GNU_SOURCE
#include "journal.h"

#include <errno.h>
#include <inttypes.h>
#include <stdio.h>
#include <stdlib.h>
#include <string.h>
#include <sys/stat.h>
#include <unistd.h>

#include "files.h"
#include "mending.h"
#include "records.h"
#include "say.h"

enum { RECORDS_MOST = 1 << 18, MINUTE = 60, LINES_MOST = 1 << 14 };

/* ---- what the disk takes */

/* Says why the disk refuses, once, and when it takes records again. One that is needed is so at a start. */
static void tell(struct journal *journal, int refused)
{
    const char *path = journal->asked.path;
    if (refused != 0 && refused != journal->refused) {
        say("%s: %s: what is not recorded is not answered\n", path, strerror(refused));
    } else if (refused == 0 && journal->refused != 0) {
        say("%s: it is written again\n", path);
    }
    journal->refused = refused;
    if (refused != 0 && journal->asked.is_needed && !journal->is_started) {
        say_last("%s: it is needed\n", path);
        exit(1);
    }
}

/* Says what is not recorded while the disk refuses. */
static void tell_seconds(const struct journal *journal)
{
    say("%s: %s: %" PRIu64 " seconds are not recorded, and will be lost at the next start\n",
            journal->asked.path, strerror(journal->refused), waits_seconds(&journal->waits));
}

/* A write was refused: the file is as it was, or the process ends. */
static void take_back(struct journal *journal, int refused)
{
    struct stat found;
    int is_changed = fstat(journal->file, &found) != 0 || found.st_size != journal->size;
    int error = is_changed ? file_cut(journal->file, journal->asked.path, journal->size) : 0;
    if (error != 0) {
        lose(journal->asked.path, strerror(error));
    }
    tell(journal, refused);
}

/* Writes each line as a record: 1, or 0 where the disk took none of them and the file is as it was. */
static int append(struct journal *journal, const char *lines, size_t size, int is_synced)
{
    static char records[RECORDS_MOST];
    const char *path = journal->asked.path;
    uint64_t number = journal->count;
    size_t made = 0;
    for (const char *at = lines, *end; at < lines + size; at = end + 1) {
        end = memchr(at, '\n', (size_t)(lines + size - at));
        made += record_made(records + made, at, (size_t)(end - at), ++number, journal->synced + 1);
    }
    int error = all_written(journal->file, records, made);
    if (error != 0) {
        take_back(journal, error);
        return 0;
    }
    if (is_synced && fdatasync(journal->file) != 0) {
        lose(path, strerror(errno));
    }
    journal->size += (off_t)made;
    journal->count = number;
    journal->synced = is_synced ? number : journal->synced;
    if (!file_stands(journal->file, &journal->place, journal->size)) {
        lose(path, "another hand moved or changed it");
    }
    tell(journal, 0);
    return 1;
}

int journal_begun(struct journal *journal)
{
    if (!journal->is_started) {
        int error = journal_mended(journal);
        if (error != 0) {
            tell(journal, error);
            return 0;
        }
        journal->is_started = append(journal, journal->start, strlen(journal->start), 1);
    }
    return journal->is_started;
}

/* Records what waits, a part after the other; where the disk refuses, the rest waits on. */
static int pay(struct journal *journal)
{
    static char lines[LINES_MOST];
    while (!waits_are_over(&journal->waits)) {
        struct waits left = journal->waits;
        size_t size = waits_lines(&left, lines, sizeof lines);
        uint64_t seconds = waits_seconds(&journal->waits) - waits_seconds(&left);
        if (!append(journal, lines, size, 0)) {
            return 0;
        }
        journal->last.wall += (int64_t)seconds;
        journal->last.up += (int64_t)seconds;
        journal->waits = left;
    }
    return 1;
}

/* ---- what is recorded */

int journal_paid(struct journal *journal)
{
    return journal_begun(journal) && pay(journal) ? 0 : journal->refused;
}

int journal_keep(struct journal *journal, const char *lines, size_t size)
{
    return journal_begun(journal) && pay(journal) && append(journal, lines, size, 1);
}

static int keep_clock(struct journal *journal, double up, int is_synced)
{
    char line[64];
    struct moment now = moment_at(up);
    int size = snprintf(line, sizeof line, "clock %" PRId64 " %" PRId64 "\n", now.wall, now.up);
    if (!journal_begun(journal) || !pay(journal) || !append(journal, line, (size_t)size, is_synced)) {
        return 0;
    }
    journal->last.wall = now.wall;
    journal->last.up = now.up;
    return 1;
}

void journal_tick(struct journal *journal, uint64_t seconds, double up)
{
    waits_passed(&journal->waits, seconds);
    journal->since_clock += seconds;
    journal->is_heard = 0;
    if (journal->since_clock >= MINUTE) {
        journal->since_clock = 0;
        if (!keep_clock(journal, up, 0)) {
            tell_seconds(journal);
        }
    }
}

void journal_heard(struct journal *journal, int by_kept, uint64_t limit)
{
    if (!journal->is_heard && !by_kept) {
        waits_heard(&journal->waits, limit);
        (void)(journal_begun(journal) && pay(journal));
    }
    journal->is_heard = 1;
}

int journal_end(struct journal *journal, double up)
{
    int is_kept = keep_clock(journal, up, 1);
    if (!is_kept) {
        tell_seconds(journal);
    }
    if (journal->file >= 0) {
        close(journal->file);
    }
    return is_kept;
}
