#define _GNU_SOURCE
#include "mending.h"

#include <errno.h>
#include <fcntl.h>
#include <limits.h>
#include <stdio.h>
#include <string.h>
#include <sys/mman.h>
#include <sys/stat.h>
#include <unistd.h>

#include "anew.h"
#include "files.h"
#include "records.h"
#include "say.h"

enum { NAMES_MOST = 10000, MUCH = 1 << 20, MINUTE = 60 };

/* The file, where there was none or it could only be read. */
static int reopened(struct journal *journal)
{
    int refused = 0;
    if (journal->file < 0) {
        journal->file = file_opened(&journal->place, &refused);
        journal->mending.is_readable = refused != 0;
        return refused;
    }
    if (!journal->mending.is_readable) {
        return 0;
    }
    int again = file_again(journal->file, &journal->place);
    if (again < 0) {
        return errno;
    }
    journal->file = again;
    journal->mending.is_readable = 0;
    return 0;
}

/* Puts aside what is not kept, and cuts it away. */
static int cut(struct journal *journal, const char *text)
{
    struct mending *mending = &journal->mending;
    size_t size = (size_t)mending->found - mending->kept;
    int error = mending->is_aside || size == 0 ? 0 : put_aside(&journal->place, "cut", text + mending->kept, size);
    if (error != 0 || size == 0) {
        return error;
    }
    mending->is_aside = 1;
    error = file_cut(journal->file, journal->asked.path, (off_t)mending->kept);
    mending->found = error == 0 ? (off_t)mending->kept : mending->found;
    return error;
}

/* ---- a journal of form 1 is written anew */

/* Writes a record of the new file for each of the old one; the first one by this line. */
static void write_anew(struct anew *anew, const char *text, size_t kept, const char *head)
{
    anew_line(anew, head, strlen(head));
    for (size_t at = line_end(text, kept, 0), end; at < kept && anew->error == 0; at = end) {
        end = line_end(text, kept, at);
        anew_line(anew, text + at, record_line(text, at, end));
    }
}

/* Gives the old file its second name, FILE.form1 or the first such name that is no other file's. */
static int kept_as_older(const char *path, char name[PATH_MAX])
{
    struct stat old, found;
    if (stat(path, &old) != 0) {
        return errno;
    }
    for (unsigned number = 1; number < NAMES_MOST; number++) {
        char more[16] = "";
        if (number > 1) {
            snprintf(more, sizeof more, "-%u", number);
        }
        if (snprintf(name, PATH_MAX, "%s.form1%s", path, more) >= PATH_MAX) {
            return ENAMETOOLONG;
        }
        if (link(path, name) == 0) {
            return 0;
        }
        if (errno != EEXIST) {
            return errno;
        }
        if (stat(name, &found) == 0 && found.st_dev == old.st_dev && found.st_ino == old.st_ino) {
            return 0;
        }
    }
    return EEXIST;
}

/* Puts the new file in the place of the old one, whose octets keep another name. */
static int exchanged(struct anew *anew, char name[PATH_MAX])
{
    int error = anew_written(anew);
    if (error == 0) {
        error = kept_as_older(anew->place->real, name);
    }
    if (error == 0) {
        error = folder_synced(anew->place);
    }
    return error == 0 ? anew_named(anew) : error;
}

/* Writes the journal beside, syncs it, and renames it over the old one: at each moment one of both is there. */
static int rewritten(struct journal *journal, const char *text)
{
    char name[PATH_MAX], head[256];
    struct anew anew;
    snprintf(head, sizeof head, "journal 2 sign rules 1 description %s", journal->asked.digest);
    anew_begin(&anew, &journal->place);
    (void)fchmod(journal->file, 0600);
    write_anew(&anew, text, journal->mending.kept, head);
    int error = exchanged(&anew, name);
    if (error != 0) {
        anew_drop(&anew);
        return error;
    }
    say("%s: it was of form 1 and is written anew; the old one is kept as %s\n", journal->asked.path, name);
    close(journal->file);
    journal->file = anew.file;
    journal->mending = (struct mending){.found = anew.size, .kept = (size_t)anew.size};
    return 0;
}

/* ---- */

/* Writes what has to be written beside the file, and cuts it. Much of it is not tried again at each datagram. */
static int written_beside(struct journal *journal)
{
    struct mending *mending = &journal->mending;
    size_t size = (size_t)mending->found, much = mending->is_older ? size : size - mending->kept;
    if (size == 0) {
        return 0;
    }
    if (running() < mending->again) {
        return mending->error;
    }
    char *text = mmap(NULL, size, PROT_READ, MAP_PRIVATE, journal->file, 0);
    if (text == MAP_FAILED) {
        return errno;
    }
    int error = mending->is_older ? rewritten(journal, text) : cut(journal, text);
    munmap(text, size);
    if (error != 0 && much > MUCH) {
        mending->error = error;
        mending->again = running() + MINUTE;
    }
    return error;
}

int journal_mended(struct journal *journal)
{
    int error = reopened(journal);
    if (error != 0) {
        return error;
    }
    if (!file_stands(journal->file, &journal->place, journal->mending.found)) {
        lose(journal->asked.path, "another hand moved or changed it");
    }
    error = written_beside(journal);
    if (error != 0) {
        return error;
    }
    (void)fchmod(journal->file, 0600);
    if (fsync(journal->file) != 0) {
        lose(journal->asked.path, strerror(errno));
    }
    journal->size = journal->mending.found;
    journal->synced = journal->count;
    return folder_synced(&journal->place);
}
