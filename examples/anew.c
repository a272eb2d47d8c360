#define _GNU_SOURCE
#include "anew.h"

#include <errno.h>
#include <fcntl.h>
#include <limits.h>
#include <stdio.h>
#include <string.h>
#include <sys/file.h>
#include <sys/stat.h>
#include <unistd.h>

#include "files.h"
#include "records.h"

enum { ROOM = 1 << 17, LINE_MOST = 1 << 16 };

static char octets[ROOM]; /* one file at a time is written */

/* The name of the file beside a journal: whether it has one. */
static int name_beside(const struct place *place, char name[PATH_MAX])
{
    int size = snprintf(name, PATH_MAX, "%s" NAME_BESIDE, place->real);
    errno = size < PATH_MAX ? 0 : ENAMETOOLONG;
    return size < PATH_MAX;
}

void anew_begin(struct anew *anew, const struct place *place)
{
    char name[PATH_MAX];
    *anew = (struct anew){.place = place, .file = -1};
    if (name_beside(place, name)) {
        (void)unlink(name);
        anew->file = open(name, O_RDWR | O_CREAT | O_EXCL | O_APPEND | O_CLOEXEC, 0600);
    }
    if (anew->file < 0 || flock(anew->file, LOCK_EX | LOCK_NB) != 0) {
        anew->error = errno;
    }
}

/* Writes what waits. */
static void flush(struct anew *anew)
{
    if (anew->error == 0) {
        anew->error = all_written(anew->file, octets, anew->waits);
    }
    anew->size += (off_t)anew->waits;
    anew->waits = 0;
}

void anew_line(struct anew *anew, const char *line, size_t size)
{
    if (size > LINE_MOST) {
        anew->error = anew->error == 0 ? EFBIG : anew->error;
        return;
    }
    if (anew->waits + size + RECORD_ROOM > ROOM) {
        flush(anew);
    }
    anew->count++;
    anew->waits += record_made(octets + anew->waits, line, size, anew->count, anew->count);
}

int anew_written(struct anew *anew)
{
    flush(anew);
    if (anew->error == 0 && fsync(anew->file) != 0) {
        anew->error = errno;
    }
    return anew->error;
}

int anew_named(const struct anew *anew)
{
    char name[PATH_MAX];
    int folder = folder_of(anew->place);
    if (folder < 0) {
        return errno;
    }
    int error = name_beside(anew->place, name) && rename(name, anew->place->real) == 0 ? 0 : errno;
    if (error == 0 && fsync(folder) != 0) {
        lose(anew->place->path, strerror(errno));
    }
    close(folder);
    return error;
}

void anew_drop(const struct anew *anew)
{
    char name[PATH_MAX];
    if (anew->file >= 0 && name_beside(anew->place, name)) {
        (void)unlink(name);
    }
    if (anew->file >= 0) {
        close(anew->file);
    }
}
