#define _GNU_SOURCE
#include "files.h"

#include <errno.h>
#include <fcntl.h>
#include <stdio.h>
#include <stdlib.h>
#include <string.h>
#include <sys/file.h>
#include <sys/stat.h>
#include <time.h>
#include <unistd.h>

#include "say.h"

enum { OURS = O_APPEND | O_CLOEXEC | O_NOCTTY };

_Noreturn void refuse(const char *path, const char *why)
{
    say_last("%s%s\n", path, why);
    exit(2);
}

static _Noreturn void refuse_error(const char *path)
{
    say_last("%s: %s\n", path, strerror(errno));
    exit(2);
}

_Noreturn void lose(const char *path, const char *why)
{
    say_last("%s: %s: what is on the disk is not known\n", path, why);
    exit(1);
}

int is_refusal(int error) { return error == ENOSPC || error == EROFS || error == EDQUOT; }

/* The end of a name, and its folder: whether that is there. */
static const char *parts_of(const char *path, struct stat *folder, int *is_there)
{
    char name[PATH_MAX];
    const char *slash = strrchr(path, '/'), *end = slash != NULL ? slash + 1 : path;
    snprintf(name, sizeof name, "%.*s.", (int)(end - path), path);
    *is_there = stat(name, folder) == 0;
    return end;
}

int file_is_same(const char *one, const char *other)
{
    struct stat left, right;
    int is_left = stat(one, &left) == 0, is_right = stat(other, &right) == 0;
    if (!is_left && !is_right) {
        const char *name = parts_of(one, &left, &is_left), *named = parts_of(other, &right, &is_right);
        is_left = is_left && strcmp(name, named) == 0;
    }
    return is_left && is_right && left.st_dev == right.st_dev && left.st_ino == right.st_ino;
}

static int is_named(int file, const char *path, off_t *size)
{
    struct stat open, named;
    if (fstat(file, &open) != 0 || stat(path, &named) != 0) {
        return 0;
    }
    *size = open.st_size;
    return open.st_dev == named.st_dev && open.st_ino == named.st_ino;
}

int file_stands(int file, const struct place *place, off_t size)
{
    off_t found = 0;
    int is_linked = strcmp(place->path, place->real) != 0;
    return is_named(file, place->real, &found) && found == size && (!is_linked || is_named(file, place->path, &found));
}

/* Refuses a name that another journal's front end takes for a file of its own, and so replaces. */
static void look_at_name(const char *name, const char *path)
{
    size_t size = strlen(name), more = strlen(NAME_BESIDE);
    if (size >= more && strcmp(name + size - more, NAME_BESIDE) == 0) {
        refuse(path, " is no name of a journal: what ends in " NAME_BESIDE " is written beside one, and replaced");
    }
}

/* Follows the path where it is a link: whether the file that it leads to is there. */
static int followed(struct place *place)
{
    struct stat found;
    if (lstat(place->path, &found) != 0 || !S_ISLNK(found.st_mode)) {
        snprintf(place->real, sizeof place->real, "%s", place->path);
        return 1;
    }
    int is_there = realpath(place->path, place->real) != NULL;
    if (!is_there && errno != ENOENT) {
        refuse_error(place->path);
    }
    return is_there;
}

/* Takes the file for this front end alone. */
static void lock(int file, const char *path)
{
    struct stat found;
    if (fstat(file, &found) != 0) {
        refuse_error(path);
    }
    if (!S_ISREG(found.st_mode)) {
        refuse(path, " is no plain file");
    }
    if (flock(file, LOCK_EX | LOCK_NB) != 0) {
        if (errno == EWOULDBLOCK) {
            refuse(path, ": another front end holds this journal");
        }
        refuse_error(path);
    }
}

/* The file for writing, or where the disk refuses for reading. */
static int opened_once(const char *path, int *refused)
{
    int file = open(path, O_RDWR | O_CREAT | OURS, 0600);
    *refused = 0;
    if (file >= 0) {
        return file;
    }
    if (!is_refusal(errno)) {
        refuse_error(path);
    }
    *refused = errno;
    file = open(path, O_RDONLY | OURS);
    if (file < 0 && errno != ENOENT) {
        refuse_error(path);
    }
    return file;
}

int file_opened(struct place *place, int *refused)
{
    look_at_name(place->path, place->path);
    for (;;) {
        off_t size;
        int file = opened_once(place->path, refused);
        if (file < 0) {
            return -1;
        }
        lock(file, place->path);
        if (followed(place) && is_named(file, place->real, &size)) {
            look_at_name(place->real, place->path);
            return file;
        }
        close(file);
    }
}

int file_again(int file, const struct place *place)
{
    off_t size;
    int again = open(place->real, O_RDWR | OURS);
    if (again < 0) {
        return -1;
    }
    if (!is_named(file, place->real, &size) || !is_named(again, place->real, &size)) {
        lose(place->path, "another hand moved or changed it");
    }
    close(file);
    lock(again, place->path);
    return again;
}

int file_cut(int file, const char *path, off_t size)
{
    if (ftruncate(file, size) != 0) {
        return errno;
    }
    if (fsync(file) != 0) {
        lose(path, strerror(errno));
    }
    return 0;
}

int folder_of(const struct place *place)
{
    char *real = realpath(place->real, NULL);
    if (real == NULL) {
        return -1;
    }
    *strrchr(real, '/') = '\0';
    int folder = open(*real != '\0' ? real : "/", O_RDONLY | O_DIRECTORY | O_CLOEXEC), error = errno;
    free(real);
    errno = error;
    return folder;
}

int folder_synced(const struct place *place)
{
    int folder = folder_of(place);
    if (folder < 0) {
        return errno;
    }
    int error = fsync(folder) != 0 ? errno : 0;
    close(folder);
    if (error != 0 && error != EROFS) {
        lose(place->path, strerror(error));
    }
    return error;
}

int all_written(int file, const char *octets, size_t size)
{
    while (size > 0) {
        ssize_t count = write(file, octets, size);
        if (count < 0 && errno != EINTR) {
            return errno;
        }
        octets += count > 0 ? count : 0;
        size -= count > 0 ? (size_t)count : 0;
    }
    return 0;
}

/* A new file, under the first name with this time that no file has: *name is its own. */
static int made_beside(const char *path, const char *word, char name[PATH_MAX])
{
    char moment[32];
    time_t now = time(NULL);
    struct tm parts;
    strftime(moment, sizeof moment, "%Y-%m-%dT%H%M%S", localtime_r(&now, &parts));
    for (unsigned number = 1;; number++) {
        char more[16] = "";
        if (number > 1) {
            snprintf(more, sizeof more, "-%u", number);
        }
        int size = snprintf(name, PATH_MAX, "%s.%s-%s%s", path, word, moment, more);
        int file = size < PATH_MAX ? open(name, O_WRONLY | O_CREAT | O_EXCL | O_CLOEXEC, 0600) : -1;
        if (size >= PATH_MAX) {
            errno = ENAMETOOLONG;
        }
        if (file >= 0 || errno != EEXIST) {
            return file;
        }
    }
}

int put_aside(const struct place *place, const char *word, const char *octets, size_t size)
{
    char name[PATH_MAX];
    int file = made_beside(place->real, word, name);
    if (file < 0) {
        return errno;
    }
    int error = all_written(file, octets, size);
    if (error == 0 && fsync(file) != 0) {
        error = errno;
    }
    close(file);
    if (error == 0) {
        error = folder_synced(place);
    }
    if (error != 0) {
        (void)unlink(name);
        return error;
    }
    say("%s: %zu octets are cut away, and kept as %s\n", place->path, size, name);
    return 0;
}
