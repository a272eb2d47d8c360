#define _GNU_SOURCE
#include "archive.h"

#include <dirent.h>
#include <errno.h>
#include <fcntl.h>
#include <inttypes.h>
#include <limits.h>
#include <stdio.h>
#include <stdlib.h>
#include <string.h>
#include <sys/stat.h>
#include <time.h>
#include <unistd.h>

#include "files.h"

enum { CHUNK = 1 << 16, MOST_DIGITS = 18 };

int archive_is(const char *folder)
{
    struct stat found;
    return stat(folder, &found) == 0 && S_ISDIR(found.st_mode);
}

/* ---- names */

static const char *base_of(const char *path)
{
    const char *slash = strrchr(path, '/');
    return slash != NULL ? slash + 1 : path;
}

/* The number of a name NAME.DATE-NUMBER; 0 where it is none. */
static uint64_t number_of(const char *name, const char *base)
{
    size_t size = strlen(base);
    const char *date = name + size + 1, *number = strrchr(name, '-');
    if (strncmp(name, base, size) != 0 || name[size] != '.' || number == NULL || number <= date) {
        return 0;
    }
    size_t digits = strspn(number + 1, "0123456789");
    if (strspn(date, "0123456789T-") != strlen(date) || digits == 0 || digits > MOST_DIGITS || number[digits + 1]) {
        return 0;
    }
    return strtoull(number + 1, NULL, 10);
}

/* Whether the folder has this file already; *greatest is the number of the last one there. */
static int is_there(DIR *folder, const char *path, uint64_t *greatest, int *error)
{
    struct stat file, found;
    const struct dirent *entry;
    int is_known = 0;
    *error = stat(path, &file) != 0 ? errno : 0;
    while (*error == 0 && (entry = readdir(folder)) != NULL) {
        uint64_t number = number_of(entry->d_name, base_of(path));
        *greatest = number > *greatest ? number : *greatest;
        is_known |= number > 0 && entry->d_ino == file.st_ino && fstatat(dirfd(folder), entry->d_name, &found, 0) == 0
                    && found.st_ino == file.st_ino && found.st_dev == file.st_dev;
    }
    return is_known;
}

/* ---- files */

/* Copies all octets of a file to another one, on the disk. */
static int copied(int from, int to)
{
    static char octets[CHUNK];
    ssize_t count;
    while ((count = read(from, octets, sizeof octets)) > 0) {
        int error = all_written(to, octets, (size_t)count);
        if (error != 0) {
            return error;
        }
    }
    return count < 0 || fsync(to) != 0 ? errno : 0;
}

/* A copy of the file, under a name that it has when it is whole; what is not leaves no room taken. */
static int copy(int folder, const char *path, const char *name)
{
    char made[NAME_MAX + 8];
    snprintf(made, sizeof made, "%s.new", name);
    int from = open(path, O_RDONLY | O_CLOEXEC), error = errno;
    if (from < 0) {
        return error;
    }
    int to = openat(folder, made, O_WRONLY | O_CREAT | O_EXCL | O_CLOEXEC, 0600);
    error = to < 0 ? errno : copied(from, to);
    if (error == 0 && renameat(folder, made, folder, name) != 0) {
        error = errno;
    }
    close(from);
    if (to >= 0) {
        close(to);
    }
    if (to >= 0 && error != 0) {
        (void)unlinkat(folder, made, 0);
    }
    return error;
}

/* Whether a file has no second name there, since it is on another disk, or on one without such names. */
static int is_elsewhere(int error)
{
    return error == EXDEV || error == EPERM || error == EOPNOTSUPP || error == EMLINK;
}

static int named(int folder, const char *full, const char *path, const char *name)
{
    if (link(path, full) == 0) {
        return 0;
    }
    return is_elsewhere(errno) ? copy(folder, path, name) : errno;
}

/* The file gets its name in the open folder. */
static int kept(DIR *folder, const char *where, const char *path)
{
    char date[32], name[NAME_MAX + 1], full[PATH_MAX];
    uint64_t number = 0;
    int error = 0;
    if (!is_there(folder, path, &number, &error) && error == 0) {
        time_t now = time(NULL);
        struct tm parts;
        strftime(date, sizeof date, "%Y-%m-%dT%H%M%S", localtime_r(&now, &parts));
        int size = snprintf(name, sizeof name, "%s.%s-%" PRIu64, base_of(path), date, number + 1);
        int length = snprintf(full, sizeof full, "%s/%s", where, name);
        error = size > NAME_MAX || length >= PATH_MAX ? ENAMETOOLONG : named(dirfd(folder), full, path, name);
    }
    return error == 0 && fsync(dirfd(folder)) != 0 ? errno : error;
}

int archive_keep(const char *where, const char *path)
{
    DIR *folder = opendir(where);
    if (folder == NULL) {
        return errno;
    }
    int error = kept(folder, where, path);
    closedir(folder);
    return error;
}
