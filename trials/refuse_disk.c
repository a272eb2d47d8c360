/* A preloaded disk that refuses: of the calls named $DISK_CALL (open, write, fdatasync, fsync, ftruncate, link, rename) on the
   file $DISK_FILE, the one of that name with .new after it, and the folder $DISK_FOLDER, the $DISK_AT-th and the next
   $DISK_MORE after it answer the error $DISK_ERROR; a write of $DISK_SHORT octets is done before the refused one, where that
   is set. $DISK_CUT refuses each ftruncate of the file from then on. With $DISK_KILL the process is killed in place of the
   refusal. All else is the C library's. See lasting.py. */
#define _GNU_SOURCE
#include <dlfcn.h>
#include <errno.h>
#include <fcntl.h>
#include <limits.h>
#include <signal.h>
#include <stdarg.h>
#include <stdio.h>
#include <stdlib.h>
#include <string.h>
#include <sys/types.h>
#include <unistd.h>

static long number(const char *name) {
    const char *word = getenv(name);
    return word ? atol(word) : 0;
}

static int is_named(const char *path) {
    const char *wanted = getenv("DISK_FILE"), *folder = getenv("DISK_FOLDER");
    size_t size = wanted ? strlen(wanted) : 0;
    if (folder && path && strcmp(path, folder) == 0)
        return 1;
    return size && path && strncmp(path, wanted, size) == 0 && (path[size] == 0 || strcmp(path + size, ".new") == 0);
}

static int is_file(int file) {
    char link[64], path[PATH_MAX + 1];
    snprintf(link, sizeof link, "/proc/self/fd/%d", file);
    ssize_t size = readlink(link, path, PATH_MAX);
    path[size < 0 ? 0 : size] = 0;
    return is_named(path);
}

static int has_refused;

/* whether this call, on the file, is one that is refused */
static int is_refused(const char *call) {
    static long calls;
    const char *wanted = getenv("DISK_CALL");
    int is_cut = has_refused && number("DISK_CUT") && strcmp(call, "ftruncate") == 0;
    if (!is_cut) {
        if (!wanted || strcmp(wanted, call) != 0)
            return 0;
        calls++;
        if (calls < number("DISK_AT") || calls > number("DISK_AT") + number("DISK_MORE"))
            return 0;
    }
    if (number("DISK_KILL"))
        kill(getpid(), SIGKILL);
    has_refused = 1;
    errno = (int)number("DISK_ERROR");
    return 1;
}

#define NEXT(name) ((__typeof__(&name))dlsym(RTLD_NEXT, #name))

ssize_t write(int file, const void *octets, size_t size) {
    if (is_file(file)) {
        size_t some = (size_t)number("DISK_SHORT");
        static int is_short;
        if (is_short || is_refused("write")) {
            if (some && some < size && !is_short) {
                is_short = 1;
                return NEXT(write)(file, octets, some);
            }
            is_short = 0;
            errno = (int)number("DISK_ERROR");
            return -1;
        }
    }
    return NEXT(write)(file, octets, size);
}

int fdatasync(int file) { return is_file(file) && is_refused("fdatasync") ? -1 : NEXT(fdatasync)(file); }
int fsync(int file) { return is_file(file) && is_refused("fsync") ? -1 : NEXT(fsync)(file); }
int ftruncate(int file, off_t size) { return is_file(file) && is_refused("ftruncate") ? -1 : NEXT(ftruncate)(file, size); }
int ftruncate64(int file, off_t size) { return is_file(file) && is_refused("ftruncate") ? -1 : NEXT(ftruncate64)(file, size); }
int link(const char *old, const char *new) { return is_named(old) && is_refused("link") ? -1 : NEXT(link)(old, new); }
int rename(const char *old, const char *new) { return is_named(old) && is_refused("rename") ? -1 : NEXT(rename)(old, new); }

static int opened(const char *path, int flags, mode_t mode, int (*next)(const char *, int, ...)) {
    return is_named(path) && is_refused("open") ? -1 : next(path, flags, mode);
}

#define OPEN(name)                                                                                                              \
    int name(const char *path, int flags, ...) {                                                                                \
        va_list rest;                                                                                                           \
        va_start(rest, flags);                                                                                                  \
        mode_t mode = flags & (O_CREAT | O_TMPFILE) ? va_arg(rest, mode_t) : 0;                                                 \
        va_end(rest);                                                                                                           \
        return opened(path, flags, mode, NEXT(name));                                                                           \
    }
OPEN(open)
OPEN(open64)
