/* The files of a journal: one front end a file, mode 0600, and names that outlive a crash. What fails is in errno. */
#ifndef FILES_H
#define FILES_H

#include <limits.h>
#include <stddef.h>
#include <sys/types.h>

/* Where a journal is: the path as it was given, which is said of it; and where that is a symbolic link, the file that it
 * led to as the journal was opened: all that is written is that file, or stands beside it. */
struct place {
    const char *path;
    char real[PATH_MAX];
};

/* The end of the name of a file that is written beside a journal and takes its place; no journal's name has it. */
#define NAME_BESIDE ".new"

/* Ends the process: what it was given is not in order; or what is on the disk is not known. */
_Noreturn void refuse(const char *path, const char *why);
_Noreturn void lose(const char *path, const char *why);

/* Whether two names are of one file, which may not be there yet. */
int file_is_same(const char *one, const char *other);

/* Whether an error is of a disk that is full or can only be read. */
int is_refusal(int error);

/*
 * The file of this path, made where there is none, and locked; where the disk can only be read, the file that is there,
 * for reading. -1 where there is none; *refused is the disk's error, or 0. What is no file for a journal is refused.
 */
int file_opened(struct place *place, int *refused);

/* The same file again, for writing too, in the place of one that is for reading alone: -1 where the disk refuses. */
int file_again(int file, const struct place *place);

/* Whether the name stands for the open file, which has so many octets, and so a link that led to it. */
int file_stands(int file, const struct place *place, off_t size);

/* Shortens the file, on the disk too: 0, or the disk's error. */
int file_cut(int file, const char *path, off_t size);

/* The file's folder, open to be synced: -1 where it cannot be. */
int folder_of(const struct place *place);

/* The names in the file's folder are on the disk: 0, or the disk's error where it was not asked to write them. */
int folder_synced(const struct place *place);

/* Writes all octets: 0, or the disk's error. */
int all_written(int file, const char *octets, size_t size);

/*
 * Octets of a journal are on the disk in a file of their own beside it, whose name is that of the journal with `word`
 * and the time, and is told: 0, or the disk's error.
 */
int put_aside(const struct place *place, const char *word, const char *octets, size_t size);

#endif
