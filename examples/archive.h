/* A folder that keeps what is cut off a journal: at each shortening the file as it was. */
#ifndef ARCHIVE_H
#define ARCHIVE_H

/* Whether there is a folder of this name. */
int archive_is(const char *folder);

/*
 * The file is in the folder too, on the disk, under its name, the date and a number: 0, or the disk's error. One that
 * has a name there already, since an earlier shortening went no further, has no other.
 */
int archive_keep(const char *folder, const char *path);

#endif
