/* The records of a journal of form 1 as octets (docs/JOURNAL.md): LINE #SUM, each sum over all octets before it. */
#ifndef OLDER_H
#define OLDER_H

#include <stddef.h>
#include <stdint.h>

/* The octets of a record behind its line: a space, `#`, eight digits and a newline. */
enum { OLDER_TAIL = 11 };

/* Writes the first record of a file: its size. */
size_t older_first(char *to, const char *line);

/* Whether what stands before `end` is the end of a record without its newline: ` #` and eight digits. */
int older_shaped(const char *text, size_t begin, size_t end);

/* The place of the newline of the first that has the shape of a record at or behind `at`, and its newline, or whatever
 * octet stands there, behind `from`; `size` where there is none. */
size_t older_newline(const char *text, size_t size, size_t at, size_t from);

/* The end of the records from the first on that are whole; *count of them. */
size_t older_whole(const char *text, size_t size, uint64_t *count);

#endif
