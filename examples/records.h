/* The records of a journal of form 2 as octets (docs/JOURNAL.md): LINE #NUMBER SINCE SUM, each one whole by itself. */
#ifndef RECORDS_H
#define RECORDS_H

#include <stddef.h>
#include <stdint.h>

/* The most octets of a record beside its line. */
enum { RECORD_ROOM = 64 };

struct record {
    size_t begin, end; /* its newline stands at `end` - 1 */
    uint64_t number;   /* of the record in its file, from 1 */
    uint64_t since;    /* the number of the first record that may not have been on the disk when it was written */
};

/* Writes a line as a record: its size. */
size_t record_made(char *to, const char *line, size_t size, uint64_t number, uint64_t since);

/* Whether the octets from `begin` up to `end` are a whole record without its newline, which *found then is. */
int record_spelled(const char *text, size_t begin, size_t end, struct record *found);

/* The octets of the line of a whole record, of form 1 or 2. */
size_t record_line(const char *text, size_t begin, size_t end);

/* The end of the line that begins at `at`, behind its newline; `at` where it has none. */
size_t line_end(const char *text, size_t size, size_t at);

/* The end of the records from the first on that are whole and have the numbers from 1 on; *count of them. */
size_t records_whole(const char *text, size_t size, uint64_t *count);

/*
 * The first whole record that stands anywhere at or behind `at`, at the beginning of a line or within one; `at` is not
 * within a record. 0 where there is none.
 */
int record_behind(const char *text, size_t size, size_t at, struct record *found);

#endif
