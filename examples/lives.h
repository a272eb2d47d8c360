/* Lives of a journal, each in a process of its own, and its files: for tests. */
#ifndef LIVES_H
#define LIVES_H

#include <stddef.h>

#include "journal.h"

enum { LIVES_ROOM = 1 << 20, UNRECORDED = 7, KILLED = 9 };

/* The journal's name; its octets; its lines; what a life handed over, and what it said; what it did to the disk. */
extern char path[512], octets[LIVES_ROOM], lines[LIVES_ROOM], handed[LIVES_ROOM], said[LIVES_ROOM], done[LIVES_ROOM];
extern size_t size; /* of these octets */
extern int failed;
extern int killed_at; /* before which of the calls in `done`, from 1, a life is killed with that status; 0 for none */

/* The first line of a journal, and its first two records of the time. */
extern const char head[], older_head[];

/* The state that a life shortens a journal to, and what a manager set of objects then. */
extern const char state_text[];

void check(const char *what, int is_so);
int is_in(const char *what, const char *text);

/* Both texts, one after the other. */
const char *with(const char *first, const char *more);

/* ---- files */

size_t read_file(const char *name, char *to);
void write_file(const char *name, const char *from, size_t length);

/* The name of a file beside the journal. */
const char *beside(const char *end);

/* The octets of the files beside the journal with such a name, one after the other: how many files there are. */
size_t found_beside(const char *end, char *to);

/* No file of the journal is left. */
void clear(void);

/* The lines of the journal's records, which all have to be whole. */
void read_lines(void);

/* Writes a journal of these lines, each with a newline at its end, all of them synced. */
void make(const char *from);
void make_older(const char *from);

/* ---- lives */

/*
 * The exit status of a life; what was handed over, and what was said, stands in `handed` and `said`. A letter is a step:
 * a datagram is kept (k), a second passes (t) or a minute (m), a poll is heard (h), the disk is full (f), takes no octet
 * of any file (z), or lacks one for a file as long (l), or has room again (r), a file has no second name (e), the power
 * goes (o), the journal is shortened (s), it is polled for long (p), it ends at once (x). Where `f` comes first the disk
 * is full from the start on, and so with `F` for each file. `done` has the life's calls of fsync (s), fdatasync (d),
 * ftruncate (c), link (l) and rename (r) in their order.
 */
int lived(struct journal_asked asked, const char *steps);
int lives(const char *steps);

#endif
