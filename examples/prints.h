/* What is printed by who serves, for programs too: its reader, as of a pipe, may stand still, and is not waited for. */
#ifndef PRINTS_H
#define PRINTS_H

enum { PRINTS_MOST = 1 << 20 }; /* octets that wait */

/* A line, with its newline, behind those that wait. Where more than PRINTS_MOST octets would wait it is left out, and a
 * line in its place says how many were. */
__attribute__((format(printf, 1, 2))) void print(const char *format, ...);

/* Writes what waits, as far as it is taken at once. */
void prints_turn(void);

/* Whether something waits for its reader. */
int prints_wait(void);

/* The last lines: their reader is waited for, but no longer than a second. */
void prints_end(void);

#endif
