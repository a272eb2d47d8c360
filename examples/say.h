/* What is said on standard error by who serves: its reader, as of a pipe, may stand still, and is not waited for. */
#ifndef SAY_H
#define SAY_H

/* A line in words, with its newline. One that is not taken at once is left out; how many were is said before the next
 * one that is taken. */
__attribute__((format(printf, 1, 2))) void say(const char *format, ...);

/* Why the process ends: its reader is waited for, but no longer than a second. */
__attribute__((format(printf, 1, 2))) void say_last(const char *format, ...);

#endif
