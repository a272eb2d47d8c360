/* What stands behind the whole records of a journal: nothing, what a loss of power leaves, or damage. */
#ifndef TAILS_H
#define TAILS_H

#include <stddef.h>
#include <stdint.h>

enum tail { TAIL_NONE, TAIL_TORN, TAIL_DAMAGED };

/*
 * Of form 2, behind whole records that end at `at`; the record `missing` is not whole. It is damaged where a record
 * behind it says that it was on the disk; where it has its newline, or another octet in the newline's place, and no
 * sector of it is zeros; and where more stands there than one write. Else a loss of power cut the last write.
 */
enum tail tail_of(const char *text, size_t size, size_t at, uint64_t missing);

/* Of form 1, where a sum tells nothing of what stands behind a hole: what has the shape of a record counts as one. */
enum tail older_tail(const char *text, size_t size, size_t at);

/* Whether a file is what a front end leaves that was killed at the first record, which would have these octets. */
int is_begun(const char *text, size_t size, const char *record, size_t made);

#endif
