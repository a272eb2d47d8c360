/* A log: a line an event, with the time, the peer or `-`, and what happened. */
#ifndef LOG_H
#define LOG_H

#include <stddef.h>
#include <stdint.h>
#include <sys/socket.h>

struct log {
    const char *path; /* null where nothing is logged */
    int file, is_on_disk;
    uint64_t left_out; /* events since the last that was written */
    int is_torn;       /* whether the last line was written in part */
};

/* Opens a file, for its owner alone, which is written to at its end; `-` is standard output. Ends with a message where
 * it cannot be opened, or is a pipe that nobody reads. */
void log_open(struct log *log, const char *path);

/* An event in words, of a peer or of none, and octets of a datagram or none. A log that is not written, whose reader
 * takes nothing, or whose disk is nearly full, leaves events out, and says so once. */
void log_event(struct log *log, const struct sockaddr_storage *peer, const char *event, const uint8_t *octets,
               size_t size);

#endif
