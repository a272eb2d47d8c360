/* The lines of a sign's journal (docs/JOURNAL.md). */
#ifndef LINES_H
#define LINES_H

#include <stddef.h>
#include <stdint.h>

#include "moments.h"

enum line_kind {
    LINE_UNKNOWN,
    LINE_START,
    LINE_CLOCK,
    LINE_DATAGRAM,
    LINE_TICKS,
    LINE_HEARD,
    LINE_POWER_LOST,
    LINE_POWER_BACK
};

struct line {
    enum line_kind kind;
    uint64_t seconds;     /* of ticks or of a loss */
    struct moment moment; /* of a start or, but for its boot, a clock */
    const char *digits;   /* of a datagram */
    size_t count;         /* of these */
};

/* What a line says. */
enum line_kind line_read(const char *text, size_t size, struct line *line);

/* A datagram's octets, of which there are `count` / 2: as many as there is room for. Their number. */
size_t line_octets(const struct line *line, uint8_t *octets, size_t room);

#endif
