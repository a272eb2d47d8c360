#include "lines.h"

#include <string.h>

enum { DIGITS = 10, CLOCK_DIGITS = 18, DATAGRAM_MOST = 1472, NO_DIGIT = 99 };

/* What is left of a line. */
struct rest {
    const char *at, *end;
};

/* Whether the rest begins with these octets, which are taken then. */
static int takes(struct rest *rest, const char *word)
{
    size_t size = strlen(word);
    if ((size_t)(rest->end - rest->at) < size || memcmp(rest->at, word, size) != 0) {
        return 0;
    }
    rest->at += size;
    return 1;
}

/* Whether the rest begins with a number of at most so many digits, which is taken then. */
static int takes_number(struct rest *rest, size_t most, uint64_t *number)
{
    const char *first = rest->at;
    *number = 0;
    while (rest->at < rest->end && *rest->at >= '0' && *rest->at <= '9') {
        *number = *number * 10 + (uint64_t)(*rest->at++ - '0');
        if ((size_t)(rest->at - first) > most) {
            return 0;
        }
    }
    return rest->at > first;
}

/* Whether the rest is a number below 2^32. */
static int is_seconds(struct rest *rest, struct line *line)
{
    return takes_number(rest, DIGITS, &line->seconds) && rest->at == rest->end && line->seconds <= UINT32_MAX;
}

/* Whether the rest is a wall clock and the seconds since a boot, or up to it. */
static int is_moment(struct rest *rest, struct line *line)
{
    uint64_t wall = 0, up = 0;
    if (!takes_number(rest, CLOCK_DIGITS, &wall) || !takes(rest, " ")) {
        return 0;
    }
    int is_before = takes(rest, "-");
    if (!takes_number(rest, CLOCK_DIGITS, &up)) {
        return 0;
    }
    line->moment.wall = (int64_t)wall;
    line->moment.up = is_before ? -(int64_t)up : (int64_t)up;
    return rest->at == rest->end;
}

/* Whether the rest begins with the id of a boot and a space, which are taken then. */
static int takes_boot(struct rest *rest, struct line *line)
{
    const char *space = memchr(rest->at, ' ', (size_t)(rest->end - rest->at));
    size_t size = space != NULL ? (size_t)(space - rest->at) : 0;
    if (size == 0 || size >= sizeof line->moment.boot) {
        return 0;
    }
    for (const char *at = rest->at; at < space; at++) {
        if (*at < '!' || *at > '~') {
            return 0;
        }
    }
    memcpy(line->moment.boot, rest->at, size);
    line->moment.boot[size] = '\0';
    rest->at = space + 1;
    return 1;
}

/* The value of a hexadecimal digit, or more than 15. */
static unsigned digit(char one)
{
    static const char digits[] = "0123456789abcdefABCDEF";
    const char *found = one != '\0' ? strchr(digits, one) : NULL;
    unsigned value = found != NULL ? (unsigned)(found - digits) : NO_DIGIT;
    return value > 15 && value < NO_DIGIT ? value - 6 : value;
}

/* Whether the rest is the octets of a datagram, or `-` for none. */
static int are_octets(struct rest *rest, struct line *line)
{
    line->digits = rest->at;
    line->count = (size_t)(rest->end - rest->at);
    if (line->count == 1 && *rest->at == '-') {
        line->count = 0;
        return 1;
    }
    for (; rest->at < rest->end; rest->at++) {
        if (digit(*rest->at) > 15) {
            return 0;
        }
    }
    return line->count > 0 && line->count % 2 == 0 && line->count <= 2 * (size_t)DATAGRAM_MOST;
}

size_t line_octets(const struct line *line, uint8_t *octets, size_t room)
{
    size_t at = 0;
    for (; at < line->count / 2 && at < room; at++) {
        octets[at] = (uint8_t)(digit(line->digits[2 * at]) << 4 | digit(line->digits[2 * at + 1]));
    }
    return at;
}

/* Whether the rest is this word. */
static int is_word(const struct rest *rest, const char *word)
{
    size_t size = (size_t)(rest->end - rest->at);
    return size == strlen(word) && memcmp(rest->at, word, size) == 0;
}

enum line_kind line_read(const char *text, size_t size, struct line *line)
{
    struct rest rest = {text, text + size};
    line->kind = LINE_UNKNOWN;
    line->seconds = 1;
    if (takes(&rest, "datagram ")) {
        line->kind = are_octets(&rest, line) ? LINE_DATAGRAM : LINE_UNKNOWN;
    } else if (takes(&rest, "ticks ")) {
        line->kind = is_seconds(&rest, line) ? LINE_TICKS : LINE_UNKNOWN;
    } else if (takes(&rest, "power-back ")) {
        line->kind = is_seconds(&rest, line) ? LINE_POWER_BACK : LINE_UNKNOWN;
    } else if (takes(&rest, "start ")) {
        line->kind = takes_boot(&rest, line) && is_moment(&rest, line) ? LINE_START : LINE_UNKNOWN;
    } else if (takes(&rest, "clock ")) {
        line->kind = is_moment(&rest, line) ? LINE_CLOCK : LINE_UNKNOWN;
    } else if (is_word(&rest, "tick")) {
        line->kind = LINE_TICKS;
    } else if (is_word(&rest, "heard")) {
        line->kind = LINE_HEARD;
    } else if (is_word(&rest, "power-lost")) {
        line->kind = LINE_POWER_LOST;
    }
    return line->kind;
}
