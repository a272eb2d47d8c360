#include "tails.h"

#include <string.h>

#include "older.h"
#include "records.h"

enum { SECTOR = 512, WRITE_MOST = 1 << 20 };

static int are_zeros(const char *text, size_t begin, size_t end)
{
    while (begin < end && text[begin] == '\0') {
        begin++;
    }
    return begin == end;
}

/* Whether a sector from `begin` to `end` is zeros: a whole one, or its part from `begin` on or up to the file's end. */
static int has_hole(const char *text, size_t size, size_t begin, size_t end)
{
    for (size_t sector = begin - begin % SECTOR; sector < end; sector += SECTOR) {
        size_t from = sector > begin ? sector : begin, to = sector + SECTOR < size ? sector + SECTOR : size;
        if (to <= end && are_zeros(text, from, to)) {
            return 1;
        }
    }
    return 0;
}

/* Whether the record is whole but for its newline, in whose place another octet stands: a zero of a hole is none. */
static int has_lost_newline(const char *text, size_t size, size_t at, uint64_t missing)
{
    struct record found;
    for (size_t end = at + 1; end < size && text[end - 1] != '\n'; end++) {
        if (text[end] != '\n' && record_spelled(text, at, end, &found) && found.number == missing) {
            return text[end] != '\0' || !has_hole(text, size, at, size);
        }
    }
    return 0;
}

/* What is torn at most, where no whole record follows: a line without an end, or one with a hole. */
static enum tail unfinished(const char *text, size_t size, size_t at)
{
    size_t end = line_end(text, size, at);
    int is_open = end == at, is_holed = has_hole(text, size, at, is_open ? size : end);
    return size - at <= WRITE_MOST && (is_open || is_holed) ? TAIL_TORN : TAIL_DAMAGED;
}

enum tail tail_of(const char *text, size_t size, size_t at, uint64_t missing)
{
    struct record found = {.end = at};
    int is_followed = 0;
    if (at == size) {
        return TAIL_NONE;
    }
    if (has_lost_newline(text, size, at, missing)) {
        return TAIL_DAMAGED;
    }
    while (record_behind(text, size, found.end, &found)) {
        if (found.since > missing) {
            return TAIL_DAMAGED;
        }
        is_followed = 1;
    }
    if (is_followed) {
        return has_hole(text, size, at, line_end(text, size, at)) ? TAIL_TORN : TAIL_DAMAGED;
    }
    return unfinished(text, size, at);
}

enum tail older_tail(const char *text, size_t size, size_t at)
{
    if (at == size) {
        return TAIL_NONE;
    }
    int is_holed = has_hole(text, size, at, size);
    for (size_t end = at; (end = older_newline(text, size, at, end)) < size;) {
        if (text[end] != '\0' || !is_holed) {
            return TAIL_DAMAGED;
        }
    }
    return unfinished(text, size, at);
}

int is_begun(const char *text, size_t size, const char *record, size_t made)
{
    size_t octets = size;
    while (octets > 0 && text[octets - 1] == '\0') {
        octets--;
    }
    return size < SECTOR && octets < made && memcmp(text, record, octets) == 0;
}
