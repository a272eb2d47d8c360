#define _GNU_SOURCE
#include "records.h"

#include <inttypes.h>
#include <stdio.h>
#include <string.h>

#include "digests.h"

enum { DIGITS = 8, MOST_DIGITS = 18, LEAST = 15 }; /* a record has at least `x #1 1 ` and eight digits */

size_t record_made(char *to, const char *line, size_t size, uint64_t number, uint64_t since)
{
    char tail[RECORD_ROOM];
    int written = snprintf(tail, sizeof tail, " #%" PRIu64 " %" PRIu64 " ", number, since);
    size_t summed = size + (size_t)written;
    memcpy(to, line, size);
    memcpy(to + size, tail, (size_t)written);
    snprintf(tail, sizeof tail, "%08x\n", (unsigned)crc32_after(0, to, summed));
    memcpy(to + summed, tail, DIGITS + 1);
    return summed + DIGITS + 1;
}

/* The number whose decimal digits end at *end and begin behind `begin`; *end is its first digit then. 0 for none. */
static uint64_t number_before(const char *text, size_t begin, size_t *end)
{
    size_t first = *end;
    uint64_t number = 0;
    while (first > begin && *end - first < MOST_DIGITS && text[first - 1] >= '0' && text[first - 1] <= '9') {
        first--;
    }
    if (first == *end || text[first] == '0') {
        return 0;
    }
    for (size_t at = first; at < *end; at++) {
        number = number * 10 + (uint64_t)(text[at] - '0');
    }
    *end = first;
    return number;
}

/* Whether eight small hexadecimal digits stand there, which *sum then is. */
static int sum_at(const char *text, size_t at, uint32_t *sum)
{
    *sum = 0;
    for (size_t end = at + DIGITS; at < end; at++) {
        char digit = text[at];
        if (!((digit >= '0' && digit <= '9') || (digit >= 'a' && digit <= 'f'))) {
            return 0;
        }
        *sum = *sum << 4 | (uint32_t)(digit <= '9' ? digit - '0' : digit - 'a' + 10);
    }
    return 1;
}

/* Whether a record's ` #NUMBER SINCE SUM` ends at `end`, and begins at or behind `begin`: then *line is where. */
static int tail_before(const char *text, size_t begin, size_t end, struct record *found, uint32_t *sum, size_t *line)
{
    size_t at = end - DIGITS - 1;
    if (end < begin + LEAST || text[at] != ' ' || !sum_at(text, at + 1, sum)) {
        return 0;
    }
    found->since = number_before(text, begin, &at);
    if (found->since == 0 || at == begin || text[--at] != ' ') {
        return 0;
    }
    found->number = number_before(text, begin, &at);
    if (found->number < found->since || at < begin + 2 || text[at - 1] != '#' || text[at - 2] != ' ') {
        return 0;
    }
    *line = at - 2;
    return *line > begin;
}

int record_spelled(const char *text, size_t begin, size_t end, struct record *found)
{
    uint32_t sum = 0;
    size_t line = 0;
    if (!tail_before(text, begin, end, found, &sum, &line)
        || crc32_after(0, text + begin, end - DIGITS - begin) != sum) {
        return 0;
    }
    found->begin = begin;
    found->end = end + 1;
    return 1;
}

size_t record_line(const char *text, size_t begin, size_t end)
{
    const char *mark = memrchr(text + begin, '#', end - begin);
    return mark != NULL ? (size_t)(mark - text) - 1 - begin : 0;
}

size_t line_end(const char *text, size_t size, size_t at)
{
    const char *newline = at < size ? memchr(text + at, '\n', size - at) : NULL;
    return newline != NULL ? (size_t)(newline - text) + 1 : at;
}

size_t records_whole(const char *text, size_t size, uint64_t *count)
{
    struct record found;
    size_t at = 0;
    for (*count = 0;; ++*count) {
        size_t end = line_end(text, size, at);
        if (end == at || !record_spelled(text, at, end - 1, &found) || found.number != *count + 1) {
            return at;
        }
        at = end;
    }
}

/* Whether a whole record ends with the newline before `end`, wherever from `begin` on it begins. */
static int record_within(const char *text, size_t begin, size_t end, struct record *found)
{
    uint32_t sum = 0;
    size_t line = 0;
    if (!tail_before(text, begin, end - 1, found, &sum, &line)) {
        return 0;
    }
    for (size_t at = end - 1 - DIGITS; at > begin;) {
        sum = crc32_without(sum, (uint8_t)text[--at]);
        if (sum == 0 && at < line) {
            found->begin = at;
            found->end = end;
            return 1;
        }
    }
    return 0;
}

int record_behind(const char *text, size_t size, size_t at, struct record *found)
{
    for (size_t end; (end = line_end(text, size, at)) > at; at = end) {
        if (record_within(text, at, end, found)) {
            return 1;
        }
    }
    return 0;
}
