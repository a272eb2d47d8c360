#include "older.h"

#include <stdio.h>
#include <stdlib.h>
#include <string.h>

#include "digests.h"
#include "records.h"

enum { DIGITS = 8 };

size_t older_first(char *to, const char *line)
{
    size_t size = (size_t)sprintf(to, "%s #", line);
    return size + (size_t)sprintf(to + size, "%08x\n", (unsigned)crc32_after(0, to, size));
}

int older_shaped(const char *text, size_t begin, size_t end)
{
    if (end < begin + OLDER_TAIL || memcmp(text + end - DIGITS - 2, " #", 2) != 0) {
        return 0;
    }
    for (size_t at = end - DIGITS; at < end; at++) {
        if (memchr("0123456789abcdef", text[at], 16) == NULL) {
            return 0;
        }
    }
    return 1;
}

size_t older_newline(const char *text, size_t size, size_t at, size_t from)
{
    size_t end = from + 1;
    while (end < size && !older_shaped(text, at, end)) {
        end++;
    }
    return end < size ? end : size;
}

/* Whether a record stands there whose sum goes on from *sum, which is that behind it then. */
static int is_whole(const char *text, size_t begin, size_t end, uint32_t *sum)
{
    char digits[DIGITS + 1] = "";
    if (!older_shaped(text, begin, end - 1)) {
        return 0;
    }
    uint32_t found = crc32_after(*sum, text + begin, end - 1 - DIGITS - begin);
    memcpy(digits, text + end - 1 - DIGITS, DIGITS);
    if (strtoul(digits, NULL, 16) != found) {
        return 0;
    }
    *sum = crc32_after(found, text + end - 1 - DIGITS, DIGITS + 1);
    return 1;
}

size_t older_whole(const char *text, size_t size, uint64_t *count)
{
    uint32_t sum = 0;
    size_t at = 0;
    for (*count = 0;; ++*count) {
        size_t end = line_end(text, size, at);
        if (end == at || !is_whole(text, at, end, &sum)) {
            return at;
        }
        at = end;
    }
}
