#include "names.h"

#include <inttypes.h>
#include <stdio.h>
#include <string.h>

enum { NUMBERS = 128, DIGITS = 10, OCTETS = 5 };

/* The number of one to ten digits that a text goes on with, up to a dot or its end: 1, and the text behind it. */
static int number_read(const char **text, const char *end, uint64_t *number)
{
    const char *digit = *text;
    *number = 0;
    while (digit < end && *digit >= '0' && *digit <= '9') {
        *number = 10 * *number + (uint64_t)(*digit++ - '0');
        if (digit - *text > DIGITS) {
            return 0;
        }
    }
    int is_read = digit > *text && (digit == end || *digit == '.') && *number <= UINT32_MAX;
    *text = digit;
    return is_read;
}

/* Seven bits an octet, of which all but the last have the eighth. */
static void put_number(struct name *name, uint64_t number)
{
    int count = 1;
    while (count < OCTETS && number >> (7 * count) != 0) {
        count++;
    }
    while (count-- > 0) {
        name->octets[name->size++] = (uint8_t)((number >> (7 * count) & 127) | (count > 0 ? 128 : 0));
    }
}

int name_read(const char *text, size_t size, struct name *name)
{
    const char *end = text + size;
    uint64_t first = 0, number = 0;
    size_t count = 0;
    name->size = 0;
    for (const char *rest = text; count < NUMBERS; rest++) {
        if (!number_read(&rest, end, &number)) {
            return 0;
        }
        if (count == 0) {
            first = number;
        } else if (count > 1) {
            put_number(name, number);
        } else if (first > 2 || (first < 2 && number > 39) || 40 * first + number > UINT32_MAX) {
            return 0;
        } else {
            put_number(name, 40 * first + number);
        }
        count++;
        if (rest == end) {
            return count > 1;
        }
    }
    return 0;
}

struct name name_of(const char *text)
{
    struct name name;
    name_read(text, strlen(text), &name);
    return name;
}

int names_are_same(const struct name *one, const struct name *other)
{
    return one->size == other->size && memcmp(one->octets, other->octets, one->size) == 0;
}

/* The number at a place of a name, which is behind it then. */
static uint64_t number_at(const struct name *name, size_t *at)
{
    uint64_t number = 0;
    while (*at < name->size) {
        uint8_t octet = name->octets[(*at)++];
        number = number << 7 | (octet & 127);
        if (octet < 128) {
            break;
        }
    }
    return number;
}

int names_order(const struct name *one, const struct name *other)
{
    size_t at = 0, beside = 0;
    while (at < one->size && beside < other->size) {
        uint64_t number = number_at(one, &at), against = number_at(other, &beside);
        if (number != against) {
            return number < against ? -1 : 1;
        }
    }
    return (at < one->size) - (beside < other->size);
}

void name_text(const uint8_t *octets, size_t size, char text[NAME_TEXT])
{
    uint32_t number = 0;
    size_t used = 0;
    text[0] = '\0';
    for (size_t at = 0; at < size; at++) {
        number = number << 7 | (octets[at] & 127);
        if (octets[at] >= 128) {
            continue;
        }
        uint32_t first = number < 80 ? number / 40 : 2;
        used += used == 0 ? (size_t)sprintf(text, "%" PRIu32 ".%" PRIu32, first, number - 40 * first)
                          : (size_t)sprintf(text + used, ".%" PRIu32, number);
        number = 0;
    }
}
