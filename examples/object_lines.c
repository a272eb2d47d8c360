#include "object_lines.h"

#include <inttypes.h>
#include <stdarg.h>
#include <stdio.h>
#include <string.h>

#include "names.h"

/* Keyword, name, two words of a type, a value, and three of what may be written; one more is one too many. */
enum { WORDS = 9, DIGITS = 10, LONGEST_LENGTH = 65535 };

static const int64_t LEAST = INT32_MIN, MOST = UINT32_MAX;

struct word {
    const char *at;
    size_t size;
};

/* What is left of a line, and where what is read of it goes. */
struct words {
    struct word word[WORDS];
    size_t count, next;
    uint8_t **store;
    char *why;
};

static const struct type {
    const char *words;
    enum wisangub_type type;
} types[] = {{"INTEGER", WISANGUB_INTEGER},
             {"OCTET STRING", WISANGUB_OCTET_STRING},
             {"NULL", WISANGUB_NO_VALUE},
             {"OBJECT IDENTIFIER", WISANGUB_OBJECT_IDENTIFIER},
             {"IpAddress", WISANGUB_IP_ADDRESS},
             {"Counter", WISANGUB_COUNTER},
             {"Gauge", WISANGUB_GAUGE},
             {"TimeTicks", WISANGUB_TIME_TICKS},
             {"Opaque", WISANGUB_OPAQUE}};
enum { TYPES = sizeof types / sizeof *types };

/* Says why: 0. */
static int bad(char *why, const char *form, ...)
{
    va_list parts;
    va_start(parts, form);
    vsnprintf(why, OBJECT_WHY, form, parts);
    va_end(parts);
    return 0;
}

static int is_word(const struct word *word, const char *text)
{
    return word->size == strlen(text) && memcmp(word->at, text, word->size) == 0;
}

/* As much of a word as is told. */
static int told(const struct word *word) { return word->size < 400 ? (int)word->size : 400; }

static size_t left(const struct words *words) { return words->count - words->next; }

/* ---- numbers, octets and names */

static size_t digits(const char *at, const char *end)
{
    const char *digit = at;
    while (digit < end && *digit >= '0' && *digit <= '9') {
        digit++;
    }
    return (size_t)(digit - at);
}

static int number_of(struct words *words, int64_t least, int64_t most, int64_t *number)
{
    const struct word *word = &words->word[words->next++];
    const char *end = word->at + word->size;
    int is_below = word->size > 0 && *word->at == '-';
    size_t count = digits(word->at + is_below, end), at = 0;
    *number = 0;
    for (; at < count && at < DIGITS; at++) {
        *number = 10 * *number + (word->at[is_below + (int)at] - '0');
    }
    *number = is_below ? -*number : *number;
    if (count == 0 || count > DIGITS || count + (size_t)is_below != word->size || *number < least || *number > most
        || (is_below && least == 0)) {
        return bad(words->why, "%.*s is no number from %" PRId64 " to %" PRId64, told(word), word->at, least, most);
    }
    return 1;
}

/* Numbers of one to ten digits with dots between them. */
static int is_dotted(const struct word *word)
{
    const char *end = word->at + word->size, *at = word->at;
    size_t count = 0;
    for (;; at++) {
        size_t found = digits(at, end);
        if (found == 0 || found > DIGITS) {
            return 0;
        }
        at += found;
        count++;
        if (at == end) {
            return count > 1;
        }
        if (*at != '.') {
            return 0;
        }
    }
}

static int name_in(struct words *words, const uint8_t **octets, size_t *size)
{
    const struct word *word = &words->word[words->next++];
    struct name name;
    if (!is_dotted(word)) {
        return bad(words->why, "%.*s is no name: numbers with dots between them", told(word), word->at);
    }
    if (!name_read(word->at, word->size, &name)) {
        return bad(words->why, "%.*s is no name of an object", told(word), word->at);
    }
    *octets = memcpy(*words->store, name.octets, name.size);
    *size = name.size;
    *words->store += name.size;
    return 1;
}

static int digit_of(char digit)
{
    return digit >= '0' && digit <= '9'   ? digit - '0'
           : digit >= 'a' && digit <= 'f' ? digit - 'a' + 10
           : digit >= 'A' && digit <= 'F' ? digit - 'A' + 10
                                          : -1;
}

static int octets_of(struct words *words, struct object *object)
{
    const struct word *word = &words->word[words->next++];
    object->octets = *words->store;
    for (size_t at = 0; at < word->size && !is_word(word, "-"); at += 2) {
        int high = digit_of(word->at[at]), low = at + 1 < word->size ? digit_of(word->at[at + 1]) : -1;
        if (high < 0 || low < 0) {
            int size = word->size < 40 ? (int)word->size : 40;
            return bad(words->why, "%.*s is no pairs of hexadecimal digits, nor - for none", size, word->at);
        }
        *(*words->store)++ = (uint8_t)(16 * high + low);
    }
    object->octets_size = (size_t)(*words->store - object->octets);
    return 1;
}

static int address_of(struct words *words, struct object *object)
{
    const struct word *word = &words->word[words->next++];
    const char *at = word->at, *end = at + word->size;
    object->octets = *words->store;
    for (int part = 0; part < 4; part++) {
        size_t count = digits(at, end);
        int number = 0;
        for (size_t digit = 0; digit < count && digit < 3; digit++) {
            number = 10 * number + at[digit] - '0';
        }
        at += count;
        if (count == 0 || count > 3 || number > 255 || (part < 3 ? at == end || *at++ != '.' : at != end)) {
            return bad(words->why, "%.*s is no address, as 192.0.2.1", told(word), word->at);
        }
        *(*words->store)++ = (uint8_t)number;
    }
    object->octets_size = 4;
    return 1;
}

/* ---- an object */

/* The type with which the words go on, which are behind it then. */
static const struct type *type_of(struct words *words)
{
    for (const struct type *type = types; type < types + TYPES; type++) {
        const char *second = strchr(type->words, ' ');
        const struct word *word = &words->word[words->next];
        struct word first = {type->words, second != NULL ? (size_t)(second - type->words) : strlen(type->words)};
        if (left(words) == 0 || word->size != first.size || memcmp(word->at, first.at, first.size) != 0) {
            continue;
        }
        if (second == NULL || (left(words) > 1 && is_word(word + 1, second + 1))) {
            words->next += second == NULL ? 1 : 2;
            return type;
        }
    }
    bad(words->why, "a type is wanted, one of INTEGER, OCTET STRING, NULL, OBJECT IDENTIFIER, IpAddress, Counter,"
                    " Gauge, TimeTicks, Opaque");
    return NULL;
}

static int value_of(struct words *words, struct object *object)
{
    const struct type *type = type_of(words);
    if (type == NULL) {
        return 0;
    }
    object->value.type = (uint8_t)type->type;
    if (type->type == WISANGUB_NO_VALUE) {
        return 1;
    }
    if (left(words) == 0) {
        return bad(words->why, "the line ends where a value of %s is wanted", type->words);
    }
    switch (type->type) {
    case WISANGUB_INTEGER: return number_of(words, LEAST, MOST, &object->value.number);
    case WISANGUB_OBJECT_IDENTIFIER: return name_in(words, &object->octets, &object->octets_size);
    case WISANGUB_IP_ADDRESS: return address_of(words, object);
    case WISANGUB_OCTET_STRING:
    case WISANGUB_OPAQUE: return octets_of(words, object);
    default: return number_of(words, 0, MOST, &object->value.number);
    }
}

/* What a manager may write, and whether the value is one of that. */
static int access_of(struct words *words, struct object *object)
{
    struct wisangub_access *access = &object->access;
    const struct word *word = &words->word[words->next];
    int64_t held = object->value.number;
    if (left(words) == 0) {
        return 1;
    }
    int is_number = is_word(word, "number");
    if (left(words) != 3 || (!is_number && !is_word(word, "octets"))) {
        return bad(words->why, "behind the value stands nothing, or number LEAST MOST, or octets LEAST MOST");
    }
    words->next++;
    access->writes = is_number ? WISANGUB_NUMBERS : WISANGUB_OCTETS;
    int64_t least = is_number ? LEAST : 0, most = is_number ? MOST : LONGEST_LENGTH;
    if (!number_of(words, least, most, &access->least) || !number_of(words, least, most, &access->most)) {
        return 0;
    }
    held = is_number ? held : (int64_t)object->octets_size;
    if (object->value.type != (is_number ? WISANGUB_INTEGER : WISANGUB_OCTET_STRING) || held < access->least
        || held > access->most) {
        return bad(words->why, "the value is not one that its access takes");
    }
    return 1;
}

static int object_of(struct words *words, struct object *object)
{
    if (left(words) == 0) {
        return bad(words->why, "the line ends where a name is wanted");
    }
    return name_in(words, &object->name, &object->name_size) && value_of(words, object) && access_of(words, object);
}

/* An object whose number is a time. */
static int time_of(struct words *words, struct object *object, enum object_kind kind)
{
    if (left(words) != 1) {
        return bad(words->why, "one name is wanted");
    }
    object->kind = kind;
    object->value.type = kind == OBJECT_UPTIME ? WISANGUB_TIME_TICKS : WISANGUB_COUNTER;
    return name_in(words, &object->name, &object->name_size);
}

/* ---- a line */

static int words_of(const char *line, size_t size, struct words *words)
{
    size_t begun = 0;
    for (size_t at = 0; at < size; at++) {
        if ((unsigned char)line[at] > 127) {
            return bad(words->why, "a word is not ASCII");
        }
    }
    for (size_t at = 0; at <= size; at++) {
        if (at < size && line[at] != ' ') {
            continue;
        }
        if (at == begun) {
            return bad(words->why, "one space stands between two words, and none before or behind all");
        }
        if (words->count < WORDS) {
            words->word[words->count++] = (struct word){line + begun, at - begun};
        }
        begun = at + 1;
    }
    return size <= OBJECT_LINE_MOST || bad(words->why, "more than %d octets", OBJECT_LINE_MOST);
}

int object_read(const char *line, size_t size, struct object *object, uint8_t **store, char why[OBJECT_WHY])
{
    struct words words = {.store = store, .why = why};
    *object = (struct object){.kind = OBJECT_FIXED};
    if (!words_of(line, size, &words)) {
        return 0;
    }
    const struct word *keyword = &words.word[words.next++];
    if (is_word(keyword, "object")) {
        return object_of(&words, object);
    }
    if (is_word(keyword, "uptime") || is_word(keyword, "clock")) {
        return time_of(&words, object, is_word(keyword, "uptime") ? OBJECT_UPTIME : OBJECT_CLOCK);
    }
    if (!is_word(keyword, "fonts")) {
        return bad(why, "a line begins with object, uptime, clock or fonts");
    }
    object->kind = OBJECT_FONTS;
    return left(&words) == 0 || bad(why, "no words stand behind fonts");
}

/* ---- a value */

/* Octets as digits, or `-` for none. */
static size_t digits_text(const uint8_t *octets, size_t size, char *text)
{
    static const char words[] = "0123456789abcdef";
    char *at = text;
    if (size == 0) {
        *at++ = '-';
    }
    for (size_t octet = 0; octet < size && octet < WISANGUB_DATAGRAM; octet++) {
        *at++ = words[octets[octet] >> 4];
        *at++ = words[octets[octet] & 15];
    }
    *at = '\0';
    return (size_t)(at - text);
}

size_t value_text(const struct wisangub_value *value, const uint8_t *octets, size_t size, char text[VALUE_TEXT])
{
    const struct type *type = types;
    while (type->type != value->type) {
        type++;
    }
    size_t made = (size_t)sprintf(text, type->type == WISANGUB_NO_VALUE ? "%s" : "%s ", type->words);
    switch (type->type) {
    case WISANGUB_NO_VALUE: return made;
    case WISANGUB_OBJECT_IDENTIFIER: name_text(octets, size, text + made); return strlen(text);
    case WISANGUB_OCTET_STRING:
    case WISANGUB_OPAQUE: return made + digits_text(octets, size, text + made);
    case WISANGUB_IP_ADDRESS:
        return made + (size_t)sprintf(text + made, "%d.%d.%d.%d", octets[0], octets[1], octets[2], octets[3]);
    default: return made + (size_t)sprintf(text + made, "%" PRId64, value->number);
    }
}
