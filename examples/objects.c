#include "objects.h"

#include <errno.h>
#include <stdarg.h>
#include <stdio.h>
#include <stdlib.h>
#include <string.h>

static int faulty(char *why, const char *form, ...)
{
    va_list parts;
    va_start(parts, form);
    vsnprintf(why, OBJECTS_WHY, form, parts);
    va_end(parts);
    return 0;
}

/* All octets of a file, as a text that ends in a null: its size, or SIZE_MAX where it cannot be read. */
static size_t text_of(const char *path, char *text)
{
    FILE *file = fopen(path, "rb");
    if (file == NULL) {
        return SIZE_MAX;
    }
    size_t size = fread(text, 1, OBJECTS_MOST + 1, file);
    int failed = ferror(file) ? errno : 0;
    fclose(file);
    errno = failed;
    text[size] = '\0';
    return failed != 0 ? SIZE_MAX : size;
}

static int compare_names(const void *left, const void *right)
{
    const struct object *one = left, *other = right;
    size_t least = one->name_size < other->name_size ? one->name_size : other->name_size;
    int order = memcmp(one->name, other->name, least);
    return order != 0 ? order : one->name_size < other->name_size ? -1 : one->name_size > other->name_size;
}

static int compare(const void *left, const void *right)
{
    const struct object *one = left, *other = right;
    int order = compare_names(one, other);
    return order != 0 ? order : one->line < other->line ? -1 : 1;
}

/* The first line before another one whose name an earlier line has too; else that other one. */
static size_t named_twice(const struct objects *objects, size_t before, size_t *earlier)
{
    for (size_t at = 1; at < objects->count; at++) {
        const struct object *one = &objects->items[at - 1], *other = one + 1;
        if (compare_names(one, other) == 0 && other->line < before) {
            before = other->line;
            *earlier = one->line;
        }
    }
    return before;
}

/* Takes the lines of a text up to the first at fault: its number and why, or SIZE_MAX. */
static size_t take_lines(const char *text, size_t size, struct objects *objects, char why[OBJECT_WHY])
{
    const char *line = text, *end = text + size;
    uint8_t *store = objects->store;
    for (size_t number = 1; line < end; number++) {
        const char *newline = memchr(line, '\n', (size_t)(end - line));
        const char *next = newline != NULL ? newline + 1 : end;
        size_t length = (size_t)((newline != NULL ? newline : end) - line);
        length -= length > 0 && line[length - 1] == '\r';
        struct object *object = &objects->items[objects->count];
        if (length > 0 && *line != '#') {
            if (!object_read(line, length, object, &store, why)) {
                return number;
            }
            if (object->kind != OBJECT_FONTS) {
                object->line = number;
                objects->count++;
            } else if (objects->fonts > 0) {
                snprintf(why, OBJECT_WHY, "line %zu is the same", objects->fonts);
                return number;
            } else {
                objects->fonts = number;
            }
        }
        line = next;
    }
    return SIZE_MAX;
}

/* A text has at most as many objects as lines. */
static size_t lines_of(const char *text, size_t size)
{
    size_t count = 1;
    for (size_t at = 0; at < size; at++) {
        count += text[at] == '\n';
    }
    return count;
}

static int taken(const char *path, const char *text, size_t size, struct objects *objects, char *why)
{
    char reason[OBJECT_WHY];
    size_t earlier = 0;
    objects->items = calloc(lines_of(text, size), sizeof *objects->items);
    objects->store = malloc(size + 1);
    if (objects->items == NULL || objects->store == NULL) {
        return faulty(why, "%s: out of memory", path);
    }
    size_t bad = take_lines(text, size, objects, reason);
    qsort(objects->items, objects->count, sizeof *objects->items, compare);
    size_t twice = named_twice(objects, bad, &earlier);
    if (twice < bad) {
        return faulty(why, "%s: line %zu: line %zu has an object of this name", path, twice, earlier);
    }
    return bad == SIZE_MAX || faulty(why, "%s: line %zu: %s", path, bad, reason);
}

int objects_read(const char *path, struct objects *objects, char why[OBJECTS_WHY])
{
    static char text[OBJECTS_MOST + 2];
    size_t size = text_of(path, text);
    *objects = (struct objects){.count = 0};
    if (size == SIZE_MAX) {
        return faulty(why, "%s: %s", path, strerror(errno));
    }
    if (size > OBJECTS_MOST) {
        return faulty(why, "%s: more than %d octets", path, OBJECTS_MOST);
    }
    if (taken(path, text, size, objects, why)) {
        return 1;
    }
    objects_free(objects);
    return 0;
}

void objects_free(struct objects *objects)
{
    free(objects->items);
    free(objects->store);
    *objects = (struct objects){.count = 0};
}

const struct object *objects_find(const struct objects *objects, const struct object *wanted)
{
    return objects->count == 0
               ? NULL
               : bsearch(wanted, objects->items, objects->count, sizeof *objects->items, compare_names);
}

int objects_are_same(const struct object *one, const struct object *other)
{
    return one->kind == other->kind && one->value.type == other->value.type && one->value.number == other->value.number
           && one->octets_size == other->octets_size
           && (one->octets_size == 0 || memcmp(one->octets, other->octets, one->octets_size) == 0)
           && one->access.writes == other->access.writes && one->access.least == other->access.least
           && one->access.most == other->access.most;
}
