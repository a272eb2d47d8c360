#include "sets.h"

#include <stdlib.h>
#include <string.h>

enum { FIRST_ROOM = 8 };

static const char keyword[] = "object ";

/* The place of a name, or where it belongs. */
static size_t place_of(const struct sets *sets, const struct name *name)
{
    size_t least = 0, most = sets->count;
    while (least < most) {
        size_t middle = least + (most - least) / 2;
        if (names_order(&sets->items[middle].name, name) < 0) {
            least = middle + 1;
        } else {
            most = middle;
        }
    }
    return least;
}

/* Whether there is memory for one more. */
static int has_room(struct sets *sets)
{
    size_t room = sets->room > 0 ? 2 * sets->room : FIRST_ROOM;
    if (sets->count < sets->room) {
        return 1;
    }
    struct set *items = realloc(sets->items, room * sizeof *items);
    if (items == NULL) {
        return 0;
    }
    sets->items = items;
    sets->room = room;
    return 1;
}

static int is_put(struct sets *sets, const char *words, size_t size)
{
    struct name name;
    const char *space = memchr(words, ' ', size);
    if (space == NULL || !name_read(words, (size_t)(space - words), &name)) {
        return 0;
    }
    size_t at = place_of(sets, &name);
    int is_there = at < sets->count && names_are_same(&sets->items[at].name, &name);
    char *copy = is_there || has_room(sets) ? malloc(size) : NULL;
    if (copy == NULL) {
        return 0;
    }
    if (is_there) {
        free(sets->items[at].words);
    } else {
        memmove(&sets->items[at + 1], &sets->items[at], (sets->count - at) * sizeof *sets->items);
        sets->count++;
    }
    sets->items[at] = (struct set){.name = name, .words = memcpy(copy, words, size), .size = size};
    return 1;
}

int sets_put(struct sets *sets, const char *words, size_t size)
{
    int is_here = is_put(sets, words, size);
    sets->is_short |= !is_here;
    return is_here;
}

int set_object(const char *words, size_t size, struct object *object, uint8_t **store)
{
    char why[OBJECT_WHY], *line = malloc(sizeof keyword + size);
    uint8_t *end = *store = line != NULL ? malloc(size + 1) : NULL;
    int is_read = 0;
    if (end != NULL) {
        memcpy(line, keyword, sizeof keyword - 1);
        memcpy(line + sizeof keyword - 1, words, size);
        is_read = object_read(line, sizeof keyword - 1 + size, object, &end, why) && object->access.writes == 0;
    }
    free(line);
    return is_read;
}

void sets_free(struct sets *sets)
{
    for (size_t at = 0; at < sets->count; at++) {
        free(sets->items[at].words);
    }
    free(sets->items);
    *sets = (struct sets){.count = 0};
}
