#define _POSIX_C_SOURCE 200809L
#include "firmware.h"

#include <stdio.h>
#include <stdlib.h>
#include <string.h>
#include <time.h>

#include "names.h"
#include "prints.h"
#include "say.h"

static char why[OBJECTS_WHY];

static _Noreturn void refuse_file(void)
{
    say("%s\n", why);
    exit(2);
}

/* ---- publishing */

/* An object's value: of a time what it is now. */
static struct wisangub_value value_of(const struct firmware *firmware, const struct object *object, double up)
{
    struct wisangub_value value = object->value;
    if (object->kind == OBJECT_UPTIME) {
        value.number = (int64_t)(100 * (up - firmware->begun)) & UINT32_MAX;
    } else if (object->kind == OBJECT_CLOCK) {
        value.number = (int64_t)time(NULL) & UINT32_MAX;
    }
    return value;
}

/* Whether there was memory for it; else what was there stays. */
static int publish(struct firmware *firmware, const struct object *object, double up)
{
    struct wisangub_value value = value_of(firmware, object, up);
    return wisangub_sign_publish(firmware->sign, object->name, object->name_size, &value, object->octets,
                                 object->octets_size, &object->access)
           == WISANGUB_DONE;
}

/* Whether no object has the name of one of the sign's. Nothing is published meanwhile but the objects of `before`. */
static int is_beside(const struct firmware *firmware, const struct objects *objects, const struct objects *before)
{
    static char text[NAME_TEXT];
    struct wisangub_value value;
    const struct object *first = NULL;
    size_t size = 0;
    for (const struct object *one = objects->items; one < objects->items + objects->count; one++) {
        int is_there = wisangub_sign_object(firmware->sign, one->name, one->name_size, &value, NULL, 0, &size)
                       != WISANGUB_FAULT;
        if (is_there && objects_find(before, one) == NULL && (first == NULL || one->line < first->line)) {
            first = one;
        }
    }
    if (first != NULL) {
        name_text(first->name, first->name_size, text);
        snprintf(why, OBJECTS_WHY, "%s: line %zu: the sign has an object of this name: %s", firmware->path, first->line,
                 text);
    }
    return first == NULL;
}

/* Publishes what is new or another, and all times: how many these are. */
static size_t publish_all(struct firmware *firmware, const struct objects *objects, const struct objects *before,
                          double up)
{
    size_t count = 0, lacks = 0;
    for (const struct object *one = objects->items; one < objects->items + objects->count; one++) {
        const struct object *old = objects_find(before, one);
        if (one->kind == OBJECT_FIXED && old != NULL && objects_are_same(old, one)) {
            continue;
        }
        count++;
        lacks += !publish(firmware, one, up);
    }
    if (lacks > 0) {
        say("%s: no memory for %zu objects, which are not published\n", firmware->path, lacks);
    }
    return count;
}

/* Whether the objects of the sign's fonts can be read, where the file says so; nothing is published yet. */
static int shows_fonts(struct firmware *firmware)
{
    return firmware->objects.fonts == 0 || wisangub_sign_show_fonts(firmware->sign) == WISANGUB_DONE;
}

void firmware_read(struct firmware *firmware, const char *path, double up, int is_quiet)
{
    *firmware = (struct firmware){.path = path, .begun = up, .told = up, .is_quiet = is_quiet};
    if (!objects_read(path, &firmware->objects, why)) {
        refuse_file();
    }
}

/* Whether an object that a manager set is so again: one of its name is published, and takes the value. */
static int is_set_again(const struct firmware *firmware, const struct set *set)
{
    struct object was = {0};
    uint8_t *store;
    int is_again = 0;
    if (set_object(set->words, set->size, &was, &store)) {
        const struct object *there = objects_find(&firmware->objects, &was);
        is_again = there != NULL && there->access.writes != WISANGUB_READ_ONLY
                   && wisangub_sign_publish(firmware->sign, was.name, was.name_size, &was.value, was.octets,
                                            was.octets_size, &there->access)
                          == WISANGUB_DONE;
    }
    free(store);
    return is_again;
}

void firmware_publish(struct firmware *firmware, struct wisangub_sign *sign, struct sets *sets)
{
    static const struct objects none = {.count = 0};
    firmware->sign = sign;
    firmware->sets = sets;
    if (!shows_fonts(firmware) || !is_beside(firmware, &firmware->objects, &none)) {
        refuse_file();
    }
    publish_all(firmware, &firmware->objects, &none, firmware->begun);
    for (struct set *set = sets->items; set < sets->items + sets->count; set++) {
        set->is_told = !is_set_again(firmware, set);
    }
}

/* ---- a file that changes */

/* Whether both files say the same of fonts, which are settled at the start. */
static int are_settled(const struct firmware *firmware, const struct objects *now)
{
    size_t before = firmware->objects.fonts;
    if ((now->fonts == 0) == (before == 0)) {
        return 1;
    }
    snprintf(why, OBJECTS_WHY, "%s: line %zu: whether fonts can be read is settled at a start", firmware->path,
             now->fonts > 0 ? now->fonts : before);
    return 0;
}

void firmware_again(struct firmware *firmware, double up)
{
    struct objects now, before = firmware->objects;
    size_t gone = 0;
    if (!objects_read(firmware->path, &now, why)) {
        say("%s: the objects stay as they were\n", why);
        return;
    }
    if (!are_settled(firmware, &now) || !is_beside(firmware, &now, &before)) {
        say("%s: the objects stay as they were\n", why);
        objects_free(&now);
        return;
    }
    for (const struct object *one = before.items; one < before.items + before.count; one++) {
        if (objects_find(&now, one) == NULL) {
            wisangub_sign_withdraw(firmware->sign, one->name, one->name_size);
            gone++;
        }
    }
    size_t count = publish_all(firmware, &now, &before, up);
    firmware->objects = now;
    objects_free(&before);
    say("%s: %zu objects are published, %zu are withdrawn\n", firmware->path, count, gone);
}

/* ---- between datagrams */

void firmware_keep_time(struct firmware *firmware, double up)
{
    const struct objects *objects = &firmware->objects;
    if (up < firmware->told + 1) {
        return;
    }
    firmware->told = up;
    for (const struct object *one = objects->items; one < objects->items + objects->count; one++) {
        if (one->kind != OBJECT_FIXED) {
            publish(firmware, one, up);
        }
    }
}

/* Puts what a manager set to the sets; where there is no memory for it, it is told at once. */
static void take(struct firmware *firmware, const struct name *name, const struct wisangub_value *value,
                 const uint8_t *octets, size_t size)
{
    static char words[NAME_TEXT + VALUE_TEXT];
    name_text(name->octets, name->size, words);
    size_t made = strlen(words);
    words[made++] = ' ';
    made += value_text(value, octets, size, words + made);
    if (!sets_put(firmware->sets, words, made) && !firmware->is_quiet) {
        print("set %s\n", words);
    }
}

void firmware_tell(struct firmware *firmware)
{
    static uint8_t octets[WISANGUB_DATAGRAM];
    struct name name;
    struct wisangub_value value;
    struct sets *sets = firmware->sets;
    size_t size = 0;
    while (wisangub_sign_taken(firmware->sign, name.octets, sizeof name.octets, &name.size, &value, octets,
                               sizeof octets, &size)
           == WISANGUB_DONE) {
        take(firmware, &name, &value, octets, size);
    }
    for (struct set *set = sets->items; set < sets->items + sets->count; set++) {
        if (!set->is_told && !firmware->is_quiet) {
            print("set %.*s\n", (int)set->size, set->words);
        }
        set->is_told = 1;
    }
}

void firmware_end(struct firmware *firmware) { objects_free(&firmware->objects); }
