#include "talk_objects.h"

#include <stdio.h>
#include <string.h>

#include "names.h"
#include "object_lines.h"

static const char unfit[] = "the value is not one that its access takes";

/* A value that its access does not take is the library's to refuse, whose first look is at the name. */
static void publish(struct wisangub_sign *sign, const char *line)
{
    static uint8_t octets[OBJECT_LINE_MOST];
    char why[OBJECT_WHY] = "";
    struct object object;
    uint8_t *store = octets;
    size_t size = strlen(line);
    if (size > OBJECT_LINE_MOST || (!object_read(line, size, &object, &store, why) && strcmp(why, unfit) != 0)) {
        puts("bad line");
        return;
    }
    switch (wisangub_sign_publish(sign, object.name, object.name_size, &object.value, object.octets, object.octets_size,
                                  &object.access)) {
    case WISANGUB_DONE: puts("ok"); return;
    case WISANGUB_FAULT: printf("refused %s\n", *why ? unfit : "the sign has an object of this name"); return;
    case WISANGUB_RANGE: printf("refused %s\n", unfit); return;
    case WISANGUB_MEMORY: puts("memory"); return;
    default: puts("null");
    }
}

static void withdraw(struct wisangub_sign *sign, const char *word)
{
    struct name name;
    if (!name_read(word, strlen(word), &name)) {
        puts("bad line");
        return;
    }
    enum wisangub_answer answer = wisangub_sign_withdraw(sign, name.octets, name.size);
    puts(answer == WISANGUB_DONE ? "ok" : "refused there is no object of this name");
}

/* What a name reads by now is what was set there. */
static int is_read(struct wisangub_sign *sign, const struct name *name, const struct wisangub_value *value,
                   const uint8_t *octets, size_t size)
{
    static uint8_t found[WISANGUB_DATAGRAM];
    struct wisangub_value other;
    size_t read = 0;
    return wisangub_sign_object(sign, name->octets, name->size, &other, found, sizeof found, &read) == WISANGUB_DONE
           && other.type == value->type && other.number == value->number && read == size
           && memcmp(found, octets, size) == 0;
}

static void take(struct wisangub_sign *sign)
{
    static uint8_t octets[WISANGUB_DATAGRAM];
    static char text[NAME_TEXT], words[VALUE_TEXT];
    struct name name;
    struct wisangub_value value;
    size_t size = 0;
    while (wisangub_sign_taken(sign, name.octets, sizeof name.octets, &name.size, &value, octets, sizeof octets, &size)
           == WISANGUB_DONE) {
        name_text(name.octets, name.size, text);
        value_text(&value, octets, size, words);
        printf("set %s %s%s\n", text, words, is_read(sign, &name, &value, octets, size) ? "" : " is not read");
    }
    puts("ok");
}

static void show_fonts(struct wisangub_sign *sign)
{
    enum wisangub_answer answer = wisangub_sign_show_fonts(sign);
    puts(answer == WISANGUB_DONE ? "ok" : "refused objects are published already");
}

int answer_objects(struct wisangub_sign *sign, const char *line)
{
    if (strncmp(line, "object ", 7) == 0) {
        publish(sign, line);
    } else if (strncmp(line, "no-object ", 10) == 0) {
        withdraw(sign, line + 10);
    } else if (strcmp(line, "objects") == 0) {
        take(sign);
    } else if (strcmp(line, "fonts") == 0) {
        show_fonts(sign);
    } else {
        return 0;
    }
    return 1;
}
