#include "described.h"

#include <stdio.h>
#include <stdlib.h>
#include <string.h>

#include "digests.h"

enum { DESCRIPTION_MOST = 1 << 20 };

/* The octets up to and with the first line `end`; behind it stand empty lines and comments alone. */
static size_t described(const char *name, char *text)
{
    FILE *file = fopen(name, "rb");
    if (file == NULL) {
        perror(name);
        exit(2);
    }
    size_t size = fread(text, 1, DESCRIPTION_MOST - 1, file), ended = 0;
    fclose(file);
    text[size] = '\0';
    for (char *line = text, *next; *line != '\0'; line = next) {
        size_t length = strcspn(line, "\r\n");
        next = line + strcspn(line, "\n");
        next += *next == '\n';
        if (ended == 0 && length == 3 && strncmp(line, "end", 3) == 0) {
            ended = (size_t)(line - text) + 3;
        } else if (ended != 0 && length != 0 && *line != '#') {
            fprintf(stderr, "%s: after its line `end` there is more: no description of a sign\n", name);
            exit(2);
        }
    }
    if (ended == 0) {
        fprintf(stderr, "%s: there is no line `end`\n", name);
        exit(2);
    }
    text[ended] = '\n';
    return ended + 1;
}

struct described description_of(const char *name)
{
    static char text[DESCRIPTION_MOST + 1];
    struct described found = {.name = name, .text = text, .size = described(name, text)};
    sha256_digits(text, found.size, found.digest);
    return found;
}

static void look_at_memory(enum wisangub_answer made, const struct described *described)
{
    if (made != WISANGUB_DONE) {
        fprintf(stderr, "%s: out of memory\n", described->name);
        exit(1);
    }
}

void sign_of(struct wisangub_sign *sign, const struct described *described)
{
    uint32_t first = 0;
    size_t line = 0;
    enum wisangub_answer made = wisangub_sign_new(sign, described->text, described->size, &first, &line);
    if (made == WISANGUB_FAULT) {
        fprintf(stderr, "%s: line %zu: no description of a sign\n", described->name, line);
        exit(2);
    }
    look_at_memory(made, described);
}

size_t sign_in(struct wisangub_sign *sign, const struct described *described, const char *state, size_t size)
{
    uint32_t first = 0;
    size_t line = 0;
    enum wisangub_answer made =
        wisangub_sign_restore(sign, described->text, described->size, state, size, &first, &line);
    if (made == WISANGUB_STATE) {
        return line;
    }
    look_at_memory(made, described);
    return 0;
}

void make_sign(struct wisangub_sign *sign, const char *name, char digest[65])
{
    struct described found = description_of(name);
    sign_of(sign, &found);
    memcpy(digest, found.digest, sizeof found.digest);
}

struct communities communities_of(struct wisangub_sign *sign)
{
    struct communities found = {.reader_size = 0};
    wisangub_sign_reader(sign, found.reader, sizeof found.reader, &found.reader_size);
    wisangub_sign_writer(sign, found.writer, sizeof found.writer, &found.writer_size);
    return found;
}
