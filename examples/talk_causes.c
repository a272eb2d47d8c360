#include "talk_causes.h"

#include <inttypes.h>
#include <stdio.h>
#include <string.h>

static char words[256];

/* The rest of an answer: the words; or what else was answered. */
static void end(enum wisangub_answer answer, size_t size)
{
    switch (answer) {
    case WISANGUB_DONE: printf(": %.*s\n", (int)size, words); return;
    case WISANGUB_NOTHING: puts("ok"); return;
    case WISANGUB_MEMORY: puts("memory"); return;
    default: puts("null");
    }
}

static void put_cause(const struct wisangub_cause *cause)
{
    printf("cause %zu %zu %zu %zu %" PRIu32 " %" PRIu32, cause->line, cause->word, cause->row, cause->place, cause->least,
           cause->most);
    printf(" %d %d %d %d", cause->kind, cause->wanted, cause->number, cause->code);
}

static void put_text_cause(const struct wisangub_text_cause *cause)
{
    printf("cause %zu %zu %d %d %d %d", cause->place, cause->count, cause->character, cause->font, cause->code,
           cause->lack);
}

void answer_why(const struct wisangub_sign *sign, const char *what, const uint8_t *octets, size_t size)
{
    struct wisangub_cause cause;
    struct wisangub_text_cause of_text;
    size_t told = 0;
    enum wisangub_answer answer;
    if (strcmp(what, "text") == 0) {
        answer = wisangub_sign_text_cause(sign, octets, size, &of_text, words, sizeof words, &told);
        if (answer == WISANGUB_DONE) {
            put_text_cause(&of_text);
        }
    } else {
        answer = strcmp(what, "command") == 0
                     ? wisangub_command_cause(octets, size, &cause, words, sizeof words, &told)
                     : wisangub_description_cause(octets, size, &cause, words, sizeof words, &told);
        if (answer == WISANGUB_DONE) {
            put_cause(&cause);
        }
    }
    end(answer, told);
}
