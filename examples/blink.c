/* Publishes a MULTI text to the sign of a description and shows its pages in colour: blink TEXT < DESCRIPTION. */
#define _POSIX_C_SOURCE 200809L
#include <stdio.h>
#include <string.h>
#include <time.h>

#include "publish.h"
#include "wisangub.h"

static struct wisangub_sign sign = {NULL};
static struct wisangub_centre centre = {NULL};
static char description[1 << 20];
static uint8_t pages[6 * (WISANGUB_PAGE_HEAD + 256 * 64)];

/* Whether the text can be shown; else says why not, and where. */
static int is_shown(const char *text)
{
    struct wisangub_text_cause cause = {.place = 0};
    char words[256];
    size_t size = 0;
    enum wisangub_answer told = wisangub_sign_text_cause(&sign, text, strlen(text), &cause, words, sizeof words, &size);
    if (told == WISANGUB_DONE) {
        fprintf(stderr, "blink: the text is refused: %.*s\n", (int)size, words);
        fprintf(stderr, "    %s\n    %*s^\n", text, (int)cause.place, "");
    }
    if (told == WISANGUB_MEMORY) {
        fputs("blink: out of memory\n", stderr);
    }
    return told == WISANGUB_NOTHING;
}

/* Shows a page for its time: colours 0 to 9 of MULTI as a terminal has them; what flashes blinks. */
static void show(const uint8_t *page, size_t width, size_t cells)
{
    static const int colours[16] = {16, 196, 226, 46, 51, 21, 201, 231, 208, 214};
    for (size_t cell = 0; cell < cells; cell++) {
        int look = page[WISANGUB_PAGE_HEAD + cell], blinks = look & WISANGUB_FLASHES ? 5 : 0;
        printf("\033[%d;48;5;%dm %s", blinks, colours[look & WISANGUB_COLOUR], (cell + 1) % width ? "" : "\033[0m\n");
    }
    nanosleep(&(struct timespec){page[0] / 10, page[0] % 10 * 100000000L}, NULL);
}

static void show_all(void)
{
    uint16_t width = 0, height = 0;
    size_t size = 0;
    wisangub_sign_matrix(&sign, &width, &height);
    wisangub_sign_pages(&sign, WISANGUB_LOOK, pages, sizeof pages, &size);
    for (const uint8_t *page = pages; page < pages + size; page += WISANGUB_PAGE_HEAD + (size_t)width * height) {
        show(page, width, (size_t)width * height);
    }
}

/* Says which line of the description is refused, and why. */
static void say_why_refused(size_t description_size)
{
    struct wisangub_cause cause = {.line = 0};
    char words[256];
    size_t size = 0;
    if (wisangub_description_cause(description, description_size, &cause, words, sizeof words, &size) != WISANGUB_DONE) {
        size = 0;
    }
    fprintf(stderr, "blink: line %zu of the description is refused: %.*s\n", cause.line, (int)size, words);
}

/* Makes both ends: 1, or says why not. */
static int is_made(size_t description_size)
{
    uint32_t first = 0;
    size_t line = 0, size = 0;
    uint8_t community[32];
    enum wisangub_answer made = wisangub_sign_new(&sign, description, description_size, &first, &line);
    if (made == WISANGUB_FAULT) {
        return say_why_refused(description_size), 0;
    }
    wisangub_sign_writer(&sign, community, sizeof community, &size);
    enum wisangub_order order = strstr(description, "\norder swapped") != NULL ? WISANGUB_SWAPPED : WISANGUB_HIGH;
    if (made != WISANGUB_DONE || wisangub_centre_new(&centre, community, size, order, first) != WISANGUB_DONE) {
        return fputs("blink: out of memory\n", stderr), 0;
    }
    return 1;
}

int main(int count, char **words)
{
    char line[PUBLICATION_MOST];
    struct wisangub_status status = {.step = 0};
    int failed = 2;
    if (count != 2) {
        return fputs("usage: blink TEXT < DESCRIPTION\n", stderr), 2;
    }
    if (is_made(fread(description, 1, sizeof description - 1, stdin)) && is_shown(words[1])) {
        status = carry_out(&sign, &centre, line, publication(line, words[1], strlen(words[1]), 65535));
        failed = status.step;
        if (failed != 0) {
            fprintf(stderr, "blink: it failed at step %d, and why is %d of enum wisangub_why\n", failed, status.why);
        } else {
            show_all();
        }
    }
    wisangub_centre_free(&centre);
    wisangub_sign_free(&sign);
    return failed;
}
