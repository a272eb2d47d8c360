/*
 * What single calls of the library for C take: c_limits DESCRIPTION, with a line for each call or talk on standard
 * input: `datagram OCTETS` and `centre OCTETS` to either end, `text OCTETS`, `describe OCTETS`, `command WORDS`, which
 * is carried out, and `tick`, `power N`, `pages`, `anew`. Of each call of the library it prints a line `NAME STACK HEAP
 * ALLOCATIONS`: octets of stack, octets of heap that it takes beside those that were taken before, and how often it
 * asks for memory. Under callgrind it has the instructions of each call counted instead, in a part with its name.
 */
#define _GNU_SOURCE
#include <pthread.h>
#include <stdint.h>
#include <stdio.h>
#include <stdlib.h>
#include <string.h>
#include <valgrind/callgrind.h>

#include "wisangub.h"

/* FRAME is the room of a frame and of the call that paints. */
enum { STACK = 1 << 18, FRAME = 256, TEXT_MOST = 1 << 21, PAGES_MOST = 6 * (WISANGUB_PAGE_HEAD + 256 * 64) };

/* A call, and what it is called with. */
struct call {
    const char *name;
    enum wisangub_answer (*run)(const struct call *call);
    const uint8_t *octets;
    size_t size;
};

static char description[TEXT_MOST], line[2 * TEXT_MOST];
static uint8_t octets[TEXT_MOST], sent[WISANGUB_DATAGRAM], pages[PAGES_MOST], none;
static _Alignas(16) unsigned char stack[STACK];
static size_t description_size, sent_size, last_page, live, most, calls, used;
static struct wisangub_sign sign = {NULL}, other = {NULL};
static struct wisangub_centre centre = {NULL}, restored = {NULL};
static enum wisangub_answer answered;

/* ---- a heap that counts; the size of a block stands before it */

static struct rattle_had counted(size_t *block, size_t before, size_t size)
{
    calls++;
    if (block == NULL) {
        return (struct rattle_had){0, &none};
    }
    *block = size;
    live += size - before;
    most = live > most ? live : most;
    return (struct rattle_had){1, block + 2};
}

struct rattle_had rattle_alloc(size_t size, size_t align)
{
    (void)align;
    return counted(malloc(size + 16), 0, size);
}

struct rattle_had rattle_realloc(void *at, size_t kept, size_t size, size_t align)
{
    size_t *block = (size_t *)at - 2, before = *block;
    (void)kept;
    (void)align;
    return counted(realloc(block, size + 16), before, size);
}

void rattle_dealloc(void *at)
{
    size_t *block = (size_t *)at - 2;
    live -= *block;
    free(block);
}

/* ---- one call */

/* Runs it over a stack that was painted below this frame, and looks how deep it went. */
static void *on_the_stack(void *given)
{
    const struct call *call = given;
    const unsigned char *here = __builtin_frame_address(0);
    size_t below = (size_t)(here - stack) - FRAME, left = 0;
    memset(stack, 0xA5, below);
    answered = call->run(call);
    while (left < below && stack[left] == 0xA5) {
        left++;
    }
    used = left < below ? (size_t)(here - stack) - left : FRAME;
    return NULL;
}

/* Runs it on a stack of its own. */
static void on_a_stack(const struct call *call)
{
    pthread_attr_t attributes;
    pthread_t thread;
    pthread_attr_init(&attributes);
    pthread_attr_setstack(&attributes, stack, STACK);
    if (pthread_create(&thread, &attributes, on_the_stack, (void *)(uintptr_t)call) != 0) {
        fputs("no thread\n", stderr);
        exit(1);
    }
    pthread_join(thread, NULL);
    pthread_attr_destroy(&attributes);
}

static enum wisangub_answer measured(const char *name, enum wisangub_answer (*run)(const struct call *call),
                                     const uint8_t *with, size_t size)
{
    struct call call = {name, run, with, size};
    if (RUNNING_ON_VALGRIND) {
        CALLGRIND_ZERO_STATS;
        answered = run(&call);
        CALLGRIND_DUMP_STATS_AT(name);
        return answered;
    }
    size_t before = live, asked = calls;
    most = live;
    on_a_stack(&call);
    printf("%s %zu %zu %zu\n", name, used, most - before, calls - asked);
    return answered;
}

/* ---- the calls */

static enum wisangub_answer receive(const struct call *call)
{
    return wisangub_sign_receive(&sign, call->octets, call->size, sent, sizeof sent, &sent_size);
}

static enum wisangub_answer tick(const struct call *call) { return (void)call, wisangub_sign_tick(&sign); }

static enum wisangub_answer lost(const struct call *call) { return (void)call, wisangub_sign_power_lost(&sign); }

static enum wisangub_answer back(const struct call *call)
{
    return wisangub_sign_power_back(&sign, (uint32_t)call->size);
}

static enum wisangub_answer check(const struct call *call)
{
    struct wisangub_text_fault fault;
    size_t count = 0;
    return wisangub_sign_check(&sign, call->octets, call->size, &count, &fault);
}

static enum wisangub_answer text_cause(const struct call *call)
{
    struct wisangub_text_cause cause;
    size_t size = 0;
    return wisangub_sign_text_cause(&sign, call->octets, call->size, &cause, sent, sizeof sent, &size);
}

static enum wisangub_answer text_pages(const struct call *call)
{
    struct wisangub_text_fault fault;
    size_t size = 0;
    return wisangub_sign_text_pages(&sign, call->octets, call->size, WISANGUB_LOOK, pages, sizeof pages, &size, &fault);
}

static enum wisangub_answer crc(const struct call *call)
{
    uint16_t found = 0;
    return wisangub_crc(call->octets, call->size, 0, 0, &found);
}

static enum wisangub_answer draw(const struct call *call)
{
    size_t size = 0;
    (void)call;
    return wisangub_sign_pages(&sign, WISANGUB_LOOK, pages, sizeof pages, &size);
}

/* A row of the last page. */
static enum wisangub_answer draw_row(const struct call *call)
{
    size_t size = 0;
    return wisangub_sign_page_row(&sign, last_page, (uint16_t)call->size, WISANGUB_LOOK, pages, sizeof pages, &size);
}

/* Three rows of the last page of what is shown. */
static void draw_rows(void)
{
    struct wisangub_page page = {.count = 1};
    uint16_t width = 0, height = 0;
    wisangub_sign_page_times(&sign, 0, &page);
    wisangub_sign_matrix(&sign, &width, &height);
    last_page = page.count - 1;
    for (uint16_t third = 0; third < 3; third++) {
        measured("sign_page_row", draw_row, NULL, (size_t)height * third / 3);
    }
}

static enum wisangub_answer bits(const struct call *call)
{
    uint8_t row[32];
    size_t size = 0;
    return wisangub_row_bits(call->octets, call->size, row, sizeof row, &size);
}

static enum wisangub_answer shown(const struct call *call)
{
    struct wisangub_shown found;
    (void)call;
    return wisangub_sign_shown(&sign, &found);
}

static enum wisangub_answer changed(const struct call *call)
{
    uint64_t changes;
    (void)call;
    return wisangub_sign_changes(&sign, &changes);
}

static enum wisangub_answer times(const struct call *call)
{
    struct wisangub_page page;
    (void)call;
    return wisangub_sign_page_times(&sign, 5, &page);
}

static enum wisangub_answer due(const struct call *call)
{
    uint64_t tenths;
    (void)call;
    return wisangub_sign_due(&sign, UINT64_MAX, 0, &tenths);
}

static enum wisangub_answer show_fonts(const struct call *call) { return (void)call, wisangub_sign_show_fonts(&sign); }

/* An object that a manager may set, of a name. */
static enum wisangub_answer publish(const struct call *call)
{
    const struct wisangub_value value = {7, WISANGUB_INTEGER};
    const struct wisangub_access access = {0, 65535, WISANGUB_NUMBERS};
    return wisangub_sign_publish(&sign, call->octets, call->size, &value, NULL, 0, &access);
}

static enum wisangub_answer withdraw(const struct call *call)
{
    return wisangub_sign_withdraw(&sign, call->octets, call->size);
}

static enum wisangub_answer object(const struct call *call)
{
    struct wisangub_value value;
    return wisangub_sign_object(&sign, call->octets, call->size, &value, sent, sizeof sent, &sent_size);
}

static enum wisangub_answer taken(const struct call *call)
{
    struct wisangub_value value;
    uint8_t name[WISANGUB_NAME];
    size_t size = 0;
    (void)call;
    return wisangub_sign_taken(&sign, name, sizeof name, &size, &value, sent, sizeof sent, &sent_size);
}

static enum wisangub_answer make(const struct call *call)
{
    uint32_t first = 0;
    size_t at = 0;
    return wisangub_sign_new(&other, call->octets, call->size, &first, &at);
}

static enum wisangub_answer description_cause(const struct call *call)
{
    struct wisangub_cause cause;
    size_t size = 0;
    return wisangub_description_cause(call->octets, call->size, &cause, sent, sizeof sent, &size);
}

static enum wisangub_answer command_cause(const struct call *call)
{
    struct wisangub_cause cause;
    size_t size = 0;
    return wisangub_command_cause(call->octets, call->size, &cause, sent, sizeof sent, &size);
}

static enum wisangub_answer give_back(const struct call *call)
{
    (void)call;
    wisangub_sign_free(&other);
    return WISANGUB_DONE;
}

static enum wisangub_answer centre_command(const struct call *call)
{
    return wisangub_centre_command(&centre, call->octets, call->size, sent, sizeof sent, &sent_size);
}

static enum wisangub_answer centre_receive(const struct call *call)
{
    return wisangub_centre_receive(&centre, call->octets, call->size, sent, sizeof sent, &sent_size);
}

static enum wisangub_answer centre_tick(const struct call *call)
{
    return (void)call, wisangub_centre_tick(&centre, sent, sizeof sent, &sent_size);
}

static enum wisangub_answer centre_save(const struct call *call)
{
    return (void)call, wisangub_centre_save(&centre, pages, sizeof pages, &sent_size);
}

static enum wisangub_answer centre_restore(const struct call *call)
{
    size_t at = 0;
    return wisangub_centre_restore(&restored, "admin", 5, WISANGUB_HIGH, call->octets, call->size, &at);
}

/* ---- lines */

/* What was sent, where the next call does not overwrite it. */
static const uint8_t *kept(void) { return memcpy(octets, sent, sent_size); }

static void carry_out(const char *words)
{
    struct wisangub_status status = {.busy = 1};
    measured("command_cause", command_cause, (const uint8_t *)words, strlen(words) / 2);
    enum wisangub_answer sends = measured("centre_command", centre_command, (const uint8_t *)words, strlen(words));
    while (wisangub_centre_status(&centre, &status) == WISANGUB_DONE && status.busy) {
        while (sends == WISANGUB_DONE && measured("sign_receive", receive, kept(), sent_size) == WISANGUB_DONE) {
            sends = measured("centre_receive", centre_receive, kept(), sent_size);
        }
        measured("centre_save", centre_save, NULL, 0);
        measured("centre_restore", centre_restore, pages, sent_size);
        wisangub_centre_free(&restored);
        measured("sign_tick", tick, NULL, 0);
        sends = measured("centre_tick", centre_tick, NULL, 0);
    }
    measured("sign_pages", draw, NULL, 0);
}

static void make_both(void)
{
    uint32_t first = 0;
    size_t at = 0, size = 0;
    uint8_t community[32];
    wisangub_sign_free(&sign);
    wisangub_centre_free(&centre);
    if (wisangub_sign_new(&sign, description, description_size, &first, &at) != WISANGUB_DONE
        || wisangub_sign_writer(&sign, community, sizeof community, &size) != WISANGUB_DONE
        || wisangub_centre_new(&centre, community, size, WISANGUB_HIGH, first) != WISANGUB_DONE) {
        fprintf(stderr, "the description is refused at line %zu\n", at);
        exit(1);
    }
}

static size_t read_octets(const char *digits)
{
    size_t size = strspn(digits, "0123456789abcdef") / 2;
    for (size_t at = 0; at < size; at++) {
        char pair[3] = {digits[2 * at], digits[2 * at + 1], '\0'};
        octets[at] = (uint8_t)strtoul(pair, NULL, 16);
    }
    return size;
}

static void take(char *word)
{
    char *rest = word + strcspn(word, " ");
    rest += *rest == ' ';
    if (strncmp(word, "command ", 8) == 0) {
        carry_out(rest);
        return;
    }
    size_t size = read_octets(rest);
    if (strncmp(word, "datagram ", 9) == 0) {
        measured("sign_receive", receive, octets, size);
    } else if (strncmp(word, "beside ", 7) == 0) {
        measured("sign_receive_beside", receive, octets, size);
    } else if (strncmp(word, "publish ", 8) == 0) {
        measured("sign_publish", publish, octets, size);
    } else if (strncmp(word, "withdraw ", 9) == 0) {
        measured("sign_withdraw", withdraw, octets, size);
    } else if (strncmp(word, "object ", 7) == 0) {
        measured("sign_object", object, octets, size);
    } else if (strcmp(word, "fonts") == 0) {
        measured("sign_show_fonts", show_fonts, NULL, 0);
    } else if (strcmp(word, "taken") == 0) {
        measured("sign_taken", taken, NULL, 0);
    } else if (strncmp(word, "centre ", 7) == 0) {
        measured("centre_receive", centre_receive, octets, size);
    } else if (strncmp(word, "text ", 5) == 0) {
        measured("sign_check", check, octets, size);
        measured("sign_text_cause", text_cause, octets, size);
        measured("sign_text_pages", text_pages, octets, size);
        measured("crc", crc, octets, size);
    } else if (strncmp(word, "describe ", 9) == 0) {
        measured("sign_new", make, octets, size);
        measured("sign_free", give_back, NULL, 0);
        measured("description_cause", description_cause, octets, size);
    } else if (strncmp(word, "power ", 6) == 0) {
        measured("sign_power_lost", lost, NULL, 0);
        measured("sign_power_back", back, octets, (size_t)strtoull(rest, NULL, 10));
    } else if (strcmp(word, "tick") == 0) {
        measured("sign_tick", tick, NULL, 0);
    } else if (strcmp(word, "pages") == 0) {
        measured("sign_pages", draw, NULL, 0);
        draw_rows();
        measured("row_bits", bits, pages + WISANGUB_PAGE_HEAD, 256);
        measured("sign_shown", shown, NULL, 0);
        measured("sign_changes", changed, NULL, 0);
        measured("sign_page_times", times, NULL, 0);
        measured("sign_due", due, NULL, 0);
    } else if (strcmp(word, "anew") == 0) {
        make_both();
    }
}

int main(int count, char **words)
{
    FILE *file = count == 2 ? fopen(words[1], "rb") : NULL;
    if (file == NULL) {
        return fputs("usage: c_limits DESCRIPTION\n", stderr), 2;
    }
    description_size = fread(description, 1, sizeof description, file);
    fclose(file);
    make_both();
    printf("a sign and its central system 0 %zu %zu\n", live, calls);
    measured("sign_new", make, (const uint8_t *)description, description_size);
    measured("sign_free", give_back, NULL, 0);
    measured("description_cause", description_cause, (const uint8_t *)description, description_size);
    while (fgets(line, sizeof line, stdin) != NULL) {
        line[strcspn(line, "\n")] = '\0';
        take(line);
    }
    wisangub_centre_free(&centre);
    wisangub_sign_free(&sign);
    return 0;
}
