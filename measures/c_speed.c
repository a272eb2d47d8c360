/*
 * Times, heap and stack of the library for C: c_speed DESCRIPTION, with a name and the digits of a datagram in each
 * line of standard input. It prints a line `NAME NANOSECONDS` for each of these datagrams, a second, what is shown and
 * its pages, the least of forty passes; and `heap`, `calls after it is made` and `stack` in octets.
 */
#define _GNU_SOURCE
#include <pthread.h>
#include <stdint.h>
#include <stdio.h>
#include <stdlib.h>
#include <string.h>
#include <time.h>

#include "wisangub.h"

enum { PASSES = 40, TIMES = 2000, STACK = 1 << 20, PAGES_MOST = 6 * (WISANGUB_PAGE_HEAD + 256 * 64), NAMED_MOST = 16 };

struct named {
    char name[64];
    uint8_t octets[WISANGUB_DATAGRAM];
    size_t size;
};

static char description[1 << 20], none;
static uint8_t pages[PAGES_MOST], reply[WISANGUB_DATAGRAM];
static struct wisangub_sign sign = {NULL};
static struct named named[NAMED_MOST];
static size_t count, live, most, calls;

/* A heap that counts. The size of a block stands before it. */
static struct rattle_had counted(size_t *block, size_t old, size_t size)
{
    if (block == NULL) {
        return (struct rattle_had){0, &none};
    }
    *block = size;
    live += size - old;
    most = live > most ? live : most;
    calls++;
    return (struct rattle_had){1, block + 2};
}

struct rattle_had rattle_alloc(size_t size, size_t align)
{
    (void)align;
    return counted(malloc(size + 16), 0, size);
}

struct rattle_had rattle_realloc(void *at, size_t kept, size_t size, size_t align)
{
    size_t *block = (size_t *)at - 2, before = *block;
    (void)kept;
    (void)align;
    return counted(realloc(block, size + 16), before, size);
}

void rattle_dealloc(void *at)
{
    size_t *block = (size_t *)at - 2;
    live -= *block;
    free(block);
}

static double now(void)
{
    struct timespec time;
    clock_gettime(CLOCK_MONOTONIC, &time);
    return (double)time.tv_sec * 1e9 + (double)time.tv_nsec;
}

static void receive(const struct named *one)
{
    size_t size = 0;
    if (wisangub_sign_receive(&sign, one->octets, one->size, reply, sizeof reply, &size) != WISANGUB_DONE) {
        fprintf(stderr, "%s is not answered\n", one->name);
        exit(1);
    }
}

static void tick(const struct named *one)
{
    (void)one;
    wisangub_sign_tick(&sign);
}

static void show(const struct named *one)
{
    size_t size = 0;
    (void)one;
    wisangub_sign_pages(&sign, WISANGUB_LOOK, pages, sizeof pages, &size);
}

static void measure(const char *name, void (*call)(const struct named *), const struct named *one, int times)
{
    double least = 1e18;
    for (int pass = 0; pass < PASSES; pass++) {
        double begun = now();
        for (int time = 0; time < times; time++) {
            call(one);
        }
        double took = (now() - begun) / times;
        least = took < least ? took : least;
    }
    printf("%s %.1f\n", name, least);
}

static void *talk(void *unused)
{
    for (size_t at = 0; at < count; at++) {
        receive(named + at);
    }
    tick(NULL);
    show(NULL);
    return unused;
}

/* The greatest stack of a talk, in a thread whose stack was filled before. */
static size_t stack_of_a_talk(void)
{
    uint8_t *stack = aligned_alloc(4096, STACK);
    size_t untouched = 0;
    pthread_attr_t attributes;
    pthread_t thread;
    if (stack == NULL) {
        return 0;
    }
    memset(stack, 0xA5, STACK);
    pthread_attr_init(&attributes);
    if (pthread_attr_setstack(&attributes, stack, STACK) != 0
        || pthread_create(&thread, &attributes, talk, NULL) != 0) {
        free(stack);
        return 0;
    }
    pthread_join(thread, NULL);
    while (stack[untouched] == 0xA5) {
        untouched++;
    }
    free(stack);
    return STACK - untouched;
}

static void read_datagrams(void)
{
    static char digits[2 * WISANGUB_DATAGRAM + 1];
    while (count < NAMED_MOST && scanf("%63s %2944s", named[count].name, digits) == 2) {
        named[count].size = strlen(digits) / 2;
        for (size_t at = 0; at < named[count].size; at++) {
            char pair[3] = {digits[2 * at], digits[2 * at + 1], '\0'};
            named[count].octets[at] = (uint8_t)strtoul(pair, NULL, 16);
        }
        count++;
    }
}

int main(int words, char **word)
{
    uint32_t first = 0;
    size_t line = 0;
    FILE *file = words == 2 ? fopen(word[1], "rb") : NULL;
    size_t size = file == NULL ? 0 : fread(description, 1, sizeof description, file);
    if (file == NULL || wisangub_sign_new(&sign, description, size, &first, &line) != WISANGUB_DONE) {
        fprintf(stderr, "usage: c_speed DESCRIPTION (line %zu is refused)\n", line);
        return 2;
    }
    fclose(file);
    printf("heap %zu\nheap-at-most %zu\n", live, most);
    read_datagrams();
    calls = 0;
    for (size_t at = 0; at < count; at++) {
        receive(named + at);
    }
    tick(NULL);
    printf("calls-of-the-heap %zu\n", calls);
    printf("stack %zu\n", stack_of_a_talk());
    for (size_t at = 0; at < count; at++) {
        measure(named[at].name, receive, named + at, TIMES);
    }
    measure("second", tick, NULL, TIMES);
    measure("pages", show, NULL, 50);
    wisangub_sign_free(&sign);
    return 0;
}
