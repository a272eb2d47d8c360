/*
 * How the library for C saves and restores the state of a sign: c_states DESCRIPTION STATE CALL TIMES, with the digits
 * of a datagram in each line of standard input, or `power`, at which the sign loses its power and has it back. What
 * the sign then is it saves into the file STATE. CALL is `new`, `save` or `restore`: it is called so often, and the
 * least nanoseconds of one are printed. What `new` and `restore` make is given back in that time.
 */
#define _POSIX_C_SOURCE 200809L
#include <stdint.h>
#include <stdio.h>
#include <stdlib.h>
#include <string.h>
#include <time.h>

#include "wisangub.h"

enum { TEXT_MOST = 1 << 20 };

static char description[TEXT_MOST], line[2 * WISANGUB_DATAGRAM + 2];
static uint8_t state[TEXT_MOST], saved[TEXT_MOST], reply[WISANGUB_DATAGRAM];
static size_t description_size, state_size;
static struct wisangub_sign sign = {NULL};

static void wants(enum wisangub_answer answer, const char *what)
{
    if (answer != WISANGUB_DONE) {
        fprintf(stderr, "%s: answer %d\n", what, (int)answer);
        exit(1);
    }
}

/* ---- the calls */

static void make(void)
{
    struct wisangub_sign other = {NULL};
    uint32_t first = 0;
    size_t at = 0;
    wants(wisangub_sign_new(&other, description, description_size, &first, &at), "new");
    wisangub_sign_free(&other);
}

static void save(void)
{
    size_t size = 0;
    wants(wisangub_sign_save(&sign, saved, sizeof saved, &size), "save");
}

static void restore(void)
{
    struct wisangub_sign other = {NULL};
    uint32_t first = 0;
    size_t at = 0;
    wants(wisangub_sign_restore(&other, description, description_size, state, state_size, &first, &at), "restore");
    wisangub_sign_free(&other);
}

static const struct {
    const char *name;
    void (*run)(void);
} calls[] = {{"new", make}, {"save", save}, {"restore", restore}};

/* ---- the sign */

static void take(const char *digits)
{
    uint8_t octets[WISANGUB_DATAGRAM];
    size_t size = strspn(digits, "0123456789abcdef") / 2, reply_size = 0;
    for (size_t at = 0; at < size; at++) {
        char pair[3] = {digits[2 * at], digits[2 * at + 1], '\0'};
        octets[at] = (uint8_t)strtoul(pair, NULL, 16);
    }
    wants(wisangub_sign_receive(&sign, octets, size, reply, sizeof reply, &reply_size), "receive");
    wants(wisangub_sign_tick(&sign), "tick");
}

/* Reads what the sign goes through, and saves what it is then. */
static void go_through(const char *path)
{
    while (fgets(line, sizeof line, stdin) != NULL) {
        if (strcmp(line, "power\n") == 0) {
            wants(wisangub_sign_power_lost(&sign), "power lost");
            wants(wisangub_sign_power_back(&sign, 1), "power back");
        } else {
            take(line);
        }
    }
    wants(wisangub_sign_save(&sign, state, sizeof state, &state_size), "save");
    FILE *file = fopen(path, "wb");
    if (file == NULL || fwrite(state, 1, state_size, file) != state_size || fclose(file) != 0) {
        fprintf(stderr, "%s is not written\n", path);
        exit(1);
    }
}

static double now(void)
{
    struct timespec time;
    clock_gettime(CLOCK_MONOTONIC, &time);
    return (double)time.tv_sec * 1e9 + (double)time.tv_nsec;
}

static double least_of(void (*run)(void), long times)
{
    double least = 1e18;
    for (long time = 0; time < times; time++) {
        double begun = now();
        run();
        double taken = now() - begun;
        least = taken < least ? taken : least;
    }
    return least;
}

int main(int count, char **words)
{
    FILE *file = count == 5 ? fopen(words[1], "rb") : NULL;
    uint32_t first = 0;
    size_t at = 0;
    if (file == NULL) {
        return fputs("usage: c_states DESCRIPTION STATE CALL TIMES\n", stderr), 2;
    }
    description_size = fread(description, 1, sizeof description, file);
    fclose(file);
    wants(wisangub_sign_new(&sign, description, description_size, &first, &at), "the description");
    go_through(words[2]);
    for (size_t call = 0; call < sizeof calls / sizeof *calls; call++) {
        if (strcmp(calls[call].name, words[3]) == 0) {
            printf("%.0f\n", least_of(calls[call].run, strtol(words[4], NULL, 10)));
        }
    }
    wisangub_sign_free(&sign);
    return 0;
}
