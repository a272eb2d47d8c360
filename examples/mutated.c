/*
 * Mutated datagrams: mutated DESCRIPTION SECONDS SEED, with datagrams as digits on standard input, a line each. It
 * changes octets of them, cuts, doubles and joins them, and hands them to a sign and a central system, with ticks and
 * losses of power between. Each reply is at most 1,472 octets, and nothing is written beyond them; sanitizers and
 * valgrind see the rest.
 */
#define _POSIX_C_SOURCE 200809L
#include <inttypes.h>
#include <stdio.h>
#include <stdlib.h>
#include <string.h>
#include <time.h>

#include "mutations.h"
#include "wisangub.h"

enum { GUARD = 64 };

static char description[1 << 20];
static uint8_t reply[WISANGUB_DATAGRAM + GUARD];

/* Ends where a reply is too long, or what is behind the buffer was written. */
static void look(enum wisangub_answer answer, size_t size)
{
    for (size_t at = WISANGUB_DATAGRAM; at < sizeof reply; at++) {
        if (reply[at] != 0xA5) {
            fputs("written beyond the buffer\n", stderr);
            exit(1);
        }
    }
    if (answer > WISANGUB_NOTHING || size > WISANGUB_DATAGRAM) {
        fprintf(stderr, "answer %d size %zu\n", (int)answer, size);
        exit(1);
    }
}

/* Hands a mutated datagram to both ends, now and then with a tick or a loss of power: whether the sign replied. */
static int hand(struct wisangub_sign *sign, struct wisangub_centre *centre)
{
    size_t size = 0, told = 0;
    uint8_t *made = mutated(&size);
    enum wisangub_answer answer = wisangub_sign_receive(sign, made, size, reply, WISANGUB_DATAGRAM, &told);
    look(answer, told);
    look(wisangub_centre_receive(centre, made, size, reply, WISANGUB_DATAGRAM, &told), told);
    free(made);
    if (any(50) == 0) {
        wisangub_sign_tick(sign);
        look(wisangub_centre_tick(centre, reply, WISANGUB_DATAGRAM, &told), told);
        wisangub_centre_command(centre, "blank 1 5 255 192.0.2.1", 23, reply, WISANGUB_DATAGRAM, &told);
    }
    if (any(2000) == 0) {
        wisangub_sign_power_lost(sign);
        wisangub_sign_power_back(sign, (uint32_t)any(100));
        wisangub_centre_restart(centre);
    }
    return answer == WISANGUB_DONE;
}

int main(int words, char **word)
{
    struct wisangub_sign sign = {NULL};
    struct wisangub_centre centre = {NULL};
    uint32_t first = 0;
    size_t fault = 0;
    uint64_t done = 0, replies = 0;
    FILE *file = words == 4 ? fopen(word[1], "rb") : NULL;
    if (file == NULL
        || wisangub_sign_new(&sign, description, fread(description, 1, sizeof description, file), &first, &fault)
               != WISANGUB_DONE
        || wisangub_centre_new(&centre, "administrator", 13, WISANGUB_HIGH, first) != WISANGUB_DONE) {
        fputs("usage: mutated DESCRIPTION SECONDS SEED\n", stderr);
        return 2;
    }
    fclose(file);
    size_t count = mutations_begin(strtoull(word[3], NULL, 10));
    memset(reply, 0xA5, sizeof reply);
    for (time_t end = time(NULL) + strtol(word[2], NULL, 10); count > 0 && (done % 1000 != 0 || time(NULL) < end);
         done++) {
        replies += (uint64_t)hand(&sign, &centre);
    }
    printf("%" PRIu64 " datagrams, %" PRIu64 " replies\n", done, replies);
    wisangub_centre_free(&centre);
    wisangub_sign_free(&sign);
    return 0;
}
