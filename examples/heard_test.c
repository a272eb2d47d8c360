/*
 * What a front end does not record: heard_test DESCRIPTION COUNT SEED [FILE], with datagrams as digits on standard input, a
 * line each. Of two signs one hears so many mutated datagrams, and the other what is recorded of them: no datagram that
 * no sign answers, `heard` for one that changes nothing but the silence, and each other one. Both are the same after
 * every datagram by what they show, and now and then by all their objects. What the first one was handed is written to
 * FILE, as lines of a live sign with a letter before each: u, a or s of a datagram that is unheard, asks or sets, and t
 * of all else.
 */
#define _POSIX_C_SOURCE 200809L
#include <inttypes.h>
#include <stdio.h>
#include <stdlib.h>
#include <string.h>

#include "datagrams.h"
#include "described.h"
#include "mutations.h"
#include "silences.h"
#include "wisangub.h"

enum { WALKED = 200, NAME_MOST = 64, SPELLED = 128, SET = 0xA3, GET = 0xA0 };

static struct wisangub_sign one, two;
static struct communities communities;
static uint8_t made[4 * DATAGRAM_MOST];
static uint64_t kinds[3], long_forms;
static FILE *lines;

static void wrong(const char *what, const uint8_t *octets, size_t size)
{
    printf("%s: ", what);
    for (size_t at = 0; at < size; at++) {
        printf("%02x", octets[at]);
    }
    putchar('\n');
    exit(1);
}

/* ---- datagrams */

/* The octets before an element's content, whose length is *length then; 0 where no element with a length of at most
 * three octets stands there. */
static size_t head_of(const uint8_t *from, size_t size, size_t *length)
{
    size_t digits = size > 1 && from[1] >= 128 ? from[1] - 128u : 0;
    if (size < 2 || digits > 2 || size < 2 + digits || from[1] == 128) {
        return 0;
    }
    *length = digits == 0 ? from[1] : digits == 1 ? from[2] : (size_t)from[2] << 8 | from[3];
    return *length <= size - 2 - digits ? 2 + digits : 0;
}

/* The octets in which a length is written, perhaps more than it needs; none where one octet is the length itself. */
static size_t digits_of(size_t length)
{
    size_t least = length > 255 ? 2 : length > 127 ? 1 : 0, digits = any(6);
    return digits > 4 || digits < least ? least : digits;
}

/* Writes elements with the same content, their lengths in any form: their size. */
static size_t written(uint8_t *to, const uint8_t *from, size_t size)
{
    size_t length = 0, done = 0, head;
    for (; (head = head_of(from, size, &length)) > 0; from += head + length, size -= head + length) {
        uint8_t *content = to + done + 6;
        size_t anew = length;
        if ((from[0] & 0x20) != 0) {
            anew = written(content, from + head, length);
        } else {
            memcpy(content, from + head, length);
        }
        size_t digits = digits_of(anew);
        long_forms += digits > 0;
        to[done] = from[0];
        to[done + 1] = (uint8_t)(digits > 0 ? 128 + digits : anew);
        for (size_t at = 0; at < digits; at++) {
            to[done + 2 + at] = (uint8_t)(anew >> 8 * (digits - 1 - at));
        }
        memmove(to + done + 2 + digits, content, anew);
        done += 2 + digits + anew;
    }
    memcpy(to + done, from, size);
    return done + size;
}

/* A message of these parts with another community, kind or form of its lengths. */
static size_t spelled_anew(uint8_t *to, const uint8_t *octets, size_t size)
{
    static uint8_t inner[4 * DATAGRAM_MOST];
    const uint8_t *community = any(2) != 0 ? communities.writer : communities.reader;
    size_t length = community == communities.writer ? communities.writer_size : communities.reader_size;
    size_t begin = size < 5 || octets[1] < 0x81 ? 2 : octets[1] == 0x81 ? 3 : 4, at = 0;
    if (size < begin + 5 || begin + 5 + octets[begin + 4] >= size || octets[begin + 4] > 127) {
        memcpy(to, octets, size);
        return size;
    }
    const uint8_t *pdu = octets + begin + 5 + octets[begin + 4];
    memcpy(inner, octets + begin, 3);
    inner[3] = 4;
    inner[4] = (uint8_t)length;
    memcpy(inner + 5, community, length);
    at = 5 + length;
    at += written(inner + at, pdu, size - (size_t)(pdu - octets));
    if (any(8) == 0 && at > 5 + length) {
        inner[5 + length] = (uint8_t)(GET + any(5));
    }
    to[0] = 0x30;
    to[1] = 0x82;
    to[2] = (uint8_t)(at >> 8);
    to[3] = (uint8_t)at;
    memcpy(to + 4, inner, at);
    return at + 4;
}

/* ---- what both signs are */

static size_t asked(struct wisangub_sign *sign, const uint8_t *octets, size_t size, uint8_t *reply)
{
    size_t told = 0;
    return wisangub_sign_receive(sign, octets, size, reply, DATAGRAM_MOST, &told) == WISANGUB_DONE ? told : 0;
}

/* The next name and all that is behind it of the reply to a GetNext; null where there is no next one. */
static const uint8_t *next_name(const uint8_t *reply, size_t size, size_t community)
{
    const uint8_t *at = reply, *end = reply + size;
    at += at[1] < 128 ? 2 : at[1] - 126;
    at += 3 + 2 + community;
    at += at[1] < 128 ? 2 : at[1] - 126;
    at += 2 + at[1];
    if (at[2] != 0) {
        return NULL;
    }
    at += 6;
    for (int element = 0; element < 2; element++) {
        at += at[1] < 128 ? 2 : at[1] - 126;
    }
    return at < end ? at : NULL;
}

/* A GetNext of the reader's of a name as an element. */
static size_t get_next(uint8_t *to, const uint8_t *name)
{
    size_t length = (size_t)name[1] + 2, community = communities.reader_size, at = 0;
    const uint8_t pdu[] = {0xA1, (uint8_t)(length + 15), 2, 1, 1, 2, 1, 0, 2, 1, 0, 0x30, (uint8_t)(length + 4),
                           0x30, (uint8_t)(length + 2)};
    const uint8_t head[] = {0x30, (uint8_t)(5 + community + sizeof pdu + length + 2), 2, 1, 0, 4, (uint8_t)community};
    memcpy(to, head, sizeof head);
    memcpy(to + sizeof head, communities.reader, community);
    at = sizeof head + community;
    memcpy(to + at, pdu, sizeof pdu);
    memcpy(to + at + sizeof pdu, name, length);
    memcpy(to + at + sizeof pdu + length, "\5", 2);
    return at + sizeof pdu + length + 2;
}

/* All objects of both signs, one after the other: how many. */
static size_t walk(void)
{
    static uint8_t replies[2][DATAGRAM_MOST];
    uint8_t name[NAME_MOST] = {6, 1, 0x2B}, request[DATAGRAM_MOST];
    for (size_t count = 0;; count++) {
        size_t size = get_next(request, name), first = asked(&one, request, size, replies[0]);
        size_t second = asked(&two, request, size, replies[1]);
        if (first != second || first == 0 || memcmp(replies[0], replies[1], first) != 0) {
            wrong("objects differ", replies[0], first);
        }
        const uint8_t *next = next_name(replies[0], first, communities.reader_size);
        if (next == NULL || next[1] > NAME_MOST - 2) {
            return count;
        }
        memcpy(name, next, (size_t)next[1] + 2);
    }
}

/* What a sign shows, in words. */
static void spell(struct wisangub_sign *sign, char spelled[SPELLED])
{
    struct wisangub_shown shown = {0};
    wisangub_sign_shown(sign, &shown);
    snprintf(spelled, SPELLED, "%" PRIu32 " %u %u %u %u %u %u %u", shown.minutes, shown.number, shown.checksum,
             shown.memory, shown.mode, shown.priority, shown.beacon, shown.pixel);
}

static void compare(const uint8_t *octets, size_t size)
{
    char first[SPELLED], second[SPELLED];
    spell(&one, first);
    spell(&two, second);
    if (strcmp(first, second) != 0) {
        wrong("what is shown differs", octets, size);
    }
}

/* ---- how long a silence may be */

/* A SET of dmsTimeCommLoss to so many minutes: its size. */
static size_t set_minutes(uint8_t *to, uint32_t minutes)
{
    static const uint8_t name[] = {6, 13, 0x2B, 6, 1, 4, 1, 0x89, 0x36, 4, 2, 3, 6, 13, 0};
    uint8_t value[] = {2, 3, (uint8_t)(minutes >> 16), (uint8_t)(minutes >> 8), (uint8_t)minutes};
    size_t digits = minutes > 32767 ? 3 : minutes > 127 ? 2 : 1, length = sizeof name + 2 + digits;
    size_t community = communities.writer_size, at = 7 + community;
    const uint8_t pdu[] = {SET, (uint8_t)(length + 13), 2, 1, 0, 2, 1, 0, 2, 1, 0, 0x30, (uint8_t)(length + 2),
                           0x30, (uint8_t)length};
    const uint8_t head[] = {0x30, (uint8_t)(5 + community + sizeof pdu + length), 2, 1, 0, 4, (uint8_t)community};
    memcpy(to, head, sizeof head);
    memcpy(to + sizeof head, communities.writer, community);
    memcpy(to + at, pdu, sizeof pdu);
    memcpy(to + at + sizeof pdu, name, sizeof name);
    to[at + sizeof pdu + sizeof name] = 2;
    to[at + sizeof pdu + sizeof name + 1] = (uint8_t)digits;
    memcpy(to + at + sizeof pdu + sizeof name + 2, value + 5 - digits, digits);
    return at + sizeof pdu + length;
}

/* A sign says on which silences it acts. */
static void limits(void)
{
    static const uint32_t minutes[] = {1, 5, 127, 128, 300, 32767, 32768, 65535, 0};
    static uint8_t request[DATAGRAM_MOST], reply[DATAGRAM_MOST];
    for (size_t at = 0; at < sizeof minutes / sizeof *minutes; at++) {
        size_t size = set_minutes(request, minutes[at]);
        asked(&one, request, size, reply);
        asked(&two, request, size, reply);
        if (datagram_kind(request, size, &communities) != DATAGRAM_SETS
            || silence_limit(&one, &communities) != 60 * (uint64_t)minutes[at]) {
            wrong("the limit of a silence", request, size);
        }
    }
}

/* ---- */

static void note(char letter, const uint8_t *octets, size_t size)
{
    if (lines != NULL) {
        static char line[10 + 2 * sizeof made];
        fprintf(lines, "%c ", letter);
        fwrite(line, 1, datagram_line(line, octets, size), lines);
    }
}

static void hear(const uint8_t *octets, size_t size)
{
    static uint8_t reply[DATAGRAM_MOST];
    enum datagram_kind kind = datagram_kind(octets, size, &communities);
    note("uas"[kind], octets, size);
    size_t told = asked(&one, octets, size, reply);
    kinds[kind]++;
    if ((kind == DATAGRAM_UNHEARD) != (told == 0)) {
        wrong(told == 0 ? "not answered" : "answered", octets, size);
    }
    if (kind == DATAGRAM_ASKS) {
        wisangub_sign_heard(&two);
    } else if (kind == DATAGRAM_SETS) {
        asked(&two, octets, size, reply);
    }
    compare(octets, size);
}

/* Both signs at once: seconds, and losses of power that are over at once. */
static void pass(void)
{
    uint64_t ticks = any(8) == 0 ? any(200) : any(3);
    for (uint64_t second = 0; second < ticks; second++) {
        wisangub_sign_tick(&one);
        wisangub_sign_tick(&two);
    }
    if (lines != NULL) {
        fprintf(lines, "t ticks %" PRIu64 "\n", ticks);
    }
    if (any(100) == 0) {
        uint32_t seconds = (uint32_t)any(100);
        if (lines != NULL) {
            fprintf(lines, "t power-lost\nt power-back %" PRIu32 "\n", seconds);
        }
        wisangub_sign_power_lost(&one);
        wisangub_sign_power_lost(&two);
        wisangub_sign_power_back(&one, seconds);
        wisangub_sign_power_back(&two, seconds);
    }
}

int main(int words, char **word)
{
    char digest[65];
    size_t objects = 0;
    if (words != 4 && words != 5) {
        fputs("usage: heard_test DESCRIPTION COUNT SEED [FILE]\n", stderr);
        return 2;
    }
    lines = words == 5 ? fopen(word[4], "w") : NULL;
    make_sign(&one, word[1], digest);
    make_sign(&two, word[1], digest);
    communities = communities_of(&one);
    limits();
    uint64_t count = strtoull(word[2], NULL, 10), seeds = mutations_begin(strtoull(word[3], NULL, 10));
    for (uint64_t done = 0; seeds > 0 && done < count; done++) {
        size_t size = 0;
        uint8_t *octets = any(3) == 0 ? unchanged(&size) : mutated(&size);
        if (any(2) == 0) {
            hear(octets, size);
        } else {
            hear(made, spelled_anew(made, octets, size));
        }
        free(octets);
        pass();
        objects += done % WALKED == 0 && lines == NULL ? walk() : 0;
    }
    printf("%" PRIu64 " unheard, %" PRIu64 " asks, %" PRIu64 " sets, %" PRIu64 " in long forms, %zu objects\n",
           kinds[DATAGRAM_UNHEARD], kinds[DATAGRAM_ASKS], kinds[DATAGRAM_SETS], long_forms, objects);
    wisangub_sign_free(&one);
    wisangub_sign_free(&two);
    return lines != NULL && fclose(lines) != 0;
}
