/*
 * The records of a journal, changed: records_test [STEP]. Each bit of the last ten records and 2,000 of others is
 * flipped, each sector zeroed, and the last writes are cut by sectors, in each order and with each older state of the
 * first one. What was acknowledged is never dropped silently, and what no disk had is never refused. Silences that wait
 * are told as lines that do the same. With STEP every so many trials are made. It prints `ok`, or what does not hold.
 */
#include <inttypes.h>
#include <stdio.h>
#include <stdlib.h>
#include <string.h>

#include "lines.h"
#include "records.h"
#include "tails.h"
#include "waits.h"

enum { TEXT_MOST = 1 << 20, RECORDS_MOST = 4000, SECTOR = 512, OTHER_FLIPS = 2000, SECTORS_MOST = 11 };

static char text[TEXT_MOST], changed[TEXT_MOST];
static struct record records[RECORDS_MOST];
static size_t size, count, step = 1;
static uint64_t synced, random_state = 88172645463325252u;

static uint64_t any(uint64_t below)
{
    random_state ^= random_state << 13;
    random_state ^= random_state >> 7;
    random_state ^= random_state << 17;
    return random_state % below;
}

static void wrong(const char *what, size_t at, size_t found)
{
    printf("%s: at %zu of %zu octets: %zu\n", what, at, size, found);
    exit(1);
}

/* ---- a journal in memory */

static void write_line(const char *line, size_t length)
{
    uint64_t number = count + 1;
    size_t made = record_made(text + size, line, length, number, synced + 1);
    records[count++] = (struct record){size, size + made, number, synced + 1};
    size += made;
}

static void write_word(const char *word) { write_line(word, strlen(word)); }

static void write_datagram(size_t octets)
{
    static char line[4096] = "datagram ";
    for (size_t at = 0; at < 2 * octets; at++) {
        line[9 + at] = "0123456789abcdef"[any(16)];
    }
    write_line(line, 9 + 2 * octets);
}

static void synchronise(void) { synced = count; }

static void begin(void)
{
    size = count = synced = 0;
    write_word("journal 2 sign rules 1 description bench");
    write_word("start 174002b2-8f8c-4618-9c4d-5080554ba94a 1795543676 1242");
    write_word("clock 1795543676 1242");
    synchronise();
}

/* Seconds and a silence without a sync, and then datagrams with one. */
static void live(size_t datagrams, size_t most)
{
    char ticks[32];
    snprintf(ticks, sizeof ticks, "ticks %u", (unsigned)any(100) + 1);
    write_word(ticks);
    if (any(3) == 0) {
        write_word("heard");
    }
    for (; datagrams > 0; datagrams--) {
        write_datagram(1 + any(most));
    }
    synchronise();
}

/* ---- what a reader finds */

static enum tail read_changed(size_t length, size_t *whole, uint64_t *found)
{
    *whole = records_whole(changed, length, found);
    return tail_of(changed, length, *whole, *found + 1);
}

static size_t record_at(size_t octet)
{
    size_t at = 0;
    while (records[at].end <= octet) {
        at++;
    }
    return at;
}

static void flip(size_t octet, int bit)
{
    size_t whole = 0;
    uint64_t found = 0;
    size_t at = record_at(octet);
    changed[octet] = (char)(changed[octet] ^ 1 << bit);
    enum tail tail = read_changed(size, &whole, &found);
    changed[octet] = (char)(changed[octet] ^ 1 << bit);
    if (tail != TAIL_DAMAGED || whole != records[at].begin || found != at) {
        wrong("a flipped bit", octet, (size_t)tail);
    }
}

static void flips(void)
{
    memcpy(changed, text, size);
    size_t last = records[count > 10 ? count - 10 : 1].begin;
    for (size_t octet = last; octet < size; octet += step) {
        for (int bit = 0; bit < 8; bit++) {
            flip(octet, bit);
        }
    }
    for (size_t times = 0; times < OTHER_FLIPS; times += step) {
        size_t first = records[0].end;
        flip(first + any(last - first), (int)any(8));
    }
}

/* Each sector zeroed: damaged, but where no record behind says that it was on the disk. */
static void zero_sectors(void)
{
    for (size_t sector = 0; sector < size; sector += SECTOR) {
        size_t end = sector + SECTOR < size ? sector + SECTOR : size, whole = 0;
        size_t at = record_at(sector > records[0].end ? sector : records[0].end);
        uint64_t found = 0;
        enum tail wanted = TAIL_TORN;
        if (sector < records[0].end) {
            continue;
        }
        for (size_t behind = at; behind < count; behind++) {
            if (records[behind].begin >= end && records[behind].since > at + 1) {
                wanted = TAIL_DAMAGED;
            }
        }
        memcpy(changed, text, size);
        memset(changed + sector, 0, end - sector);
        enum tail tail = read_changed(size, &whole, &found);
        if (tail != wanted || whole != records[at].begin || found != at) {
            wrong("a zeroed sector", sector, (size_t)tail);
        }
    }
}

/* The last writes, from `base` on, of which the disk has the sectors of `had` alone, and of the first one what it had
 * when `old` octets were written. */
static void cut(size_t base, size_t old, unsigned had, size_t length)
{
    size_t first = base - base % SECTOR, whole = 0, wanted = 0;
    uint64_t found = 0;
    memcpy(changed, text, old);
    memset(changed + old, 0, length - old);
    for (size_t sector = first, bit = 0; sector < length; sector += SECTOR, bit++) {
        size_t end = sector + SECTOR < length ? sector + SECTOR : length;
        if ((had >> bit & 1) != 0) {
            memcpy(changed + sector, text + sector, end - sector);
        }
    }
    for (size_t at = 0; at < count && memcmp(changed, text, records[at].end < length ? records[at].end : length) == 0
                        && records[at].end <= length; at++) {
        wanted = records[at].end;
    }
    enum tail tail = read_changed(length, &whole, &found);
    if (tail == TAIL_DAMAGED || whole != wanted || whole < base || (tail == TAIL_NONE) != (whole == length)) {
        printf("sectors %x from %zu on, %zu before: ", had, base, old);
        wrong("writes that were cut", length, (size_t)tail);
    }
}

/* The same with each older state of the first sector, which ends with a record. */
static void cut_older(size_t base, size_t base_count, unsigned had, size_t length)
{
    size_t end = base - base % SECTOR + SECTOR;
    for (size_t at = base_count; at < count && records[at].end < end; at++) {
        if (records[at].end <= length) {
            cut(base, records[at].end, had, length);
        }
    }
}

/* What follows the last sync but one, with the sectors of it that the disk has in each order. */
static void cuts(size_t base_count)
{
    size_t base = records[base_count - 1].end, first = base - base % SECTOR;
    size_t sectors = (size - first + SECTOR - 1) / SECTOR;
    if (sectors > SECTORS_MOST) {
        wrong("sectors of the last writes", base, sectors);
    }
    for (unsigned had = 0; had < 1u << sectors; had += (unsigned)step) {
        for (size_t length = base; length < size; length += SECTOR - length % SECTOR) {
            cut(base, base, had, length);
            cut_older(base, base_count, had, length);
        }
        cut(base, base, had, size);
        cut_older(base, base_count, had, size);
    }
}

/* Octets of the last write that a kill left: each front of it. */
static void fronts(size_t base_count)
{
    memcpy(changed, text, size);
    for (size_t length = records[base_count - 1].end; length < size; length++) {
        size_t whole = 0;
        uint64_t found = 0;
        if (read_changed(length, &whole, &found) == TAIL_DAMAGED || whole < records[base_count - 1].end) {
            wrong("a front of the last write", length, whole);
        }
    }
}

/* The last record's newline is the first octet of a sector that the disk never had. */
static void lost_sector(void)
{
    size_t whole = 0;
    uint64_t found = 0;
    do {
        begin();
        live(1, 300);
    } while ((size - 1) % SECTOR != 0);
    for (size_t length = size; length < size + SECTOR; length += SECTOR - 1) {
        memcpy(changed, text, size - 1);
        memset(changed + size - 1, 0, SECTOR);
        enum tail tail = read_changed(length, &whole, &found);
        if (tail != TAIL_TORN || found != count - 1) {
            wrong("a newline in a sector of zeros", length, (size_t)tail);
        }
    }
}

/* The last record's newline is a zero, and the sector has more than that. */
static void zero_newline(void)
{
    size_t whole = 0;
    uint64_t found = 0;
    do {
        begin();
        live(1, 300);
    } while ((size - 1) % SECTOR == 0);
    memcpy(changed, text, size);
    changed[size - 1] = '\0';
    enum tail tail = read_changed(size, &whole, &found);
    if (tail != TAIL_DAMAGED || found != count - 1) {
        wrong("a newline that is a zero", size, (size_t)tail);
    }
}

/* What no record follows is one write at most. */
static void long_tail(void)
{
    enum { WRITE_MOST = 1 << 20 };
    static char large[TEXT_MOST + WRITE_MOST];
    uint64_t found = 0;
    begin();
    memcpy(large, text, size);
    memset(large + size, 'x', WRITE_MOST + 1);
    size_t whole = records_whole(large, size + WRITE_MOST + 1, &found);
    for (size_t more = 0; more < 2; more++) {
        enum tail wanted = more == 0 ? TAIL_TORN : TAIL_DAMAGED;
        enum tail tail = tail_of(large, size + WRITE_MOST + more, whole, found + 1);
        if (tail != wanted || whole != size) {
            wrong("a tail of more than a write", size + WRITE_MOST + more, (size_t)tail);
        }
    }
}

/* ---- journals of several ends */

static void try_end(size_t datagrams, size_t most, int is_unsynced)
{
    begin();
    for (int times = 0; times < 25; times++) {
        live(1 + any(3), any(8) == 0 ? 300 : 40);
    }
    size_t base = count;
    live(datagrams, most);
    if (is_unsynced) {
        base = count;
        write_word("ticks 7");
        write_word("heard");
        write_word("ticks 53");
        write_word("clock 1795543736 1302");
    }
    flips();
    zero_sectors();
    cuts(base);
    fronts(base);
}

/* ---- silences that wait */

/* What seconds and ends of silences do to a sign: a duration that ends, and what it shows after a silence, by a code. */
struct sign {
    uint64_t left, silence, limit, code, shown;
};

static void tick(struct sign *sign)
{
    sign->shown = sign->left == 1 ? 1 : sign->shown;
    sign->left -= sign->left > 0;
    if (sign->silence < sign->limit && ++sign->silence == sign->limit) {
        sign->shown = sign->code;
        sign->left = 0;
    }
}

static void hand(struct sign *sign, const char *lines, size_t length)
{
    struct line line;
    for (size_t at = 0, end; at < length; at = end) {
        end = line_end(lines, length, at);
        if (line_read(lines + at, end - at - 1, &line) == LINE_HEARD) {
            sign->silence = 0;
        }
        for (uint64_t second = 0; line.kind == LINE_TICKS && second < line.seconds; second++) {
            tick(sign);
        }
    }
}

static void told(struct sign *sign, struct waits *waits)
{
    char lines[256];
    hand(sign, lines, waits_lines(waits, lines, sizeof lines));
}

static void look(const struct sign *one, const struct sign *two)
{
    if (memcmp(one, two, sizeof *one) != 0) {
        wrong("silences that waited", (size_t)one->limit, (size_t)two->silence);
    }
}

/* A datagram changes the sign, once all that waits is told. */
static void change(struct sign *one, struct sign *two, struct waits *waits)
{
    while (!waits_are_over(waits)) {
        told(two, waits);
    }
    look(one, two);
    one->left = any(2) != 0 ? any(900) : one->left;
    one->limit = 60 * any(4);
    one->code = 2 + any(3);
    one->silence = 0;
    *two = *one;
}

/* Seconds and silences of any lengths, as they pass, and as they are told when parts of them are. */
static void silences(void)
{
    struct waits waits = {0};
    uint64_t limit = 60 * any(4), most = any(2) != 0 ? 70 : 250;
    struct sign one = {any(900), any(limit + 1), limit, 2, 0}, two = one;
    for (uint64_t times = any(60); times > 0; times--) {
        uint64_t seconds = any(most);
        for (uint64_t second = 0; second < seconds; second++) {
            tick(&one);
        }
        waits_passed(&waits, seconds);
        if (any(3) != 0) {
            one.silence = 0;
            waits_heard(&waits, one.limit);
        }
        if (any(20) == 0) {
            told(&two, &waits);
        }
        if (any(20) == 0) {
            change(&one, &two, &waits);
        }
    }
    while (!waits_are_over(&waits)) {
        told(&two, &waits);
    }
    look(&one, &two);
}

int main(int words, char **word)
{
    step = words > 1 ? strtoul(word[1], NULL, 10) : 1;
    try_end(1, 40, 0);
    try_end(1, 1472, 0);
    try_end(6, 300, 0);
    try_end(3, 40, 1);
    lost_sector();
    zero_newline();
    long_tail();
    for (size_t times = 0; times < 20000; times += step) {
        silences();
    }
    puts("ok");
    return 0;
}
