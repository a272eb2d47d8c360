/*
 * Firmware with brightness: dimming DESCRIPTION. A manager sets dmsIllumManLevel and dmsIllumControl, and firmware makes a
 * dimming value of the lamps of them; each second it publishes a photocell and two temperatures. A line of standard
 * input is a second: it is empty, or the hexadecimal digits of a datagram that comes in it, whose reply is printed so.
 * Then comes a line of what firmware did. Sensors and lamps are played at the two places that a machine has others.
 */
#include <inttypes.h>
#include <stdio.h>
#include <string.h>

#include "described.h"
#include "lines.h"
#include "names.h"
#include "wisangub.h"

enum { LEVELS = 15, DIMMING_MOST = 255, PHOTOCELL_MOST = 1023, BY_PHOTOCELL = 2, BY_MANAGER = 4 };

/* Below dms of NTCIP 1203. */
#define DMS "1.3.6.1.4.1.1206.4.2.3."

enum object { CONTROL, LEVEL, LEVELS_MOST, CELL_MOST, CELL, LEVEL_NOW, COLDEST, WARMEST, OBJECTS };

/* Those of a manager's are written from least to most; the others firmware publishes anew as they change. */
static const struct {
    const char *name;
    struct wisangub_access access;
    int64_t first;
} objects[OBJECTS] = {
    [CONTROL] = {DMS "7.1.0", {BY_PHOTOCELL, BY_MANAGER, WISANGUB_NUMBERS}, BY_PHOTOCELL}, /* dmsIllumControl */
    [LEVEL] = {DMS "7.6.0", {0, LEVELS, WISANGUB_NUMBERS}, 0},                             /* dmsIllumManLevel */
    [LEVELS_MOST] = {DMS "7.4.0", {0, 0, WISANGUB_READ_ONLY}, LEVELS},        /* dmsIllumNumBrightLevels */
    [CELL_MOST] = {DMS "7.2.0", {0, 0, WISANGUB_READ_ONLY}, PHOTOCELL_MOST},  /* dmsIllumMaxPhotocellLevel */
    [CELL] = {DMS "7.3.0", {0, 0, WISANGUB_READ_ONLY}, 0},                    /* dmsIllumPhotocellLevelStatus */
    [LEVEL_NOW] = {DMS "7.5.0", {0, 0, WISANGUB_READ_ONLY}, 0},               /* dmsIllumBrightLevelStatus */
    [COLDEST] = {DMS "9.9.1.0", {0, 0, WISANGUB_READ_ONLY}, 0},               /* tempMinCtrlCabinet, in degrees */
    [WARMEST] = {DMS "9.9.2.0", {0, 0, WISANGUB_READ_ONLY}, 0},               /* tempMaxCtrlCabinet, in degrees */
};

static struct wisangub_sign sign = {NULL};
static struct name names[OBJECTS];
static int64_t control = BY_PHOTOCELL, level = 0;

/* ---- the machine */

/* What the sensors measure in a second. */
static int64_t measured(enum object object, uint32_t second)
{
    return object == CELL ? (int64_t)(100 * second) % (PHOTOCELL_MOST + 1) : 20 + (object == WARMEST) * (second % 10);
}

/* How bright the lamps are from now on, 0 to DIMMING_MOST. */
static void dim(int64_t value) { printf(" dimming %" PRId64 "\n", value); }

/* ---- objects */

/* An object that there is no memory for reads what it did. */
static void publish(enum object object, int64_t number)
{
    struct wisangub_value value = {number, WISANGUB_INTEGER};
    if (wisangub_sign_publish(&sign, names[object].octets, names[object].size, &value, NULL, 0, &objects[object].access)
        != WISANGUB_DONE) {
        fprintf(stderr, "dimming: %s is not published\n", objects[object].name);
    }
}

static void publish_all(void)
{
    for (enum object object = 0; object < OBJECTS; object++) {
        names[object] = name_of(objects[object].name);
        publish(object, objects[object].first);
    }
}

/* What managers set, once for each object; without room for a name or a number, which there is here, it would wait. */
static void take(void)
{
    struct name name;
    struct wisangub_value value;
    size_t size = 0;
    while (wisangub_sign_taken(&sign, name.octets, sizeof name.octets, &name.size, &value, NULL, 0, &size)
           == WISANGUB_DONE) {
        if (names_are_same(&name, &names[CONTROL])) {
            control = value.number;
        } else if (names_are_same(&name, &names[LEVEL])) {
            level = value.number;
        }
    }
}

/* ---- a second */

static void hear(const char *digits, size_t count)
{
    static uint8_t datagram[WISANGUB_DATAGRAM], reply[WISANGUB_DATAGRAM];
    struct line line = {.digits = digits, .count = count};
    size_t size = line_octets(&line, datagram, sizeof datagram), sent = 0;
    if (size > 0 && wisangub_sign_receive(&sign, datagram, size, reply, sizeof reply, &sent) == WISANGUB_DONE) {
        for (size_t at = 0; at < sent; at++) {
            printf("%02x", reply[at]);
        }
        putchar('\n');
    }
}

/* A second passes: firmware publishes what it measured, answers who asks, and dims the lamps. */
static void pass(uint32_t second, const char *digits, size_t count)
{
    int64_t light = measured(CELL, second), coldest = measured(COLDEST, second), warmest = measured(WARMEST, second);
    wisangub_sign_tick(&sign);
    publish(CELL, light);
    publish(COLDEST, coldest);
    publish(WARMEST, warmest);
    hear(digits, count);
    take();
    int64_t shown = control == BY_MANAGER ? level : light * LEVELS / PHOTOCELL_MOST;
    publish(LEVEL_NOW, shown);
    printf("second %" PRIu32 " photocell %" PRId64 " cabinet %" PRId64 " %" PRId64 " level %" PRId64, second, light,
           coldest, warmest, shown);
    dim(shown * DIMMING_MOST / LEVELS);
}

int main(int count, char **words)
{
    static char line[2 * WISANGUB_DATAGRAM + 2];
    char digest[65];
    if (count != 2) {
        return fputs("usage: dimming DESCRIPTION\n", stderr), 2;
    }
    make_sign(&sign, words[1], digest);
    publish_all();
    for (uint32_t second = 1; fgets(line, sizeof line, stdin) != NULL; second++) {
        pass(second, line, strcspn(line, "\n"));
    }
    wisangub_sign_free(&sign);
    return 0;
}
