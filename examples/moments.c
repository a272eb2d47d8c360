#define _GNU_SOURCE
#include "moments.h"

#include <stdio.h>
#include <string.h>
#include <time.h>

enum { SET = 1577836800 }; /* the begin of 2020: a clock that says less was never set */

double running(void)
{
    struct timespec now;
    clock_gettime(CLOCK_BOOTTIME, &now);
    return (double)now.tv_sec + (double)now.tv_nsec / 1e9;
}

struct moment moment_at(double up)
{
    struct moment found = {.boot = "-", .up = (int64_t)up};
    struct timespec now;
    FILE *file = fopen("/proc/sys/kernel/random/boot_id", "r");
    if (file != NULL) {
        if (fscanf(file, "%63s", found.boot) != 1) {
            strcpy(found.boot, "-");
        }
        fclose(file);
    }
    clock_gettime(CLOCK_REALTIME, &now);
    double wall = (double)now.tv_sec + (double)now.tv_nsec / 1e9 - running() + up;
    found.wall = wall > 0 ? (int64_t)wall : 0;
    return found;
}

int is_same_boot(const struct moment *last, const struct moment *now)
{
    return strcmp(last->boot, now->boot) == 0 && (strcmp(last->boot, "-") != 0 || last->up <= now->up);
}

uint32_t seconds_by_wall(const struct moment *last, const struct moment *now)
{
    int64_t passed = now->wall - last->wall;
    if (passed < 0 || passed > UINT32_MAX || last->wall < SET) {
        return UINT32_MAX;
    }
    return (uint32_t)passed;
}

uint32_t seconds_between(const struct moment *last, const struct moment *now)
{
    int64_t passed = now->up - last->up;
    if (!is_same_boot(last, now)) {
        return seconds_by_wall(last, now);
    }
    return passed < 0 ? 0 : passed < UINT32_MAX ? (uint32_t)passed : UINT32_MAX;
}
