/* Which time it is, by the wall clock and since the machine's boot. */
#ifndef MOMENTS_H
#define MOMENTS_H

#include <stdint.h>

/* A moment, and the boot that it is of: its kernel's id, or `-` where there is none. */
struct moment {
    char boot[64];
    int64_t wall, up; /* seconds since 1970, and since the boot */
};

/* The seconds since the machine's boot, with those in which it slept. */
double running(void);

/* The moment of so many seconds since the boot. */
struct moment moment_at(double up);

/* Whether both are of one boot. Where no boot has an id it is one as long as the seconds since it do not go back. */
int is_same_boot(const struct moment *last, const struct moment *now);

/*
 * The seconds between both by the wall clock, at most 2^32 - 1: so many too where it went back, or where the first one
 * is before 2020, since then nobody had set the clock. A long loss of power is the safe side.
 */
uint32_t seconds_by_wall(const struct moment *last, const struct moment *now);

/* The seconds between both: since the boot where it is one, else by the wall clock. */
uint32_t seconds_between(const struct moment *last, const struct moment *now);

#endif
