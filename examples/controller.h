/* What a controller does at a moment, without a clock, a socket or a panel of its own. */
#ifndef CONTROLLER_H
#define CONTROLLER_H

#include <stdint.h>

#include "lamps.h"
#include "pictures.h"
#include "wisangub.h"

/* Moments are tenths of a second of a clock that goes on while the machine sleeps (CLOCK_BOOTTIME). */
struct controller {
    struct wisangub_sign *sign;
    struct lamps *lamps;
    struct picture picture;
    struct frame frame; /* that the lamps have */
    uint64_t changes;   /* the sign's number of changes when the picture was drawn */
    uint64_t begun;     /* when the picture was new */
    uint64_t told;      /* up to which moment the sign was told its seconds */
    uint64_t lost;      /* when the power was lost */
    uint64_t sent;      /* when the lamps were given a frame */
    int is_drawn;       /* whether a picture was drawn */
    int is_off;         /* whether there is no power */
    int is_lit;         /* whether the lamps took the last frame */
};

/* Shows what a new sign shows, before anyone can ask it. */
void controller_begin(struct controller *controller, struct wisangub_sign *sign, struct lamps *lamps, uint64_t now);

/* Tells the sign the seconds that have passed, those that were missed too: how many. */
uint32_t controller_pass(struct controller *controller, uint64_t now);

/* The power-fail input: without power the lamps are dark at once, so that what is left lasts. */
void controller_power(struct controller *controller, int is_on, uint64_t now);

/*
 * Gives the lamps what the sign shows at this moment. Where there is no memory to draw it they go on with what was
 * drawn last. A frame is sent where it is another one, and once in a second, for a panel that was without power.
 */
void controller_show(struct controller *controller, uint64_t now);

#endif
