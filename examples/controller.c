#include "controller.h"

#include <string.h>

enum { SECOND = 10 };

/* Another picture is drawn, and begins. */
static void draw(struct controller *controller, uint64_t now)
{
    uint64_t changes = 0;
    wisangub_sign_changes(controller->sign, &changes);
    if (!controller->is_drawn || changes != controller->changes) {
        picture_draw(&controller->picture, controller->sign);
        controller->is_drawn = 1;
        controller->changes = changes;
        controller->begun = now;
    }
}

void controller_show(struct controller *controller, uint64_t now)
{
    struct frame frame = {.rows = {{0}}};
    if (!controller->is_off) {
        draw(controller, now);
        picture_frame(&controller->picture, now - controller->begun, &frame);
    }
    if (controller->is_lit && now < controller->sent + SECOND
        && memcmp(&frame, &controller->frame, sizeof frame) == 0) {
        return;
    }
    controller->is_lit = controller->lamps->light(controller->lamps, &frame);
    controller->frame = frame;
    controller->sent = now;
}

void controller_begin(struct controller *controller, struct wisangub_sign *sign, struct lamps *lamps, uint64_t now)
{
    memset(controller, 0, sizeof *controller);
    controller->sign = sign;
    controller->lamps = lamps;
    controller->told = now;
    controller_show(controller, now);
}

uint32_t controller_pass(struct controller *controller, uint64_t now)
{
    uint64_t passed = now > controller->told ? (now - controller->told) / SECOND : 0;
    uint32_t seconds = passed > UINT32_MAX ? UINT32_MAX : (uint32_t)passed;
    wisangub_sign_ticks(controller->sign, seconds);
    controller->told += (uint64_t)seconds * SECOND;
    return seconds;
}

void controller_power(struct controller *controller, int is_on, uint64_t now)
{
    if (is_on != controller->is_off) {
        return;
    }
    controller->is_off = !is_on;
    if (!is_on) {
        controller->lost = now;
        wisangub_sign_power_lost(controller->sign);
    } else {
        uint64_t seconds = (now - controller->lost) / SECOND;
        wisangub_sign_power_back(controller->sign, seconds > UINT32_MAX ? UINT32_MAX : (uint32_t)seconds);
    }
}
