/* What a sign shows, as bits of lamps at each tenth of a second. */
#ifndef PICTURES_H
#define PICTURES_H

#include <stddef.h>
#include <stdint.h>

#include "lamps.h"
#include "wisangub.h"

enum { PICTURE_OCTETS = 6 * (WISANGUB_PAGE_HEAD + 256 * 64), LAYERS = 3 };

struct picture {
    uint16_t width, height;
    size_t size;                            /* of each layer; 0 where nothing is drawn yet */
    uint8_t layers[LAYERS][PICTURE_OCTETS]; /* of enum wisangub_layer */
};

/* Draws what the sign shows. No memory is taken, and so nothing can keep it from the lamps. */
void picture_draw(struct picture *picture, const struct wisangub_sign *sign);

/*
 * The lamps that are lit when the picture has been up for so many tenths of a second: the pages take turns, each for
 * its time, and what flashes is lit and dark by turns, from where its page comes up. A picture of one page without a
 * time after it stays, and so does the last of pages without any time. wisangub_sign_due says when it is another one.
 */
void picture_frame(const struct picture *picture, uint64_t tenth, struct frame *frame);

#endif
