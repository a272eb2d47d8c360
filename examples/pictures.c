#include "pictures.h"

#include <string.h>

enum { NO_PAGE = -1 };

/* Draws a layer of the pages one row after the other, and returns the octets that it has. */
static size_t layer_draw(const struct picture *picture, uint8_t *octets, enum wisangub_layer layer,
                         const struct wisangub_sign *sign)
{
    struct wisangub_page page;
    size_t at = 0, size = 0;
    for (size_t number = 0; wisangub_sign_page_times(sign, number, &page) == WISANGUB_DONE; number++) {
        octets[at++] = page.on;
        octets[at++] = page.off;
        octets[at++] = page.background;
        for (uint16_t y = 0; y < picture->height; y++, at += picture->width) {
            wisangub_sign_page_row(sign, number, y, layer, octets + at, picture->width, &size);
        }
    }
    return at;
}

void picture_draw(struct picture *picture, const struct wisangub_sign *sign)
{
    wisangub_sign_matrix(sign, &picture->width, &picture->height);
    for (int layer = 0; layer < LAYERS; layer++) {
        picture->size = layer_draw(picture, picture->layers[layer], (enum wisangub_layer)layer, sign);
    }
}

static size_t page_size(const struct picture *picture)
{
    return WISANGUB_PAGE_HEAD + (size_t)picture->width * picture->height;
}

/* The page that is up, and since when; NO_PAGE in the time after a page. */
static int page_up(const struct picture *picture, uint64_t *tenth)
{
    const uint8_t *looks = picture->layers[WISANGUB_LOOK];
    size_t size = page_size(picture);
    int count = (int)(picture->size / size);
    uint64_t round = 0;
    for (int page = 0; page < count; page++) {
        round += looks[(size_t)page * size] + (uint64_t)looks[(size_t)page * size + 1];
    }
    if (round == 0 || (count == 1 && looks[1] == 0)) {
        return count - 1;
    }
    *tenth %= round;
    for (int page = 0; page < count; page++) {
        uint8_t on = looks[(size_t)page * size], off = looks[(size_t)page * size + 1];
        if (*tenth < on) {
            return page;
        }
        *tenth -= on;
        if (*tenth < off) {
            return NO_PAGE;
        }
        *tenth -= off;
    }
    return NO_PAGE;
}

/* Whether what flashes is lit so many tenths after its page came up. */
static int is_lit(uint8_t look, uint8_t lit, uint8_t dark, uint64_t tenth)
{
    if (!(look & WISANGUB_FLASHES) || lit + dark == 0) {
        return 1;
    }
    uint64_t at = tenth % (uint64_t)(lit + dark);
    return look & WISANGUB_DARK_FIRST ? at >= dark : at < lit;
}

void picture_frame(const struct picture *picture, uint64_t tenth, struct frame *frame)
{
    memset(frame, 0, sizeof *frame);
    int page = picture->size > 0 ? page_up(picture, &tenth) : NO_PAGE;
    for (size_t y = 0; page != NO_PAGE && y < picture->height; y++) {
        size_t begin = (size_t)page * page_size(picture) + WISANGUB_PAGE_HEAD + y * picture->width, size = 0;
        uint8_t looks[ROW_LAMPS];
        for (size_t x = 0; x < picture->width; x++) {
            uint8_t look = picture->layers[WISANGUB_LOOK][begin + x];
            uint8_t lit = picture->layers[WISANGUB_FLASH_LIT][begin + x];
            uint8_t dark = picture->layers[WISANGUB_FLASH_DARK][begin + x];
            looks[x] = is_lit(look, lit, dark, tenth) ? look : 0;
        }
        wisangub_row_bits(looks, picture->width, frame->rows[y], sizeof frame->rows[y], &size);
    }
}
