#include "lamps.h"

#include <string.h>
#include <unistd.h>

enum { AMBER = 3 | 3 << 3 };

static int spi_light(struct lamps *lamps, const struct frame *frame)
{
    struct spi_panel *panel = (struct spi_panel *)lamps;
    size_t stride = (lamps->width + 7) / 8, size = stride * lamps->height;
    uint8_t octets[sizeof *frame];
    for (size_t y = 0; y < lamps->height; y++) {
        memcpy(octets + y * stride, frame->rows[y], stride);
    }
    return write(panel->file, octets, size) == (ssize_t)size;
}

struct spi_panel spi_panel(int file, unsigned width, unsigned height)
{
    return (struct spi_panel){{width, height, spi_light}, file};
}

static int hub75_light(struct lamps *lamps, const struct frame *frame)
{
    ((struct hub75 *)lamps)->frame = *frame;
    return 1;
}

struct hub75 hub75(unsigned width, unsigned height, unsigned scanned, void (*set)(void *to, unsigned pins), void *to)
{
    return (struct hub75){.lamps = {width, height, hub75_light}, .scanned = scanned, .colour = AMBER, .set = set,
                          .to = to};
}

/* The pins that light a lamp of a row, or none of them. */
static unsigned lamp(const struct hub75 *hub75, unsigned y, unsigned x, unsigned pins)
{
    int is_lit = y < hub75->lamps.height && (hub75->frame.rows[y][x / 8] >> (7 - x % 8) & 1);
    return is_lit ? hub75->colour & pins : 0;
}

void hub75_scan(const struct hub75 *hub75)
{
    for (unsigned y = 0; y < hub75->scanned; y++) {
        unsigned dark = y * HUB75_ADDRESS | HUB75_DARK;
        for (unsigned x = 0; x < hub75->lamps.width; x++) {
            unsigned pins = lamp(hub75, y, x, HUB75_UPPER) | lamp(hub75, y + hub75->scanned, x, HUB75_LOWER);
            hub75->set(hub75->to, dark | pins);
            hub75->set(hub75->to, dark | pins | HUB75_CLOCK);
        }
        hub75->set(hub75->to, dark | HUB75_LATCH);
        hub75->set(hub75->to, dark);
        hub75->set(hub75->to, y * HUB75_ADDRESS);
        hub75->set(hub75->to, dark);
    }
}
