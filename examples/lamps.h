/* The interface of a panel's driver, and two drivers: an SPI panel, and one with a HUB75 connector. */
#ifndef LAMPS_H
#define LAMPS_H

#include <stdint.h>

enum { ROWS_MOST = 64, ROW_LAMPS = 256 };

/* Rows from the top; in each a bit a lamp, from the left in the highest bit of the first octet. */
struct frame {
    uint8_t rows[ROWS_MOST][ROW_LAMPS / 8];
};

/* A driver begins with this. */
struct lamps {
    unsigned width, height;
    int (*light)(struct lamps *lamps, const struct frame *frame); /* 1 where the panel took the frame, else 0 */
};

/* A panel that keeps a frame: the octets of its rows one after the other in one write, as to /dev/spidev0.0. */
struct spi_panel {
    struct lamps lamps;
    int file;
};

struct spi_panel spi_panel(int file, unsigned width, unsigned height);

/* The pins of a HUB75 connector. The lamps are dark while HUB75_DARK (OE) is high; HUB75_ADDRESS is the lowest of five
 * bits, A to E. */
enum {
    HUB75_UPPER = 7,  /* R1, G1, B1 */
    HUB75_LOWER = 56, /* R2, G2, B2 */
    HUB75_CLOCK = 64,
    HUB75_LATCH = 128,
    HUB75_DARK = 256,
    HUB75_ADDRESS = 512
};

/* A panel that has to be scanned: two rows are lit at a time, one of each half. */
struct hub75 {
    struct lamps lamps;
    unsigned scanned; /* rows of a half of the panel: 8, 16 or 32 */
    unsigned colour;  /* of the lamps: some of HUB75_UPPER, and the same of HUB75_LOWER */
    void (*set)(void *to, unsigned pins);
    void *to;
    struct frame frame;
};

/* Amber ones: red and green. */
struct hub75 hub75(unsigned width, unsigned height, unsigned scanned, void (*set)(void *to, unsigned pins), void *to);

/* Lights each pair of rows once: for a timer that calls it some 200 times a second. `set` decides how long a pair is
 * lit, and so how bright the panel is: it waits where HUB75_DARK goes low. */
void hub75_scan(const struct hub75 *hub75);

#endif
