/*
 * A controller whose clock, panels and network are simulated: panel_test DESCRIPTION TENTHS, with texts as digits on
 * standard input, a line each. Each text is published, and for so many tenths of a second the lamps of two panels are
 * printed, a line of digits each: an SPI panel's rows of bits, which are those that the scan of a HUB75 connector
 * lights. What a controller does at power-on, without power, with missed seconds and with a panel that takes no frame
 * is looked at first.
 */
#undef NDEBUG
#define _POSIX_C_SOURCE 200809L
#include <assert.h>
#include <stdio.h>
#include <stdlib.h>
#include <string.h>
#include <unistd.h>

#include "controller.h"
#include "described.h"
#include "publish.h"

enum { LINE_MOST = 2 * 512 + 2, SCANNED = 32 };

/* Panels that are given the same frames, and how many these were. */
struct simulated {
    struct lamps lamps;
    struct spi_panel spi;
    struct hub75 hub75;
    int is_deaf, frames;
};

/* The registers and the lamps of a panel with a HUB75 connector, as its chips have them. */
struct chips {
    uint8_t shifted[2][ROW_LAMPS], latched[2][ROW_LAMPS];
    unsigned pins, lit[2 * SCANNED];
    struct frame frame;
};

static struct wisangub_sign sign = {NULL};
static struct wisangub_centre centre = {NULL};
static struct controller controller;
static struct simulated panels;
static struct chips chips;
static struct frame spi_frame;
static int wire[2];

/* ---- the panels */

/* What the chips do as the pins change: a clock shifts, a latch keeps, and two rows are lit while it is not dark. */
static void set(void *to, unsigned pins)
{
    struct chips *at = to;
    unsigned rises = pins & ~at->pins, width = panels.lamps.width, row = pins / HUB75_ADDRESS;
    for (int half = 0; half < 2; half++) {
        unsigned colours = half ? (pins & HUB75_LOWER) >> 3 : pins & HUB75_UPPER;
        assert(colours == 0 || colours == 3);
        if (rises & HUB75_CLOCK) {
            memmove(at->shifted[half], at->shifted[half] + 1, width - 1);
            at->shifted[half][width - 1] = colours != 0;
        }
        if (rises & HUB75_LATCH) {
            assert(pins & HUB75_DARK);
            memcpy(at->latched[half], at->shifted[half], width);
        }
        if (at->pins & HUB75_DARK && !(pins & HUB75_DARK)) {
            at->lit[row + (unsigned)half * SCANNED]++;
            for (unsigned x = 0; x < width; x++) {
                at->frame.rows[row + (unsigned)half * SCANNED][x / 8] |=
                    (uint8_t)(at->latched[half][x] << (7 - x % 8));
            }
        }
    }
    at->pins = pins;
}

/* The lamps that a scan lights are those of the frame, each row once. */
static void scan(const struct frame *frame)
{
    memset(&chips, 0, sizeof chips);
    chips.pins = HUB75_DARK;
    hub75_scan(&panels.hub75);
    assert(chips.pins & HUB75_DARK);
    for (unsigned y = 0; y < 2 * SCANNED; y++) {
        assert(chips.lit[y] == 1);
    }
    assert(memcmp(&chips.frame, frame, sizeof *frame) == 0);
}

/* Hands a frame to both, and reads what the SPI panel was sent. */
static int light(struct lamps *lamps, const struct frame *frame)
{
    struct simulated *to = (struct simulated *)lamps;
    size_t stride = (lamps->width + 7) / 8, size = stride * lamps->height;
    uint8_t octets[sizeof *frame];
    to->frames++;
    if (to->is_deaf) {
        return 0;
    }
    assert(to->spi.lamps.light(&to->spi.lamps, frame) && to->hub75.lamps.light(&to->hub75.lamps, frame));
    assert(read(wire[0], octets, sizeof octets) == (ssize_t)size);
    memset(&spi_frame, 0, sizeof spi_frame);
    for (size_t y = 0; y < lamps->height; y++) {
        memcpy(spi_frame.rows[y], octets + y * stride, stride);
    }
    assert(memcmp(&spi_frame, frame, sizeof *frame) == 0);
    scan(frame);
    return 1;
}

static int is_dark(void)
{
    static const struct frame dark;
    return memcmp(&spi_frame, &dark, sizeof dark) == 0;
}

/* ---- the controller */

static void publish(const char *text, size_t size, unsigned minutes)
{
    char line[PUBLICATION_MOST];
    struct wisangub_status status = carry_out(&sign, &centre, line, publication(line, text, size, minutes));
    assert(status.last == WISANGUB_DID);
}

/* The first frame is there before anyone can ask, and it is dark: a new sign is blank. */
static void power_on(uint64_t now)
{
    memset(&spi_frame, 1, sizeof spi_frame);
    controller_begin(&controller, &sign, &panels.lamps, now);
    assert(panels.frames == 1 && controller.is_lit && is_dark());
    controller_show(&controller, now + 9);
    assert(panels.frames == 1);
    controller_show(&controller, now + 10);
    assert(panels.frames == 2);
}

/* Seconds are counted by the clock: none is told twice, and those that were missed are told at once. */
static void seconds(uint64_t now)
{
    struct wisangub_shown shown;
    assert(controller_pass(&controller, now + 9) == 0 && controller_pass(&controller, now + 10) == 1);
    assert(controller_pass(&controller, now + 11) == 0 && controller_pass(&controller, now) == 0);
    publish("AB", 2, 2);
    controller_show(&controller, now + 15);
    assert(!is_dark());
    assert(controller_pass(&controller, now + 10 + 1000) == 100);
    controller_show(&controller, now + 1010);
    wisangub_sign_shown(&sign, &shown);
    assert(shown.minutes == 1 && !is_dark());
    assert(controller_pass(&controller, now + 10 + 36000) == 3500);
    controller_show(&controller, now + 36010);
    wisangub_sign_shown(&sign, &shown);
    assert(shown.memory == 7 && is_dark());
}

/* Without power the lamps are dark at once and no datagram is heard; what comes back is what the sign shows then. */
static void power_fails(uint64_t now)
{
    struct wisangub_shown shown;
    publish("AB", 2, 65535);
    controller_show(&controller, now);
    assert(!is_dark());
    controller_power(&controller, 1, now + 1);
    controller_show(&controller, now + 1);
    assert(!is_dark());
    controller_power(&controller, 0, now + 2);
    controller_power(&controller, 0, now + 3);
    controller_show(&controller, now + 3);
    assert(is_dark() && controller.lost == now + 2);
    assert(controller_pass(&controller, now + 20) > 0);
    controller_show(&controller, now + 20);
    assert(is_dark());
    controller_power(&controller, 1, now + 52);
    controller_show(&controller, now + 52);
    wisangub_sign_shown(&sign, &shown);
    assert(is_dark() == (shown.memory == 7));
}

/* A panel that takes no frame is given it again each time, and the frame counts as not lit. */
static void deaf(uint64_t now)
{
    int frames = panels.frames;
    publish("B", 1, 65535);
    panels.is_deaf = 1;
    controller_show(&controller, now);
    controller_show(&controller, now + 1);
    assert(panels.frames == frames + 2 && !controller.is_lit);
    panels.is_deaf = 0;
    controller_show(&controller, now + 2);
    controller_show(&controller, now + 3);
    assert(panels.frames == frames + 3 && controller.is_lit && !is_dark());
}

/* ---- texts */

static void print_frame(void)
{
    for (size_t y = 0; y < panels.lamps.height; y++) {
        for (size_t x = 0; x < (panels.lamps.width + 7) / 8; x++) {
            printf("%02x", spi_frame.rows[y][x]);
        }
    }
    putchar('\n');
}

/* In how many tenths of a second something is due of a message without an end; 0 where it stays as it is. */
static uint64_t due_in(uint64_t tenth)
{
    uint64_t left = 0;
    enum wisangub_answer answer = wisangub_sign_due(&sign, tenth, 0, &left);
    assert(answer == WISANGUB_DONE ? left > 0 : answer == WISANGUB_NOTHING && left == 0);
    return left;
}

/* No lamp changes before it is due, and what is due comes nearer with each tenth of a second. */
static void due(const struct picture *picture, uint64_t tenths)
{
    struct frame frame, next;
    picture_frame(picture, 0, &next);
    for (uint64_t tenth = 0; tenth < tenths; tenth++) {
        uint64_t left = due_in(tenth);
        frame = next;
        picture_frame(picture, tenth + 1, &next);
        assert(left == 1 || memcmp(&frame, &next, sizeof frame) == 0);
        assert(left == 1 || due_in(tenth + 1) == (left == 0 ? 0 : left - 1));
    }
}

/* The times of each page are those that its octets begin with. */
static void times(const struct picture *picture)
{
    size_t page_size = WISANGUB_PAGE_HEAD + (size_t)picture->width * picture->height, number = 0;
    struct wisangub_page page;
    for (; wisangub_sign_page_times(&sign, number, &page) == WISANGUB_DONE; number++) {
        const uint8_t *head = picture->layers[WISANGUB_LOOK] + number * page_size;
        assert(page.on == head[0] && page.off == head[1] && page.background == head[2]);
        assert(page.count * page_size == picture->size);
    }
    assert(number * page_size == picture->size);
}

static void play(const char *digits, uint64_t now, uint64_t tenths)
{
    char text[512];
    size_t size = strcspn(digits, "\n") / 2;
    for (size_t at = 0; at < size; at++) {
        char pair[3] = {digits[2 * at], digits[2 * at + 1], '\0'};
        text[at] = (char)strtoul(pair, NULL, 16);
    }
    publish(text, size, 65535);
    for (uint64_t tenth = 0; tenth < tenths; tenth++) {
        controller_show(&controller, now + tenth);
        print_frame();
    }
    due(&controller.picture, tenths);
    times(&controller.picture);
}

int main(int count, char **words)
{
    static char line[LINE_MOST], digest[65];
    uint8_t community[32];
    uint16_t width = 0, height = 0;
    size_t size = 0;
    if (count != 3) {
        return fputs("usage: panel_test DESCRIPTION TENTHS\n", stderr), 2;
    }
    make_sign(&sign, words[1], digest);
    wisangub_sign_matrix(&sign, &width, &height);
    wisangub_sign_writer(&sign, community, sizeof community, &size);
    assert(wisangub_centre_new(&centre, community, size, WISANGUB_HIGH, 1) == WISANGUB_DONE && pipe(wire) == 0);
    panels.lamps = (struct lamps){width, height, light};
    panels.spi = spi_panel(wire[1], width, height);
    panels.hub75 = hub75(width, height, SCANNED, set, &chips);
    power_on(1000);
    seconds(1000);
    power_fails(100000);
    deaf(200000);
    for (uint64_t now = 300000; fgets(line, sizeof line, stdin) != NULL; now += 100000) {
        play(line, now, strtoull(words[2], NULL, 10));
    }
    wisangub_centre_free(&centre);
    wisangub_sign_free(&sign);
    return 0;
}
