/*
 * Null, zero and short buffers at each function of the header, and a SET that a short buffer keeps from being heard:
 * header_test DESCRIPTION. It is C11 and C++17.
 */
#undef NDEBUG
#include <assert.h>
#include <stdio.h>
#include <string.h>

#include "wisangub.h"

/* A call that is refused for a null, one for a value, one for what is not there, and what else there is to answer. */
#define REFUSED(call) assert((call) == WISANGUB_NULL)
#define OUT_OF_RANGE(call) assert((call) == WISANGUB_RANGE)
#define FAULT(call) assert((call) == WISANGUB_FAULT)
#define NO_STATE(call) assert((call) == WISANGUB_STATE)
#define TOO_SMALL(call) assert((call) == WISANGUB_TOO_SMALL)
#define NOTHING(call) assert((call) == WISANGUB_NOTHING)
#define DONE(call) assert((call) == WISANGUB_DONE)

static const enum wisangub_layer LOOK = WISANGUB_LOOK;
static const enum wisangub_order SWAPPED = WISANGUB_SWAPPED;

static char text[1 << 16];
static struct wisangub_sign sign = {NULL};
static struct wisangub_centre centre = {NULL};
static uint8_t buffer[WISANGUB_DATAGRAM], room[1 << 17];
static size_t size = 9;

/* Names: two beside the sign's, sysDescr.0 and dmsIllumManLevel.0, and one of the sign's own, vmsSignWidthPixels.0. */
static const uint8_t descr[] = {43, 6, 1, 2, 1, 1, 1, 0};
static const uint8_t level[] = {43, 6, 1, 4, 1, 137, 54, 4, 2, 3, 7, 6, 0};
static const uint8_t columns[] = {43, 6, 1, 4, 1, 137, 54, 4, 2, 3, 2, 4, 0};
static const struct wisangub_access read_only = {0, 0, WISANGUB_READ_ONLY};

/* Whether so many octets from there are as `spread` left them. */
static void spread(void) { memset(room, 5, sizeof room); }

static int untouched(size_t from, size_t count)
{
    for (size_t at = from; at < from + count; at++) {
        if (room[at] != 5) {
            return 0;
        }
    }
    return 1;
}

/* How often the picture has changed. */
static uint64_t changes(void)
{
    uint64_t found = 77;
    DONE(wisangub_sign_changes(&sign, &found));
    return found;
}

/* In how many tenths of a second the message ends by itself, or 77. */
static uint64_t ends(void)
{
    uint64_t tenths = 77;
    assert(wisangub_sign_ends(&sign, &tenths) == (tenths == 77 ? WISANGUB_NOTHING : WISANGUB_DONE));
    return tenths;
}

/* No call has a sign before it is made. */
static void without_a_sign(void)
{
    struct wisangub_shown shown;
    struct wisangub_text_fault fault = {0, 0};
    struct wisangub_text_cause cause;
    struct wisangub_value value = {7, WISANGUB_INTEGER};
    struct wisangub_page page;
    uint64_t count;
    uint16_t width, height;
    for (int turn = 0; turn < 2; turn++) {
        struct wisangub_sign *none = turn ? &sign : NULL;
        REFUSED(wisangub_sign_receive(none, "", 0, buffer, sizeof buffer, &size));
        REFUSED(wisangub_sign_tick(none));
        REFUSED(wisangub_sign_ticks(none, 1));
        REFUSED(wisangub_sign_heard(none));
        REFUSED(wisangub_sign_power_lost(none));
        REFUSED(wisangub_sign_power_back(none, 1));
        REFUSED(wisangub_sign_save(none, buffer, sizeof buffer, &size));
        REFUSED(wisangub_sign_save_most(none, &size));
        REFUSED(wisangub_sign_restore_objects(none, "", 0, &size));
        REFUSED(wisangub_sign_shown(none, &shown));
        REFUSED(wisangub_sign_changes(none, &count));
        REFUSED(wisangub_sign_ends(none, &count));
        REFUSED(wisangub_sign_page_times(none, 0, &page));
        REFUSED(wisangub_sign_due(none, 0, 0, &count));
        REFUSED(wisangub_sign_matrix(none, &width, &height));
        REFUSED(wisangub_sign_text(none, buffer, sizeof buffer, &size));
        REFUSED(wisangub_sign_reader(none, buffer, sizeof buffer, &size));
        REFUSED(wisangub_sign_writer(none, buffer, sizeof buffer, &size));
        REFUSED(wisangub_sign_check(none, "", 0, &size, &fault));
        REFUSED(wisangub_sign_text_cause(none, "", 0, &cause, buffer, sizeof buffer, &size));
        REFUSED(wisangub_sign_pages(none, LOOK, room, sizeof room, &size));
        REFUSED(wisangub_sign_page_row(none, 0, 0, LOOK, room, sizeof room, &size));
        REFUSED(wisangub_sign_text_pages(none, "", 0, LOOK, room, sizeof room, &size, &fault));
        REFUSED(wisangub_sign_show_fonts(none));
        REFUSED(wisangub_sign_publish(none, descr, sizeof descr, &value, NULL, 0, &read_only));
        REFUSED(wisangub_sign_withdraw(none, descr, sizeof descr));
        REFUSED(wisangub_sign_object(none, descr, sizeof descr, &value, buffer, sizeof buffer, &size));
        REFUSED(wisangub_sign_taken(none, buffer, sizeof buffer, &size, &value, room, sizeof room, &size));
        wisangub_sign_free(none);
    }
    assert(size == 9);
}

static void new_signs(const char *description, size_t description_size)
{
    uint32_t first = 7;
    size_t line = 0;
    REFUSED(wisangub_sign_new(NULL, description, description_size, &first, &line));
    REFUSED(wisangub_sign_new(&sign, NULL, description_size, &first, &line));
    REFUSED(wisangub_sign_new(&sign, description, description_size, NULL, &line));
    REFUSED(wisangub_sign_new(&sign, description, description_size, &first, NULL));
    assert(wisangub_sign_new(&sign, description, 0, &first, &line) == WISANGUB_FAULT && sign.at == NULL && first == 7);
    assert(wisangub_sign_new(&sign, "size 1 x\n", 9, &first, &line) == WISANGUB_FAULT && line == 1);
    DONE(wisangub_sign_new(&sign, description, description_size, &first, &line));
    assert(sign.at != NULL);
    REFUSED(wisangub_sign_new(&sign, description, description_size, &first, &line));
}

/* Why a description is refused, in numbers and in words, of the size that they have. */
static void causes(const char *description, size_t description_size)
{
    static const char refused[] = "size 23 14\ncommunities public admin\n# skipped\nrows 2 256\n";
    static const char why[] = "word 3: a number from 0 to 255 is wanted";
    struct wisangub_cause cause;
    size_t told = 9;
    cause.line = 99;
    REFUSED(wisangub_description_cause(NULL, 1, &cause, room, 200, &told));
    REFUSED(wisangub_description_cause(refused, sizeof refused - 1, NULL, room, 200, &told));
    REFUSED(wisangub_description_cause(refused, sizeof refused - 1, &cause, NULL, 200, &told));
    REFUSED(wisangub_description_cause(refused, sizeof refused - 1, &cause, room, 200, NULL));
    NOTHING(wisangub_description_cause(description, description_size, &cause, NULL, 0, &told));
    assert(told == 0 && cause.line == 99);
    spread();
    TOO_SMALL(wisangub_description_cause(refused, sizeof refused - 1, &cause, NULL, 0, &told));
    TOO_SMALL(wisangub_description_cause(refused, sizeof refused - 1, &cause, room, told - 1, &told));
    assert(told == sizeof why - 1 && cause.line == 99 && untouched(0, told));
    DONE(wisangub_description_cause(refused, sizeof refused - 1, &cause, room, told, &told));
    assert(told == sizeof why - 1 && memcmp(room, why, told) == 0 && untouched(told, 16));
    assert(cause.line == 4 && cause.word == 3 && cause.row == 0 && cause.place == 0);
    assert(cause.least == 0 && cause.most == 255 && cause.number == 0 && cause.code == 0);
    assert(cause.kind == WISANGUB_CAUSE_OTHER && cause.wanted == WISANGUB_WANTED_NUMBER);
    DONE(wisangub_description_cause("", 0, &cause, room, 200, &told));
    assert(cause.line == 1 && cause.kind == WISANGUB_CAUSE_NO_END && cause.wanted == 0 && cause.most == 0);
}

static void datagrams(void)
{
    REFUSED(wisangub_sign_receive(&sign, NULL, 0, buffer, sizeof buffer, &size));
    REFUSED(wisangub_sign_receive(&sign, "", 0, NULL, 0, &size));
    REFUSED(wisangub_sign_receive(&sign, "", 0, buffer, sizeof buffer, NULL));
    assert(wisangub_sign_receive(&sign, "", 0, buffer, sizeof buffer, &size) == WISANGUB_NOTHING && size == 0);
    spread();
    assert(wisangub_sign_receive(&sign, "", 0, room, WISANGUB_DATAGRAM - 1, &size) == WISANGUB_TOO_SMALL);
    assert(size == WISANGUB_DATAGRAM && untouched(0, WISANGUB_DATAGRAM));
    DONE(wisangub_sign_tick(&sign));
    DONE(wisangub_sign_heard(&sign));
    DONE(wisangub_sign_power_lost(&sign));
    DONE(wisangub_sign_power_back(&sign, 3));
    REFUSED(wisangub_sign_changes(&sign, NULL));
    REFUSED(wisangub_sign_ends(&sign, NULL));
    assert(changes() == 0 && ends() == 77);
}

/* Of what is shown at the start, a blank message, all but its page. */
static void shown_things(void)
{
    struct wisangub_shown shown;
    uint16_t width = 0, height = 0;
    REFUSED(wisangub_sign_shown(&sign, NULL));
    DONE(wisangub_sign_shown(&sign, &shown));
    assert(shown.memory == 7 && shown.number == 1 && shown.checksum == 0 && shown.minutes == 65535);
    assert(shown.mode == 10 && shown.priority == 1 && shown.beacon == 0 && shown.pixel == 0);
    REFUSED(wisangub_sign_matrix(&sign, NULL, &height));
    REFUSED(wisangub_sign_matrix(&sign, &width, NULL));
    DONE(wisangub_sign_matrix(&sign, &width, &height));
    assert(width > 0 && width <= 256 && height > 0 && height <= 64);
}

/* The two communities, which are not the same. */
static void communities(void)
{
    size_t needed = 0;
    REFUSED(wisangub_sign_reader(&sign, NULL, 1, &needed));
    REFUSED(wisangub_sign_reader(&sign, buffer, sizeof buffer, NULL));
    assert(wisangub_sign_reader(&sign, NULL, 0, &needed) == WISANGUB_TOO_SMALL && needed > 0 && needed <= 32);
    spread();
    assert(wisangub_sign_reader(&sign, room, needed - 1, &size) == WISANGUB_TOO_SMALL && size == needed);
    assert(untouched(0, needed));
    DONE(wisangub_sign_reader(&sign, buffer, needed, &size));
    assert(size == needed && size < sizeof buffer);
    REFUSED(wisangub_sign_writer(&sign, NULL, 1, &needed));
    REFUSED(wisangub_sign_writer(&sign, buffer, sizeof buffer, NULL));
    assert(wisangub_sign_writer(&sign, NULL, 0, &needed) == WISANGUB_TOO_SMALL && needed > 0 && needed <= 32);
    assert(wisangub_sign_writer(&sign, room, needed - 1, &size) == WISANGUB_TOO_SMALL && size == needed);
    assert(untouched(0, needed));
    DONE(wisangub_sign_writer(&sign, room, needed, &size));
    assert(size == needed && room[0] != 5 && untouched(needed, 16) && memcmp(room, buffer, needed) != 0);
}

static void pages(void)
{
    uint16_t width = 0, height = 0;
    size_t needed = 0;
    wisangub_sign_matrix(&sign, &width, &height);
    REFUSED(wisangub_sign_pages(&sign, LOOK, NULL, 1, &size));
    REFUSED(wisangub_sign_pages(&sign, LOOK, room, sizeof room, NULL));
    assert(wisangub_sign_pages(&sign, LOOK, NULL, 0, &needed) == WISANGUB_TOO_SMALL);
    assert(needed == WISANGUB_PAGE_HEAD + (size_t)width * height);
    spread();
    assert(wisangub_sign_pages(&sign, LOOK, room, needed - 1, &size) == WISANGUB_TOO_SMALL && size == needed);
    assert(untouched(0, needed));
    DONE(wisangub_sign_pages(&sign, LOOK, room, needed, &size));
    assert(size == needed && untouched(needed, 16));
}

/* When what is shown changes by itself, or 77. */
static uint64_t due(uint64_t up, uint64_t told)
{
    uint64_t tenths = 77;
    assert(wisangub_sign_due(&sign, up, told, &tenths) == (tenths == 77 ? WISANGUB_NOTHING : WISANGUB_DONE));
    return tenths;
}

/* The times of the one page of what is shown at the start. */
static void times(void)
{
    struct wisangub_page page = {7, 7, 7, 7};
    REFUSED(wisangub_sign_page_times(&sign, 0, NULL));
    REFUSED(wisangub_sign_due(&sign, 0, 0, NULL));
    assert(wisangub_sign_page_times(&sign, 1, &page) == WISANGUB_FAULT && page.count == 7 && page.on == 7);
    DONE(wisangub_sign_page_times(&sign, 0, &page));
    DONE(wisangub_sign_pages(&sign, LOOK, room, sizeof room, &size));
    assert(page.count == 1 && page.on == room[0] && page.off == room[1] && page.background == room[2]);
    assert(page.off > 0 || due(5, 0) == 77);
}

static void texts(void)
{
    struct wisangub_text_fault fault = {0, 0};
    size_t count = 0;
    REFUSED(wisangub_sign_check(&sign, NULL, 0, &count, &fault));
    REFUSED(wisangub_sign_check(&sign, "", 0, NULL, &fault));
    REFUSED(wisangub_sign_check(&sign, "", 0, &count, NULL));
    DONE(wisangub_sign_check(&sign, "", 0, &count, &fault));
    DONE(wisangub_sign_check(&sign, "A[np]A", 6, &count, &fault));
    assert(count == 2 && fault.code == 0);
    assert(wisangub_sign_check(&sign, "A[x]", 4, &count, &fault) == WISANGUB_FAULT);
    assert(count == 2 && fault.code == 3 && fault.place == 1);
}

/* Why a text is refused, in numbers and in words, of the size that they have. */
static void text_causes(void)
{
    static const char why[] = "font not defined at octet 1: the sign has no font 200";
    struct wisangub_text_cause cause;
    size_t told = 9;
    cause.place = 99;
    REFUSED(wisangub_sign_text_cause(&sign, NULL, 0, &cause, room, 200, &told));
    REFUSED(wisangub_sign_text_cause(&sign, "", 0, NULL, room, 200, &told));
    REFUSED(wisangub_sign_text_cause(&sign, "", 0, &cause, NULL, 200, &told));
    REFUSED(wisangub_sign_text_cause(&sign, "", 0, &cause, room, 200, NULL));
    NOTHING(wisangub_sign_text_cause(&sign, "A[np]A", 6, &cause, NULL, 0, &told));
    assert(told == 0 && cause.place == 99);
    spread();
    TOO_SMALL(wisangub_sign_text_cause(&sign, "A[fo200]", 8, &cause, NULL, 0, &told));
    TOO_SMALL(wisangub_sign_text_cause(&sign, "A[fo200]", 8, &cause, room, told - 1, &told));
    assert(told == sizeof why - 1 && cause.place == 99 && untouched(0, told));
    DONE(wisangub_sign_text_cause(&sign, "A[fo200]", 8, &cause, room, told, &told));
    assert(told == sizeof why - 1 && memcmp(room, why, told) == 0 && untouched(told, 16));
    assert(cause.place == 1 && cause.code == 6 && cause.lack == WISANGUB_LACK_FONT && cause.font == 200);
    assert(cause.count == 0 && cause.character == 0);
    DONE(wisangub_sign_text_cause(&sign, "A\x01", 2, &cause, room, 200, &told));
    assert(cause.place == 1 && cause.code == 7 && cause.lack == WISANGUB_LACK_CHARACTER && cause.character == 1);
    memset(buffer, 'A', 514);
    DONE(wisangub_sign_text_cause(&sign, buffer, 514, &cause, room, 200, &told));
    assert(cause.code == 5 && cause.lack == WISANGUB_LACK_OCTETS && cause.count == 2 && cause.font == 0);
    DONE(wisangub_sign_text_cause(&sign, "A[x]", 4, &cause, room, 200, &told));
    assert(cause.place == 1 && cause.code == 3 && cause.lack == WISANGUB_LACK_NOTHING && cause.count == 0);
}

/* Each row of each page of what is shown is that of the pages, in each layer, with room and without. */
static void page_rows(void)
{
    uint16_t width = 0, height = 0;
    uint8_t *row = room + sizeof room / 2;
    wisangub_sign_matrix(&sign, &width, &height);
    REFUSED(wisangub_sign_page_row(&sign, 0, 0, LOOK, NULL, 1, &size));
    REFUSED(wisangub_sign_page_row(&sign, 0, 0, LOOK, room, sizeof room, NULL));
    for (int layer = 0; layer < 3; layer++) {
        struct wisangub_page page = {0, 0, 0, 0};
        size_t made = 0;
        spread();
        DONE(wisangub_sign_pages(&sign, (enum wisangub_layer)layer, room, sizeof room / 2, &made));
        for (size_t number = 0, at = 0; wisangub_sign_page_times(&sign, number, &page) == WISANGUB_DONE; number++) {
            at += WISANGUB_PAGE_HEAD;
            for (uint16_t y = 0; y < height; y++, at += width) {
                DONE(wisangub_sign_page_row(&sign, number, y, (enum wisangub_layer)layer, row, width, &size));
                assert(size == width && memcmp(row, room + at, width) == 0 && row[width] == 5);
            }
            assert(number + 1 < page.count || at == made);
        }
        spread();
        size = 9;
        FAULT(wisangub_sign_page_row(&sign, page.count, 0, (enum wisangub_layer)layer, room, sizeof room, &size));
        FAULT(wisangub_sign_page_row(&sign, 0, height, (enum wisangub_layer)layer, room, sizeof room, &size));
        assert(size == 9);
        TOO_SMALL(wisangub_sign_page_row(&sign, 0, 0, (enum wisangub_layer)layer, NULL, 0, &size));
        TOO_SMALL(wisangub_sign_page_row(&sign, 0, 0, (enum wisangub_layer)layer, room, width - 1u, &size));
        assert(size == width && untouched(0, width));
    }
}

static void text_pages(void)
{
    static const char flashes[] = "[flt3o4]A[/fl]";
    struct wisangub_text_fault fault = {0, 0};
    uint16_t width = 0, height = 0;
    size_t lit = WISANGUB_PAGE_HEAD, count = sizeof flashes - 1;
    wisangub_sign_matrix(&sign, &width, &height);
    size_t page = WISANGUB_PAGE_HEAD + (size_t)width * height;
    REFUSED(wisangub_sign_text_pages(&sign, NULL, 0, LOOK, room, page, &size, &fault));
    REFUSED(wisangub_sign_text_pages(&sign, "", 0, LOOK, NULL, 1, &size, &fault));
    REFUSED(wisangub_sign_text_pages(&sign, "", 0, LOOK, room, page, NULL, &fault));
    REFUSED(wisangub_sign_text_pages(&sign, "", 0, LOOK, room, page, &size, NULL));
    assert(wisangub_sign_text_pages(&sign, "A]", 2, LOOK, room, page, &size, &fault) == WISANGUB_FAULT);
    assert(fault.code == 3 && fault.place == 1);
    spread();
    assert(wisangub_sign_text_pages(&sign, "A[np]A", 6, LOOK, NULL, 0, &size, &fault) == WISANGUB_TOO_SMALL);
    assert(size == 2 * page);
    assert(wisangub_sign_text_pages(&sign, "A[np]A", 6, LOOK, room, 2 * page - 1, &size, &fault) == WISANGUB_TOO_SMALL);
    assert(size == 2 * page && untouched(0, 2 * page));
    DONE(wisangub_sign_text_pages(&sign, flashes, count, LOOK, room, page, &size, &fault));
    assert(size == page && untouched(page, 16));
    while (!(room[lit] & WISANGUB_LIT)) {
        lit++;
    }
    assert((room[lit] & WISANGUB_FLASHES) && !(room[lit] & WISANGUB_DARK_FIRST));
    DONE(wisangub_sign_text_pages(&sign, flashes, count, WISANGUB_FLASH_LIT, room, page, &size, &fault));
    assert(room[lit] == 3);
    DONE(wisangub_sign_text_pages(&sign, flashes, count, WISANGUB_FLASH_DARK, room, page, &size, &fault));
    assert(room[lit] == 4);
}

static void bits(void)
{
    const uint8_t looks[9] = {25, 9, 25, 0, 0, 0, 0, 16, 25}, wanted[2] = {0xA1, 0x80};
    REFUSED(wisangub_row_bits(NULL, 0, room, 2, &size));
    REFUSED(wisangub_row_bits(looks, 9, NULL, 2, &size));
    REFUSED(wisangub_row_bits(looks, 9, room, 2, NULL));
    spread();
    assert(wisangub_row_bits(looks, 9, room, 1, &size) == WISANGUB_TOO_SMALL && size == 2 && untouched(0, 2));
    assert(wisangub_row_bits(looks, 9, NULL, 0, &size) == WISANGUB_TOO_SMALL && size == 2);
    DONE(wisangub_row_bits(looks, 9, room, 2, &size));
    assert(memcmp(room, wanted, 2) == 0 && untouched(2, 16));
    DONE(wisangub_row_bits(looks, 0, NULL, 0, &size));
    assert(size == 0);
}

static void codes(void)
{
    const uint8_t activation[12] = {255, 255, 255, 3, 0, 1, 0x66, 0x9a, 192, 0, 2, 1};
    struct wisangub_code parts = {65535, 1, 0, 255, 3, {192, 0, 2, 1}};
    REFUSED(wisangub_crc(NULL, 0, 0, 0, &parts.checksum));
    REFUSED(wisangub_crc("A", 1, 0, 0, NULL));
    DONE(wisangub_crc("A", 1, 0, 0, &parts.checksum));
    assert(parts.checksum == 0x9a66);
    spread();
    REFUSED(wisangub_activation_code(SWAPPED, NULL, room, 12, &size));
    REFUSED(wisangub_activation_code(SWAPPED, &parts, NULL, 12, &size));
    REFUSED(wisangub_activation_code(SWAPPED, &parts, room, 12, NULL));
    assert(wisangub_activation_code(SWAPPED, &parts, NULL, 0, &size) == WISANGUB_TOO_SMALL && size == 12);
    assert(wisangub_activation_code(SWAPPED, &parts, room, 11, &size) == WISANGUB_TOO_SMALL && size == 12);
    assert(untouched(0, 12));
    DONE(wisangub_activation_code(SWAPPED, &parts, room, 12, &size));
    assert(memcmp(room, activation, 12) == 0 && untouched(12, 16));
    spread();
    REFUSED(wisangub_message_code(SWAPPED, NULL, room, 5, &size));
    REFUSED(wisangub_message_code(SWAPPED, &parts, NULL, 5, &size));
    REFUSED(wisangub_message_code(SWAPPED, &parts, room, 5, NULL));
    assert(wisangub_message_code(SWAPPED, &parts, NULL, 0, &size) == WISANGUB_TOO_SMALL && size == 5);
    assert(wisangub_message_code(SWAPPED, &parts, room, 4, &size) == WISANGUB_TOO_SMALL && size == 5
           && untouched(0, 5));
    DONE(wisangub_message_code(SWAPPED, &parts, room, 5, &size));
    assert(memcmp(room, activation + 3, 5) == 0 && untouched(5, 16));
}

/* Values beside those that there are, each beside right ones and for itself; nothing is left in any place. */
static void values_out_of_range(void)
{
    static const unsigned numbers[] = {3, 4, 255, 256, 257, 65536};
    static const uint8_t memories[] = {0, 1, 6, 8, 255};
    struct wisangub_text_fault fault = {7, 7};
    struct wisangub_code parts = {65535, 1, 0x9a66, 255, 3, {192, 0, 2, 1}};
    uint16_t crc = 7;
    spread();
    size = 9;
    for (size_t at = 0; at < sizeof numbers / sizeof *numbers; at++) {
        enum wisangub_layer layer = (enum wisangub_layer)numbers[at];
        enum wisangub_order order = (enum wisangub_order)(numbers[at] - 1);
        OUT_OF_RANGE(wisangub_sign_pages(&sign, layer, room, sizeof room, &size));
        OUT_OF_RANGE(wisangub_sign_page_row(&sign, 0, 0, layer, room, sizeof room, &size));
        OUT_OF_RANGE(wisangub_sign_text_pages(&sign, "A]", 2, layer, room, sizeof room, &size, &fault));
        OUT_OF_RANGE(wisangub_message_code(order, &parts, room, 5, &size));
        OUT_OF_RANGE(wisangub_activation_code(order, &parts, room, 12, &size));
        OUT_OF_RANGE(wisangub_centre_new(&centre, "a", 1, order, 1));
        OUT_OF_RANGE(wisangub_centre_restore(&centre, "", 0, order, "", 0, &size));
    }
    for (size_t at = 0; at < sizeof memories; at++) {
        parts.memory = memories[at];
        OUT_OF_RANGE(wisangub_message_code(SWAPPED, &parts, room, 5, &size));
        OUT_OF_RANGE(wisangub_activation_code(WISANGUB_HIGH, &parts, room, 12, &size));
    }
    OUT_OF_RANGE(wisangub_crc("A", 1, 2, 0, &crc));
    OUT_OF_RANGE(wisangub_crc("A", 1, 0, 255, &crc));
    assert(untouched(0, sizeof room) && size == 9 && crc == 7);
    assert(fault.code == 7 && fault.place == 7 && centre.at == NULL);
}

/* What is refused of an object leaves nothing published. */
static void wrong_objects(void)
{
    static const struct wisangub_access access[] = {{0, 15, 3}, {0, 15, 255}, {0, 6, 1}, {8, 15, 1}, {0, 15, 2},
                                                    {-1, 15, 2}, {0, 65536, 2}};
    static const struct wisangub_value value[] = {{7, 0}, {7, 3}, {7, 69}, {7, 255}, {4294967296, 2}, {-2147483649, 2},
                                                  {-1, 65}, {4294967296, 66}, {-1, 67}, {7, 6}, {7, 64}};
    const struct wisangub_value given = {7, WISANGUB_INTEGER};
    const struct wisangub_access takes = {0, 15, WISANGUB_NUMBERS};
    struct wisangub_value found = {0, 0};
    REFUSED(wisangub_sign_publish(&sign, NULL, 0, &given, NULL, 0, &takes));
    REFUSED(wisangub_sign_publish(&sign, level, sizeof level, NULL, NULL, 0, &takes));
    REFUSED(wisangub_sign_publish(&sign, level, sizeof level, &given, NULL, 1, &takes));
    REFUSED(wisangub_sign_publish(&sign, level, sizeof level, &given, NULL, 0, NULL));
    FAULT(wisangub_sign_publish(&sign, level, 0, &given, NULL, 0, &takes));
    FAULT(wisangub_sign_publish(&sign, level, 6, &given, NULL, 0, &takes));
    FAULT(wisangub_sign_publish(&sign, columns, sizeof columns, &given, NULL, 0, &takes));
    FAULT(wisangub_sign_publish(&sign, columns, sizeof columns, &given, NULL, 0, &access[0]));
    for (size_t at = 0; at < sizeof access / sizeof *access; at++) {
        OUT_OF_RANGE(wisangub_sign_publish(&sign, level, sizeof level, &given, NULL, 0, &access[at]));
    }
    for (size_t at = 0; at < sizeof value / sizeof *value; at++) {
        OUT_OF_RANGE(wisangub_sign_publish(&sign, level, sizeof level, &value[at], "\x80", 1, &read_only));
    }
    FAULT(wisangub_sign_object(&sign, level, sizeof level, &found, room, sizeof room, &size));
    FAULT(wisangub_sign_withdraw(&sign, level, sizeof level));
}

/* Fonts can be read from there on, unless an object is published; then no object has a name of theirs. */
static void fonts_read(void)
{
    static const uint8_t fonts[] = {43, 6, 1, 4, 1, 137, 54, 4, 2, 3, 3, 1, 0};
    const struct wisangub_value given = {7, WISANGUB_INTEGER};
    struct wisangub_value found = {0, 0};
    DONE(wisangub_sign_publish(&sign, fonts, sizeof fonts, &given, NULL, 0, &read_only));
    FAULT(wisangub_sign_show_fonts(&sign));
    DONE(wisangub_sign_object(&sign, fonts, sizeof fonts, &found, NULL, 0, &size));
    assert(found.number == 7 && found.type == WISANGUB_INTEGER);
    DONE(wisangub_sign_withdraw(&sign, fonts, sizeof fonts));
    FAULT(wisangub_sign_object(&sign, fonts, sizeof fonts, &found, NULL, 0, &size));
    DONE(wisangub_sign_show_fonts(&sign));
    DONE(wisangub_sign_object(&sign, fonts, sizeof fonts, &found, NULL, 0, &size));
    assert(found.number >= 1 && found.number <= 4 && found.type == WISANGUB_INTEGER);
    FAULT(wisangub_sign_publish(&sign, fonts, sizeof fonts, &given, NULL, 0, &read_only));
    FAULT(wisangub_sign_withdraw(&sign, fonts, sizeof fonts));
    DONE(wisangub_sign_show_fonts(&sign));
}

/* Values behind a state are put back where their objects take them, and are saved again; or a line is told. */
static void objects_restored(void)
{
    static const char lines[] = "end\nset 1.3.6.1.4.1.1206.4.2.3.7.6.0 INTEGER 9\nset 1.3 NULL\n";
    static const char wrong[] = "end\nset\n";
    const struct wisangub_access takes = {0, 15, WISANGUB_NUMBERS};
    const struct wisangub_value given = {7, WISANGUB_INTEGER};
    struct wisangub_value found = {0, 0};
    size_t line = 7, name_size = 0;
    REFUSED(wisangub_sign_restore_objects(&sign, NULL, 0, &line));
    REFUSED(wisangub_sign_restore_objects(&sign, lines, sizeof lines - 1, NULL));
    DONE(wisangub_sign_publish(&sign, level, sizeof level, &given, NULL, 0, &takes));
    NO_STATE(wisangub_sign_restore_objects(&sign, wrong, sizeof wrong - 1, &line));
    assert(line == 2);
    NO_STATE(wisangub_sign_restore_objects(&sign, lines, sizeof lines - 2, &line));
    assert(line == 3);
    DONE(wisangub_sign_object(&sign, level, sizeof level, &found, NULL, 0, &size));
    assert(found.number == 7);
    DONE(wisangub_sign_restore_objects(&sign, lines, sizeof lines - 1, &line));
    assert(line == 3);
    DONE(wisangub_sign_taken(&sign, room, sizeof room, &name_size, &found, NULL, 0, &size));
    assert(found.number == 9 && name_size == sizeof level && memcmp(room, level, name_size) == 0);
    DONE(wisangub_sign_save(&sign, room, sizeof room, &size));
    assert(memcmp(room + size - 47, lines, 47) == 0);
    DONE(wisangub_sign_withdraw(&sign, level, sizeof level));
}

/* An object of each type is read as it was published, and one in its place is read then. */
static void objects_read(void)
{
    static const uint8_t address[4] = {192, 0, 2, 1};
    static const struct wisangub_value values[] = {{-2147483647 - 1, 2}, {4294967295, 2}, {0, 4}, {0, 5}, {0, 6},
                                                   {0, 64}, {4294967295, 65}, {3, 66}, {100, 67}, {0, 68}};
    struct wisangub_value found = {0, 0};
    for (size_t at = 0; at < sizeof values / sizeof *values; at++) {
        int has_octets = values[at].type == 4 || values[at].type == 68;
        const uint8_t *octets = values[at].type == 64 ? address : descr;
        size_t count = values[at].type == 64 ? 4 : has_octets || values[at].type == 6 ? sizeof descr : 0;
        DONE(wisangub_sign_publish(&sign, descr, sizeof descr, &values[at], octets, count, &read_only));
        spread();
        if (count > 0) {
            found.type = 9;
            TOO_SMALL(wisangub_sign_object(&sign, descr, sizeof descr, &found, room, count - 1, &size));
            assert(size == count && untouched(0, 16) && found.type == 9);
        }
        DONE(wisangub_sign_object(&sign, descr, sizeof descr, &found, room, count, &size));
        assert(found.type == values[at].type && found.number == values[at].number);
        assert(size == count && memcmp(room, octets, count) == 0 && untouched(count, 16));
    }
    REFUSED(wisangub_sign_object(&sign, NULL, 0, &found, room, sizeof room, &size));
    REFUSED(wisangub_sign_object(&sign, descr, sizeof descr, NULL, room, sizeof room, &size));
    REFUSED(wisangub_sign_object(&sign, descr, sizeof descr, &found, NULL, 1, &size));
    REFUSED(wisangub_sign_object(&sign, descr, sizeof descr, &found, room, sizeof room, NULL));
    FAULT(wisangub_sign_object(&sign, descr, 0, &found, room, sizeof room, &size));
    DONE(wisangub_sign_object(&sign, columns, sizeof columns, &found, NULL, 0, &size));
    assert(found.type == WISANGUB_INTEGER && found.number > 0 && found.number <= 256 && size == 0);
    REFUSED(wisangub_sign_withdraw(&sign, NULL, 0));
    FAULT(wisangub_sign_withdraw(&sign, descr, 0));
    FAULT(wisangub_sign_withdraw(&sign, columns, sizeof columns));
    DONE(wisangub_sign_withdraw(&sign, descr, sizeof descr));
    FAULT(wisangub_sign_withdraw(&sign, descr, sizeof descr));
    FAULT(wisangub_sign_object(&sign, descr, sizeof descr, &found, room, sizeof room, &size));
}

/* The error-status with which the sign answers a manager that sets a level. */
static int set_level(uint8_t number)
{
    static const uint8_t request[] = {2, 1, 1, 2, 1, 0, 2, 1, 0, 0x30, 20, 0x30, 18, 6, 13};
    uint8_t *end = room;
    size_t community = 0;
    DONE(wisangub_sign_writer(&sign, buffer, sizeof buffer, &community));
    *end++ = 0x30;
    *end++ = (uint8_t)(5 + community + 33);
    end = (uint8_t *)memcpy(end, "\2\1\0\4", 4) + 4;
    *end++ = (uint8_t)community;
    end = (uint8_t *)memcpy(end, buffer, community) + community;
    *end++ = 0xa3;
    *end++ = 31;
    end = (uint8_t *)memcpy(end, request, sizeof request) + sizeof request;
    end = (uint8_t *)memcpy(end, level, sizeof level) + sizeof level;
    end = (uint8_t *)memcpy(end, "\2\1", 2) + 2;
    *end++ = number;
    DONE(wisangub_sign_receive(&sign, room, (size_t)(end - room), room + 2000, WISANGUB_DATAGRAM, &size));
    return room[2000 + 7 + community + 7];
}

/* What a manager set is handed out once, and what was published since is not. */
static void objects_set(void)
{
    const struct wisangub_access takes = {0, 15, WISANGUB_NUMBERS};
    struct wisangub_value value = {7, WISANGUB_INTEGER};
    uint8_t name[WISANGUB_NAME];
    size_t name_size = 9;
    assert(set_level(8) == 2);
    DONE(wisangub_sign_publish(&sign, level, sizeof level, &value, NULL, 0, &takes));
    NOTHING(wisangub_sign_taken(&sign, name, sizeof name, &name_size, &value, room, 16, &size));
    assert(name_size == 0 && size == 0 && value.number == 7);
    assert(set_level(16) == 3 && set_level(8) == 0 && set_level(9) == 0);
    REFUSED(wisangub_sign_taken(&sign, NULL, 1, &name_size, &value, room, 16, &size));
    REFUSED(wisangub_sign_taken(&sign, name, sizeof name, NULL, &value, room, 16, &size));
    REFUSED(wisangub_sign_taken(&sign, name, sizeof name, &name_size, NULL, room, 16, &size));
    REFUSED(wisangub_sign_taken(&sign, name, sizeof name, &name_size, &value, NULL, 1, &size));
    REFUSED(wisangub_sign_taken(&sign, name, sizeof name, &name_size, &value, room, 16, NULL));
    TOO_SMALL(wisangub_sign_taken(&sign, NULL, 0, &name_size, &value, NULL, 0, &size));
    TOO_SMALL(wisangub_sign_taken(&sign, name, sizeof level - 1, &name_size, &value, room, 16, &size));
    assert(name_size == sizeof level && size == 0 && value.number == 7);
    DONE(wisangub_sign_taken(&sign, name, sizeof level, &name_size, &value, NULL, 0, &size));
    assert(memcmp(name, level, sizeof level) == 0 && value.number == 9 && value.type == WISANGUB_INTEGER && size == 0);
    NOTHING(wisangub_sign_taken(&sign, name, sizeof name, &name_size, &value, room, 16, &size));
    assert(set_level(10) == 0);
    DONE(wisangub_sign_publish(&sign, level, sizeof level, &value, NULL, 0, &takes));
    NOTHING(wisangub_sign_taken(&sign, name, sizeof name, &name_size, &value, room, 16, &size));
    DONE(wisangub_sign_withdraw(&sign, level, sizeof level));
}

static void without_a_centre(void)
{
    struct wisangub_status status;
    struct wisangub_entry entry;
    for (int turn = 0; turn < 2; turn++) {
        struct wisangub_centre *none = turn ? &centre : NULL;
        REFUSED(wisangub_centre_command(none, "", 0, buffer, sizeof buffer, &size));
        REFUSED(wisangub_centre_receive(none, "", 0, buffer, sizeof buffer, &size));
        REFUSED(wisangub_centre_tick(none, buffer, sizeof buffer, &size));
        REFUSED(wisangub_centre_restart(none));
        REFUSED(wisangub_centre_status(none, &status));
        REFUSED(wisangub_centre_entry(none, 0, &entry));
        REFUSED(wisangub_centre_save(none, buffer, sizeof buffer, &size));
        REFUSED(wisangub_centre_save_size(none, &size));
        wisangub_centre_free(none);
    }
    REFUSED(wisangub_centre_new(NULL, "a", 1, WISANGUB_HIGH, 1));
    REFUSED(wisangub_centre_new(&centre, NULL, 1, WISANGUB_HIGH, 1));
    assert(wisangub_centre_new(&centre, "", 0, WISANGUB_HIGH, 1) == WISANGUB_FAULT && centre.at == NULL);
    assert(wisangub_centre_new(&centre, buffer, 33, WISANGUB_HIGH, 1) == WISANGUB_FAULT && centre.at == NULL);
}

/* A command whose room is too small, and a centre that knows nothing of it. */
/* Why a line is no command, in numbers and in words, of the size that they have. */
static void command_causes(void)
{
    static const char refused[] = "blank 1 5 256 192.0.2.1", blank[] = "blank 1 5 255 192.0.2.1";
    static const char why[] = "word 4: a number from 0 to 255 is wanted";
    struct wisangub_cause cause;
    size_t told = 9, count = sizeof refused - 1;
    cause.line = 99;
    REFUSED(wisangub_command_cause(NULL, 0, &cause, room, 200, &told));
    REFUSED(wisangub_command_cause(refused, count, NULL, room, 200, &told));
    REFUSED(wisangub_command_cause(refused, count, &cause, NULL, 200, &told));
    REFUSED(wisangub_command_cause(refused, count, &cause, room, 200, NULL));
    NOTHING(wisangub_command_cause(blank, count, &cause, NULL, 0, &told));
    assert(told == 0 && cause.line == 99);
    spread();
    TOO_SMALL(wisangub_command_cause(refused, count, &cause, NULL, 0, &told));
    TOO_SMALL(wisangub_command_cause(refused, count, &cause, room, told - 1, &told));
    assert(told == sizeof why - 1 && cause.line == 99 && untouched(0, told));
    DONE(wisangub_command_cause(refused, count, &cause, room, told, &told));
    assert(told == sizeof why - 1 && memcmp(room, why, told) == 0 && untouched(told, 16));
    assert(cause.line == 1 && cause.word == 4 && cause.least == 0 && cause.most == 255);
    assert(cause.kind == WISANGUB_CAUSE_OTHER && cause.wanted == WISANGUB_WANTED_NUMBER && cause.row == 0);
    DONE(wisangub_command_cause("sign-tick", 9, &cause, room, 200, &told));
    assert(cause.line == 1 && cause.word == 1 && cause.kind == WISANGUB_CAUSE_KEYWORD && cause.wanted == 0);
}

static void commands(void)
{
    static const char blank[] = "blank 1 5 255 192.0.2.1";
    struct wisangub_status status;
    struct wisangub_entry entry;
    size_t count = sizeof blank - 1, least = WISANGUB_DATAGRAM;
    DONE(wisangub_centre_new(&centre, "a", 1, WISANGUB_HIGH, 5));
    REFUSED(wisangub_centre_new(&centre, "a", 1, WISANGUB_HIGH, 5));
    REFUSED(wisangub_centre_command(&centre, NULL, 0, room, least, &size));
    REFUSED(wisangub_centre_command(&centre, "", 0, NULL, least, &size));
    REFUSED(wisangub_centre_command(&centre, "", 0, room, least, NULL));
    assert(wisangub_centre_command(&centre, "", 0, room, least, &size) == WISANGUB_FAULT);
    assert(wisangub_centre_command(&centre, "sign-tick", 9, room, least, &size) == WISANGUB_FAULT);
    assert(wisangub_centre_command(&centre, "blank 0 5 255 192.0.2.1", count, room, least, &size) == WISANGUB_RANGE);
    spread();
    assert(wisangub_centre_command(&centre, blank, count, room, least - 1, &size) == WISANGUB_TOO_SMALL);
    assert(size == least && untouched(0, least));
    REFUSED(wisangub_centre_status(&centre, NULL));
    DONE(wisangub_centre_status(&centre, &status));
    assert(status.busy == 0 && status.entries == 0 && status.last == WISANGUB_NEVER);
    REFUSED(wisangub_centre_entry(&centre, 0, NULL));
    assert(wisangub_centre_entry(&centre, 0, &entry) == WISANGUB_FAULT);
    DONE(wisangub_centre_command(&centre, blank, count, room, least, &size));
    assert(size > 0 && room[0] == 0x30);
    assert(wisangub_centre_command(&centre, blank, count, room, least, &size) == WISANGUB_BUSY);
    DONE(wisangub_centre_entry(&centre, 0, &entry));
    assert(entry.number == 5 && entry.outcome == WISANGUB_WAITS && entry.code.minutes == 5);
}

/* While it waits for a reply. */
static void waiting(void)
{
    struct wisangub_status status;
    struct wisangub_entry entry;
    spread();
    REFUSED(wisangub_centre_receive(&centre, NULL, 0, room, WISANGUB_DATAGRAM, &size));
    REFUSED(wisangub_centre_receive(&centre, "", 0, NULL, WISANGUB_DATAGRAM, &size));
    REFUSED(wisangub_centre_receive(&centre, "", 0, room, WISANGUB_DATAGRAM, NULL));
    assert(wisangub_centre_receive(&centre, "", 0, room, WISANGUB_DATAGRAM - 1, &size) == WISANGUB_TOO_SMALL);
    assert(size == WISANGUB_DATAGRAM);
    assert(wisangub_centre_receive(&centre, "", 0, room, WISANGUB_DATAGRAM, &size) == WISANGUB_NOTHING && size == 0);
    REFUSED(wisangub_centre_tick(&centre, NULL, WISANGUB_DATAGRAM, &size));
    REFUSED(wisangub_centre_tick(&centre, room, WISANGUB_DATAGRAM, NULL));
    for (int turn = 0; turn < 100; turn++) {
        assert(wisangub_centre_tick(&centre, room, WISANGUB_DATAGRAM - 1, &size) == WISANGUB_TOO_SMALL);
        assert(size == WISANGUB_DATAGRAM && untouched(0, WISANGUB_DATAGRAM));
    }
    DONE(wisangub_centre_restart(&centre));
    DONE(wisangub_centre_entry(&centre, 0, &entry));
    assert(entry.outcome == WISANGUB_UNKNOWN && wisangub_centre_entry(&centre, 1, &entry) == WISANGUB_FAULT);
    DONE(wisangub_centre_status(&centre, &status));
    assert(status.entries == 1 && status.last == WISANGUB_FAILED && status.why == WISANGUB_WHY_RESTARTED);
}

/* A publication up to its end, in which the sign once hears nothing, as its room is too small. */
static void publish(const char *command, uint32_t first)
{
    struct wisangub_status status = {0, 0, 1, 0, 0, 0};
    uint8_t *request = room, *reply = room + 2000;
    enum wisangub_answer sends;
    size_t community = 0;
    wisangub_centre_free(&centre);
    assert(centre.at == NULL);
    DONE(wisangub_sign_writer(&sign, buffer, sizeof buffer, &community));
    DONE(wisangub_centre_new(&centre, buffer, community, WISANGUB_HIGH, first));
    sends = wisangub_centre_command(&centre, command, strlen(command), request, WISANGUB_DATAGRAM, &size);
    for (int turn = 0; turn < 20 && status.busy; turn++) {
        while (sends == WISANGUB_DONE) {
            size_t asked = size;
            assert(wisangub_sign_receive(&sign, request, asked, reply, 1471, &size) == WISANGUB_TOO_SMALL);
            DONE(wisangub_sign_receive(&sign, request, asked, reply, WISANGUB_DATAGRAM, &size));
            sends = wisangub_centre_receive(&centre, reply, size, request, WISANGUB_DATAGRAM, &size);
        }
        DONE(wisangub_sign_tick(&sign));
        sends = wisangub_centre_tick(&centre, request, WISANGUB_DATAGRAM, &size);
        DONE(wisangub_centre_status(&centre, &status));
    }
    assert(status.last == WISANGUB_DID && status.entries == 1);
}

static void published(void)
{
    struct wisangub_shown shown;
    publish("publish 3 1 41 - 0 0 200 65535 255 127.0.0.1", 1);
    assert(changes() == 1);
    DONE(wisangub_sign_shown(&sign, &shown));
    assert(shown.memory == 3 && shown.number == 1 && shown.checksum == 0x9a66 && shown.minutes == 65535);
}

/* A text of two pages and a flash, `[pt10o5][flt3o4]A[np]A`, for a minute: what is due comes soonest. */
static void moving(void)
{
    struct wisangub_page page = {0, 0, 0, 0};
    publish("publish 3 2 5b707431306f355d5b666c74336f345d415b6e705d41 - 0 0 200 1 255 127.0.0.1", 200);
    DONE(wisangub_sign_page_times(&sign, 1, &page));
    assert(page.count == 2 && page.on == 10 && page.off == 5);
    assert(wisangub_sign_page_times(&sign, 2, &page) == WISANGUB_FAULT);
    assert(due(0, 0) == 3 && due(3, 0) == 4 && due(7, 0) == 3 && due(9, 0) == 1 && due(12, 0) == 3);
    assert(due(15, 0) == 3 && due(30, 0) == 3 && due(12, ends()) == 0 && due(12, ends() - 2) == 2);
    page_rows();
}

/* The text that is shown, with room and without. */
static void shown_text(void)
{
    REFUSED(wisangub_sign_text(&sign, NULL, 1, &size));
    REFUSED(wisangub_sign_text(&sign, buffer, sizeof buffer, NULL));
    spread();
    assert(wisangub_sign_text(&sign, NULL, 0, &size) == WISANGUB_TOO_SMALL && size == 1);
    assert(wisangub_sign_text(&sign, room, 0, &size) == WISANGUB_TOO_SMALL && size == 1 && untouched(0, 16));
    DONE(wisangub_sign_text(&sign, room, 1, &size));
    assert(size == 1 && room[0] == 'A' && untouched(1, 16));
}

/* The state as text, with room and without; a sign made of it has the same one, and of another text there is none. */
static void states(const char *description, size_t description_size)
{
    static struct wisangub_sign other = {NULL};
    uint32_t first = 7;
    size_t line = 0, most = 0, wanted = 0;
    uint8_t *state = room + sizeof room / 2;
    REFUSED(wisangub_sign_save(&sign, NULL, 1, &size));
    REFUSED(wisangub_sign_save(&sign, buffer, sizeof buffer, NULL));
    REFUSED(wisangub_sign_save_most(&sign, NULL));
    spread();
    TOO_SMALL(wisangub_sign_save(&sign, NULL, 0, &wanted));
    TOO_SMALL(wisangub_sign_save(&sign, room, wanted - 1, &size));
    assert(size == wanted && untouched(0, wanted));
    DONE(wisangub_sign_save(&sign, room, wanted, &size));
    DONE(wisangub_sign_save_most(&sign, &most));
    assert(size == wanted && wanted <= most && untouched(wanted, 16));
    assert(memcmp(room, "state 1 sign\n", 13) == 0 && memcmp(room + wanted - 4, "end\n", 4) == 0);
    REFUSED(wisangub_sign_restore(NULL, description, description_size, room, wanted, &first, &line));
    REFUSED(wisangub_sign_restore(&sign, description, description_size, room, wanted, &first, &line));
    REFUSED(wisangub_sign_restore(&other, NULL, description_size, room, wanted, &first, &line));
    REFUSED(wisangub_sign_restore(&other, description, description_size, NULL, wanted, &first, &line));
    REFUSED(wisangub_sign_restore(&other, description, description_size, room, wanted, NULL, &line));
    REFUSED(wisangub_sign_restore(&other, description, description_size, room, wanted, &first, NULL));
    FAULT(wisangub_sign_restore(&other, "size 1 x\n", 9, room, wanted, &first, &line));
    assert(line == 1 && first == 7 && other.at == NULL);
    assert(wisangub_sign_restore(&other, description, description_size, "state 1 sign\nx", 14, &first, &line)
           == WISANGUB_STATE);
    assert(line == 2 && first == 7 && other.at == NULL);
    DONE(wisangub_sign_restore(&other, description, description_size, room, wanted, &first, &line));
    DONE(wisangub_sign_save(&other, state, wanted, &size));
    assert(size == wanted && memcmp(state, room, wanted) == 0);
    wisangub_sign_free(&other);
}

/* Of what no central system is made, and the line that is told. */
static void centres_refused(const void *state, size_t state_size)
{
    static const char of_sign[] = "state 1 sign\n", cut[] = "state 1 centre\nnext 7\n";
    static struct wisangub_centre none = {NULL};
    size_t line = 9;
    REFUSED(wisangub_centre_restore(NULL, "a", 1, WISANGUB_HIGH, state, state_size, &line));
    REFUSED(wisangub_centre_restore(&centre, "a", 1, WISANGUB_HIGH, state, state_size, &line));
    REFUSED(wisangub_centre_restore(&none, NULL, 1, WISANGUB_HIGH, state, state_size, &line));
    REFUSED(wisangub_centre_restore(&none, "a", 1, WISANGUB_HIGH, NULL, state_size, &line));
    REFUSED(wisangub_centre_restore(&none, "a", 1, WISANGUB_HIGH, state, state_size, NULL));
    FAULT(wisangub_centre_restore(&none, "", 0, WISANGUB_HIGH, state, state_size, &line));
    FAULT(wisangub_centre_restore(&none, buffer, 33, WISANGUB_HIGH, cut, sizeof cut - 1, &line));
    assert(line == 9 && none.at == NULL);
    NO_STATE(wisangub_centre_restore(&none, "a", 1, WISANGUB_HIGH, of_sign, sizeof of_sign - 1, &line));
    assert(line == 1 && none.at == NULL);
    NO_STATE(wisangub_centre_restore(&none, "a", 1, WISANGUB_HIGH, cut, sizeof cut - 1, &line));
    assert(line == 3 && none.at == NULL);
}

/* The state of the central system as text, with room and without; one made of it has the same one, and goes on. */
static void centre_states(void)
{
    static struct wisangub_centre other = {NULL};
    size_t line = 9, wanted = 0;
    uint8_t *state = room + sizeof room / 2;
    REFUSED(wisangub_centre_save(&centre, NULL, 1, &size));
    REFUSED(wisangub_centre_save(&centre, buffer, sizeof buffer, NULL));
    REFUSED(wisangub_centre_save_size(&centre, NULL));
    spread();
    TOO_SMALL(wisangub_centre_save(&centre, NULL, 0, &size));
    DONE(wisangub_centre_save_size(&centre, &wanted));
    assert(size == wanted);
    TOO_SMALL(wisangub_centre_save(&centre, room, wanted - 1, &size));
    assert(size == wanted && untouched(0, wanted));
    DONE(wisangub_centre_save(&centre, room, wanted, &size));
    assert(size == wanted && untouched(wanted, 16));
    assert(memcmp(room, "state 1 centre\n", 15) == 0 && memcmp(room + wanted - 4, "end\n", 4) == 0);
    centres_refused(room, wanted);
    DONE(wisangub_centre_restore(&other, "a", 1, WISANGUB_HIGH, room, wanted, &line));
    DONE(wisangub_centre_save(&other, state, wanted, &size));
    assert(size == wanted && memcmp(state, room, wanted) == 0 && line == 9);
    wisangub_centre_free(&other);
}

/* Seconds one by one and at once are the same to a message that is shown for a minute. */
static void seconds(void)
{
    static const char command[] = "blank 1 5 255 192.0.2.1";
    struct wisangub_shown shown;
    size_t community = 0;
    wisangub_centre_free(&centre);
    DONE(wisangub_sign_writer(&sign, buffer, sizeof buffer, &community));
    DONE(wisangub_centre_new(&centre, buffer, community, WISANGUB_HIGH, 100));
    DONE(wisangub_centre_command(&centre, command, sizeof command - 1, room, WISANGUB_DATAGRAM, &size));
    DONE(wisangub_sign_receive(&sign, room, size, room + 2000, WISANGUB_DATAGRAM, &size));
    DONE(wisangub_sign_shown(&sign, &shown));
    assert(shown.memory == 7 && shown.number == 1 && shown.minutes == 5 && changes() == 2 && ends() == 3000);
    assert(due(0, 4) <= 2996);
    DONE(wisangub_sign_ticks(&sign, 0));
    DONE(wisangub_sign_ticks(&sign, 179));
    DONE(wisangub_sign_shown(&sign, &shown));
    assert(shown.minutes == 3 && ends() == 1210);
    DONE(wisangub_sign_tick(&sign));
    DONE(wisangub_sign_shown(&sign, &shown));
    assert(shown.minutes == 2);
    DONE(wisangub_sign_ticks(&sign, UINT32_C(100000)));
    DONE(wisangub_sign_shown(&sign, &shown));
    assert(shown.minutes == 65535 && changes() == 2 && ends() == 77);
}

/* The library is of this header's version. */
static void version(void)
{
    assert(strcmp(wisangub_version(), WISANGUB_VERSION) == 0 && WISANGUB_OF_THIS_VERSION == 1);
}

int main(int count, char **words)
{
    FILE *file = count == 2 ? fopen(words[1], "rb") : NULL;
    if (file == NULL) {
        return fputs("usage: header_test DESCRIPTION\n", stderr), 2;
    }
    version();
    size_t text_size = fread(text, 1, sizeof text, file);
    fclose(file);
    without_a_sign();
    new_signs(text, text_size);
    causes(text, text_size);
    datagrams();
    DONE(wisangub_sign_text(&sign, NULL, 0, &size));
    shown_things();
    communities();
    pages();
    times();
    texts();
    text_causes();
    text_pages();
    bits();
    codes();
    values_out_of_range();
    wrong_objects();
    fonts_read();
    objects_read();
    objects_restored();
    objects_set();
    without_a_centre();
    command_causes();
    commands();
    centre_states();
    waiting();
    centre_states();
    published();
    centre_states();
    shown_text();
    states(text, text_size);
    seconds();
    moving();
    states(text, text_size);
    wisangub_centre_free(&centre);
    wisangub_sign_free(&sign);
    assert(sign.at == NULL && centre.at == NULL);
    puts("ok");
    return 0;
}
