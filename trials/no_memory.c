/* Counts how often the calls of dms_measures's `still` ask for memory: as often for none of them as for a hundred thousand,
   or as many as the first argument says. What a call is given may ask for memory: then as often without the call. */
#include <stddef.h>
#include <stdint.h>
#include <stdio.h>
#include <stdlib.h>
#include <string.h>

static unsigned long asked;

void *__real_malloc(size_t size);
void *__real_calloc(size_t count, size_t size);
void *__real_realloc(void *old, size_t size);

void *__wrap_malloc(size_t size) {
    asked++;
    return __real_malloc(size);
}

void *__wrap_calloc(size_t count, size_t size) {
    asked++;
    return __real_calloc(count, size);
}

void *__wrap_realloc(void *old, size_t size) {
    asked++;
    return __real_realloc(old, size);
}

typedef const uint8_t *octets;

uint64_t dms_measures_read(octets datagram, size_t size, uint32_t times);
uint64_t dms_measures_walk(octets datagram, size_t size, uint32_t times);
uint64_t dms_measures_write(octets datagram, size_t size, uint32_t times);
uint64_t dms_measures_crc(octets text, size_t size, uint32_t times);
uint64_t dms_measures_check(octets fonts, size_t fonts_size, octets text, size_t size, uint32_t times);
uint64_t dms_measures_cells(octets fonts, size_t fonts_size, octets text, size_t size, uint32_t times);
uint64_t dms_still_table(octets fonts, size_t fonts_size, octets text, size_t size, uint32_t times);
uint64_t dms_still_sign(octets fonts, size_t fonts_size, octets datagram, size_t size, uint32_t times);
uint64_t dms_still_centre(octets text, size_t size, uint32_t times);
uint64_t dms_still_ticks(octets text, size_t size, uint32_t times);
uint64_t dms_still_centres(uint32_t times);
uint64_t dms_still_streams(octets read, size_t size, uint32_t times);
uint64_t dms_still_pages(octets fonts, size_t fonts_size, octets text, size_t size, uint32_t times);
uint64_t dms_still_items(octets text, size_t size, uint32_t times);
uint64_t dms_still_fonts(octets fonts, size_t fonts_size, uint32_t times);
uint64_t dms_still_faces(octets fonts, size_t fonts_size, uint32_t times);
uint64_t dms_still_ends(octets fonts, size_t fonts_size, uint32_t times);
uint64_t dms_still_worlds(octets fonts, size_t fonts_size, uint32_t times);

static const char FONT[] = "font 1 height 7 space 1 line 1 version 0001\nglyph 65 5 7463f8c620\n";
static const char TEXT[] = "A[nl]A[np][jl2]A[pt10o5]A";
static const uint8_t GET[] = {
    0x30, 0x2e, 0x02, 0x01, 0x00, 0x04, 0x06, 'p', 'u', 'b', 'l', 'i', 'c', 0xa0, 0x21, 0x02, 0x01, 0x01, 0x02, 0x01, 0x00, 0x02, 0x01, 0x00,
    0x30, 0x16, 0x30, 0x14, 0x06, 0x10, 0x2b, 0x06, 0x01, 0x04, 0x01, 0x89, 0x36, 0x04, 0x02, 0x03, 0x05, 0x08, 0x01, 0x09, 0x03, 0x01, 0x05, 0x00,
};

/* a GetNext, a SET of a row's status, an activation of a blank message, and octets that are no message */
static const uint8_t GET_NEXT[] = {0x30, 0x2f, 0x02, 0x01, 0x00, 0x04, 0x06, 0x70, 0x75, 0x62, 0x6c, 0x69, 0x63, 0xa1, 0x22, 0x02, 0x01, 0x02, 0x02, 0x01, 0x00, 0x02, 0x01, 0x00, 0x30, 0x17, 0x30, 0x15, 0x06, 0x11, 0x2b, 0x06, 0x01, 0x04, 0x01, 0x89, 0x36, 0x04, 0x02, 0x03, 0x05, 0x08, 0x01, 0x09, 0x07, 0x81, 0x7f, 0x05, 0x00};
static const uint8_t SET[] = {0x30, 0x2e, 0x02, 0x01, 0x00, 0x04, 0x05, 0x61, 0x64, 0x6d, 0x69, 0x6e, 0xa3, 0x22, 0x02, 0x01, 0x01, 0x02, 0x01, 0x00, 0x02, 0x01, 0x00, 0x30, 0x17, 0x30, 0x15, 0x06, 0x10, 0x2b, 0x06, 0x01, 0x04, 0x01, 0x89, 0x36, 0x04, 0x02, 0x03, 0x05, 0x08, 0x01, 0x09, 0x03, 0x01, 0x02, 0x01, 0x06};
static const uint8_t ACTIVATE[] = {0x30, 0x36, 0x02, 0x01, 0x00, 0x04, 0x05, 0x61, 0x64, 0x6d, 0x69, 0x6e, 0xa3, 0x2a, 0x02, 0x01, 0x01, 0x02, 0x01, 0x00, 0x02, 0x01, 0x00, 0x30, 0x1f, 0x30, 0x1d, 0x06, 0x0d, 0x2b, 0x06, 0x01, 0x04, 0x01, 0x89, 0x36, 0x04, 0x02, 0x03, 0x06, 0x03, 0x00, 0x04, 0x0c, 0xff, 0xff, 0xff, 0x07, 0x00, 0x01, 0x00, 0x00, 0x00, 0x00, 0x00, 0x00};
static const uint8_t JUNK[] = {0x30, 0x03, 0x02, 0x01, 0x00};

static int passed, failed;

/* What was asked for without the calls and with them, and what these summed. */
static void told(const char *name, const char *what, unsigned long without, unsigned long with, uint64_t sum) {
    int same = without == with && sum != 0;
    printf("%-8s %lu times for %s, %lu for all: %s\n", name, without, what, with, same ? "ok" : "FAILED");
    if (same) passed++;
    else failed++;
}

/* The calls, of which `n` is the number, for none and for so many. */
#define COUNT(name, times, call)                               \
    do {                                                       \
        uint32_t n = 0;                                        \
        asked = 0;                                             \
        (void)(call);                                          \
        unsigned long none = asked;                            \
        n = times;                                             \
        asked = 0;                                             \
        uint64_t sum = (call);                                 \
        told(name, "no call", none, asked, sum);               \
    } while (0)

/* What is made for the calls alone, and with the calls. */
#define BESIDE(name, times, made, call)                        \
    do {                                                       \
        uint32_t n = times;                                    \
        asked = 0;                                             \
        (void)(made);                                          \
        unsigned long without = asked;                         \
        asked = 0;                                             \
        uint64_t sum = (call);                                 \
        told(name, "what it is given", without, asked, sum);   \
    } while (0)

int main(int count, char **words) {
    octets fonts = (octets)FONT, text = (octets)TEXT;
    size_t fonts_size = strlen(FONT), size = strlen(TEXT);
    uint32_t many = count > 1 ? (uint32_t)strtoul(words[1], NULL, 10) : 100000, some = many / 100 + 1;
    COUNT("read", many, dms_measures_read(GET, sizeof GET, n));
    COUNT("walk", many, dms_measures_walk(GET, sizeof GET, n));
    COUNT("write", many, dms_measures_write(GET, sizeof GET, n));
    COUNT("crc", many, dms_measures_crc(text, size, n));
    COUNT("items", many, dms_still_items(text, size, n));
    COUNT("check", many, dms_measures_check(fonts, fonts_size, text, size, n));
    BESIDE("face", some, dms_still_fonts(fonts, fonts_size, n), dms_still_faces(fonts, fonts_size, n));
    COUNT("cells", many / 10000 + 1, dms_measures_cells(fonts, fonts_size, text, size, n));
    COUNT("pages", many, dms_still_pages(fonts, fonts_size, text, size, n));
    COUNT("table", many, dms_still_table(fonts, fonts_size, text, size, n));
    COUNT("get", many, dms_still_sign(fonts, fonts_size, GET, sizeof GET, n));
    COUNT("next", many, dms_still_sign(fonts, fonts_size, GET_NEXT, sizeof GET_NEXT, n));
    COUNT("set", many, dms_still_sign(fonts, fonts_size, SET, sizeof SET, n));
    COUNT("activate", many, dms_still_sign(fonts, fonts_size, ACTIVATE, sizeof ACTIVATE, n));
    COUNT("junk", many, dms_still_sign(fonts, fonts_size, JUNK, sizeof JUNK, n));
    COUNT("centres", many, dms_still_centres(n));
    COUNT("centre", many, dms_still_centre(text, size, n));
    COUNT("ticks", many, dms_still_ticks(text, size, n));
    COUNT("streams", many, dms_still_streams(text, size, n));
    BESIDE("world", some, dms_still_ends(fonts, fonts_size, n), dms_still_worlds(fonts, fonts_size, n));
    printf("%d passed, %d failed\n", passed, failed);
    return failed != 0;
}
