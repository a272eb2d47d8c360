/*
 * A sign and a central system that are spoken to in lines, as `signtool sign --sign` and `signtool centre --sign` are:
 * a description up to its line `end`, and then a line for each call. What begins with `centre ` goes to the central
 * system, whose community is the one that may write. Beside the lines of docs/PROFILE.md there are `check OCTETS` and
 * `pages OCTETS` of a text, `bits`, which is `show` with each row as bits, `code ORDER MEMORY NUMBER TEXT BEACON PIXEL
 * MINUTES PRIORITY ADDRESS`, `why text OCTETS`, `why description OCTETS` and `why command OCTETS`, which are answered
 * `ok` where they are not refused, and `anew`, which frees both and makes them again. After `save` the sign is one that
 * was made of its text, and after `centre save` the central system is one that was. An activation that is accepted is
 * answered `reply OCTETS`, too. What memory is wanting for is answered `memory`.
 */
#include <inttypes.h>
#include <stdio.h>
#include <stdlib.h>
#include <string.h>

#include "talk_causes.h"
#include "talk_objects.h"
#include "wisangub.h"

enum { TEXT_MOST = 1 << 20, LINE_MOST = 140000, PAGES_MOST = 6 * (WISANGUB_PAGE_HEAD + 256 * 64) };

static char text[TEXT_MOST], line[LINE_MOST];
static size_t described; /* the octets of the text */
static uint8_t octets[LINE_MOST / 2], pages[PAGES_MOST], sent[WISANGUB_DATAGRAM];
static uint8_t community[32];
static size_t community_size;
static uint16_t width, height;
static enum wisangub_order order;
static struct wisangub_sign sign = {NULL};
static struct wisangub_centre centre = {NULL};

/* The value of a hexadecimal digit. */
static unsigned digit(char one) { return (unsigned)(one <= '9' ? one - '0' : (one | 32) - 'a' + 10); }

/* The octets that pairs of digits are, or -1. */
static long read_octets(const char *digits)
{
    size_t size = strlen(digits);
    if (strcmp(digits, "-") == 0) {
        return 0;
    }
    if (size == 0 || size % 2 != 0 || strspn(digits, "0123456789abcdefABCDEF") != size) {
        return -1;
    }
    for (size_t at = 0; at < size / 2; at++) {
        octets[at] = (uint8_t)(digit(digits[2 * at]) << 4 | digit(digits[2 * at + 1]));
    }
    return (long)(size / 2);
}

static void print_octets(const char *word, const uint8_t *found, size_t size, const char *after)
{
    static char digits[LINE_MOST];
    for (size_t at = 0; at < size; at++) {
        digits[2 * at] = "0123456789abcdef"[found[at] >> 4];
        digits[2 * at + 1] = "0123456789abcdef"[found[at] & 15];
    }
    fputs(word, stdout);
    fwrite(digits, 2, size, stdout);
    fputs(size == 0 ? "-" : "", stdout);
    fputs(after, stdout);
}

/* The number that is the whole word, at most `most`, or -1. */
static int64_t read_number(const char *word, uint64_t most)
{
    size_t size = strlen(word);
    if (size == 0 || size > 10 || strspn(word, "0123456789") != size || (size > 1 && *word == '0')
        || strtoull(word, NULL, 10) > most) {
        return -1;
    }
    return (int64_t)strtoull(word, NULL, 10);
}

static void print_answer(enum wisangub_answer answer, const char *word, size_t size, const char *none)
{
    if (answer == WISANGUB_DONE) {
        print_octets(word, sent, size, "\n");
    } else {
        puts(answer == WISANGUB_MEMORY ? "memory" : none);
    }
}

/* ---- pages */

static void print_row(const uint8_t *looks)
{
    for (unsigned x = 0; x < width; x++) {
        putchar(looks[x] & WISANGUB_LIT ? '0' + (looks[x] & WISANGUB_COLOUR) : '.');
    }
    putchar('\n');
}

static void print_bits(const uint8_t *looks)
{
    uint8_t bits[32];
    size_t size = 0;
    wisangub_row_bits(looks, width, bits, sizeof bits, &size);
    for (unsigned x = 0; x < width; x++) {
        putchar(bits[x / 8] >> (7 - x % 8) & 1 ? '*' : '.');
    }
    putchar('\n');
}

static void print_pages(size_t size, void (*print)(const uint8_t *))
{
    unsigned number = 1;
    for (const uint8_t *page = pages; page < pages + size; page += WISANGUB_PAGE_HEAD + (size_t)width * height) {
        printf("page %u on %u off %u back %u\n", number++, page[0], page[1], page[2]);
        for (unsigned y = 0; y < height; y++) {
            print(page + WISANGUB_PAGE_HEAD + (size_t)y * width);
        }
    }
}

/* Whether each row of these pages is the one that is given alone. */
static int rows_agree(enum wisangub_layer layer, size_t size)
{
    uint8_t row[256];
    size_t at = 0, count = 0;
    for (size_t number = 0; at < size; number++) {
        at += WISANGUB_PAGE_HEAD;
        for (uint16_t y = 0; y < height; y++, at += width) {
            if (wisangub_sign_page_row(&sign, number, y, layer, row, sizeof row, &count) != WISANGUB_DONE
                || count != width || memcmp(row, pages + at, width) != 0) {
                return 0;
            }
        }
    }
    return 1;
}

static void show(void (*print)(const uint8_t *))
{
    size_t size = 0, needed = 0;
    int agree = 1;
    enum wisangub_answer answer = wisangub_sign_pages(&sign, WISANGUB_LOOK, NULL, 0, &needed);
    for (int layer = WISANGUB_FLASH_DARK; layer >= WISANGUB_LOOK && answer != WISANGUB_MEMORY; layer--) {
        answer = wisangub_sign_pages(&sign, (enum wisangub_layer)layer, pages, sizeof pages, &size);
        agree = agree && (answer != WISANGUB_DONE || rows_agree((enum wisangub_layer)layer, size));
    }
    if (answer != WISANGUB_DONE || size != needed || !agree) {
        puts(answer == WISANGUB_MEMORY ? "memory" : "another size, or another row");
        return;
    }
    print_pages(size, print);
    puts("ok");
}

static void print_fault(const struct wisangub_text_fault *fault)
{
    printf("fault %u at %zu\n", fault->code, fault->place);
}

static void draw(const char *digits)
{
    struct wisangub_text_fault fault = {0, 0};
    long count = read_octets(digits);
    size_t size = 0;
    if (count < 0) {
        puts("bad line");
        return;
    }
    enum wisangub_answer answer =
        wisangub_sign_text_pages(&sign, octets, (size_t)count, WISANGUB_LOOK, pages, sizeof pages, &size, &fault);
    if (answer == WISANGUB_FAULT) {
        print_fault(&fault);
    } else if (answer == WISANGUB_DONE) {
        print_pages(size, print_row);
        puts("ok");
    } else {
        puts("memory");
    }
}

static void check(const char *digits)
{
    struct wisangub_text_fault fault = {0, 0};
    long count = read_octets(digits);
    size_t found = 0;
    if (count < 0) {
        puts("bad line");
    } else if (wisangub_sign_check(&sign, octets, (size_t)count, &found, &fault) == WISANGUB_DONE) {
        printf("ok pages %zu\n", found);
    } else {
        print_fault(&fault);
    }
}

/* ---- the sign */

static void state(void)
{
    struct wisangub_shown shown;
    size_t size = 0;
    wisangub_sign_shown(&sign, &shown);
    wisangub_sign_text(&sign, octets, sizeof octets, &size);
    printf("shown %u %u %04x mode %u priority %u remaining %" PRIu32, shown.memory, shown.number, shown.checksum,
           shown.mode, shown.priority, shown.minutes);
    print_octets(" text ", octets, size, "\nok\n");
}

static void receive(const char *digits)
{
    size_t size = 0;
    long count = read_octets(digits);
    if (count < 0) {
        puts("bad line");
        return;
    }
    enum wisangub_answer answer = wisangub_sign_receive(&sign, octets, (size_t)count, sent, sizeof sent, &size);
    print_answer(answer, "reply ", size, "dropped");
}

static void ticks(const char *word)
{
    int64_t seconds = read_number(word, UINT32_MAX);
    if (seconds >= 0) {
        wisangub_sign_ticks(&sign, (uint32_t)seconds);
    }
    puts(seconds < 0 ? "bad line" : "ok");
}

static void power_back(const char *word)
{
    int64_t seconds = read_number(word, UINT32_MAX);
    if (seconds >= 0) {
        wisangub_sign_power_back(&sign, (uint32_t)seconds);
    }
    puts(seconds < 0 ? "bad line" : "ok");
}

static void print_code(const char *words)
{
    struct wisangub_code code = {0};
    unsigned swapped, memory, number, beacon, pixel, minutes, priority, address[4];
    static char digits[LINE_MOST];
    size_t size = 0;
    if (sscanf(words, "%u %u %u %139999s %u %u %u %u %u.%u.%u.%u", &swapped, &memory, &number, digits, &beacon, &pixel,
               &minutes, &priority, &address[0], &address[1], &address[2], &address[3])
            != 12
        || read_octets(digits) < 0) {
        puts("bad line");
        return;
    }
    code = (struct wisangub_code){
        .minutes = (uint16_t)minutes,
        .number = (uint16_t)number,
        .priority = (uint8_t)priority,
        .memory = (uint8_t)memory,
        .address = {(uint8_t)address[0], (uint8_t)address[1], (uint8_t)address[2], (uint8_t)address[3]}};
    wisangub_crc(octets, (size_t)read_octets(digits), (uint8_t)beacon, (uint8_t)pixel, &code.checksum);
    printf("crc %04x ", code.checksum);
    wisangub_message_code(swapped ? WISANGUB_SWAPPED : WISANGUB_HIGH, &code, sent, sizeof sent, &size);
    print_octets("id ", sent, size, " ");
    wisangub_activation_code(swapped ? WISANGUB_SWAPPED : WISANGUB_HIGH, &code, sent, sizeof sent, &size);
    print_octets("code ", sent, size, "\n");
}

/* The octets of the sign's own state, up to its line `end`. */
static size_t own_size(const uint8_t *saved, size_t size)
{
    size_t at = 0;
    while (at + 5 < size && memcmp(saved + at, "\nend\n", 5) != 0) {
        at++;
    }
    return at + 5;
}

/* The sign's state as text; what goes on then is a sign that is made of it. */
static void save(void)
{
    struct wisangub_sign made = {NULL};
    uint32_t first = 0;
    size_t size = 0, fault = 0;
    wisangub_sign_save(&sign, NULL, 0, &size);
    uint8_t *saved = malloc(size);
    enum wisangub_answer answer = saved == NULL ? WISANGUB_MEMORY : wisangub_sign_save(&sign, saved, size, &size);
    if (answer == WISANGUB_DONE) {
        answer = wisangub_sign_restore(&made, text, described, saved, size, &first, &fault);
    }
    if (answer == WISANGUB_MEMORY) {
        puts("memory");
    } else if (answer != WISANGUB_DONE) {
        printf("answer %d line %zu\n", (int)answer, fault);
    } else {
        wisangub_sign_free(&sign);
        sign = made;
        fwrite(saved, 1, own_size(saved, size), stdout);
        puts("ok");
    }
    free(saved);
}

static void answer(void)
{
    if (strncmp(line, "datagram ", 9) == 0) {
        receive(line + 9);
    } else if (strcmp(line, "tick") == 0) {
        ticks("1");
    } else if (strncmp(line, "ticks ", 6) == 0) {
        ticks(line + 6);
    } else if (strcmp(line, "heard") == 0) {
        wisangub_sign_heard(&sign);
        puts("ok");
    } else if (strcmp(line, "power-lost") == 0) {
        wisangub_sign_power_lost(&sign);
        puts("ok");
    } else if (strncmp(line, "power-back ", 11) == 0) {
        power_back(line + 11);
    } else if (strcmp(line, "state") == 0) {
        state();
    } else if (strcmp(line, "save") == 0) {
        save();
    } else if (strcmp(line, "show") == 0) {
        show(print_row);
    } else if (strcmp(line, "bits") == 0) {
        show(print_bits);
    } else if (strncmp(line, "check ", 6) == 0) {
        check(line + 6);
    } else if (strncmp(line, "pages ", 6) == 0) {
        draw(line + 6);
    } else if (strncmp(line, "code ", 5) == 0) {
        print_code(line + 5);
    } else {
        puts("bad line");
    }
}

/* ---- the central system */

static void print_ended(const struct wisangub_status *status)
{
    static const char *const reasons[] = {"",
                                          "error-status %" PRId64,
                                          "the row has status %" PRId64,
                                          "the row is still being validated",
                                          "the row has another checksum",
                                          "no reply",
                                          "no request number is left",
                                          "the reply does not answer what was asked",
                                          "the sign refused the activation for cause %" PRId64,
                                          "the central system was restarted"};
    if (status->last != WISANGUB_FAILED) {
        puts(status->last == WISANGUB_DID ? "last accepted" : "last none");
        return;
    }
    printf("last failed at step %u: ", status->step);
    printf(reasons[status->why], status->value);
    putchar('\n');
}

/* The octets of a code that may name a type of memory of which there is none, as an `activate` may. */
static void put_code(const struct wisangub_code *parts, uint8_t code[12])
{
    int swapped = order == WISANGUB_SWAPPED;
    uint8_t high = (uint8_t)(parts->checksum >> 8), low = (uint8_t)parts->checksum;
    const uint8_t octets[8] = {
        (uint8_t)(parts->minutes >> 8), (uint8_t)parts->minutes, parts->priority, parts->memory,
        (uint8_t)(parts->number >> 8),  (uint8_t)parts->number,  swapped ? low : high, swapped ? high : low};
    memcpy(code, octets, sizeof octets);
    memcpy(code + sizeof octets, parts->address, sizeof parts->address);
}

static void print_entry(size_t index)
{
    static const char *const outcomes[] = {"waiting\n", "accepted\n", "refused %" PRId64 "\n", "noreply\n",
                                           "unknown\n"};
    struct wisangub_entry entry;
    uint8_t code[12];
    size_t size = 0;
    wisangub_centre_entry(&centre, index, &entry);
    if (wisangub_activation_code(order, &entry.code, code, sizeof code, &size) == WISANGUB_RANGE) {
        put_code(&entry.code, code);
        size = sizeof code;
    }
    printf("ledger %" PRIu32 " ", entry.number);
    print_octets("", code, size, " ");
    printf(outcomes[entry.outcome], entry.status);
}

static void print_status(void)
{
    struct wisangub_status status;
    wisangub_centre_status(&centre, &status);
    puts(status.busy ? "busy" : "idle");
    print_ended(&status);
    for (size_t index = 0; index < status.entries; index++) {
        print_entry(index);
    }
    puts("ok");
}

static void give(const char *words)
{
    size_t size = 0;
    switch (wisangub_centre_command(&centre, words, strlen(words), sent, sizeof sent, &size)) {
    case WISANGUB_DONE:
        print_octets("send ", sent, size, "\n");
        return;
    case WISANGUB_NOTHING:
        puts("ok");
        return;
    case WISANGUB_BUSY:
        puts("refused a job is not done yet");
        return;
    case WISANGUB_USED_UP:
        puts("refused no request number is left");
        return;
    case WISANGUB_RANGE:
        puts("refused a value is out of its range");
        return;
    case WISANGUB_MEMORY:
        puts("memory");
        return;
    default:
        puts("bad line");
    }
}

/* The state as text; what goes on then is a central system that is made of it. */
static void save_centre(void)
{
    struct wisangub_centre made = {NULL};
    size_t size = 0, fault = 0;
    wisangub_centre_save_size(&centre, &size);
    uint8_t *saved = malloc(size);
    enum wisangub_answer answer =
        saved == NULL ? WISANGUB_MEMORY : wisangub_centre_save(&centre, saved, size, &size);
    if (answer == WISANGUB_DONE) {
        answer = wisangub_centre_restore(&made, community, community_size, order, saved, size, &fault);
    }
    if (answer == WISANGUB_MEMORY) {
        puts("memory");
    } else if (answer != WISANGUB_DONE) {
        printf("answer %d line %zu\n", (int)answer, fault);
    } else {
        wisangub_centre_free(&centre);
        centre = made;
        fwrite(saved, 1, size, stdout);
        puts("ok");
    }
    free(saved);
}

static void answer_centre(const char *words)
{
    size_t size = 0;
    if (strncmp(words, "datagram ", 9) == 0 && read_octets(words + 9) >= 0) {
        enum wisangub_answer answer =
            wisangub_centre_receive(&centre, octets, (size_t)read_octets(words + 9), sent, sizeof sent, &size);
        print_answer(answer, "send ", size, "ok");
    } else if (strcmp(words, "tick") == 0) {
        enum wisangub_answer answer = wisangub_centre_tick(&centre, sent, sizeof sent, &size);
        print_answer(answer, "send ", size, "ok");
    } else if (strcmp(words, "restart") == 0) {
        wisangub_centre_restart(&centre);
        puts("ok");
    } else if (strcmp(words, "status") == 0) {
        print_status();
    } else if (strcmp(words, "save") == 0) {
        save_centre();
    } else {
        give(words);
    }
}

/* Why octets are refused as what they are said to be. */
static void why(char *words)
{
    char *digits = strchr(words, ' ');
    if (digits == NULL || read_octets(digits + 1) < 0) {
        puts("bad line");
        return;
    }
    *digits = '\0';
    answer_why(&sign, words, octets, (size_t)read_octets(digits + 1));
}

/* ---- the description */

/* The size of the description, which ends with its line `end`; its line `order` says the order of codes. */
static size_t read_description(void)
{
    size_t size = 0;
    while (size + LINE_MOST < TEXT_MOST && fgets(text + size, LINE_MOST, stdin) != NULL) {
        const char *last = text + size;
        size += strlen(last);
        order = strncmp(last, "order swapped", 13) == 0 ? WISANGUB_SWAPPED : order;
        if (strcmp(last, "end\n") == 0) {
            break;
        }
    }
    return size;
}

/* Makes the sign and the central system of the text; nothing is made where one of them is not. */
static enum wisangub_answer make(size_t size)
{
    uint32_t first = 0;
    size_t fault = 0;
    enum wisangub_answer made = wisangub_sign_new(&sign, text, size, &first, &fault);
    if (made == WISANGUB_DONE) {
        wisangub_sign_writer(&sign, community, sizeof community, &community_size);
        wisangub_sign_matrix(&sign, &width, &height);
        made = wisangub_centre_new(&centre, community, community_size, order, first);
    }
    if (made == WISANGUB_FAULT) {
        printf("fault line %zu\n", fault);
    } else if (made == WISANGUB_MEMORY) {
        wisangub_sign_free(&sign);
        puts("memory");
    }
    return made;
}

/* As `make`; where memory is wanting it says so and tries again. */
static int is_made(size_t size)
{
    enum wisangub_answer made;
    do {
        made = make(size);
    } while (made == WISANGUB_MEMORY);
    return made == WISANGUB_DONE;
}

static void free_both(void)
{
    wisangub_centre_free(&centre);
    wisangub_sign_free(&sign);
}

int main(void)
{
    described = read_description();
    int goes_on = is_made(described), status = !goes_on;
    while (goes_on && fgets(line, LINE_MOST, stdin) != NULL) {
        line[strcspn(line, "\n")] = '\0';
        if (strcmp(line, "anew") == 0) {
            free_both();
            goes_on = is_made(described);
            puts("ok");
        } else if (strncmp(line, "centre ", 7) == 0) {
            answer_centre(line + 7);
        } else if (strncmp(line, "why ", 4) == 0) {
            why(line + 4);
        } else if (!answer_objects(&sign, line)) {
            answer();
        }
        fflush(stdout);
    }
    free_both();
    return status;
}
