/*
 * Inputs of libFuzzer at the library for C: FUZZED=datagrams|descriptions|states|texts FUZZ_SIGN=DESCRIPTION fuzz ..,
 * built by trials/library/fuzzed.py. What goes in and what comes out stands at the end of a page behind which none may
 * be read or written, since the library itself is not instrumented; what it answers leads the fuzzer on, by counters.
 *
 * An input of `datagrams` is calls of both ends, one after the other: an octet that says which, two octets that say how
 * much belongs to it, and so much. Each input begins with new ends, so that it can be tried again.
 */
#define _GNU_SOURCE
#include <stdint.h>
#include <stdio.h>
#include <stdlib.h>
#include <string.h>
#include <sys/mman.h>

#include "wisangub.h"

enum { ROOM = 1 << 20, PAGE = 1 << 16, COUNTERS = 1 << 15, PAGES_MOST = 6 * (WISANGUB_PAGE_HEAD + 256 * 64) };

/* Which calls an input of datagrams has. */
enum {
    TO_SIGN,
    TO_CENTRE,
    SIGN_TICK,
    CENTRE_TICK,
    POWER_LOST,
    POWER_BACK,
    COMMAND,
    PAGES,
    HEARD,
    RESTART,
    PUBLISH,
    WITHDRAW,
    OBJECT,
    TAKEN,
    FONTS,
    PUT_BACK,
    CALLS
};

__attribute__((section("__libfuzzer_extra_counters"))) static uint8_t counters[COUNTERS];

static char description[ROOM];
static size_t description_size;
static uint8_t *input, *output; /* the ends of their pages */
static void (*fuzz)(const uint8_t *octets, size_t size);

int LLVMFuzzerInitialize(int *count, char ***words);
int LLVMFuzzerTestOneInput(const uint8_t *octets, size_t size);

/* The library promises something else. */
static void must(int is_so, const char *what)
{
    if (!is_so) {
        fprintf(stderr, "broken: %s\n", what);
        abort();
    }
}

/* One more outcome that the fuzzer sees. */
static void seen(unsigned call, uint32_t answer, size_t more)
{
    uint64_t mixed = ((uint64_t)call << 32 | answer) * UINT64_C(0x9E3779B97F4A7C15);
    mixed ^= more * UINT64_C(0xC2B2AE3D27D4EB4F);
    counters[(mixed ^ mixed >> 29) % COUNTERS]++;
}

static uint8_t *guarded(void)
{
    uint8_t *made = mmap(NULL, ROOM + PAGE, PROT_READ | PROT_WRITE, MAP_PRIVATE | MAP_ANONYMOUS, -1, 0);
    must(made != MAP_FAILED && mprotect(made + ROOM, PAGE, PROT_NONE) == 0, "mmap");
    return made + ROOM;
}

/* The octets where none may be read behind them. */
static const uint8_t *put(const uint8_t *octets, size_t size)
{
    return memcpy(input - size, octets, size);
}

/* The error-status and the error-index of a reply, and how large it is, in one number. */
static size_t outcome_of(const uint8_t *reply, size_t size)
{
    size_t at = reply[1] & 128 ? 2 + (reply[1] & 127U) : 2;
    at += 3;                                         /* the version */
    at += 2U + (at + 1 < size ? reply[at + 1] : 0U); /* the community */
    at += at + 1 < size && reply[at + 1] & 128 ? 2 + (reply[at + 1] & 127U) : 2;
    at += 2U + (at + 1 < size ? reply[at + 1] : 0U); /* the number */
    return at + 5 < size ? (size_t)reply[at + 2] << 24 | (size_t)reply[at + 5] << 16 | size : size;
}

static void looked_at(unsigned call, enum wisangub_answer answer, size_t size)
{
    must(answer != WISANGUB_NULL && answer != WISANGUB_TOO_SMALL && size <= WISANGUB_DATAGRAM, "an answer");
    seen(call, answer, answer == WISANGUB_DONE && size > 0 ? outcome_of(output - WISANGUB_DATAGRAM, size) : 0);
}

/* ---- datagrams */

/* Each row of the pages is the one that is given alone. */
static void rows(struct wisangub_sign *sign, size_t pages, uint16_t width, uint16_t height)
{
    size_t size = 0, at = 0;
    for (size_t number = 0; at < pages; number++) {
        at += WISANGUB_PAGE_HEAD;
        for (uint16_t y = 0; y < height; y++, at += width) {
            uint8_t *row = input - width;
            must(wisangub_sign_page_row(sign, number, y, WISANGUB_LOOK, row, width, &size) == WISANGUB_DONE, "a row");
            must(size == width && memcmp(row, output - pages + at, width) == 0, "a row of a page");
        }
    }
    must(wisangub_sign_page_row(sign, 0, height, WISANGUB_LOOK, input, 0, &size) == WISANGUB_FAULT, "no more rows");
}

static void draw(struct wisangub_sign *sign)
{
    struct wisangub_shown shown;
    size_t size = 0, needed = 0;
    must(wisangub_sign_shown(sign, &shown) == WISANGUB_DONE, "what is shown");
    seen(PAGES, (uint32_t)shown.memory << 16 | shown.number, (size_t)shown.mode << 8 | shown.priority);
    must(wisangub_sign_pages(sign, WISANGUB_LOOK, NULL, 0, &needed) == WISANGUB_TOO_SMALL, "the room of pages");
    must(needed <= PAGES_MOST, "how large pages are");
    must(wisangub_sign_pages(sign, WISANGUB_LOOK, output - needed, needed, &size) == WISANGUB_DONE && size == needed,
         "pages");
    struct wisangub_page page = {0, 0, 0, 0};
    uint64_t due = 0;
    uint16_t width = 0, height = 0;
    wisangub_sign_matrix(sign, &width, &height);
    must(wisangub_sign_page_times(sign, 0, &page) == WISANGUB_DONE, "the times of a page");
    must(page.count * (WISANGUB_PAGE_HEAD + (size_t)width * height) == needed, "how many pages there are");
    must(wisangub_sign_page_times(sign, page.count, &page) == WISANGUB_FAULT, "no more pages");
    rows(sign, needed, width, height);
    must(wisangub_sign_due(sign, shown.number, 0, &due) == WISANGUB_DONE || due == 0, "what is due");
}

/* ---- objects beside the sign's */

/* Three octets say the type, what may be written and the name's size; three numbers, the name and octets follow. */
static enum wisangub_answer publish(struct wisangub_sign *sign, const uint8_t *from, size_t size)
{
    struct wisangub_value value = {0, size > 0 ? from[0] : 0};
    struct wisangub_access access = {0, 0, size > 1 ? from[1] : 0};
    int64_t numbers[3] = {0, 0, 0};
    if (size < 3 + sizeof numbers) {
        return WISANGUB_NOTHING;
    }
    size_t name_size = from[2], left = size - 3 - sizeof numbers;
    const uint8_t *name = from + 3 + sizeof numbers;
    memcpy(numbers, from + 3, sizeof numbers);
    value.number = numbers[0];
    access.least = numbers[1];
    access.most = numbers[2];
    name_size = name_size < left ? name_size : left;
    return wisangub_sign_publish(sign, name, name_size, &value, name + name_size, left - name_size, &access);
}

static enum wisangub_answer read_object(struct wisangub_sign *sign, const uint8_t *name, size_t name_size)
{
    struct wisangub_value value = {0, 0};
    size_t needed = 0, size = 0;
    enum wisangub_answer asked = wisangub_sign_object(sign, name, name_size, &value, NULL, 0, &needed), answer;
    if (asked == WISANGUB_FAULT) {
        return asked;
    }
    must(asked == (needed == 0 ? WISANGUB_DONE : WISANGUB_TOO_SMALL) && needed <= ROOM, "the room of a value");
    answer = wisangub_sign_object(sign, name, name_size, &value, output - needed, needed, &size);
    must(answer == WISANGUB_DONE && size == needed, "a value");
    seen(OBJECT, value.type, (size_t)value.number);
    return answer;
}

/* What was set is read so, and what is left is none. */
static void take(struct wisangub_sign *sign)
{
    static uint8_t names[WISANGUB_NAME];
    struct wisangub_value value = {0, 0}, again = {0, 0};
    size_t name_size = 0, size = 0, same = 0;
    while (wisangub_sign_taken(sign, names, sizeof names, &name_size, &value, output - WISANGUB_DATAGRAM,
                               WISANGUB_DATAGRAM, &size)
           == WISANGUB_DONE) {
        seen(TAKEN, value.type, size << 32 ^ (size_t)value.number);
        must(wisangub_sign_object(sign, names, name_size, &again, output - WISANGUB_DATAGRAM, WISANGUB_DATAGRAM, &same)
                     == WISANGUB_DONE
                 && again.type == value.type && again.number == value.number && same == size,
             "what was set");
    }
    must(name_size == 0 && size == 0, "nothing more was set");
}

/* What stands behind a state is put back, or a line is told and nothing has changed; a state that was saved is. */
static enum wisangub_answer put_back(struct wisangub_sign *sign, const uint8_t *from, size_t size)
{
    size_t line = 0, made = 0, wanted = 0;
    enum wisangub_answer answer = wisangub_sign_restore_objects(sign, from, size, &line);
    must(answer == WISANGUB_DONE || (answer == WISANGUB_STATE && line > 0 && line <= size + 1), "values put back");
    must(wisangub_sign_save(sign, NULL, 0, &wanted) == WISANGUB_TOO_SMALL && wanted <= ROOM, "the size of a state");
    must(wisangub_sign_save(sign, output - wanted, wanted, &made) == WISANGUB_DONE && made == wanted, "a state");
    must(wisangub_sign_restore_objects(sign, output - wanted, wanted, &line) == WISANGUB_DONE, "its own values");
    return answer;
}

/* ---- calls */

/* What can be seen, but for the defaults. */
struct picture {
    uint64_t changes;
    struct wisangub_shown shown;
    uint8_t text[512];
    size_t size;
};

static struct picture picture_of(const struct wisangub_sign *sign)
{
    struct picture found;
    must(wisangub_sign_changes(sign, &found.changes) == WISANGUB_DONE, "changes");
    must(wisangub_sign_shown(sign, &found.shown) == WISANGUB_DONE, "what is shown");
    must(wisangub_sign_text(sign, found.text, sizeof found.text, &found.size) == WISANGUB_DONE, "a text");
    return found;
}

/* Another picture is counted once, and what comes to no sign changes none. */
static void counted(const struct picture *old, const struct picture *now, unsigned kind)
{
    uint64_t rose = now->changes - old->changes;
    int is_same = old->size == now->size && memcmp(old->text, now->text, now->size) == 0
                  && old->shown.beacon == now->shown.beacon && old->shown.pixel == now->shown.pixel;
    int may = kind == TO_SIGN || kind == SIGN_TICK || kind == POWER_LOST || kind == POWER_BACK;
    must(is_same || rose > 0, "a change is counted");
    must(rose == 0 || (may && (rose == 1 || kind == SIGN_TICK)), "no other change is counted");
}

static void call(struct wisangub_sign *sign, struct wisangub_centre *centre, unsigned kind, const uint8_t *octets,
                 size_t size)
{
    uint8_t *to = output - WISANGUB_DATAGRAM;
    const size_t most = WISANGUB_DATAGRAM;
    size_t made = 0;
    const uint8_t *from = put(octets, size);
    const struct picture old = picture_of(sign);
    enum wisangub_answer answer = WISANGUB_NOTHING;
    switch (kind) {
    case TO_SIGN: answer = wisangub_sign_receive(sign, from, size, to, most, &made); break;
    case TO_CENTRE: answer = wisangub_centre_receive(centre, from, size, to, most, &made); break;
    case SIGN_TICK: wisangub_sign_ticks(sign, 1U + (uint32_t)size); break;
    case CENTRE_TICK: answer = wisangub_centre_tick(centre, to, most, &made); break;
    case POWER_LOST: wisangub_sign_power_lost(sign); break;
    case POWER_BACK: wisangub_sign_power_back(sign, size > 3 ? UINT32_MAX : (uint32_t)size); break;
    case COMMAND: answer = wisangub_centre_command(centre, from, size, to, most, &made); break;
    case PAGES: draw(sign); break;
    case HEARD: wisangub_sign_heard(sign); break;
    case PUBLISH: answer = publish(sign, from, size); break;
    case WITHDRAW: answer = wisangub_sign_withdraw(sign, from, size); break;
    case OBJECT: answer = read_object(sign, from, size); break;
    case TAKEN: take(sign); break;
    case FONTS: answer = wisangub_sign_show_fonts(sign); break;
    case PUT_BACK: answer = put_back(sign, from, size); break;
    default: wisangub_centre_restart(centre); break;
    }
    const struct picture now = picture_of(sign);
    counted(&old, &now, kind);
    looked_at(kind, answer, made);
}

/* A central system goes on from its own state. */
static void goes_on(const struct wisangub_centre *centre)
{
    struct wisangub_centre other = {NULL};
    size_t size = 0, made = 0, line = 0;
    must(wisangub_centre_save_size(centre, &size) == WISANGUB_DONE && size <= ROOM, "the size of a state");
    must(wisangub_centre_save(centre, output - size, size, &made) == WISANGUB_DONE && made == size, "a state as text");
    const uint8_t *text = put(output - size, size);
    must(wisangub_centre_restore(&other, "a", 1, WISANGUB_HIGH, text, size, &line) == WISANGUB_DONE, "its own state");
    memset(output - size, 0, size);
    must(wisangub_centre_save(&other, output - size, size, &made) == WISANGUB_DONE && made == size, "its text");
    must(memcmp(output - size, text, size) == 0, "the same text");
    wisangub_centre_free(&other);
}

static void datagrams(const uint8_t *octets, size_t size)
{
    struct wisangub_sign sign = {NULL};
    struct wisangub_centre centre = {NULL};
    uint32_t first = 0;
    size_t line = 0, part = 0;
    must(wisangub_sign_new(&sign, description, description_size, &first, &line) == WISANGUB_DONE, "a sign");
    must(wisangub_sign_writer(&sign, output - 32, 32, &part) == WISANGUB_DONE, "a community");
    must(wisangub_centre_new(&centre, output - 32, part, WISANGUB_HIGH, first) == WISANGUB_DONE, "a central system");
    for (const uint8_t *at = octets, *end = octets + size; end - at >= 3; at += 3 + part) {
        part = (size_t)at[1] << 8 | at[2];
        part = part < (size_t)(end - at) - 3 ? part : (size_t)(end - at) - 3;
        call(&sign, &centre, at[0] % CALLS, at + 3, part);
    }
    draw(&sign);
    goes_on(&centre);
    wisangub_centre_free(&centre);
    wisangub_sign_free(&sign);
}

/* ---- causes */

/* The words of a cause fill just the room that they ask for; they are ASCII. */
static void words_of(enum wisangub_answer answer, size_t needed, size_t made)
{
    must(answer == WISANGUB_DONE && made == needed && needed < 256, "words of a cause");
    for (const uint8_t *at = output - needed; at < output; at++) {
        must(*at >= ' ' && *at < 127, "a word");
    }
}

/* What is refused has a cause at the same place; what is not has none. */
static void text_cause(const struct wisangub_sign *sign, const uint8_t *text, size_t size,
                       const struct wisangub_text_fault *fault, int is_refused)
{
    struct wisangub_text_cause cause = {0, 0, 0, 0, 0, 0};
    size_t needed = 0, made = 0;
    enum wisangub_answer asked = wisangub_sign_text_cause(sign, text, size, &cause, NULL, 0, &needed);
    if (!is_refused) {
        must(asked == WISANGUB_NOTHING && needed == 0, "no cause of a text");
        return;
    }
    must(asked == WISANGUB_TOO_SMALL, "the size of words");
    asked = wisangub_sign_text_cause(sign, text, size, &cause, output - needed, needed, &made);
    words_of(asked, needed, made);
    must(cause.place == fault->place && cause.code == fault->code && cause.lack <= WISANGUB_LACK_OCTETS, "a cause");
    seen(4, cause.lack, (size_t)cause.character << 32 | (size_t)cause.font << 24 | cause.count);
}

static void description_cause(const uint8_t *text, size_t size, size_t line, int is_refused)
{
    struct wisangub_cause cause = {0, 0, 0, 0, 0, 0, 0, 0, 0, 0};
    size_t needed = 0, made = 0;
    enum wisangub_answer asked = wisangub_description_cause(text, size, &cause, NULL, 0, &needed);
    if (!is_refused) {
        must(asked == WISANGUB_NOTHING && needed == 0, "no cause of a description");
        return;
    }
    must(asked == WISANGUB_TOO_SMALL, "the size of words");
    asked = wisangub_description_cause(text, size, &cause, output - needed, needed, &made);
    words_of(asked, needed, made);
    must(cause.line == line && cause.kind >= WISANGUB_CAUSE_MISSING && cause.kind <= WISANGUB_CAUSE_TEXT, "a cause");
    must(cause.least <= cause.most && cause.wanted <= WISANGUB_WANTED_CODE, "what is wanted");
    seen(1, cause.kind, cause.word);
}

/* ---- texts */

/* What `check` says is what all layers of the pages say. */
static void texts(const uint8_t *octets, size_t size)
{
    static struct wisangub_sign sign = {NULL};
    struct wisangub_text_fault fault = {0, 0}, again = {0, 0};
    uint32_t first = 0;
    size_t line = 0, pages = 0, made = 0, needed = 0;
    if (sign.at == NULL) {
        must(wisangub_sign_new(&sign, description, description_size, &first, &line) == WISANGUB_DONE, "a sign");
    }
    const uint8_t *text = put(octets, size);
    enum wisangub_answer answer = wisangub_sign_check(&sign, text, size, &pages, &fault), drawn;
    seen(0, answer, answer == WISANGUB_DONE ? pages : (size_t)fault.code << 16 | fault.place);
    must(answer == WISANGUB_DONE || (answer == WISANGUB_FAULT && fault.place <= size), "a check");
    text_cause(&sign, text, size, &fault, answer != WISANGUB_DONE);
    for (int layer = 0; layer < 3; layer++) {
        drawn = wisangub_sign_text_pages(&sign, text, size, (enum wisangub_layer)layer, NULL, 0, &needed, &again);
        must(drawn == (answer == WISANGUB_DONE ? WISANGUB_TOO_SMALL : answer), "the room of pages of a text");
        if (answer != WISANGUB_DONE) {
            must(again.code == fault.code && again.place == fault.place, "the same fault");
            continue;
        }
        drawn = wisangub_sign_text_pages(&sign, text, size, (enum wisangub_layer)layer, output - needed, needed, &made,
                                         &again);
        must(drawn == WISANGUB_DONE && made == needed && made % pages == 0, "pages of a text");
        for (const uint8_t *page = output - needed; page < output; page += made / pages) {
            seen(1U + (unsigned)layer, page[0], page[1]);
        }
    }
}

/* ---- descriptions */

static void descriptions(const uint8_t *octets, size_t size)
{
    struct wisangub_sign sign = {NULL};
    uint32_t first = 0;
    size_t line = 0;
    const uint8_t *text = put(octets, size);
    enum wisangub_answer answer = wisangub_sign_new(&sign, text, size, &first, &line);
    must(answer == WISANGUB_DONE || (answer == WISANGUB_FAULT && sign.at == NULL && line > 0), "a description");
    description_cause(text, size, line, answer != WISANGUB_DONE);
    seen(0, answer, line);
    if (answer == WISANGUB_DONE) {
        uint16_t width = 0, height = 0;
        wisangub_sign_matrix(&sign, &width, &height);
        must(width >= 1 && width <= 256 && height >= 1 && height <= 64, "the matrix");
        wisangub_sign_tick(&sign);
        draw(&sign);
    }
    wisangub_sign_free(&sign);
}

/* ---- states */

/* A text is the state of the central system that is made of it, or names a line; and it goes on. */
static void centre_states(const uint8_t *text, size_t size)
{
    struct wisangub_centre centre = {NULL};
    size_t line = 0, made = 0;
    enum wisangub_answer answer = wisangub_centre_restore(&centre, "a", 1, WISANGUB_HIGH, text, size, &line);
    must(answer == WISANGUB_DONE || (answer == WISANGUB_STATE && centre.at == NULL && line > 0), "a state of a centre");
    seen(1, answer, line);
    if (answer == WISANGUB_DONE) {
        must(wisangub_centre_save(&centre, NULL, 0, &made) == WISANGUB_TOO_SMALL && made == size, "its size");
        must(wisangub_centre_save(&centre, output - size, size, &made) == WISANGUB_DONE && made == size, "its text");
        must(memcmp(output - size, text, size) == 0, "the same text");
        wisangub_centre_tick(&centre, output - WISANGUB_DATAGRAM, WISANGUB_DATAGRAM, &made);
    }
    wisangub_centre_free(&centre);
}

/* What stands behind the sign's own state is put back to an object of any octets, or names a line. */
static void values(struct wisangub_sign *sign, const uint8_t *text, size_t size)
{
    static const uint8_t contact[] = {43, 6, 1, 2, 1, 1, 4, 0};
    static const struct wisangub_value none = {0, WISANGUB_OCTET_STRING};
    static const struct wisangub_access octets = {0, UINT16_MAX, WISANGUB_OCTETS};
    size_t line = 0;
    must(wisangub_sign_publish(sign, contact, sizeof contact, &none, NULL, 0, &octets) == WISANGUB_DONE, "an object");
    enum wisangub_answer answer = wisangub_sign_restore_objects(sign, text, size, &line);
    must(answer == WISANGUB_DONE || (answer == WISANGUB_STATE && line > 0), "values of a state");
    seen(2, answer, line);
}

/* A text is the state of the sign that is made of it, up to `end`, or names a line; and the sign goes on. */
static void states(const uint8_t *octets, size_t size)
{
    struct wisangub_sign sign = {NULL};
    uint32_t first = 0;
    size_t line = 0, most = 0, needed = 0, made = 0;
    const uint8_t *text = put(octets, size);
    centre_states(text, size);
    enum wisangub_answer answer =
        wisangub_sign_restore(&sign, description, description_size, text, size, &first, &line);
    must(answer == WISANGUB_DONE || (answer == WISANGUB_STATE && sign.at == NULL && line > 0), "a state");
    seen(0, answer, line);
    if (answer == WISANGUB_DONE) {
        must(wisangub_sign_save(&sign, NULL, 0, &needed) == WISANGUB_TOO_SMALL && needed <= size, "its size");
        must(wisangub_sign_save_most(&sign, &most) == WISANGUB_DONE && needed <= most, "the most octets of a state");
        must(wisangub_sign_save(&sign, output - needed, needed, &made) == WISANGUB_DONE && made == needed, "its text");
        must(memcmp(output - needed, text, needed) == 0, "the same text");
        must(needed == size || memcmp(text + needed - 5, "\nend\n", 5) == 0, "what is behind its end");
        values(&sign, text, size);
        wisangub_sign_tick(&sign);
        draw(&sign);
    }
    wisangub_sign_free(&sign);
}

int LLVMFuzzerInitialize(int *count, char ***words)
{
    const char *kind = getenv("FUZZED"), *path = getenv("FUZZ_SIGN");
    FILE *file = path != NULL ? fopen(path, "rb") : NULL;
    (void)count;
    (void)words;
    must(kind != NULL && file != NULL, "FUZZED and FUZZ_SIGN stand in the environment");
    description_size = fread(description, 1, sizeof description, file);
    fclose(file);
    fuzz = strcmp(kind, "texts") == 0 ? texts : strcmp(kind, "descriptions") == 0 ? descriptions : datagrams;
    fuzz = strcmp(kind, "states") == 0 ? states : fuzz;
    input = guarded();
    output = guarded();
    return 0;
}

int LLVMFuzzerTestOneInput(const uint8_t *octets, size_t size)
{
    if (size <= ROOM) {
        fuzz(octets, size);
    }
    return 0;
}
