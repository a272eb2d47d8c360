/*
 * Slots of a simulated flash that loses its power at any octet: slots_test DESCRIPTION STEP. Of the states that a sign
 * is in, one after the other, the writing is cut at each STEP-th octet that is erased or written: what starts then is
 * the sign in the state before, octet for octet, and from the state's last octet on in the new one, with what a manager
 * set of an object that firmware publishes anew. Each STEP-th bit is flipped, slots are lost and cannot be read: where
 * that was the newest state it is told as damaged, and no central system goes on from an older one. Looked at are too
 * another description, a chip with other octets, and a state that the library refuses; and a central system while its
 * ledger grows, until it has outgrown the slot. It prints `ok`.
 */
#undef NDEBUG
#include <assert.h>
#include <stdio.h>
#include <stdlib.h>
#include <string.h>

#include "digests.h"
#include "publish.h"
#include "slots.h"

enum { SECTOR = 1024, SLOT = 4 * SECTOR, CHIP = SLOTS * SLOT, TEXT_MOST = 1 << 16 };

/* A chip: its bits fall as it is written, rise as it is erased, and stay as they are without power. */
struct chip {
    uint8_t octets[CHIP];
    size_t left; /* the octets that it erases or writes until its power is lost */
    int is_unreadable[SLOTS];
    size_t reads; /* until one fails, which is this one; 0 for none */
};

/* The octets of a state. */
struct state {
    uint8_t octets[SLOT];
    size_t size;
};

static struct chip chip;
static struct wisangub_sign sign = {NULL}, started = {NULL};
static struct wisangub_centre centre = {NULL};
static struct slots slots;
static uint8_t room[SLOT];
static char text[TEXT_MOST];
static size_t text_size;

/* ---- the chip */

static int chip_read(void *from, size_t at, void *octets, size_t size)
{
    struct chip *of = from;
    assert(at + size <= CHIP);
    memcpy(octets, of->octets + at, size);
    int fails = of->reads == 1;
    of->reads -= of->reads > 0;
    return !fails && !of->is_unreadable[at / SLOT];
}

static int chip_erase(void *of, size_t at, size_t size)
{
    struct chip *to = of;
    assert(at % SECTOR == 0 && size % SECTOR == 0 && at + size <= CHIP);
    for (size_t end = at + size; at < end && to->left > 0; at++, to->left--) {
        to->octets[at] = 255;
        size--;
    }
    return size == 0;
}

static int chip_write(void *of, size_t at, const void *octets, size_t size)
{
    struct chip *to = of;
    const uint8_t *from = octets;
    assert(at + size <= CHIP);
    for (; size > 0 && to->left > 0; at++, to->left--, size--) {
        assert(to->octets[at] == 255 || at % SLOT >= SLOT - SLOT_MARK); /* of a mark a bit may be flipped */
        to->octets[at] &= *from++;
    }
    return size == 0;
}

/* sysContact.0 as the content octets of its name. */
static const uint8_t contact[] = {43, 6, 1, 2, 1, 1, 4, 0};

static const struct flash flash = {chip_read, chip_erase, chip_write, &chip, SLOT};

/* ---- signs */

static struct state saved(const struct wisangub_sign *of)
{
    struct state found = {.size = 0};
    assert(wisangub_sign_save(of, found.octets, sizeof found.octets, &found.size) == WISANGUB_DONE);
    return found;
}

static int is_same(const struct state *one, const struct state *other)
{
    return one->size == other->size && memcmp(one->octets, other->octets, one->size) == 0;
}

/* sysContact, which a manager may set. */
static void publish_contact(struct wisangub_sign *to)
{
    static const struct wisangub_value none = {0, WISANGUB_OCTET_STRING};
    static const struct wisangub_access texts = {0, 8, WISANGUB_OCTETS};
    assert(wisangub_sign_publish(to, contact, sizeof contact, &none, NULL, 0, &texts) == WISANGUB_DONE);
}

/* Firmware starts from the chip, which has power again. */
static struct slots start(struct wisangub_sign *made, enum slots_begin wanted)
{
    struct slots found = {.flash = &flash, .room = room};
    enum slots_begin begin;
    chip.left = SIZE_MAX;
    wisangub_sign_free(made);
    assert(slots_start(&found, made, text, text_size, &begin) == WISANGUB_DONE && begin == wanted);
    publish_contact(made);
    assert(slots_objects(&found, made) == WISANGUB_DONE);
    return found;
}

/* Firmware starts so in this state, or as it is described where there is none. What it knows of the slots then. */
static struct slots begins_in(enum slots_begin begin, const struct state *wanted)
{
    struct slots found = start(&started, begin);
    if (wanted->size != 0) {
        struct state now = saved(&started);
        assert(is_same(&now, wanted));
    }
    return found;
}

/* Firmware starts in this state, or as it is described where there is none. */
static struct slots starts_in(const struct state *wanted)
{
    return begins_in(wanted->size == 0 ? SLOTS_NEW : SLOTS_RESTORED, wanted);
}

/* A manager sets the contact to one octet. */
static void set_contact(uint8_t octet)
{
    uint8_t writer[32], request[80] = {0x30, 0, 2, 1, 0, 4}, reply[WISANGUB_DATAGRAM];
    const uint8_t rest[] = {0xa3, 26, 2, 1, 1, 2, 1, 0, 2, 1, 0, 0x30, 15, 0x30, 13, 6, 8};
    const uint8_t value[] = {4, 1, octet};
    size_t size = 0, at = 7, reply_size = 0;
    assert(wisangub_sign_writer(&sign, writer, sizeof writer, &size) == WISANGUB_DONE);
    request[6] = (uint8_t)size;
    memcpy(request + at, writer, size);
    memcpy(request + (at += size), rest, sizeof rest);
    memcpy(request + (at += sizeof rest), contact, sizeof contact);
    memcpy(request + (at += sizeof contact), value, sizeof value);
    request[1] = (uint8_t)(at + sizeof value - 2);
    assert(wisangub_sign_receive(&sign, request, at + sizeof value, reply, sizeof reply, &reply_size) == WISANGUB_DONE);
}

/* The next state of the sign. */
static void go_on(unsigned turn)
{
    static const char *const texts[] = {"FOG", "[pt10o5]A[np]B", "", "LANE[nl]CLOSED"};
    const char *next = texts[turn % 4];
    char line[PUBLICATION_MOST];
    wisangub_sign_power_back(&sign, 3);
    set_contact((uint8_t)('A' + turn));
    size_t size = publication(line, next, strlen(next), turn % 3 ? 5 + turn : 65535);
    assert(carry_out(&sign, &centre, line, size).last == WISANGUB_DID);
    wisangub_sign_ticks(&sign, turn);
    if (turn % 3 == 2) {
        wisangub_sign_power_lost(&sign);
    }
}

/* ---- trials */

/*
 * The writing of the sign's state is cut at an octet: what starts then is in the state before, or in the new one once
 * it is there, and keeps the next one; so does firmware that went on. Whether the writing was whole.
 */
static int is_whole_at(size_t octet, const struct chip *as, const struct state *before)
{
    struct state now = saved(&sign);
    struct slots trial = slots;
    chip = *as;
    chip.left = octet;
    int is_whole = slots_keep(&trial, &sign), counts = octet >= SLOT + SLOT_HEAD + now.size;
    struct chip cut = chip;
    chip.left = SIZE_MAX;
    assert(slots_keep(&trial, &sign));
    starts_in(&now);
    chip = cut;
    trial = starts_in(counts ? &now : before);
    assert(slots_keep(&trial, &sign));
    starts_in(&now);
    return is_whole;
}

/* The state before is in the newest slot, and the sign's state is kept. */
static void keep(size_t step, struct state *before)
{
    struct chip as = chip;
    size_t size = saved(&sign).size, state = SLOT + SLOT_HEAD + size, all = state + SLOT_MARK;
    for (size_t octet = 0; octet < all; octet += step) {
        assert(!is_whole_at(octet, &as, before));
    }
    assert(!is_whole_at(SLOT, &as, before) && !is_whole_at(state - 1, &as, before));
    assert(!is_whole_at(state, &as, before) && !is_whole_at(all - 1, &as, before) && is_whole_at(all, &as, before));
    chip = as;
    assert(slots_keep(&slots, &sign));
    *before = saved(&sign);
    starts_in(before);
}

/* The slot that was written last. */
static uint8_t *newest(void) { return chip.octets + (1 - slots.next) * SLOT; }

/* Bits of a slot, each STEP-th, are flipped, and its mark's: firmware starts so, and in this state. */
static void flipped_from(uint8_t *slot, size_t bits, size_t step, enum slots_begin begin, const struct state *wanted)
{
    for (size_t bit = 0; bit < bits; bit += step) {
        slot[bit / 8] ^= (uint8_t)(1 << bit % 8);
        begins_in(begin, wanted);
        slot[bit / 8] ^= (uint8_t)(1 << bit % 8);
    }
}

/* The newest slot is damaged: it is told, while the next state is kept too, until that is whole. */
static void kept_after_damage(size_t step, const struct state *older)
{
    struct state now = saved(&sign);
    struct slots found = begins_in(SLOTS_DAMAGED, older);
    struct chip as = chip;
    for (size_t octet = 0; octet < SLOT + SLOT_HEAD + now.size; octet += step) {
        struct slots trial = found;
        chip = as;
        chip.left = octet;
        assert(!slots_keep(&trial, &sign));
        begins_in(SLOTS_DAMAGED, older);
    }
    chip = as;
    assert(slots_keep(&found, &sign));
    starts_in(&now);
}

/* Each read fails once: no older state is taken in silence, and no new sign made. */
static void not_read(const struct state *newer)
{
    size_t reads = 1, left = 0;
    do {
        struct slots found = {.flash = &flash, .room = room};
        enum slots_begin begin;
        wisangub_sign_free(&started);
        chip.reads = reads++;
        assert(slots_start(&found, &started, text, text_size, &begin) == WISANGUB_DONE);
        assert(begin == SLOTS_DAMAGED || begin == SLOTS_RESTORED);
        publish_contact(&started);
        left = chip.reads;
        chip.reads = 0;
        assert(slots_objects(&found, &started) == WISANGUB_DONE);
        if (begin == SLOTS_RESTORED) {
            struct state now = saved(&started);
            assert(is_same(&now, newer));
        }
    } while (left == 0);
    assert(reads > 6);
}

/* The newest slot's mark, which is still to be written, is damaged: its state counts, and is kept anew. */
static void mark_damaged(size_t step, const struct state *newer)
{
    struct chip as = chip;
    struct state now = saved(&sign);
    memset(newest() + SLOT - SLOT_MARK, 0, SLOT_MARK);
    struct slots found = starts_in(newer);
    struct chip odd = chip;
    for (size_t octet = 0; octet < SLOT + SLOT_HEAD + now.size; octet += step) {
        struct slots trial = found;
        chip = odd;
        chip.left = octet;
        assert(!slots_keep(&trial, &sign));
        starts_in(newer);
    }
    chip = odd;
    assert(!slots_keep(&found, &sign) && slots_keep(&found, &sign));
    starts_in(&now);
    chip = as;
}

/* A bit of the newest slot is flipped, it is lost, or cannot be read: it is told, and the one before counts. */
static void damaged(size_t step, const struct state *newer, const struct state *older)
{
    static const int lost[] = {0, 255};
    uint8_t *slot = newest(), *other = chip.octets + slots.next * SLOT;
    struct chip as = chip;
    not_read(newer);
    mark_damaged(step, newer);
    flipped_from(slot, 8 * (SLOT_HEAD + newer->size), step, SLOTS_DAMAGED, older);
    flipped_from(slot + SLOT - SLOT_MARK, 8 * SLOT_MARK, 1, SLOTS_RESTORED, newer);
    flipped_from(other, 8 * (SLOT_HEAD + older->size), step, SLOTS_RESTORED, newer);
    flipped_from(other + SLOT - SLOT_MARK, 8 * SLOT_MARK, 1, SLOTS_RESTORED, newer);
    for (int value = 0; value < 2; value++) {
        memset(slot, lost[value], SLOT);
        flipped_from(other + SLOT - SLOT_MARK, 8 * SLOT_MARK, 1, SLOTS_DAMAGED, older);
        kept_after_damage(7 * step, older);
        chip = as;
        memset(other, lost[value], SLOT);
        starts_in(newer);
        chip = as;
    }
    chip.is_unreadable[slots.next] = 1;
    starts_in(newer);
    chip.is_unreadable[1 - slots.next] = 1;
    struct slots found = start(&started, SLOTS_DAMAGED);
    assert(!slots_keep(&found, &sign));
    memset(chip.is_unreadable, 0, sizeof chip.is_unreadable);
    slots.next == 0 ? begins_in(SLOTS_DAMAGED, older) : starts_in(newer);
    chip = as;
    chip.is_unreadable[1 - slots.next] = 1;
    begins_in(SLOTS_DAMAGED, older);
    chip = as;
    starts_in(newer);
}

/* What a manager set last is in the state, as words, and is told to firmware that starts from it. */
static void has_contact(const struct state *kept)
{
    static const char wanted[] = "\nend\nset 1.3.6.1.2.1.1.4.0 OCTET STRING 44\n";
    uint8_t name[WISANGUB_NAME], octet = 0;
    struct wisangub_value value;
    size_t name_size = 0, size = 0, behind = sizeof wanted - 1;
    assert(kept->size > behind && memcmp(kept->octets + kept->size - behind, wanted, behind) == 0);
    starts_in(kept);
    assert(wisangub_sign_taken(&started, name, sizeof name, &name_size, &value, &octet, 1, &size) == WISANGUB_DONE);
    assert(name_size == sizeof contact && memcmp(name, contact, name_size) == 0 && size == 1 && octet == 'D');
}

/* No slot counts: the writing of a first state is cut at each STEP-th octet, and then it is whole. */
static void kept_first(size_t step)
{
    struct state now = saved(&sign), none = {.size = 0};
    struct slots found = starts_in(&none), trial = found;
    struct chip as = chip;
    chip.left = 3 * CHIP;
    assert(slots_keep(&trial, &sign));
    size_t all = 3 * CHIP - chip.left;
    starts_in(&now);
    for (size_t octet = 0; octet < all; octet += step) {
        trial = found;
        chip = as;
        chip.left = octet;
        assert(!slots_keep(&trial, &sign));
        starts_in(octet < all - SLOT_MARK ? &none : &now);
    }
    chip = as;
}

/* Of another description no slot counts, whichever is the newest, and no octets that a chip had before. */
static void of_others(size_t step)
{
    static const int had[] = {0, 255, 'r'};
    struct chip as = chip;
    for (int turn = 0; turn < 4; turn++) {
        uint8_t *mark = newest() + SLOT - SLOT_MARK;
        text[text_size++] = '\n';
        *mark ^= (uint8_t)(turn / 2);
        kept_first(step);
        *mark ^= (uint8_t)(turn / 2);
        text_size--;
        assert(slots_keep(&slots, &sign));
    }
    for (int value = 0; value < 3; value++) {
        memset(chip.octets, had[value], CHIP);
        kept_first(step);
    }
    chip = as;
}

/* A state that is none of the sign, in a whole slot. */
static void refused(void)
{
    struct chip as = chip;
    uint8_t *slot = newest();
    memcpy(slot + SLOT_HEAD, "state 2", 7);
    struct state found = {.size = (size_t)(slot[8] | slot[9] << 8)};
    uint32_t sum = crc32_after(crc32_after(0, slot, SLOT_HEAD - 4), slot + SLOT_HEAD, found.size);
    for (int at = 0; at < 4; at++) {
        slot[SLOT_HEAD - 4 + at] = (uint8_t)(sum >> 8 * at);
    }
    start(&started, SLOTS_REFUSED);
    chip = as;
}

/* ---- central systems */

static struct state saved_centre(const struct wisangub_centre *of)
{
    struct state found = {.size = 0};
    assert(wisangub_centre_save(of, found.octets, sizeof found.octets, &found.size) == WISANGUB_DONE);
    return found;
}

/* What starts from the chip is a central system in this state, or a new one where there is none. */
static void centre_starts_in(const struct state *wanted)
{
    struct slots found = {.flash = &flash, .room = room};
    struct wisangub_centre made = {NULL};
    enum slots_begin begin;
    chip.left = SIZE_MAX;
    assert(slots_start_centre(&found, &made, "a", 1, WISANGUB_HIGH, 1, &begin) == WISANGUB_DONE);
    assert(begin == (wanted->size == 0 ? SLOTS_NEW : SLOTS_RESTORED));
    if (wanted->size != 0) {
        struct state now = saved_centre(&made);
        assert(is_same(&now, wanted));
    }
    wisangub_centre_free(&made);
}

/* None starts from the chip, for it would use numbers again: one that begins above them is kept. */
static void no_centre_starts(void)
{
    struct slots found = {.flash = &flash, .room = room};
    struct wisangub_centre made = {NULL};
    struct chip as = chip;
    enum slots_begin begin;
    assert(slots_start_centre(&found, &made, "a", 1, WISANGUB_HIGH, 1, &begin) == WISANGUB_STATE);
    assert(begin == SLOTS_DAMAGED && made.at == NULL);
    assert(wisangub_centre_new(&made, "a", 1, WISANGUB_HIGH, 1000) == WISANGUB_DONE);
    struct state now = saved_centre(&made);
    assert(slots_keep_centre(&found, &made));
    centre_starts_in(&now);
    wisangub_centre_free(&made);
    chip = as;
}

/* Each STEP-th bit of its newest state is flipped. */
static void centre_flipped(size_t step, const struct state *newer)
{
    for (size_t bit = 0; bit < 8 * (SLOT_HEAD + newer->size); bit += step) {
        newest()[bit / 8] ^= (uint8_t)(1 << bit % 8);
        no_centre_starts();
        newest()[bit / 8] ^= (uint8_t)(1 << bit % 8);
    }
    centre_starts_in(newer);
}

/*
 * The writing of its state is cut at an octet: what starts then is in the state before, or in the new one once it is
 * there. Whether it was whole.
 */
static int is_centre_whole_at(size_t octet, const struct chip *as, const struct wisangub_centre *of,
                              const struct state *before)
{
    struct state now = saved_centre(of);
    struct slots trial = slots;
    chip = *as;
    chip.left = octet;
    int is_whole = slots_keep_centre(&trial, of);
    centre_starts_in(octet >= SLOT + SLOT_HEAD + now.size ? &now : before);
    return is_whole;
}

/* A code more of the ledger, and its state is kept before the request would go out. Whether there was room for it. */
static int is_centre_kept(size_t step, struct wisangub_centre *of, struct state *before)
{
    static const char command[] = "blank 1 5 255 192.0.2.1";
    uint8_t request[WISANGUB_DATAGRAM];
    struct chip as = chip;
    size_t size = 0;
    wisangub_centre_restart(of);
    assert(wisangub_centre_command(of, command, sizeof command - 1, request, sizeof request, &size) == WISANGUB_DONE);
    if (wisangub_centre_save_size(of, &size) != WISANGUB_DONE || size > SLOT - SLOT_HEAD - SLOT_MARK) {
        return slots_keep_centre(&slots, of);
    }
    size_t all = SLOT + SLOT_HEAD + size + SLOT_MARK;
    for (size_t octet = 0; octet < all; octet += step) {
        assert(!is_centre_whole_at(octet, &as, of, before));
    }
    assert(is_centre_whole_at(all, &as, of, before));
    chip = as;
    assert(slots_keep_centre(&slots, of));
    *before = saved_centre(of);
    centre_flipped(step, before);
    return 1;
}

static void centres(size_t step)
{
    struct wisangub_centre made = {NULL};
    struct state before = {.size = 0};
    enum slots_begin begin;
    unsigned codes = 0;
    memset(chip.octets, 255, CHIP);
    chip.left = SIZE_MAX;
    assert(slots_start_centre(&slots, &made, "a", 1, WISANGUB_HIGH, 1, &begin) == WISANGUB_DONE && begin == SLOTS_NEW);
    while (is_centre_kept(codes < 3 ? step : SLOT, &made, &before)) {
        codes++;
    }
    centre_starts_in(&before);
    assert(codes > 50);
    wisangub_centre_free(&made);
}

static void begin(const char *name)
{
    uint8_t writer[32];
    size_t size = 0;
    FILE *file = fopen(name, "rb");
    assert(file != NULL);
    text_size = fread(text, 1, sizeof text - 1, file);
    fclose(file);
    memset(chip.octets, 255, CHIP);
    slots = start(&sign, SLOTS_NEW);
    assert(wisangub_sign_writer(&sign, writer, sizeof writer, &size) == WISANGUB_DONE);
    assert(wisangub_centre_new(&centre, writer, size, WISANGUB_HIGH, 1) == WISANGUB_DONE);
}

int main(int count, char **words)
{
    size_t step = count == 3 ? strtoul(words[2], NULL, 10) : 0;
    struct state before = {.size = 0}, older = before;
    if (step == 0) {
        return fputs("usage: slots_test DESCRIPTION STEP\n", stderr), 2;
    }
    begin(words[1]);
    for (unsigned turn = 0; turn < 4; turn++) {
        older = before;
        go_on(turn);
        keep(step, &before);
        if (turn == 0 || turn == 3) {
            damaged(step, &before, &older);
        }
    }
    has_contact(&before);
    refused();
    of_others(7 * step);
    centres(step);
    wisangub_centre_free(&centre);
    wisangub_sign_free(&sign);
    wisangub_sign_free(&started);
    puts("ok");
    return 0;
}
