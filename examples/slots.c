#include "slots.h"

#include <string.h>

#include "digests.h"

enum { NUMBER_AT = 0, SIZE_AT = 8, DIGEST_AT = 12, SUM_AT = 76 };

/* What a slot is. */
enum found {
    BROKEN,     /* never written, torn or damaged */
    OF_ANOTHER, /* whole, and of another description or community */
    WHOLE
};

/* What a slot's mark is by most of its octets, for a bit may be another. */
enum mark {
    ERASED,
    REPLACED, /* the other slot was whole after this one */
    ODD,      /* what a chip had before there was a slot, or a torn one */
    UNREADABLE
};

static const uint8_t replaced[SLOT_MARK] = {'r', 'e', 'p', 'l', 'a', 'c', 'e', 'd'};

static void put_number(uint8_t *to, uint64_t number, int octets)
{
    for (int at = 0; at < octets; at++) {
        to[at] = (uint8_t)(number >> 8 * at);
    }
}

static uint64_t number_at(const uint8_t *from, int octets)
{
    uint64_t number = 0;
    for (int at = octets; at-- > 0;) {
        number = number << 8 | from[at];
    }
    return number;
}

/* The CRC-32 of a slot's head before its sum, and of its state. */
static uint32_t sum_of(const uint8_t *slot, size_t size)
{
    return crc32_after(crc32_after(0, slot, SUM_AT), slot + SLOT_HEAD, size);
}

/* The most octets of a state. */
static size_t most(const struct flash *flash) { return flash->slot - SLOT_HEAD - SLOT_MARK; }

/* Reads a slot into the room: of a whole one its number too, else 0, and the size of its state. */
static enum found slot_read(const struct slots *slots, size_t slot, uint64_t *number, size_t *size)
{
    const struct flash *flash = slots->flash;
    size_t at = slot * flash->slot;
    uint8_t *room = slots->room;
    *number = 0;
    if (!flash->read(flash->chip, at, room, SLOT_HEAD)) {
        return BROKEN;
    }
    *size = (size_t)number_at(room + SIZE_AT, 4);
    if (*size > most(flash) || !flash->read(flash->chip, at + SLOT_HEAD, room + SLOT_HEAD, *size)
        || number_at(room + SUM_AT, 4) != sum_of(room, *size)) {
        return BROKEN;
    }
    if (memcmp(room + DIGEST_AT, slots->digest, SUM_AT - DIGEST_AT) != 0) {
        return OF_ANOTHER;
    }
    *number = number_at(room + NUMBER_AT, 8);
    return *number == 0 ? BROKEN : WHOLE;
}

/* Where a slot's mark is. */
static size_t mark_at(const struct slots *slots, size_t slot) { return (slot + 1) * slots->flash->slot - SLOT_MARK; }

static enum mark mark_read(const struct slots *slots, size_t slot)
{
    uint8_t mark[SLOT_MARK];
    size_t same = 0, blank = 0;
    if (!slots->flash->read(slots->flash->chip, mark_at(slots, slot), mark, SLOT_MARK)) {
        return UNREADABLE;
    }
    for (size_t at = 0; at < SLOT_MARK; at++) {
        same += mark[at] == replaced[at];
        blank += mark[at] == 255;
    }
    return same > SLOT_MARK / 2 ? REPLACED : blank > SLOT_MARK / 2 ? ERASED : ODD;
}

/* All slots, as they are read. */
struct all {
    enum found found[SLOTS];
    int is_marked[SLOTS]; /* it may be */
    uint64_t numbers[SLOTS];
};

/* Whether the slot that was whole after this one is not any more, or is an older one again. */
static int is_other_damaged(const struct all *all, size_t slot)
{
    size_t other = 1 - slot;
    return all->is_marked[slot]
           && (all->found[other] == BROKEN
               || (all->found[other] == WHOLE && all->numbers[other] < all->numbers[slot]));
}

/* Which slot is written where none counts: beside a mark one that is damaged, so that a torn write is told as that too,
 * and else the marked one, so that no torn write is. */
static size_t first_written(const struct all *all)
{
    size_t marked = !all->is_marked[0];
    return all->found[1 - marked] == BROKEN ? 1 - marked : marked;
}

/* Reads the newest whole slot into the room, with the size of its state. Whether there is one. */
static int newest_read(struct slots *slots, size_t *size)
{
    struct all all;
    for (size_t slot = 0; slot < SLOTS; slot++) {
        enum mark mark = mark_read(slots, slot);
        all.found[slot] = slot_read(slots, slot, &all.numbers[slot], size);
        all.is_marked[slot] = mark == REPLACED || mark == UNREADABLE;
    }
    size_t newest = all.numbers[1] > all.numbers[0];
    slots->newest = all.numbers[newest];
    slots->next = slots->newest == 0 ? first_written(&all) : 1 - newest;
    slots->is_damaged = is_other_damaged(&all, 0) || is_other_damaged(&all, 1);
    if (slots->newest == 0) {
        return 0;
    }
    int is_read = slot_read(slots, newest, &all.numbers[newest], size) == WHOLE && all.numbers[newest] == slots->newest;
    slots->is_damaged |= !is_read;
    return is_read;
}

enum wisangub_answer slots_start(struct slots *slots, struct wisangub_sign *sign, const void *text, size_t text_size,
                                 enum slots_begin *begin)
{
    uint32_t first;
    size_t line, size = 0;
    sha256_digits(text, text_size, slots->digest);
    int is_read = newest_read(slots, &size);
    *begin = slots->is_damaged ? SLOTS_DAMAGED : is_read ? SLOTS_RESTORED : SLOTS_NEW;
    if (is_read) {
        enum wisangub_answer answer =
            wisangub_sign_restore(sign, text, text_size, slots->room + SLOT_HEAD, size, &first, &line);
        if (answer != WISANGUB_STATE) {
            return answer;
        }
        *begin = SLOTS_REFUSED;
    }
    return wisangub_sign_new(sign, text, text_size, &first, &line);
}

enum wisangub_answer slots_objects(struct slots *slots, struct wisangub_sign *sign)
{
    size_t line, size = 0;
    if (!newest_read(slots, &size)) {
        return WISANGUB_DONE;
    }
    return wisangub_sign_restore_objects(sign, slots->room + SLOT_HEAD, size, &line);
}

enum wisangub_answer slots_start_centre(struct slots *slots, struct wisangub_centre *centre, const void *community,
                                        size_t community_size, enum wisangub_order order, uint32_t first,
                                        enum slots_begin *begin)
{
    size_t line, size = 0;
    sha256_digits(community, community_size, slots->digest);
    int is_read = newest_read(slots, &size);
    *begin = slots->is_damaged ? SLOTS_DAMAGED : is_read ? SLOTS_RESTORED : SLOTS_NEW;
    if (slots->is_damaged) {
        return WISANGUB_STATE;
    }
    return *begin == SLOTS_NEW ? wisangub_centre_new(centre, community, community_size, order, first)
                               : wisangub_centre_restore(centre, community, community_size, order,
                                                         slots->room + SLOT_HEAD, size, &line);
}

/* Erases what a chip had before there was a slot, where the other slot will be marked. */
static int is_ready(const struct slots *slots, size_t other)
{
    const struct flash *flash = slots->flash;
    return slots->newest != 0 || mark_read(slots, other) != ODD
           || flash->erase(flash->chip, other * flash->slot, flash->slot);
}

/* Marks the other slot, which may be marked. */
static int is_marked(const struct slots *slots, size_t other)
{
    const struct flash *flash = slots->flash;
    enum mark mark = mark_read(slots, other);
    return mark == REPLACED
           || (mark == ERASED && flash->write(flash->chip, mark_at(slots, other), replaced, SLOT_MARK));
}

/* Writes the state of this size that stands in the room, and then marks the other slot. */
static int slot_written(struct slots *slots, size_t size)
{
    const struct flash *flash = slots->flash;
    uint8_t *room = slots->room;
    size_t at = slots->next * flash->slot, other = 1 - slots->next;
    put_number(room + NUMBER_AT, slots->newest + 1, 8);
    put_number(room + SIZE_AT, size, 4);
    memcpy(room + DIGEST_AT, slots->digest, SUM_AT - DIGEST_AT);
    put_number(room + SUM_AT, sum_of(room, size), 4);
    if (!is_ready(slots, other) || !flash->erase(flash->chip, at, flash->slot)
        || !flash->write(flash->chip, at, room, SLOT_HEAD + size)) {
        return 0;
    }
    slots->newest++;
    slots->next = other;
    return is_marked(slots, other);
}

int slots_keep(struct slots *slots, const struct wisangub_sign *sign)
{
    size_t size = 0, room = most(slots->flash);
    return wisangub_sign_save(sign, slots->room + SLOT_HEAD, room, &size) == WISANGUB_DONE && slot_written(slots, size);
}

int slots_keep_centre(struct slots *slots, const struct wisangub_centre *centre)
{
    size_t size = 0, room = most(slots->flash);
    return wisangub_centre_save(centre, slots->room + SLOT_HEAD, room, &size) == WISANGUB_DONE
           && slot_written(slots, size);
}
