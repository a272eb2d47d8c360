/*
 * The state of a sign, or of a central system, in flash without a file system: two slots that are written in turn, so
 * that a loss of power at any octet of a write leaves the other one whole. The newest whole slot counts. Once it is
 * written the other one is marked: so one that was damaged afterwards, by flipped bits or a lost sector, is known from
 * one that a loss of power tore, and no older state, with request numbers that are used up, is taken for the newest.
 */
#ifndef SLOTS_H
#define SLOTS_H

#include <stddef.h>
#include <stdint.h>

#include "wisangub.h"

enum { SLOTS = 2, SLOT_HEAD = 80, SLOT_MARK = 8 };

/*
 * A slot begins with its head: the number of its writing, from 1 (8 octets, the low one first), the size of the state
 * (4), the SHA-256 of the description, or of the community, as 64 digits, and the CRC-32 of all this and the state (4);
 * then the state. Its last octets are its mark: erased, or "replaced" where the other slot was whole and newer.
 */

/* A part of a chip's flash that is written octet by octet where it was erased. Each call answers 1, or 0 at a fault. */
struct flash {
    int (*read)(void *chip, size_t at, void *octets, size_t size);
    int (*erase)(void *chip, size_t at, size_t size);
    int (*write)(void *chip, size_t at, const void *octets, size_t size);
    void *chip;
    size_t slot; /* the octets of a slot: whole sectors, of which the first slot has the first */
};

/* What is known of the slots. */
struct slots {
    const struct flash *flash;
    uint8_t *room; /* for the octets of a slot */
    char digest[65];
    uint64_t newest; /* the number of the newest whole slot, 0 where there is none */
    size_t next;     /* the slot that is written next */
    int is_damaged;  /* whether a newer one was whole, and is not any more */
};

/* What a sign or a central system begins with. */
enum slots_begin {
    SLOTS_NEW,      /* as its description says: no slot is whole and of this description, or community */
    SLOTS_RESTORED, /* in the state of the newest slot */
    SLOTS_DAMAGED,  /* the newest slot is damaged, not torn: a sign in the state before, without what was acknowledged
                       since, or as its description says where `newest` is 0; no central system */
    SLOTS_REFUSED   /* as its description says: the library refuses the state of the newest whole slot */
};

/*
 * Makes the sign of a description in the state of the newest whole slot, or as the description says. Answers as
 * wisangub_sign_new does; *begin says how it begins. At DAMAGED it is the caller's to go on from there, to make another
 * sign of the description, or to stay dark: what it was told to blank may be shown again.
 */
enum wisangub_answer slots_start(struct slots *slots, struct wisangub_sign *sign, const void *text, size_t text_size,
                                 enum slots_begin *begin);

/*
 * Puts the values that managers set back to the objects that firmware has published meanwhile, as the newest whole slot
 * has them. Answers as wisangub_sign_restore_objects does, and DONE where no slot is whole.
 */
enum wisangub_answer slots_objects(struct slots *slots, struct wisangub_sign *sign);

/*
 * Writes the sign's state, with those values, into the slot that is not the newest one, and marks the other. Answers 1,
 * or 0 where it may not count: then it is to be kept again before anything is acknowledged.
 */
int slots_keep(struct slots *slots, const struct wisangub_sign *sign);

/*
 * Makes a central system in the state of the newest whole slot, or with its first number `first`. Answers as
 * wisangub_centre_restore does: at STATE, so at DAMAGED, none is made, for its next number is not known. The caller may
 * make a new one that begins above all numbers ever used, and keep it: until that is whole it is told again.
 */
enum wisangub_answer slots_start_centre(struct slots *slots, struct wisangub_centre *centre, const void *community,
                                        size_t community_size, enum wisangub_order order, uint32_t first,
                                        enum slots_begin *begin);

/* As slots_keep, of a central system, before what it sends goes out; 0 too where its ledger has outgrown the slot. */
int slots_keep_centre(struct slots *slots, const struct wisangub_centre *centre);

#endif
