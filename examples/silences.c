#define _GNU_SOURCE
#include "silences.h"

#include <string.h>

enum { MINUTE = 60, INTEGER = 0x02, OCTETS = 0x04 };

/* The instance dmsTimeCommLoss.0, as an element. */
static const uint8_t name[] = {0x06, 0x0D, 0x2B, 0x06, 0x01, 0x04, 0x01, 0x89, 0x36, 0x04, 0x02, 0x03, 0x06, 0x0D, 0x00};

/* A Get of it: its size. */
static size_t get(uint8_t *to, const struct communities *communities)
{
    static const uint8_t pdu[] = {0xA0, 0x1E, INTEGER, 1, 0, INTEGER, 1, 0, INTEGER, 1, 0, 0x30, 0x13, 0x30, 0x11};
    size_t size = communities->reader_size, at = 7 + size;
    const uint8_t head[] = {0x30, (uint8_t)(37 + size), INTEGER, 1, 0, OCTETS, (uint8_t)size};
    memcpy(to, head, sizeof head);
    memcpy(to + sizeof head, communities->reader, size);
    memcpy(to + at, pdu, sizeof pdu);
    memcpy(to + at + sizeof pdu, name, sizeof name);
    memcpy(to + at + sizeof pdu + sizeof name, "\5", 2);
    return at + sizeof pdu + sizeof name + 2;
}

uint64_t silence_limit(struct wisangub_sign *sign, const struct communities *communities)
{
    static uint8_t request[128], reply[WISANGUB_DATAGRAM];
    size_t size = 0;
    uint64_t minutes = 0;
    if (wisangub_sign_receive(sign, request, get(request, communities), reply, sizeof reply, &size) != WISANGUB_DONE) {
        return 0;
    }
    const uint8_t *at = memmem(reply, size, name, sizeof name), *end = reply + size;
    if (at == NULL || end - at < (ptrdiff_t)sizeof name + 3 || at[sizeof name] != INTEGER) {
        return 0;
    }
    for (at += sizeof name + 2; at < end; at++) {
        minutes = minutes << 8 | *at;
    }
    return MINUTE * minutes;
}
