/* What a front end has to know of a datagram before the sign hears it. */
#ifndef DATAGRAMS_H
#define DATAGRAMS_H

#include <stddef.h>
#include <stdint.h>

/* The most octets of a datagram, and of the line that hands it over. */
enum { DATAGRAM_MOST = 1472, DATAGRAM_LINE = 10 + 2 * DATAGRAM_MOST, COMMUNITY_MOST = 32, CODE_SIZE = 12 };

/* The communities of a sign. */
struct communities {
    uint8_t reader[COMMUNITY_MOST], writer[COMMUNITY_MOST];
    size_t reader_size, writer_size;
};

enum datagram_kind {
    DATAGRAM_UNHEARD, /* no sign answers it, and it changes none */
    DATAGRAM_ASKS,    /* it changes nothing but the silence of the sign: a Get, a GetNext, a SET of the reader's */
    DATAGRAM_SETS     /* a SET of the writing community */
};

/* What a datagram is to a sign with power (docs/PROFILE.md, "Datagrams" and "Answers"). */
enum datagram_kind datagram_kind(const uint8_t *octets, size_t size, const struct communities *communities);

/* The octets of the code that a SET activated, by the sign's reply to it; null where it activated none. */
const uint8_t *datagram_activated(const uint8_t *reply, size_t size);

/* Writes the line that hands a datagram over, with its newline: its size. */
size_t datagram_line(char *line, const uint8_t *octets, size_t size);

#endif
