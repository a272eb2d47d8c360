/* A UDP socket of IPv4 or IPv6, and the datagrams at it. */
#ifndef SOCKETS_H
#define SOCKETS_H

#include <stddef.h>
#include <stdint.h>
#include <sys/socket.h>

#include "datagrams.h"

/* The size of a datagram that the sign does not hear. */
#define LOST SIZE_MAX

enum { AT_ONCE = 16 };

/* A datagram that waits. */
struct heard {
    uint8_t octets[DATAGRAM_MOST + 1];
    size_t size;
    struct sockaddr_storage peer;
    socklen_t peer_size;
    enum datagram_kind kind;
};

/* Replies that go out together. */
struct replies {
    uint8_t octets[AT_ONCE][DATAGRAM_MOST];
    size_t sizes[AT_ONCE];
    struct heard *to[AT_ONCE];
    size_t count;
};

/* Ends with a message where a call failed. */
int had(int result, const char *call);

/* A socket at an address, or at that of a name, of IPv4 where a name has both. Where there is none it ends with 2. */
int bound(const char *host, long port);

/* Says on standard output where the socket is that is bound to this host: by its name, where it has IPv4. */
void announce(int socket, const char *host);

/* What waits, at most AT_ONCE; one that is longer than a datagram of this profile counts as lost. */
size_t received(int socket, struct heard heard[AT_ONCE]);

/* Sends all replies. One that the kernel does not take is lost. */
void send_all(int socket, struct replies *replies);

#endif
