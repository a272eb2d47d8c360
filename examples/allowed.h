/* The addresses from which a sign may be written. */
#ifndef ALLOWED_H
#define ALLOWED_H

#include <netinet/in.h>
#include <stddef.h>
#include <sys/socket.h>

enum { ALLOWED_MOST = 64 };

/* IPv4 addresses are those that IPv6 maps. */
struct allowed {
    struct in6_addr addresses[ALLOWED_MOST];
    size_t count;
};

/* Adds an IPv4 or IPv6 address: 0 where it is none, or there are ALLOWED_MOST already. */
int allowed_add(struct allowed *allowed, const char *address);

/* Whether it may be written from there: from everywhere, where no address was added. */
int allowed_has(const struct allowed *allowed, const struct sockaddr_storage *peer);

#endif
