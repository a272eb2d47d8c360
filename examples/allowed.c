#define _POSIX_C_SOURCE 200809L
#include "allowed.h"

#include <arpa/inet.h>
#include <string.h>

/* An IPv4 address as IPv6 maps it (RFC 4291, 2.5.5.2). */
static struct in6_addr mapped(struct in_addr address)
{
    struct in6_addr found = {.s6_addr = {[10] = 255, [11] = 255}};
    memcpy(found.s6_addr + 12, &address, sizeof address);
    return found;
}

int allowed_add(struct allowed *allowed, const char *address)
{
    struct in_addr short_one;
    struct in6_addr found;
    if (inet_pton(AF_INET, address, &short_one) == 1) {
        found = mapped(short_one);
    } else if (inet_pton(AF_INET6, address, &found) != 1) {
        return 0;
    }
    if (allowed->count == ALLOWED_MOST) {
        return 0;
    }
    allowed->addresses[allowed->count++] = found;
    return 1;
}

int allowed_has(const struct allowed *allowed, const struct sockaddr_storage *peer)
{
    struct in6_addr from = peer->ss_family == AF_INET6 ? ((const struct sockaddr_in6 *)peer)->sin6_addr
                                                       : mapped(((const struct sockaddr_in *)peer)->sin_addr);
    for (size_t at = 0; at < allowed->count; at++) {
        if (memcmp(&from, allowed->addresses + at, sizeof from) == 0) {
            return 1;
        }
    }
    return allowed->count == 0;
}
