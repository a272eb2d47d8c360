#define _GNU_SOURCE
#include "sockets.h"

#include <errno.h>
#include <netdb.h>
#include <stdio.h>
#include <stdlib.h>
#include <string.h>

#include "prints.h"

enum { NAMED = NI_MAXHOST + NI_MAXSERV + 4 };

int had(int result, const char *call)
{
    if (result < 0) {
        perror(call);
        exit(1);
    }
    return result;
}

/* The addresses of a host. */
static struct addrinfo *resolved(const char *host, long port)
{
    struct addrinfo hints = {.ai_family = AF_UNSPEC, .ai_socktype = SOCK_DGRAM, .ai_flags = AI_NUMERICSERV};
    struct addrinfo *found = NULL;
    char digits[8];
    if (port < 0 || port > 65535) {
        fprintf(stderr, "%ld is no port: 0 to 65535\n", port);
        exit(2);
    }
    snprintf(digits, sizeof digits, "%ld", port);
    int fault = getaddrinfo(host, digits, &hints, &found);
    if (fault != 0 || found == NULL) {
        fprintf(stderr, "%s: %s\n", host, gai_strerror(fault));
        exit(2);
    }
    return found;
}

/* An address in words, HOST:PORT, an IPv6 host in brackets. */
static void name(const struct sockaddr *at, socklen_t size, const char *host, char words[NAMED])
{
    char numbers[NI_MAXHOST] = "", port[NI_MAXSERV] = "";
    getnameinfo(at, size, numbers, sizeof numbers, port, sizeof port, NI_NUMERICHOST | NI_NUMERICSERV);
    snprintf(words, NAMED, at->sa_family == AF_INET6 ? "[%s]:%s" : "%s:%s", host == NULL ? numbers : host, port);
}

int bound(const char *host, long port)
{
    struct addrinfo *found = resolved(host, port), *chosen = found;
    for (struct addrinfo *one = found; one != NULL; one = one->ai_next) {
        chosen = one->ai_family == AF_INET && chosen->ai_family != AF_INET ? one : chosen;
    }
    int made = had(socket(chosen->ai_family, SOCK_DGRAM | SOCK_CLOEXEC | SOCK_NONBLOCK, 0), "socket");
    if (bind(made, chosen->ai_addr, chosen->ai_addrlen) != 0) {
        char words[NAMED], why[64];
        snprintf(why, sizeof why, "%s", strerror(errno));
        name(chosen->ai_addr, chosen->ai_addrlen, NULL, words);
        fprintf(stderr, "%s: %s\n", words, why);
        exit(2);
    }
    freeaddrinfo(found);
    return made;
}

void announce(int socket, const char *host)
{
    struct sockaddr_storage at = {0};
    socklen_t size = sizeof at;
    char words[NAMED];
    had(getsockname(socket, (struct sockaddr *)&at, &size), "getsockname");
    name((const struct sockaddr *)&at, size, at.ss_family == AF_INET ? host : NULL, words);
    print("a sign at %s\n", words);
}

size_t received(int socket, struct heard heard[AT_ONCE])
{
    static struct mmsghdr messages[AT_ONCE];
    static struct iovec rooms[AT_ONCE];
    for (size_t at = 0; at < AT_ONCE; at++) {
        rooms[at] = (struct iovec){heard[at].octets, sizeof heard[at].octets};
        messages[at].msg_hdr = (struct msghdr){.msg_name = &heard[at].peer,
                                               .msg_namelen = sizeof heard[at].peer,
                                               .msg_iov = rooms + at,
                                               .msg_iovlen = 1};
    }
    int count = recvmmsg(socket, messages, AT_ONCE, MSG_DONTWAIT, NULL);
    for (int at = 0; at < count; at++) {
        heard[at].size = messages[at].msg_len <= DATAGRAM_MOST ? messages[at].msg_len : LOST;
        heard[at].peer_size = messages[at].msg_hdr.msg_namelen;
    }
    return count > 0 ? (size_t)count : 0;
}

void send_all(int socket, struct replies *replies)
{
    static struct mmsghdr messages[AT_ONCE];
    static struct iovec rooms[AT_ONCE];
    for (size_t at = 0; at < replies->count; at++) {
        struct heard *to = replies->to[at];
        rooms[at] = (struct iovec){replies->octets[at], replies->sizes[at]};
        messages[at].msg_hdr = (struct msghdr){.msg_name = &to->peer,
                                               .msg_namelen = to->peer_size,
                                               .msg_iov = rooms + at,
                                               .msg_iovlen = 1};
    }
    for (unsigned sent = 0, count = (unsigned)replies->count; sent < count;) {
        int taken = sendmmsg(socket, messages + sent, count - sent, 0);
        sent += taken > 0 ? (unsigned)taken : errno != EINTR;
    }
}
