/*
 * Requests a second of an agent at a UDP port of 127.0.0.1: c_requests PORT WINDOW SECONDS, with datagrams as digits on
 * standard input, a line each, which are sent one after the other and again from the first. WINDOW of them are in
 * flight. It prints how many replies came in a second, and ends with 1 where none comes for ten seconds.
 */
#define _GNU_SOURCE
#include <arpa/inet.h>
#include <poll.h>
#include <stdint.h>
#include <stdio.h>
#include <stdlib.h>
#include <string.h>
#include <sys/socket.h>
#include <time.h>
#include <unistd.h>

enum { MOST = 4000, LONGEST = 1472 };

static uint8_t octets[MOST][LONGEST];
static size_t sizes[MOST], count, next;

static double now(void)
{
    struct timespec time;
    clock_gettime(CLOCK_MONOTONIC, &time);
    return (double)time.tv_sec + (double)time.tv_nsec / 1e9;
}

static void read_datagrams(void)
{
    static char line[2 * LONGEST + 2];
    while (count < MOST && fgets(line, sizeof line, stdin) != NULL) {
        sizes[count] = strcspn(line, "\n") / 2;
        for (size_t at = 0; at < sizes[count]; at++) {
            char pair[3] = {line[2 * at], line[2 * at + 1], '\0'};
            octets[count][at] = (uint8_t)strtoul(pair, NULL, 16);
        }
        count++;
    }
}

static void ask(int to)
{
    if (send(to, octets[next], sizes[next], 0) < 0) {
        perror("send");
        exit(1);
    }
    next = (next + 1) % count;
}

int main(int words, char **word)
{
    uint8_t reply[65536];
    if (words != 4) {
        fputs("usage: c_requests PORT WINDOW SECONDS\n", stderr);
        return 2;
    }
    struct sockaddr_in at = {.sin_family = AF_INET,
                             .sin_port = htons((uint16_t)atoi(word[1])),
                             .sin_addr = {htonl(INADDR_LOOPBACK)}};
    int to = socket(AF_INET, SOCK_DGRAM, 0);
    struct timeval most = {10, 0};
    read_datagrams();
    if (to < 0 || connect(to, (struct sockaddr *)&at, sizeof at) != 0
        || setsockopt(to, SOL_SOCKET, SO_RCVTIMEO, &most, sizeof most) != 0 || count == 0) {
        perror("socket");
        return 1;
    }
    for (int window = atoi(word[2]); window > 0; window--) {
        ask(to);
    }
    double begun = now(), end = begun + atof(word[3]);
    uint64_t replies = 0;
    while (replies % 64 != 0 || now() < end) {
        if (recv(to, reply, sizeof reply, 0) < 0) {
            perror("recv");
            return 1;
        }
        replies++;
        ask(to);
    }
    printf("%.0f\n", (double)replies / (now() - begun));
    close(to);
    return 0;
}
