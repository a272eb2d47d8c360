// Prints how long Net-SNMP takes to parse a datagram, given in hexadecimal: the best of several runs, in nanoseconds.
#include <net-snmp/net-snmp-config.h>
#include <net-snmp/net-snmp-includes.h>
#include <net-snmp/library/snmp_impl.h>
#include <stdio.h>
#include <time.h>

// Of Net-SNMP's library, with no declaration in its public headers.
u_char *snmp_comstr_parse(u_char *, size_t *, u_char *, size_t *, long *);

enum { RUNS = 400, MOST_OCTETS = 1472 };
static const double RUN_NANOSECONDS = 1e6;

// Reads the opening and the community, and then the PDU with its bindings, as Net-SNMP does for a datagram that it
// received.
static int parse(u_char *datagram, size_t size) {
    u_char community[256];
    size_t community_size = sizeof community;
    size_t left = size;
    long version;
    u_char *rest = snmp_comstr_parse(datagram, &left, community, &community_size, &version);
    if (!rest) return -1;
    netsnmp_pdu *pdu = SNMP_MALLOC_TYPEDEF(netsnmp_pdu);
    if (!pdu) return -1;
    pdu->version = version;
    int result = snmp_pdu_parse(pdu, rest, &left);
    snmp_free_pdu(pdu);
    return result;
}

// The nanoseconds of a call, over many.
static double run(u_char *datagram, size_t size, int times) {
    struct timespec start, end;
    clock_gettime(CLOCK_MONOTONIC, &start);
    for (int call = 0; call < times; call++) parse(datagram, size);
    clock_gettime(CLOCK_MONOTONIC, &end);
    return ((end.tv_sec - start.tv_sec) * 1e9 + (end.tv_nsec - start.tv_nsec)) / times;
}

static size_t from_hexadecimal(const char *digits, u_char *octets) {
    size_t size = 0;
    unsigned octet;
    while (size < MOST_OCTETS && *digits && sscanf(digits, "%2x", &octet) == 1) {
        octets[size++] = octet;
        digits += 2;
    }
    return size;
}

int main(int count, char **words) {
    u_char datagram[MOST_OCTETS];
    if (count != 2) {
        fprintf(stderr, "usage: netsnmp DATAGRAM, in hexadecimal\n");
        return 2;
    }
    size_t size = from_hexadecimal(words[1], datagram);
    if (parse(datagram, size) != 0) {
        fprintf(stderr, "netsnmp: no message\n");
        return 1;
    }
    int times = (int)(RUN_NANOSECONDS / run(datagram, size, 100)) + 1;
    double best = 1e18;
    for (int k = 0; k < RUNS; k++) {
        double time = run(datagram, size, times);
        if (time < best) best = time;
    }
    printf("%.1f\n", best);
    return 0;
}
