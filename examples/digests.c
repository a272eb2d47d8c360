#include "digests.h"

#include <stdio.h>
#include <string.h>

static uint32_t table[256];
static uint8_t index_of[256]; /* of the table's entry with this high octet */

static void make_table(void)
{
    for (uint32_t octet = 0; octet < 256; octet++) {
        uint32_t left = octet;
        for (int bit = 0; bit < 8; bit++) {
            left = (left >> 1) ^ ((left & 1) != 0 ? 0xEDB88320u : 0u);
        }
        table[octet] = left;
    }
    for (uint32_t octet = 0; octet < 256; octet++) {
        index_of[table[octet] >> 24] = (uint8_t)octet;
    }
}

uint32_t crc32_after(uint32_t before, const void *octets, size_t size)
{
    const uint8_t *at = octets;
    uint32_t sum = ~before;
    if (table[1] == 0) {
        make_table();
    }
    while (size-- > 0) {
        sum = (sum >> 8) ^ table[(sum ^ *at++) & 255];
    }
    return ~sum;
}

uint32_t crc32_without(uint32_t sum, uint8_t last)
{
    if (table[1] == 0) {
        make_table();
    }
    uint8_t found = index_of[~sum >> 24];
    return ~(((~sum ^ table[found]) << 8) | (uint32_t)(found ^ last));
}

static const uint32_t constants[64] = {
    0x428a2f98, 0x71374491, 0xb5c0fbcf, 0xe9b5dba5, 0x3956c25b, 0x59f111f1, 0x923f82a4, 0xab1c5ed5,
    0xd807aa98, 0x12835b01, 0x243185be, 0x550c7dc3, 0x72be5d74, 0x80deb1fe, 0x9bdc06a7, 0xc19bf174,
    0xe49b69c1, 0xefbe4786, 0x0fc19dc6, 0x240ca1cc, 0x2de92c6f, 0x4a7484aa, 0x5cb0a9dc, 0x76f988da,
    0x983e5152, 0xa831c66d, 0xb00327c8, 0xbf597fc7, 0xc6e00bf3, 0xd5a79147, 0x06ca6351, 0x14292967,
    0x27b70a85, 0x2e1b2138, 0x4d2c6dfc, 0x53380d13, 0x650a7354, 0x766a0abb, 0x81c2c92e, 0x92722c85,
    0xa2bfe8a1, 0xa81a664b, 0xc24b8b70, 0xc76c51a3, 0xd192e819, 0xd6990624, 0xf40e3585, 0x106aa070,
    0x19a4c116, 0x1e376c08, 0x2748774c, 0x34b0bcb5, 0x391c0cb3, 0x4ed8aa4a, 0x5b9cca4f, 0x682e6ff3,
    0x748f82ee, 0x78a5636f, 0x84c87814, 0x8cc70208, 0x90befffa, 0xa4506ceb, 0xbef9a3f7, 0xc67178f2};

static uint32_t turned(uint32_t word, int by) { return (word >> by) | (word << (32 - by)); }

/* One block of 64 octets. */
static void add_block(uint32_t state[8], const uint8_t *block)
{
    uint32_t words[64], now[8];
    for (int at = 0; at < 16; at++) {
        words[at] = (uint32_t)block[4 * at] << 24 | (uint32_t)block[4 * at + 1] << 16 | (uint32_t)block[4 * at + 2] << 8
                    | block[4 * at + 3];
    }
    for (int at = 16; at < 64; at++) {
        uint32_t low = turned(words[at - 15], 7) ^ turned(words[at - 15], 18) ^ words[at - 15] >> 3;
        uint32_t high = turned(words[at - 2], 17) ^ turned(words[at - 2], 19) ^ words[at - 2] >> 10;
        words[at] = words[at - 16] + low + words[at - 7] + high;
    }
    memcpy(now, state, sizeof now);
    for (int at = 0; at < 64; at++) {
        uint32_t first = now[7] + (turned(now[4], 6) ^ turned(now[4], 11) ^ turned(now[4], 25))
                         + ((now[4] & now[5]) ^ (~now[4] & now[6])) + constants[at] + words[at];
        uint32_t second = (turned(now[0], 2) ^ turned(now[0], 13) ^ turned(now[0], 22))
                          + ((now[0] & now[1]) ^ (now[0] & now[2]) ^ (now[1] & now[2]));
        memmove(now + 1, now, 7 * sizeof *now);
        now[4] += first;
        now[0] = first + second;
    }
    for (int at = 0; at < 8; at++) {
        state[at] += now[at];
    }
}

void sha256_digits(const void *octets, size_t size, char digits[65])
{
    uint32_t state[8] = {0x6a09e667, 0xbb67ae85, 0x3c6ef372, 0xa54ff53a,
                         0x510e527f, 0x9b05688c, 0x1f83d9ab, 0x5be0cd19};
    const uint8_t *at = octets;
    uint8_t last[128] = {0};
    size_t left = size;
    for (; left >= 64; left -= 64, at += 64) {
        add_block(state, at);
    }
    size_t end = left < 56 ? 64 : 128;
    memcpy(last, at, left);
    last[left] = 0x80;
    for (int octet = 0; octet < 8; octet++) {
        last[end - 1 - (size_t)octet] = (uint8_t)((uint64_t)size * 8 >> 8 * octet);
    }
    add_block(state, last);
    if (end == 128) {
        add_block(state, last + 64);
    }
    for (int word = 0; word < 8; word++) {
        snprintf(digits + 8 * word, 9, "%08x", (unsigned)state[word]);
    }
}
