/* The CRC-32 of zlib and the SHA-256 of FIPS 180-4, for journals. */
#ifndef DIGESTS_H
#define DIGESTS_H

#include <stddef.h>
#include <stdint.h>

/* The CRC-32 of octets that follow others whose CRC-32 is `before`, 0 for none. */
uint32_t crc32_after(uint32_t before, const void *octets, size_t size);

/* The CRC-32 of octets whose CRC-32 with this last one is `sum`; that of none is 0. */
uint32_t crc32_without(uint32_t sum, uint8_t last);

/* The SHA-256 in 64 small hexadecimal digits, and a zero after them. */
void sha256_digits(const void *octets, size_t size, char digits[65]);

#endif
