"""The checksum of a message (ISO/IEC 3309), which whoever activates a message has to know."""

import functools

_DIVISOR = 0x8408  # x^16 + x^12 + x^5 + 1, the low bit first


@functools.lru_cache(maxsize=4096)
def checksum(text: bytes, beacon: int, pixel: int) -> int:
    """The 16 bits for a text with its beacon and pixel service. The program's `code` says the same of a text of ASCII
    (a test compares them); it takes no other octets on its command line."""
    rest = 0xFFFF
    for octet in (*text, beacon, pixel):
        rest ^= octet
        for _ in range(8):
            rest = rest >> 1 ^ (_DIVISOR if rest & 1 else 0)
    return rest ^ 0xFFFF
