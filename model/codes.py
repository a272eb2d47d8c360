"""Checksums and codes."""

import functools
from dataclasses import dataclass

PERMANENT, CHANGEABLE, VOLATILE, CURRENT, BLANK = 2, 3, 4, 5, 7
NO_END = 65535


@functools.lru_cache(maxsize=4096)
def checksum(text: bytes, beacon: int, pixel: int) -> int:
    """By division of bits, as ISO/IEC 3309 words it."""
    bits = [octet >> place & 1 for octet in (*text, beacon, pixel) for place in range(8)]
    bits = [1 - bit for bit in bits[:16]] + bits[16:] + [0] * 16
    divisor = [0, 0, 0, 1, 0, 0, 0, 0, 0, 0, 1, 0, 0, 0, 0, 1]
    while len(bits) > 16:
        first, bits = bits[0], bits[1:]
        if first:
            bits[:16] = [bit ^ by for bit, by in zip(bits, divisor)]
    return sum((1 - bit) << place for place, bit in enumerate(bits))


@dataclass(frozen=True)
class MessageId:
    """Memory, row and checksum of a message: 5 octets."""

    memory: int
    number: int
    crc: int

    def octets(self, swapped: bool) -> bytes:
        crc = self.crc.to_bytes(2, "little" if swapped else "big")
        return bytes([self.memory]) + self.number.to_bytes(2, "big") + crc

    @staticmethod
    def of(octets: bytes, swapped: bool) -> "MessageId":
        return MessageId(
            octets[0], int.from_bytes(octets[1:3], "big"), int.from_bytes(octets[3:5], "little" if swapped else "big")
        )


@dataclass(frozen=True)
class Activation:
    """Minutes, priority, message and address of who asks: 12 octets."""

    minutes: int
    priority: int
    id: MessageId
    address: bytes

    def octets(self, swapped: bool) -> bytes:
        return self.minutes.to_bytes(2, "big") + bytes([self.priority]) + self.id.octets(swapped) + self.address

    @staticmethod
    def of(octets: bytes, swapped: bool) -> "Activation":
        return Activation(
            int.from_bytes(octets[:2], "big"), octets[2], MessageId.of(octets[3:8], swapped), bytes(octets[8:12])
        )


BLANK_1 = MessageId(BLANK, 1, 0)
NOBODY = bytes(4)
