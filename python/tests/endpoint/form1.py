"""Journals of form 1, as front ends wrote them before form 2."""

import zlib


def older(lines: list[bytes], before: int = 0) -> bytes:
    """The records of these lines, after octets with the CRC-32 `before`."""
    made = b""
    for line in lines:
        summed = line + b" #"
        total = zlib.crc32(summed, before)
        tail = b"%08x\n" % total
        made, before = made + summed + tail, zlib.crc32(tail, total)
    return made
