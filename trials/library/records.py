"""Journals of form 2 and of form 1, written and read by a few lines of their own."""

from __future__ import annotations

import re
import zlib

_RECORD = re.compile(rb"(.+) #([1-9][0-9]*) ([1-9][0-9]*) ([0-9a-f]{8})")


def _record(line: bytes, number: int, since: int) -> bytes:
    """A line's record, newline and all."""
    summed = line + b" #%d %d " % (number, since)
    return summed + b"%08x\n" % zlib.crc32(summed)


def journal(lines: list[bytes]) -> bytes:
    """A journal of form 2 with these lines, each synced before the next one was written."""
    return b"".join(_record(line, number, number) for number, line in enumerate(lines, 1))


def older(lines: list[bytes]) -> bytes:
    """A journal of form 1 with these lines."""
    made, total = [], 0
    for line in lines:
        total = zlib.crc32(line + b" #", total)
        tail = b"%08x\n" % total
        total = zlib.crc32(tail, total)
        made.append(line + b" #" + tail)
    return b"".join(made)


def lines_of(octets: bytes) -> list[bytes]:
    """The lines of a journal of form 2, each of whose records is whole; a fault where one is not."""
    found = []
    for number, text in enumerate(octets.split(b"\n")[:-1], 1):
        parts = _RECORD.fullmatch(text)
        since = int(parts[3]) if parts else 0
        if parts is None or not 1 <= since <= number or _record(parts[1], number, since) != text + b"\n":
            raise ValueError(f"the record {number} is not whole: {text[-60:]!r}")
        found.append(parts[1])
    return found
