"""Form 1 of a journal, which is read: records whose sums run on from the file's first octet."""

import re
import zlib
from typing import Iterator

from .records import CHUNK, OWN, Octets

_TAIL = 9  # the eight digits of a sum and the newline
SUMMED = 10  # a space, a number sign and the eight digits
_SHAPE = re.compile(rb" #[0-9a-f]{8}.", re.DOTALL)


def is_older(text: Octets) -> bool:
    """Whether a file begins as one of form 1."""
    return text[:10] == b"journal 1 "


def _sum_at(text: Octets, end: int) -> int | None:
    """The sum that is written before `end`; None where no eight small digits and a newline stand there."""
    tail = text[max(0, end - _TAIL) : end]
    digits = tail[:-1]
    if len(tail) != _TAIL or tail[-1:] != b"\n" or digits.strip(b"0123456789abcdef"):
        return None
    return int(digits, 16)


def _checksum_at(text: Octets, end: int) -> int:
    """The CRC-32 of all octets up to the end of a whole record, from what is written there."""
    written = _sum_at(text, end)
    return 0 if written is None else zlib.crc32(text[end - _TAIL : end], written)


def _whole_from(text: Octets, at: int, end: int) -> int:
    """The end of the last whole record from `at` on, where a record begins, one record after the other."""
    before = _checksum_at(text, at)
    while True:
        after = text.find(b"\n", at, end) + 1
        if not after or _sum_at(text, after) != zlib.crc32(text[at : after - _TAIL], before):
            return at
        at, before = after, _checksum_at(text, after)


def whole(text: Octets) -> int:
    """The length of the whole records at the beginning of a file: by chunks, since a sum is over all that is before
    it."""
    at, before = 0, 0
    while at < len(text):
        end = text.rfind(b"\n", at, at + CHUNK) + 1
        if not end:
            return at
        if _sum_at(text, end) != zlib.crc32(text[at : end - _TAIL], before):
            return _whole_from(text, at, end)
        at, before = end, _checksum_at(text, end)
    return at


def newlines(text: Octets, at: int) -> Iterator[bytes]:
    """Behind an octet, of all that has the shape of a record the octet that stands in the place of its newline: nobody
    can tell whether it was one."""
    while (mark := text.find(b" #", at + 1)) != -1:
        if _SHAPE.fullmatch(found := text[mark : mark + SUMMED + 1]):
            yield found[-1:]
        at = mark


def every_line(text: Octets, size: int) -> Iterator[list[bytes]]:
    """The lines of all whole records, the front end's own too, many at a time."""
    at = 0
    while at < size:
        end = text.rfind(b"\n", at, min(at + CHUNK, size)) + 1
        yield [octets[:-SUMMED] for octets in text[at : end - 1].split(b"\n")]
        at = end


def lines_of(text: Octets, size: int) -> Iterator[list[bytes]]:
    """The lines that are handed over, of the whole records up to `size`, many at a time."""
    return ([line for line in lines if not line.startswith(OWN)] for lines in every_line(text, size))
