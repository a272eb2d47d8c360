"""What stands behind the whole records of a file: a torn end, which a loss of power or a kill leaves, or damage."""

import enum
import re
import zlib
from typing import Iterator

from . import older
from .records import SECTOR, SUM, Extent, Octets, parts_of

MOST_TORN = 1 << 20  # octets of one write at most: more than a front end writes in an hour without a sync
_MOST_RECORD = (1 << 16) + 64  # octets of the longest line that is handed over, and of what stands after it
TAIL = re.compile(rb" #([1-9][0-9]*) ([1-9][0-9]*) ([0-9a-f]{8})")
_MOST_TAIL = 64
_ONES = 0xFFFFFFFF


class End(enum.Enum):
    """What a file has behind its whole records."""

    NONE = "nothing"
    TORN = "torn"
    DAMAGED = "damaged"


def steps() -> list[int]:
    """What each octet does to a CRC-32."""
    made = []
    for octet in range(256):
        for _ in range(8):
            octet = octet >> 1 ^ (0xEDB88320 if octet & 1 else 0)
        made.append(octet)
    return made


_STEPS = steps()
_BACK = {step >> 24: octet for octet, step in enumerate(_STEPS)}


def begins(summed: bytes, total: int, least: int) -> bool:
    """Whether some of these octets, up to their end and at least so many, have this CRC-32: it is run backward."""
    register = total ^ _ONES
    for count, octet in enumerate(reversed(summed), 1):
        index = _BACK[register >> 24]
        register = ((register ^ _STEPS[index]) << 8 | index ^ octet) & _ONES
        if register == _ONES and count >= least:
            return True
    return False


def _since_at(text: Octets, at: int, end: int) -> int | None:
    """The SINCE of a whole record that ends before the newline at `end` and begins at `at`, where a line does, or
    behind it, after some damage; None where there is none."""
    tail = text[max(at, end - _MOST_TAIL) : end]
    found = TAIL.fullmatch(tail, tail.rfind(b" #"))
    if found is None or int(found[2]) > int(found[1]):
        return None
    summed, total = text[max(at, end - _MOST_RECORD) : end - SUM], int(found[3], 16)
    is_whole = zlib.crc32(summed) == total or begins(summed, total, len(found[0]) - SUM + 1)
    return int(found[2]) if is_whole else None


def _standing(text: Octets, at: int) -> Iterator[int]:
    """The SINCE of each whole record from an octet on."""
    while (end := text.find(b"\n", at)) != -1:
        since = _since_at(text, at, end)
        if since is not None:
            yield since
        at = end + 1


def has_record(text: Octets) -> bool:
    """Whether a whole record stands anywhere, or something in the shape of one of form 1."""
    return next(_standing(text, 0), None) is not None or next(older.newlines(text, 0), None) is not None


def _line_end(text: Octets, at: int) -> int:
    """Where the newline of the line stands that begins there, or the file ends."""
    end = text.find(b"\n", at)
    return len(text) if end == -1 else end


def _has_hole(text: Octets, at: int) -> bool:
    """Whether in the line that begins there a sector, or as much of it as is behind that octet and in the file, is
    nothing but zeros: one that never reached the disk. A record that lacks a sector has its zeros before the next
    newline."""
    last = _line_end(text, at)
    while (zero := text.find(b"\0", at, last)) != -1:
        begin, end = max(at, zero - zero % SECTOR), min(zero - zero % SECTOR + SECTOR, len(text))
        if end <= last and not text[begin:end].strip(b"\0"):
            return True
        at = end
    return False


def _has_lost_newline(text: Octets, at: int, number: int) -> bool:
    """Whether a whole record of this number begins there that has another octet in place of its newline; a zero of a
    hole is none."""
    mark, most = b" #%d " % number, at + _MOST_RECORD
    place = text.find(mark, at, most)
    while place != -1:
        found = TAIL.match(text[place : place + _MOST_TAIL])
        end = place + len(found[0]) if found else len(text)
        if text[end : end + 1] not in (b"", b"\n") and parts_of(text[at:end], number):
            return text[end : end + 1] != b"\0" or not _has_hole(text, at)
        place = text.find(mark, place + 1, most)
    return False


def _is_torn(text: Octets, at: int) -> bool:
    """Whether what no whole record follows is what one write leaves that was not finished."""
    return len(text) - at <= MOST_TORN and (text.find(b"\n", at) == -1 or _has_hole(text, at))


def end_of(text: Octets, whole: Extent) -> End:
    """What stands behind the whole records of a file of form 2."""
    at = whole.size
    if at == len(text):
        return End.NONE
    if _has_lost_newline(text, at, whole.number):
        return End.DAMAGED
    is_followed = False
    for since in _standing(text, at):
        if since > whole.number:
            return End.DAMAGED
        is_followed = True
    return End.TORN if (_has_hole(text, at) if is_followed else _is_torn(text, at)) else End.DAMAGED


def end_of_older(text: Octets, size: int) -> End:
    """The same of form 1, where nothing tells behind a hole what is whole: what has the shape of a record counts,
    whatever octet its newline became; a zero of a hole is none."""
    if size == len(text):
        return End.NONE
    is_holed = _has_hole(text, size)
    if any(octet != b"\0" or not is_holed for octet in older.newlines(text, size)):
        return End.DAMAGED
    return End.TORN if _is_torn(text, size) else End.DAMAGED
