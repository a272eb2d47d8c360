"""The form of a journal: records with a number and a sum of their own, and how far a file is whole."""

import zlib
from typing import Callable, Iterator, NamedTuple, Protocol

FORM = 2  # that is written; form 1 is read too
RULES = 1  # the rules' number of docs/PROFILE.md: it goes up only where an answer of the sign or the centre changes
SUM = 8  # the digits of a sum
CHUNK = 1 << 20
SECTOR = 512
_MOST_DIGITS = 20  # of a number of the first record
SHORTEST = 15  # octets of the shortest record that is handed over, `tick` of form 1; in form 2 it has 19
OWN = (b"journal ", b"start ", b"clock ")  # records of the front end's own; all others behind a state are handed over


class Octets(Protocol):
    """What is looked through: octets, or a file mapped into memory."""

    def __len__(self) -> int:
        ...

    def __getitem__(self, place: slice, /) -> bytes:
        ...

    def find(self, wanted: bytes, start: int = ..., end: int = ..., /) -> int:
        ...

    def rfind(self, wanted: bytes, start: int = ..., end: int = ..., /) -> int:
        ...


class Extent(NamedTuple):
    """How far a file is whole: the octets of its whole records, the number of the next one, and the SINCE of the
    last."""

    size: int = 0
    number: int = 1
    since: int = 1


class Unknown(Exception):
    """A whole record whose line no end knows: where it stands, its number, and the line."""

    def __init__(self, at: int, number: int, line: bytes) -> None:
        super().__init__(f"record {number} at octet {at} is {line[:80].decode('latin-1')!r}")


def record(line: bytes, number: int, since: int) -> bytes:
    """A line's record: `since` is the number of the first record that may not be on the disk."""
    summed = b"%b #%d %d " % (line, number, since)
    return b"%b%08x\n" % (summed, zlib.crc32(summed))


def records(lines: list[bytes], number: int = 1, since: int | None = None) -> bytes:
    """The records of several lines, the first with this number; where no `since` is said each is synced by itself."""
    return b"".join(record(line, at, since or at) for at, line in enumerate(lines, number))


def parts_of(octets: bytes, number: int) -> tuple[bytes, int] | None:
    """The line and the SINCE of a record without its newline; None where it is no whole record of this number."""
    if octets[-SUM:] != b"%08x" % zlib.crc32(octets[:-SUM]):
        return None
    found = octets[: -SUM - 1].rsplit(b" ", 2)
    if len(found) != 3 or found[1] != b"#%d" % number or octets[-SUM - 1 : -SUM] != b" ":
        return None
    digits = found[2]
    if not digits.isdigit() or digits[:1] == b"0" or len(digits) > len(found[1]) or int(digits) > number:
        return None
    return found[0], int(digits)


def whole(
    text: Octets,
    is_known: Callable[[bytes], bool] | None = None,
    before: Extent = Extent(),
    lines: list[bytes] | None = None,
) -> Extent:
    """How far a file is whole, which is so up to `before`. A whole record with a line that is not known, where it is
    asked, is Unknown. With `lines` the lines are put there."""
    found = before
    while found.size < len(text) and (end := text.rfind(b"\n", found.size, found.size + CHUNK) + 1):
        some = text[found.size : end - 1].split(b"\n")
        found = _whole_ones(some, found, is_known, [] if lines is None else lines)
        if found.size < end:
            break
    return found


def _whole_ones(
    some: list[bytes], before: Extent, is_known: Callable[[bytes], bool] | None, lines: list[bytes]
) -> Extent:
    """How far a file is whole that goes on with these records, without their newlines, and their lines. Most records
    have the SINCE of the one before: a start over a long journal is mostly this loop."""
    number, since, begin = before.number, before.since, len(lines)
    crc32, add = zlib.crc32, lines.append
    for octets in some:
        total = crc32(octets[:-SUM])
        tail = b" #%d %d %08x" % (number, since, total)
        if not octets.endswith(tail):
            other = _tail_of(octets, number, total)
            if other is None:
                break
            since, tail = other
        add(octets[: -len(tail)])
        number += 1
    whole_ones = some[: number - before.number]
    if is_known:
        _look_at_lines(whole_ones, lines[begin:], before, is_known)
    return Extent(before.size + sum(map(len, whole_ones)) + len(whole_ones), number, since)


def _tail_of(octets: bytes, number: int, total: int) -> tuple[int, bytes] | None:
    """The SINCE of a record of this number, mostly its own, and what stands behind its line; None where it is none."""
    tail = b" #%d %d %08x" % (number, number, total)
    if octets.endswith(tail):
        return number, tail
    parts = parts_of(octets, number)
    return (parts[1], octets[len(parts[0]) :]) if parts else None


def _look_at_lines(some: list[bytes], lines: list[bytes], before: Extent, is_known: Callable[[bytes], bool]) -> None:
    """Raises Unknown for the first of these records whose line is not known, but for a file's first record."""
    unknown = {line for line in {*lines} if not is_known(line)}
    at = before.size
    for number, (octets, line) in enumerate(zip(some, lines) if unknown else (), before.number):
        if number > 1 and line in unknown:
            raise Unknown(at, number, line)
        at += len(octets) + 1


def look(at: int, number: int, lines: list[bytes], is_known: Callable[[bytes], bool], more: int) -> None:
    """Raises Unknown for the first of these lines that is not known, but for a file's first record. The record of each
    has so many octets more."""
    unknown = {line for line in set(lines) if not is_known(line)}
    for place, line in enumerate(lines if unknown else []):
        if line in unknown and number + place > 1:
            raise Unknown(at + sum(map(len, lines[:place])) + more * place, number + place, line)


def number_at(text: Octets, at: int) -> int:
    """The number of the whole record that stands at an octet."""
    return int(text[at : text.find(b"\n", at)].rsplit(b" #", 1)[1].split(b" ")[0])


def _line_of(octets: bytes) -> bytes:
    """The line of a record of form 2, with or without its newline."""
    return octets.rpartition(b" #")[0]


def lines_of(text: Octets, at: int, size: int) -> Iterator[list[bytes]]:
    """The lines that are handed over, of the whole records from `at` up to `size`, many at a time."""
    while at < size:
        end = text.rfind(b"\n", at, min(at + CHUNK, size)) + 1
        yield [_line_of(octets) for octets in text[at : end - 1].split(b"\n") if not octets.startswith(OWN)]
        at = end


class Head(NamedTuple):
    """The first record: what the journal is of. `first` is the number that a centre began with. Of lines that are kept
    otherwise than in a file, in a database, the form is 1."""

    end: str
    digest: str
    first: int | None = None
    form: int = 1
    rules: int = RULES

    def line(self) -> bytes:
        """The line of the first record, as docs/JOURNAL.md has it."""
        words = f"journal {self.form} {self.end} rules {self.rules} description {self.digest}"
        return (words if self.first is None else f"{words} first {self.first}").encode()

    @staticmethod
    def of(line: bytes) -> "Head | None":
        """What a line says; None where it is none."""
        words = line.decode("latin-1").split(" ")
        if len(words) not in (7, 9) or words[0] != "journal" or words[3] != "rules" or words[5] != "description":
            return None
        numbers = [words[1], words[4], *words[8:]]
        are_numbers = all(word.isascii() and word.isdecimal() and len(word) < _MOST_DIGITS for word in numbers)
        if not are_numbers or words[7:8] not in ([], ["first"]):
            return None
        return Head(words[2], words[6], int(words[8]) if words[8:] else None, int(words[1]), int(words[4]))
