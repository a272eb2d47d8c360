"""What a journal's file has: whose it is, how far it is whole, and the moment of its last record."""

from typing import Iterator, NamedTuple

from wisangub.refusal import Refusal

from . import damage, known, older, records, states
from .clock import Moment
from .damage import End
from .records import FORM, SECTOR, Extent, Head, Octets, Unknown
from .states import Begun, NotWhole, OtherState

_ANEW = "--fresh begins anew"
_ACCEPT = "--accept-damage goes on once from there, and puts the rest aside"
_ACCEPT_ALL = "--accept-damage begins anew, and puts all of it aside"
_ABOVE = "--fresh begins above all numbers that it may have used"
_ELSEWHERE = "move it away, and begin with a --first above all numbers that were used"
_SHORT = 1 << 22  # octets of a file whose lines are kept as it is read, so that they are not looked for again


class Found(NamedTuple):
    """`size` octets of `length` are kept, of records up to the one before `number`; `since` is the SINCE of the last.
    `last` is the moment of the last record, its seconds since the clock counted in. A journal that was shortened has
    the lines of a state, the values of objects, and `base` octets that were written with it."""

    head: Head
    length: int
    size: int
    number: int
    since: int
    last: Moment | None
    state: tuple[bytes, ...] = ()
    sets: tuple[tuple[bytes, bytes], ...] = ()
    base: int = 0
    behind: int = 0  # the octet behind a state
    taken: tuple[int, list[bytes]] = (-1, [])  # the lines that are handed over of a file of so many octets

    def lines(self, text: Octets) -> Iterator[list[bytes]]:
        """The lines that are handed over behind a state, many at a time."""
        if self.taken[0] == self.size:
            return iter([self.taken[1]])
        if self.head.form != FORM:
            return older.lines_of(text, self.size)
        return records.lines_of(text, self.behind or text.find(b"\n", 0, self.size) + 1, self.size)


def read(path: str, text: Octets, wanted: Head, accepts: bool) -> Found | None:
    """What the file of this journal has; None where that is nothing yet. Refuses what is another's, and damage that is
    not accepted."""
    first = first_of(text)
    is_lost = first is None and _is_lost(text, wanted.end)
    if first is None and (_is_begun(text, wanted) or is_lost and accepts):
        return None
    head = _compared(path, first, wanted, is_lost)
    begun = _begun(path, text, head)
    lines = list[bytes]()
    extent = _extent_of(path, text, head, begun, lines if len(text) <= _SHORT else None)
    end = damage.end_of(text, extent) if head.form == FORM else damage.end_of_older(text, extent.size)
    if end is End.DAMAGED and (not accepts or head.end == "centre"):
        how = _ABOVE if head.end == "centre" else _ACCEPT
        raise Refusal(
            f"{path}: damaged at octet {extent.size}: what stands there is no record as a front end wrote it ({how})"
        )
    kept, last = started(text, extent.size)
    number = records.number_at(text, kept) if kept < extent.size and head.form == FORM else extent.number
    found = Found(head, len(text), kept, number, min(extent.since, number), last)
    if lines:
        found = found._replace(taken=(extent.size, [line for line in lines if not line.startswith(records.OWN)]))
    if begun is None:
        return found
    sets = tuple(begun.sets.items())
    return found._replace(state=tuple(begun.lines), sets=sets, base=begun.size, behind=begun.before.size)


def first_of(text: Octets) -> bytes | None:
    """The line of the first record; None where that is not whole."""
    octets = text[: text.find(b"\n") + 1]
    if older.is_older(text):
        return octets[: -older.SUMMED - 1] if octets and older.whole(octets) else None
    parts = records.parts_of(octets[:-1], 1)
    return parts[0] if parts else None


def _is_begun(text: Octets, wanted: Head) -> bool:
    """Whether a file without a whole record is what a front end leaves that was killed at the first one."""
    octets = text[:SECTOR].rstrip(b"\0")
    begun = [records.record(wanted._replace(form=FORM).line(), 1, 1), wanted._replace(form=1).line() + b" #"]
    is_like = begun[0].startswith(octets) or begun[1].startswith(octets) or octets.startswith(begun[1])
    return len(text) < SECTOR and b"\n" not in octets and len(octets) < len(begun[0]) and is_like


def _is_lost(text: Octets, end: str) -> bool:
    """Whether a sign's journal lacks its first record alone: damage that can be accepted, for a new one. With a state
    behind it that cannot be."""
    was_one = text[:8] == b"journal " or damage.has_record(text)
    return end == "sign" and was_one and not states.had_one(text, text.find(b"\n") + 1)


def _compared(path: str, first: bytes | None, wanted: Head, is_lost: bool) -> Head:
    """What the journal is of; a journal of something else is refused by what differs."""
    found = Head.of(first) if first is not None else None
    if found is None:
        how = f", so it is damaged at octet 0 ({_ACCEPT_ALL})" if is_lost else ""
        raise Refusal(f"{path} is no journal: its first record is not whole{how}")
    if found.end != wanted.end:
        raise Refusal(f"{path}: its end is {found.end}, and this front end's {wanted.end}")
    for name, has, asked in (
        ("form", found.form, found.form if found.form == 1 else FORM),
        ("rules", found.rules, wanted.rules),
    ):
        if has != asked:
            raise Refusal(f"{path}: its {name} is {has}, and this front end's {asked} ({_ANEW})")
    if found.digest != wanted.digest:
        raise Refusal(f"{path} is the journal of another description ({_ANEW})")
    return found


def _begun(path: str, text: Octets, head: Head) -> Begun | None:
    """The state that a journal begins with. It was whole when the file got its name: where it is not so now nothing
    tells what its end was, and of a centre which numbers it used."""
    if head.form != FORM:
        return None
    try:
        return states.read(text, head.end)
    except Unknown as fault:
        raise _unknown(path, head, fault) from fault
    except (OtherState, NotWhole) as fault:
        how = _ELSEWHERE if head.end == "centre" else _ANEW
        raise Refusal(f"{path}: {_no_state(fault, head.end)} ({how})") from None


def _no_state(fault: OtherState | NotWhole, end: str) -> str:
    """Why a state is not read."""
    if isinstance(fault, NotWhole):
        return f"damaged at octet {fault.at}: the state there is not whole"
    return f"it begins with {str(fault)!r}, and this front end knows {states.FIRST[end].decode()!r}"


def number_behind(path: str, text: Octets) -> tuple[int, int] | None:
    """Of a centre's journal that begins with a state the number of its next request, and the octets up to the records
    behind it; None where it begins with none. One that cannot be read is refused, since nothing tells which numbers
    were used."""
    try:
        begun = states.read(text, "centre")
    except (OtherState, NotWhole) as fault:
        raise Refusal(f"{path}: {_no_state(fault, 'centre')}: it is not put aside ({_ELSEWHERE})") from None
    if begun is None:
        return None
    number = states.next_number(begun.lines)
    if number is None:
        raise Refusal(f"{path}: its state has no line `next`: it is not put aside ({_ELSEWHERE})")
    return number, begun.size


def _unknown(path: str, head: Head, fault: Unknown) -> Refusal:
    return Refusal(f"{path}: {fault}: no {head.end} knows this line ({_ANEW})")


def _extent_of(path: str, text: Octets, head: Head, begun: Begun | None, lines: list[bytes] | None) -> Extent:
    """How far the file is whole; a whole record with a line that its end does not know is refused by name. The lines of
    one of this form go to `lines`."""
    is_known = known.of(head.end)
    try:
        if head.form == FORM:
            return records.whole(text, is_known, begun.before if begun else Extent(), lines)
        size, number, at = older.whole(text), 1, 0
        for some in older.every_line(text, size):
            records.look(at, number, some, is_known, older.SUMMED + 1)
            at, number = at + sum(map(len, some)) + (older.SUMMED + 1) * len(some), number + len(some)
        return Extent(size, number, number)
    except Unknown as fault:
        raise _unknown(path, head, fault) from fault


def started(text: Octets, size: int) -> tuple[int, Moment | None]:
    """The length of the records up to a start that was not finished, and the moment of the last of them."""
    start = text.rfind(b"\nstart ", 0, size) + 1
    while (clock := text.rfind(b"\nclock ", 0, size) + 1) < start:
        size, start = start, text.rfind(b"\nstart ", 0, start) + 1
    if not start:
        return size, None
    at = text.find(b"\n", clock) + 1
    moment = Moment.of(text[start : text.find(b"\n", start)], text[clock:at])
    return size, moment.later(sum(_seconds_of(line) for line in text[at:size].split(b"\n")))


def _seconds_of(octets: bytes) -> int:
    """The seconds that a record counts."""
    words = octets.split(b" ", 2)
    return int(words[1]) if words[0] == b"ticks" and words[1].isdigit() else int(words[0] == b"tick")
