"""A state at the beginning of a journal, in place of the lines that led to it: how it is written and read."""

import re
from typing import NamedTuple

from .clock import Moment
from .known import of_sign
from .records import Extent, Octets, Unknown, parts_of

FIRST = {"sign": b"state 1 sign", "centre": b"state 1 centre"}
_LAST = b"end"
_STATE, _SET, _START, _CLOCK = b"state ", b"set ", b"start ", b"clock "
_MOST = 1 << 21  # octets in which a state ends: a sign's has 110,000 at most, and a centre's text 1,048,576
_NEXT = re.compile(rb"next ([0-9]{1,10})")
Sets = dict[bytes, bytes]  # of objects, by their names: the values that managers set last


class OtherState(Exception):
    """A state of another form, or of another end: its first line."""


class NotWhole(Exception):
    """A state that lacks some of what was written with it: the octet where that should stand."""

    def __init__(self, at: int) -> None:
        super().__init__(at)
        self.at = at


class Begun(NamedTuple):
    """What a shortened journal begins with. `before`: up to the lines that are handed over; `size`: the octets that
    were written with the state."""

    lines: list[bytes]
    sets: Sets
    before: Extent
    size: int


class _Records:
    """The whole records of a file from the second on, one after the other."""

    def __init__(self, text: Octets, at: int) -> None:
        self.text, self.at, self.number = text, at, 2

    def next(self) -> bytes | None:
        """The line of the next record; None where no whole one stands there."""
        end = self.text.find(b"\n", self.at)
        parts = parts_of(self.text[self.at : end], self.number) if end != -1 else None
        return parts[0] if parts else None

    def take(self) -> None:
        """The next record was looked at."""
        self.at, self.number = self.text.find(b"\n", self.at) + 1, self.number + 1

    def wanted(self) -> bytes:
        """The line of the next record, which has to stand there."""
        line = self.next()
        if line is None:
            raise NotWhole(self.at)
        return line


def written(state: list[bytes], sets: Sets, last: Moment) -> list[bytes]:
    """The lines of the records that stand behind the first one of a sign's: `last` is the moment up to which the sign
    was handed its seconds. A centre's has those of the state alone."""
    return [*state, *set_lines(sets), last.start(), last.clock()]


def set_lines(sets: Sets) -> list[bytes]:
    """The lines that say these values, in the order of names."""
    if not sets:
        return []
    from wisangub.objects.lines import name_of  # few journals have one

    return [b"set %b %b" % (name, sets[name]) for name in sorted(sets, key=lambda one: name_of(one.decode()))]


def parts(saved: list[bytes]) -> tuple[list[bytes], Sets]:
    """What a process was saved as: the lines of its own state, and the values that managers set of what is published
    beside it."""
    count = saved.index(_LAST) + 1 if _LAST in saved else len(saved)
    words = [line.split(b" ", 2) for line in saved[count:] if line.startswith(_SET)]
    return saved[:count], {name: value for _, name, value in words}


def next_number(state: list[bytes]) -> int | None:
    """The number of the next request of a centre in this state; None where it says none."""
    found = _NEXT.fullmatch(state[1]) if len(state) > 1 else None
    return int(found[1]) if found else None


def read(text: Octets, end: str) -> Begun | None:
    """What stands behind the first record of a whole journal of an end; None where that is no state."""
    records = _Records(text, text.find(b"\n") + 1)
    line = records.next()
    if line is None and had_one(text, records.at):
        raise NotWhole(records.at)
    if line is None or not line.startswith(_STATE):
        return None
    if line != FIRST[end]:
        raise OtherState(line.decode("latin-1"))
    state = [line]
    while state[-1] != _LAST:
        records.take()
        state.append(records.wanted())
    records.take()
    sets = _sets_of(records) if end == "sign" else {}
    before = Extent(records.at, records.number, records.number - 1)
    if end == "sign":
        _take_moment(records)
    return Begun(state, sets, before, records.at)


def _take_moment(records: _Records) -> None:
    """The moment of the state is looked at."""
    for word in (_START, _CLOCK):
        line = records.wanted()
        if not line.startswith(word) or not of_sign(line):
            raise Unknown(records.at, records.number, line)
        records.take()


def had_one(text: Octets, at: int) -> bool:
    """Whether a state stood there, whose first record is not whole: it begins so still, or has its last line."""
    return text[at : at + len(_STATE)] == _STATE or text.find(b"\n%b #" % _LAST, at, at + _MOST) != -1


def _sets_of(records: _Records) -> Sets:
    """The values of objects."""
    sets: Sets = {}
    while (line := records.wanted()).startswith(_SET):
        name, _, value = line[len(_SET) :].partition(b" ")
        if not _is_object(line[len(_SET) :]):
            raise Unknown(records.at, records.number, line)
        sets[name] = value
        records.take()
    return sets


def _is_object(words: bytes) -> bool:
    """Whether these are an object's name and its value, and no more."""
    from wisangub.objects.lines import Bad, object_of  # few journals have one

    try:
        return object_of(words.decode("ascii").split(" ")).access is None
    except (Bad, UnicodeDecodeError):
        return False
