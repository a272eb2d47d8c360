"""Both ends whose journals are shortened: what a journal of each is of, the lines that it was handed, and its state."""

import pathlib
from dataclasses import dataclass, field

import pytest

from wisangub.endpoint import records
from wisangub.endpoint.clock import Moment
from wisangub.endpoint.journal import Journal
from wisangub.endpoint.records import Head
from wisangub.endpoint.states import Sets

from .test_journal import HEAD, LINES, NOW


@dataclass(frozen=True, eq=False)
class End:
    """`lines` came to the `state`, and behind that came `more`; `other` is another state of it. `sets` are the values
    that managers set of a sign's objects, and `set_lines` their records; `moment` has those of a sign's time. `advice`
    is what is said of a state that is not whole."""

    head: Head
    lines: list[bytes]
    state: list[bytes]
    more: list[bytes]
    other: list[bytes]
    advice: str
    sets: Sets = field(default_factory=dict)
    set_lines: tuple[bytes, ...] = ()
    moment: tuple[bytes, ...] = ()

    def __str__(self) -> str:
        return self.head.end

    def head_of(self, state: list[bytes]) -> Head:
        """The first record of a journal that begins with this state: a centre's has its next number."""
        return self.head._replace(form=2, first=None if self.head.first is None else int(state[1].split(b" ")[1]))

    def begun(self, state: list[bytes], with_sets: bool = False) -> list[bytes]:
        """The lines that were written with this state."""
        return [self.head_of(state).line(), *state, *(self.set_lines if with_sets else ()), *self.moment]

    def last(self, text: bytes) -> Moment | None:
        """The moment of the last whole record of a shortened journal with `more`; a centre's tells none."""
        if not self.moment:
            return None
        return NOW.later(3) if b"ticks" in text[: text.rfind(b"\n")] else NOW

    def made(self, path: str) -> bytes:
        """A journal with the lines: its octets."""
        journal = Journal.opened(path, self.head)
        if self.moment:
            journal.keep([*self.moment])
        for line in self.lines:
            journal.keep([line])
        journal.close()
        return pathlib.Path(path).read_bytes()

    def short(self, path: str) -> bytes:
        """A journal that was shortened, and went on: its octets."""
        self.made(path)
        journal = Journal.opened(path, self.head)
        journal.sets.update(self.sets)
        journal.exchange(self.state, nothing_kept)
        journal.keep(self.more)
        journal.close()
        return pathlib.Path(path).read_bytes()

    def opened(self, path: str | pathlib.Path) -> Journal:
        """A journal as a start finds it."""
        journal = Journal.opened(str(path), self.head)
        journal.close()
        return journal

    def opened_beside(self, path: str | pathlib.Path) -> Journal:
        """What a start finds in a copy of a file."""
        copy = pathlib.Path(f"{path}.copy")
        copy.write_bytes(pathlib.Path(path).read_bytes())
        journal = self.opened(copy)
        copy.unlink()
        return journal


def nothing_kept() -> None:
    """No archive."""


_CODE = b"ffffff0700010000c0000201"


def centre_state(number: int) -> list[bytes]:
    """The state of an idle centre whose next request has this number."""
    return [b"state 1 centre", b"next %d" % number, b"last accepted", b"idle", b"ledger 5 %b accepted" % _CODE, b"end"]


def long_state(octets: int) -> list[bytes]:
    """The state of an idle centre whose text has just so many octets, by the entries of its ledger."""
    state, size = [b"state 1 centre", b"next 2000000", b"last accepted", b"idle"], len(b"end\n")
    entries, size = list[bytes](), size + sum(len(line) + 1 for line in state)
    while size < octets:
        entries.append(b"ledger %d %b accepted" % (1_000_000 + len(entries), _CODE))
        size += len(entries[-1]) + 1
    for at in range(size - octets):  # each has a shorter word
        entries[at] = entries[at].replace(b"accepted", b"unknown")
    return [*state, *entries, b"end"]


SIGN = End(
    HEAD,
    LINES,
    [b"state 1 sign", b"defaults 0 9 5 5 1 3 2 30 0", b"silent 5", b"powered 1", b"end"],
    [b"ticks 3", b"datagram 31"],
    [b"state 1 sign", b"silent 5", b"powered 1", b"end"],
    "--fresh begins anew",
    {b"1.3.6.1.5": b"INTEGER 7", b"1.3.6.1.4": b"OCTET STRING 4142", b"1.3.6.1.6": b"OCTET STRING -"},
    (b"set 1.3.6.1.4 OCTET STRING 4142", b"set 1.3.6.1.5 INTEGER 7", b"set 1.3.6.1.6 OCTET STRING -"),
    (NOW.start(), NOW.clock()),
)
CENTRE = End(
    Head("centre", "bench", 5, form=2),
    [b"blank 1 65535 255 192.0.2.1", b"datagram 30", b"tick"],
    centre_state(9),
    [b"tick", b"restart", b"blank 2 65535 255 192.0.2.1"],
    centre_state(12),
    "move it away, and begin with a --first above all numbers",
)
of_both = pytest.mark.parametrize("end", (SIGN, CENTRE), ids=str)


def changed(text: bytes, line: bytes, other: bytes) -> bytes:
    """A journal with another line in place of one, its records whole."""
    lines = [record.rpartition(b" #")[0] for record in text.splitlines()]
    assert line in lines
    return records.records([other if one == line else one for one in lines])
