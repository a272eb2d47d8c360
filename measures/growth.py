"""How the program's instructions grow: each kind of work so often, and twice as often.

What takes twice as many instructions grows as its input does. Callgrind counts them, less those of the same call with
as good as no work. Nothing may take more than MOST times as many.
"""

from __future__ import annotations

import pathlib
import re
import subprocess
import sys
from collections.abc import Callable, Iterator
from dataclasses import dataclass

TOP = pathlib.Path(__file__).resolve().parent.parent
PROGRAM = TOP / "crates/signtool/out/signtool"
sys.path.insert(0, str(TOP))

from model import wire  # noqa: E402

MOST = 2.1
_STATUS, _PRIORITY = 9, 8  # columns of the message table
_MODIFY = 6  # of dmsMessageStatus
_ROWS = 64  # the most changeable ones


@dataclass(frozen=True)
class Kind:
    """A kind of work: what it is and how often, the program's words, and its input for a count."""

    name: str
    often: int
    words: tuple[str, ...]
    text: Callable[[int], Iterator[str]]


@dataclass(frozen=True)
class Growth:
    """The instructions that a kind of work took, and twice as much of it."""

    name: str
    often: int
    once: int
    twice: int

    @property
    def ratio(self) -> float:
        return self.twice / self.once


# --- inputs -----------------------------------------------------------------------------------------------------------


def _delivered(places: range) -> Iterator[str]:
    """The centre's requests reach the sign, and the replies the centre."""
    for place in places:
        yield f"to-sign {place}"
        yield f"to-centre {place}"


def _ticks(count: int) -> Iterator[str]:
    yield "bench"
    yield from ("sign-tick" for _ in range(count))


def _publications(count: int) -> Iterator[str]:
    yield "bench"
    for at in range(0, 7 * count, 7):
        yield "publish 3 1 41 - 0 0 200 65535 255 192.0.2.1"
        yield from _delivered(range(at, at + 4))
        yield "sign-tick"
        yield from _delivered(range(at + 4, at + 6))
        yield "centre-tick"
        yield from _delivered(range(at + 6, at + 7))


def _entries(count: int, is_restarted: bool) -> Iterator[str]:
    """Each activation has a code of its own, and so an entry of the ledger."""
    yield "bench"
    for at in range(count):
        yield f"blank 1 60 255 10.0.{at // 256}.{at % 256}"
        yield from _delivered(range(at, at + 1))
        if is_restarted:
            yield "centre-restart"


def _ledger(count: int) -> Iterator[str]:
    return _entries(count, False)


def _restarts(count: int) -> Iterator[str]:
    return _entries(count, True)


def _restored(count: int) -> Iterator[str]:
    """The state of a centre with so many entries."""
    yield from ("state 1 centre", f"next {count + 1}", "last none", "idle")
    yield from (f"ledger {number} 003cff0700050000{number:08x} accepted" for number in range(1, count + 1))
    yield "end"


def _cell(column: int, row: int) -> wire.Name:
    return (1, 3, 6, 1, 4, 1, 1206, 4, 2, 3, 5, 8, 1, column, 3, row)


def _datagram(kind: int, bindings: list[wire.Binding]) -> str:
    community = b"admin" if kind == wire.SET else b"public"
    return f"datagram {wire.written(wire.Message(kind, community, 1, 0, 0, bindings)).hex()}"


def _asked(kind: int, names: list[wire.Name]) -> str:
    return _datagram(kind, [(name, (wire.NULL, b"")) for name in names])


def _sign(rows: int) -> str:
    """The bench sign with so many changeable rows."""
    text = (TOP / "signs/bench.sign").read_text(encoding="ascii")
    return text.replace("\nrows 2 1\n", f"\nrows {rows} 1\n").rstrip("\n")


def _rows(count: int) -> Iterator[str]:
    """A sign with so many rows; each of them is opened, and read by a GetNext."""
    yield _sign(max(1, count))
    for row in range(1, count + 1):
        yield _datagram(wire.SET, [(_cell(_STATUS, row), (wire.INTEGER, _MODIFY))])
        yield from [_asked(wire.GET_NEXT, [_cell(_STATUS, row)])] * 20


def _objects(count: int) -> Iterator[str]:
    """So many objects beside a sign's, published in the order of their names, which are equally long; each is read."""
    names = [(1, 3, 6, 1, 4, 1, 99, 1_000 + number, 0) for number in range(1, count + 1)]
    yield from (f"object {'.'.join(map(str, name))} INTEGER 7" for name in names)
    yield from (_asked(wire.GET, [name]) for name in names)


def _names(kind: int, count: int) -> Iterator[str]:
    """A hundred requests of so many names."""
    yield _sign(_ROWS)
    yield from [_asked(kind, [_cell(_STATUS, 1 + at % _ROWS) for at in range(count)])] * (100 if count else 0)


def _gets(count: int) -> Iterator[str]:
    return _names(wire.GET, count)


def _next_ones(count: int) -> Iterator[str]:
    return _names(wire.GET_NEXT, count)


def _sets(count: int) -> Iterator[str]:
    """A hundred SETs of a field of so many rows, which are open."""
    yield _sign(_ROWS)
    for row in range(1, count + 1):
        yield _datagram(wire.SET, [(_cell(_STATUS, row), (wire.INTEGER, _MODIFY))])
    change = [(_cell(_PRIORITY, row), (wire.INTEGER, 7)) for row in range(1, count + 1)]
    yield from [_datagram(wire.SET, change)] * (100 if count else 0)


KINDS = (
    Kind("ticks of a script", 20_000, ("replay",), _ticks),
    Kind("publications of a script", 500, ("replay",), _publications),
    Kind("entries of a ledger", 2_000, ("replay",), _ledger),
    Kind("restarts, with a ledger", 2_000, ("replay",), _restarts),
    Kind("entries of a ledger, restored", 4_000, ("centre", "--restore"), _restored),
    Kind("rows of a sign", _ROWS // 2, ("sign", "--sign"), _rows),
    Kind("objects beside a sign's", 1_000, ("sign",), _objects),
    Kind("names of a Get", 25, ("sign", "--sign"), _gets),
    Kind("names of a GetNext", 25, ("sign", "--sign"), _next_ones),
    Kind("names of a SET", 25, ("sign", "--sign"), _sets),
)


# --- counts -----------------------------------------------------------------------------------------------------------


def counted(program: pathlib.Path, words: tuple[str, ...], text: str) -> int:
    """The instructions of a call of the program with this input."""
    call = ["valgrind", "--tool=callgrind", "--callgrind-out-file=/dev/null", str(program), *words]
    ran = subprocess.run(call, input=text, capture_output=True, text=True, check=True)
    found = re.search(r"Collected : (\d+)", ran.stderr)
    if found is None:
        raise ValueError(f"callgrind counted nothing: {ran.stderr[-200:]}")
    return int(found[1])


def grown(program: pathlib.Path, kind: Kind, often: int) -> Growth:
    """What a kind of work takes so often, and twice as often."""
    none, once, twice = (
        counted(program, kind.words, "".join(f"{line}\n" for line in kind.text(count)))
        for count in (0, often, 2 * often)
    )
    return Growth(kind.name, often, once - none, twice - none)


def table(growths: list[Growth]) -> str:
    """A row for each, as Markdown."""
    lines = ["| work | so often | instructions | twice as often | ratio |", "|---|---|---|---|---|"]
    lines += [f"| {one.name} | {one.often:,} | {one.once:,} | {one.twice:,} | {one.ratio:.2f} |" for one in growths]
    return "\n".join(lines)


def too_fast(growths: list[Growth]) -> list[str]:
    """What grows faster than its input."""
    return [f"{one.name}: {one.ratio:.2f} times the instructions for twice" for one in growths if one.ratio > MOST]


def growth(program: pathlib.Path = PROGRAM) -> int:
    """Prints how all grow; the exit status."""
    growths = [grown(program, kind, kind.often) for kind in KINDS]
    found = too_fast(growths)
    print("\n".join([table(growths), *found, f"{len(growths)} kinds of work, {len(found)} findings"]))
    return 1 if found else 0
