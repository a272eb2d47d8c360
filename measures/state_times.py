#!/usr/bin/env python3
"""How long a sign's state takes to be saved and restored, beside plain Rust by hand, and how that grows with its rows.

    measures/state_times.py [--library crates/wisangub_c/out/libwisangub_c.a] [--turns 5] [--times 40]

The library for C (measures/c_states.c) makes the sign of signs/gantry.sign with 1, 4 and 1 rows (permanent, changeable,
volatile), and with 2, 4, 8 and 16 times as many; each row, what is shown and what was kept has a text of 512 octets and
an owner of 127. Code by hand (measures/peer_state.rs) reads the text that the library saved and writes it again, octet
by octet the same. It does not check that texts fit the face. The library also makes the sign of its description (`new`)
as it restores: what that takes is told too, and what is left of `restore` without it. It wants a C compiler and rustc,
and for instructions Debian's package valgrind. It fails where either takes 5 ms or more, or where twice the rows take
over 2.1 times the instructions.
"""

from __future__ import annotations

import argparse
import os
import pathlib
import re
import shutil
import subprocess
import sys
import tempfile
from collections.abc import Iterator
from dataclasses import dataclass, field

TOP = pathlib.Path(__file__).resolve().parent.parent
sys.path.insert(0, str(TOP))

import growth  # noqa: E402

from model import wire  # noqa: E402
from model.codes import CHANGEABLE, VOLATILE, checksum  # noqa: E402
from model.objects import DMS  # noqa: E402

TEXT, OWNER = b"[jl3]" * 102 + b"AA", b"o" * 127  # the longest that a row takes
TIMES_AS_MANY = (1, 2, 4, 8, 16)
MOST_MILLISECONDS = 5.0
CALLS = ("save", "restore", "restore less new", "new")
POWER = "power"  # the line at which a sign loses its power and has it back
_MODIFY, _VALIDATE = 6, 7  # of dmsMessageStatus
_STATUS, _PRIORITY = 9, 8  # columns of the message table
_COUNTED = 4  # calls of which the instructions are counted


@dataclass(frozen=True)
class Rows:
    """How many rows a sign has."""

    permanent: int
    changeable: int
    volatile: int

    @classmethod
    def times(cls, count: int) -> Rows:
        return cls(count, 4 * count, count)

    def __str__(self) -> str:
        return f"{self.permanent}, {self.changeable} and {self.volatile}"


@dataclass(frozen=True)
class Taken:
    """What a call took; no instructions where valgrind is not there."""

    milliseconds: float
    instructions: int = 0

    def less(self, other: Taken) -> Taken:
        return Taken(self.milliseconds - other.milliseconds, self.instructions - other.instructions)


@dataclass(frozen=True)
class Program:
    """A program that is called with a call and how often; it prints the least nanoseconds of one."""

    words: tuple[str, ...]
    calls: tuple[str, ...]
    text: str = ""

    def milliseconds(self, call: str, times: int) -> float:
        words = [*self.words, call, str(times)]
        return float(subprocess.run(words, input=self.text, capture_output=True, text=True, check=True).stdout) / 1e6

    def instructions(self, call: str) -> int:
        """Those of one call, without what the program does once; 0 where valgrind is not there."""
        if shutil.which("valgrind") is None:
            return 0
        none, some = (
            growth.counted(pathlib.Path(self.words[0]), (*self.words[1:], call, str(times)), self.text)
            for times in (0, _COUNTED)
        )
        return (some - none) // _COUNTED


@dataclass
class Measured:
    """What each call of the two took with so many rows."""

    rows: Rows
    library: dict[str, Taken] = field(default_factory=dict)
    peer: dict[str, Taken] = field(default_factory=dict)


# --- the sign ---------------------------------------------------------------------------------------------------------


def described(rows: Rows) -> bytes:
    """The description of a sign with so many rows."""
    text = re.sub(rb"(?m)^permanent .*\n", b"", (TOP / "signs/gantry.sign").read_bytes())
    text = re.sub(rb"(?m)^rows .*$", b"rows %d %d" % (rows.changeable, rows.volatile), text)
    permanent = b"permanent %s %s 0 0 255\n" % (TEXT.hex().encode(), OWNER.hex().encode())
    return re.sub(rb"(?m)^first .*\n", lambda found: found[0] + permanent * rows.permanent, text)


def _set(*bindings: wire.Binding) -> str:
    return wire.written(wire.Message(wire.SET, b"administrator", 1, 0, 0, list(bindings))).hex()


def _filled(memory: int, number: int) -> Iterator[str]:
    """A row is written, and validated."""

    def cell(column: int) -> wire.Name:
        return DMS + (5, 8, 1, column, memory, number)

    yield _set((cell(_STATUS), (wire.INTEGER, _MODIFY)))
    texts = [(cell(3), (wire.OCTETS, TEXT)), (cell(4), (wire.OCTETS, OWNER))]
    yield _set(*texts, (cell(_PRIORITY), (wire.INTEGER, 100)))
    yield _set((cell(_STATUS), (wire.INTEGER, _VALIDATE)))


def went_through(rows: Rows) -> list[str]:
    """What the sign goes through, a line each: a row is shown, kept as the power is lost, and shown again.

    The volatile rows are filled after that: a loss of power empties them.
    """
    crc = checksum(TEXT, 0, 0).to_bytes(2, "big")
    code = bytes([255, 255, 255, CHANGEABLE, 0, 1, *crc, 192, 0, 2, 1])
    shown = _set((DMS + (6, 3, 0), (wire.OCTETS, code)))
    changeable = [line for number in range(rows.changeable) for line in _filled(CHANGEABLE, number + 1)]
    volatile = [line for number in range(rows.volatile) for line in _filled(VOLATILE, number + 1)]
    return [*changeable, shown, POWER, shown, *volatile]


# --- what is measured -------------------------------------------------------------------------------------------------


def compiled_library(folder: pathlib.Path, library: pathlib.Path) -> pathlib.Path:
    """The program over the library, with malloc's heap."""
    program = folder / "states"
    sources = [TOP / "measures/c_states.c", TOP / "include/wisangub.c", TOP / "examples/heap.c", library]
    cc = ["cc", "-std=c11", "-O2", f"-I{TOP / 'include'}", "-Wl,-z,now", "-o", str(program)]
    subprocess.run([*cc, *map(str, sources)], check=True)
    return program


def compiled_peer(folder: pathlib.Path) -> pathlib.Path:
    """The program by hand, for the same processors as the library."""
    program = folder / "peer"
    options = ["--edition", "2024", "-C", "opt-level=3", "-C", "codegen-units=1", "-C", "target-cpu=x86-64-v2"]
    subprocess.run(["rustc", *options, "-o", program, TOP / "measures/peer_state.rs"], check=True)
    return program


def programs(folder: pathlib.Path, library: pathlib.Path, peer: pathlib.Path, rows: Rows) -> tuple[Program, Program]:
    """The two, over a state that the library saves here; both know the same octets."""
    sign, state = folder / "sign", folder / "state"
    sign.write_bytes(described(rows))
    text = "".join(f"{line}\n" for line in went_through(rows))
    one = Program((str(library), str(sign), str(state)), ("save", "restore", "new"), text)
    one.milliseconds("save", 1)
    written = subprocess.run([peer, state], capture_output=True, check=True).stdout
    if written != state.read_bytes():
        raise SystemExit(f"{rows} rows: another text is written by hand")
    return one, Program((str(peer), str(state)), ("save", "restore"))


def taken(found: list[Program], turns: int, times: int) -> list[dict[str, Taken]]:
    """What each call of these programs took, which take turns."""
    least = [{call: float("inf") for call in program.calls} for program in found]
    for _ in range(turns):
        for program, of_calls in zip(found, least):
            for call in of_calls:
                of_calls[call] = min(of_calls[call], program.milliseconds(call, times))
    return [
        {call: Taken(milliseconds, program.instructions(call)) for call, milliseconds in of_calls.items()}
        for program, of_calls in zip(found, least)
    ]


def measured(folder: pathlib.Path, library: pathlib.Path, turns: int, times: int) -> Iterator[Measured]:
    """The two with ever more rows."""
    states, peer = compiled_library(folder, library), compiled_peer(folder)
    for count in TIMES_AS_MANY:
        rows = Rows.times(count)
        of_library, of_peer = taken(list(programs(folder, states, peer, rows)), turns, times)
        of_library["restore less new"] = of_library["restore"].less(of_library["new"])
        of_peer["restore less new"] = of_peer["restore"]
        yield Measured(rows, of_library, of_peer)


# --- what is told -----------------------------------------------------------------------------------------------------


def _row(one: Measured, call: str) -> str:
    ours, theirs = one.library[call], one.peer.get(call)
    numbers = [f"{ours.milliseconds:.3f}", f"{ours.instructions:,}"]
    if theirs is None:
        return f"| {one.rows} | {call} | {' | '.join(numbers)} | | | | |"
    numbers += [f"{theirs.milliseconds:.3f}", f"{theirs.instructions:,}"]
    numbers.append(f"{ours.milliseconds / theirs.milliseconds:.2f}")
    numbers.append(f"{ours.instructions / theirs.instructions:.2f}" if theirs.instructions else "")
    return f"| {one.rows} | {call} | {' | '.join(numbers)} |"


def table(found: list[Measured]) -> str:
    """A row for each call with so many rows, as Markdown."""
    head = "| rows | call | library: ms | instructions | by hand: ms | instructions | ratio: times | instructions |"
    rows = [_row(one, call) for one in found for call in CALLS]
    return "\n".join([head, "|---|---|---|---|---|---|---|---|", *rows])


def slowest(found: list[Measured]) -> float:
    """The most milliseconds that either takes to save or to restore."""
    both = [side[call] for one in found for side in (one.library, one.peer) for call in ("save", "restore")]
    return max(one.milliseconds for one in both)


def grown(found: list[Measured]) -> float:
    """The most times as much as before that twice the rows take the library: of instructions, or else of time."""
    pairs = [
        (one.library[call], two.library[call])
        for one, two in zip(found, found[1:])
        for call in ("save", "restore", "restore less new")
    ]
    if all(one.instructions for one, _ in pairs):
        return max(two.instructions / one.instructions for one, two in pairs)
    return max(two.milliseconds / one.milliseconds for one, two in pairs)


def verdict(found: list[Measured]) -> tuple[bool, str]:
    """Whether both bars hold, and in words."""
    slow, ratio = slowest(found), grown(found)
    is_fast, is_linear = slow < MOST_MILLISECONDS, ratio <= growth.MOST
    told = [
        f"{'yes' if is_fast else 'NO'}: each call takes under {MOST_MILLISECONDS:g} ms, at most {slow:.3f}",
        f"{'yes' if is_linear else 'NO'}: twice the rows take at most {growth.MOST} times as much: {ratio:.2f}",
    ]
    return is_fast and is_linear, "\n".join(told)


def main() -> int:
    parser = argparse.ArgumentParser(description=__doc__, formatter_class=argparse.RawDescriptionHelpFormatter)
    parser.add_argument(
        "--library", type=pathlib.Path, default=TOP / "crates/wisangub_c/out/libwisangub_c.a", help="the library for C"
    )
    parser.add_argument("--turns", type=int, default=5, help="how often the two take turns")
    parser.add_argument("--times", type=int, default=40, help="calls in a turn, of which the least is told")
    asked = parser.parse_args()
    with tempfile.TemporaryDirectory(prefix="state-times-") as folder:
        found = list(measured(pathlib.Path(folder), asked.library.absolute(), asked.turns, asked.times))
    is_kept, told = verdict(found)
    print(f"{table(found)}\n\n{told}\nload {os.getloadavg()[0]:.1f}")
    return 0 if is_kept else 1


if __name__ == "__main__":
    sys.exit(main())
