"""The program's crate and those below it, as crates.txt lists them, with what a check of each is likely to take."""

from __future__ import annotations

import functools
import pathlib
import re
from dataclasses import dataclass

TOP = pathlib.Path(__file__).resolve().parent.parent.parent
PARTS = ("src", "specs", "proofs")
_OWN_WORK = 100  # what a check takes beside its lines of code, in lines; those of specs and proofs add next to nothing
_OF_BELOW = 12  # what each crate that it stands on adds: its statements are read before the first proof
_OF_LIBRARY = {"clap": 500}  # and what is much larger than those
OWN_MEMORY, _OF_CODE, _OF_SPECS = 1_500_000_000, 1_000_000, 200_000  # octets: a check, a line of .rt, a line of .antt
OF_JOB = 0.6  # what each further job of a check takes of its memory


@dataclass(frozen=True)
class Crate:
    name: str
    uses: tuple[str, ...]
    work: int
    memory: int

    @property
    def folder(self) -> pathlib.Path:
        return TOP / "crates" / self.name

    @property
    def root(self) -> str:
        return next(root for root in ("src/main.rt", "src/lib.rt") if (self.folder / root).is_file())


class Plan:
    """The program's crate and those below it."""

    def __init__(self) -> None:
        text = re.sub(r"#.*", "", (TOP / "crates.txt").read_text(encoding="utf-8"))
        self.lines = [line for line in text.splitlines() if line.strip()]
        halves = [line.partition(":") for line in self.lines]
        uses = {head.split()[0]: used.split() for head, _, used in halves}
        self.uses = {name: tuple(used for used in using if used in uses) for name, using in uses.items()}
        self.of_kit = {name: tuple(used for used in using if used not in uses) for name, using in uses.items()}
        self.program = next(name for name in uses if (TOP / "crates" / name / "src/main.rt").is_file())
        self.crates = {name: self.measured(name) for name in {self.program, *self.below(self.program)}}

    def measured(self, name: str) -> Crate:
        lines = {".rt": 0, ".antt": 0}
        for path in (path for part in PARTS for path in (TOP / "crates" / name / part).rglob("*.*t")):
            lines[path.suffix] = lines.get(path.suffix, 0) + path.read_bytes().count(b"\n")
        code, specs = lines[".rt"], lines[".antt"]
        read = (
            _OWN_WORK + _OF_BELOW * len(self.below(name)) + sum(_OF_LIBRARY.get(used, 0) for used in self.of_kit[name])
        )
        return Crate(name, self.uses[name], read + code, OWN_MEMORY + _OF_CODE * code + _OF_SPECS * specs)

    @property
    def built(self) -> pathlib.Path:
        """Where the program stands, once it is built."""
        return self.crates[self.program].folder / "out" / self.program

    @functools.cache
    def below(self, name: str) -> frozenset[str]:
        return frozenset(lower for used in self.uses[name] for lower in {used, *self.below(used)})

    @functools.cache
    def chain(self, name: str) -> int:
        """The work of a crate and of the longest chain of others that wait for it."""
        above = [other for other in self.crates if name in self.uses[other]]
        return self.crates[name].work + max(map(self.chain, above), default=0)
