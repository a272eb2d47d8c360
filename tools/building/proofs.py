"""Crates proved from nothing, for the program alone: a library that is proved then holds its statements, which is what
the crates above it read, and not its proofs. So does `rt ci`.

What was proved stays in out/ of the program's crate with a sum of all that it was proved from: a run that was stopped
goes on where it was, and a run after a change proves the crate that changed and those above it.
"""

from __future__ import annotations

import contextlib
import fcntl
import functools
import hashlib
import os
import pathlib
import subprocess
import sys
from collections.abc import Callable, Iterator
from dataclasses import dataclass

from .kit import Kit
from .plan import PARTS, Crate, Plan
from .running import Running


@dataclass
class Proof(Running):
    """A proof of one crate. What it was made from stands beside what it made, once it is whole, and where that is what
    stands there still."""

    stamp: pathlib.Path | None = None
    made_from: str = ""
    sum_now: Callable[[], str] = str

    def end(self) -> int:
        status = super().end()
        if status == 0 and self.stamp and self.sum_now() == self.made_from:
            self.stamp.write_text(self.made_from, encoding="ascii")
        return status


class Proofs:
    """The program and the crates below it, proved by the kit's compiler."""

    def __init__(self, plan: Plan, kit: Kit, room: pathlib.Path) -> None:
        self.plan, self.kit, self.room = plan, kit, room

    @functools.cache
    def sum_of(self, name: str) -> str:
        """A sum of all that the proof of a crate reads."""
        crate, found = self.plan.crates[name], hashlib.sha256(self.kit.name.encode())
        found.update(repr((crate.uses, self.plan.of_kit[name], [self.sum_of(used) for used in crate.uses])).encode())
        for part in PARTS:
            for path in sorted(path for path in (crate.folder / part).rglob("*") if path.is_file()):
                found.update(repr((str(path.relative_to(crate.folder)), path.read_bytes())).encode())
        return found.hexdigest()

    def sum_now(self, name: str) -> str:
        """The same of what stands there now: a run takes an hour, in which a file may be changed, and changed back."""
        return Proofs(self.plan, self.kit, self.room).sum_of(name)

    def stamp(self, name: str) -> pathlib.Path:
        return self.room / f"{name}.sum"

    def made(self, name: str) -> pathlib.Path:
        return self.room / f"{name}.{'o' if name == self.plan.program else 'rlib'}"

    def proved(self) -> set[str]:
        """The crates that an earlier run proved from the same, over libraries that still stand."""
        names = [name for name in self.plan.crates if self.stamp(name).is_file() and self.made(name).exists()]
        same = {name for name in names if self.stamp(name).read_text(encoding="ascii") == self.sum_of(name)}
        return {name for name in same if self.plan.below(name) <= same}

    def begin(self, crate: Crate, jobs: int, is_first: bool) -> Running:
        # statements fit the libraries alone that they were made over, so those above are made again
        for name in self.plan.crates:
            if crate.name in {name, *self.plan.below(name)}:
                self.stamp(name).unlink(missing_ok=True)
        stamp, sum_now = self.stamp(crate.name), functools.partial(self.sum_now, crate.name)
        proof = Proof(crate, jobs, crate.folder, is_first, stamp=stamp, made_from=sum_now(), sum_now=sum_now)
        words = [*self.kit.checked(self.plan, crate, self.room, jobs), "-o", str(self.made(crate.name))]
        proof.log.parent.mkdir(exist_ok=True)
        to = self.kit.compiled() if crate.name == self.plan.program else ["--statements"]
        return proof.start([*words, *to], proof.log)

    def link(self, program: pathlib.Path) -> int:
        """Links the program, which is proved and compiled, and returns the status."""
        words = self.kit.linked(program, self.made(self.plan.program))
        linked = subprocess.run(words, check=False, capture_output=True, text=True, errors="replace")
        if linked.returncode:
            print(linked.stdout, linked.stderr, sep="", end="", file=sys.stderr)
        return linked.returncode


@contextlib.contextmanager
def proofs(plan: Plan) -> Iterator[Proofs]:
    """What is proved for the program. Another run of this tool here waits meanwhile."""
    room = plan.crates[plan.program].folder / "out/proved"
    room.mkdir(parents=True, exist_ok=True)
    held = os.open(room, os.O_RDONLY)
    try:
        fcntl.flock(held, fcntl.LOCK_EX)
        yield Proofs(plan, Kit.found(), room)
    finally:
        os.close(held)
