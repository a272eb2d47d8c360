"""The static library of a crate: proved and compiled over the statements of the crates below it."""

from __future__ import annotations

import contextlib
import fcntl
import hashlib
import os
import pathlib
import subprocess
from collections.abc import Iterator
from dataclasses import dataclass

from .plan import PARTS, Crate
from .proofs import Proofs

KEPT = "out/incremental"  # where a check keeps what it proved of a crate, by tools/check.py or the kit's `rt`
CHECKED = "out/checked"  # where tools/prove.py has the check of a static library leave its verdict


def changed(folder: pathlib.Path) -> float:
    """When a file below a folder was changed last, in seconds since 1970."""
    return max((path.stat().st_mtime for path in folder.rglob("*") if path.is_file()), default=0.0)


@contextlib.contextmanager
def held(crate: Crate) -> Iterator[None]:
    """Keeps `rt` out of the crate meanwhile, which does the same."""
    folder = os.open(crate.folder, os.O_RDONLY)
    try:
        fcntl.flock(folder, fcntl.LOCK_EX)
        yield
    finally:
        os.close(folder)


@dataclass(frozen=True)
class Static:
    """The library of a crate, for this machine or for another target, and for the kit's usual processor of it or for
    another one."""

    proofs: Proofs
    crate: Crate
    target: str | None = None
    cpu: str | None = None

    @property
    def made(self) -> pathlib.Path:
        return self.crate.folder / "out" / (self.target or "") / (self.cpu or "") / f"lib{self.crate.name}.a"

    @property
    def stamp(self) -> pathlib.Path:
        return self.made.with_suffix(".sum")

    def made_from(self) -> str:
        """A sum of all that it is made from, and of what was made, which `rt lib` writes too."""
        made = hashlib.sha256(self.made.read_bytes()).hexdigest()
        return f"{self.proofs.sum_of(self.crate.name)} {made}\n"

    def stands(self) -> bool:
        """Whether it was made from the sources as they stand."""
        if not (self.made.is_file() and self.stamp.is_file()):
            return False
        return self.stamp.read_text(encoding="ascii") == self.made_from()

    def prove(self, libraries: pathlib.Path, jobs: int) -> subprocess.CompletedProcess[str]:
        """Makes the library of what the gate checked, where that was the same; else proves the crate, going on from
        what was kept of it."""
        with held(self.crate):
            self.made.parent.mkdir(parents=True, exist_ok=True)
            ended = self._built(self._from_checked(libraries)) if self.is_checked else None
            if ended is None or ended.returncode:
                ended = self._built(self._from_nothing(libraries, jobs))
            if ended.returncode == 0:
                self.stamp.unlink(missing_ok=True)
                self._new.replace(self.made)
                self.stamp.write_text(self.made_from(), encoding="ascii")
        return ended

    @property
    def _new(self) -> pathlib.Path:
        """Where it is made, until it is whole."""
        return self.made.with_suffix(".new")

    @property
    def is_checked(self) -> bool:
        """Whether the gate left a verdict on the crate since its sources and those below it changed last. There is none
        for another target or processor than the usual ones."""
        crates = {self.crate.name, *self.proofs.plan.below(self.crate.name)}
        sources = (self.proofs.plan.crates[name].folder / part for name in crates for part in PARTS)
        is_usual = not self.target and not self.cpu
        return is_usual and changed(self.crate.folder / CHECKED) > max(map(changed, sources))

    def _built(self, words: list[str]) -> subprocess.CompletedProcess[str]:
        return subprocess.run(words, cwd=self.crate.folder, capture_output=True, text=True, check=False)

    def _words(self, libraries: pathlib.Path, jobs: int) -> list[str]:
        kit = self.proofs.kit
        words = kit.checked(self.proofs.plan, self.crate, libraries, jobs)
        return [*words, "--crate-type", "staticlib", *kit.compiled(), "-o", str(self._new)]

    def _from_checked(self, libraries: pathlib.Path) -> list[str]:
        """The words that take the verdict as it is, if all that it was on is the same, which the compiler looks at:
        those of no check, so without the logic's place and without jobs."""
        words = self._words(libraries, 1)
        for flag in ("--logic-built", "--jobs"):
            at = words.index(flag)
            del words[at : at + 2]
        return [*words, "--crate-checked", CHECKED]

    def _from_nothing(self, libraries: pathlib.Path, jobs: int) -> list[str]:
        words = [*self._words(libraries, jobs), "--incremental", KEPT]
        words += ["--target", self.target] if self.target else []
        return words + (["--cpu", self.cpu] if self.cpu else [])
