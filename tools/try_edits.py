#!/usr/bin/env python3
"""Tries the wrong bodies of must-fail/ and wrong-bodies/, many in one check, crates side by side: all, or some.

    tools/try_edits.py [CRATE ..] [--only NAME] [--goals] [--anew] [--jobs N]

A check tries as many edits as change functions of their own, in these functions alone, and an edit is refused where a
goal of the function that it changes stays open; where it changes a constant or a type, one of any function. It is not
refused by a text that does not read, a proof file that names what it took away, a check that was killed or met a limit,
nor by a goal of another function. Where anything of these is met in a check of several, what it was met at is tried by
itself, or each where that is not told. A constant or a type is tried over the functions that name it, and over all
where none of these refuses it.

A crate is checked on a copy, over the statements of those below it: those that `rt ci` or tools/build.py proved of the
same sources, or else they are proved first. What is refused is kept on this machine (in ~/.cache/wisangub) by a sum of
all that the check reads, and a later run takes it; --anew tries all. What was not refused is printed with the reason,
and last `N passed, N failed`.
"""

from __future__ import annotations

import argparse
import concurrent.futures
import os
import pathlib
import sys
import tempfile
import threading
import time
from collections.abc import Iterator
from contextlib import contextmanager
from dataclasses import dataclass, field

from building.ending import end_at_sigterm
from building.kit import Kit
from building.plan import TOP, Crate, Plan
from building.proofs import Proofs
from building.schedule import free_memory
from steps.cost import Cost
from tries.check import Checker
from tries.checks import Checks
from tries.kept import Kept, folder, sum_of
from tries.libraries import libraries, whole_plan
from tries.trial import Outcome, tried
from upkeep.edits import Edit, edits_of, faults

# what an outcome is decided by
_BUILDING = ("building/kit.py", "building/plan.py", "building/proofs.py")
JUDGES = ("try_edits.py", "tries/*.py", "upkeep/edits.py", "upkeep/functions.py", *_BUILDING)


class Memory:
    """Room for checks side by side, in octets."""

    def __init__(self, most: float) -> None:
        self.left, self.most, self.changed = most, most, threading.Condition()

    @contextmanager
    def taken(self, much: float) -> Iterator[None]:
        much = min(much, self.most)
        with self.changed:
            self.changed.wait_for(lambda: self.left >= much)
            self.left -= much
        try:
            yield
        finally:
            with self.changed:
                self.left += much
                self.changed.notify_all()


@dataclass
class Work:
    """The edits of a crate: what is known of some, and those that are to be tried."""

    crate: Crate
    total: str  # a sum of all that its checks read
    known: list[Outcome]
    left: list[Edit]
    checks: int = 0  # that were made


@dataclass
class Run:
    """What all crates of a run have in common."""

    plan: Plan
    kit: Kit
    kept: Kept
    says_goals: bool
    checks: Checks = field(default_factory=Checks)

    def sum_of(self, crate: Crate) -> str:
        """A sum of all that a check of the crate reads, and of what judges it."""
        tools = [path for name in JUDGES for path in sorted((TOP / "tools").glob(name))]
        read = [path.read_bytes() for path in [*tools, self.kit.folder / "KIT-ID", self.kit.folder / "WHAT"]]
        program = (self.kit.folder / "bin/rattle").stat()
        return sum_of(Proofs(self.plan, self.kit, TOP).sum_of(crate.name), read, program.st_size, program.st_mtime_ns)

    def name_of(self, total: str, edit: Edit) -> str:
        """The name under which it is kept what refused an edit."""
        pairs = [(str(pair.file.relative_to(TOP / "crates")), pair.old, pair.new) for pair in edit.pairs]
        return sum_of(total, edit.name, pairs)

    def begin(self, name: str, edits: list[Edit]) -> Work:
        """What is known of these edits before any is tried."""
        crate, wrong = self.plan.crates[name], faults(edits)
        total = self.sum_of(crate)
        known = [Outcome(edit, why=f"cannot be applied: {wrong[edit.name]}") for edit in edits if edit.name in wrong]
        edits = [edit for edit in edits if edit.name not in wrong]
        earlier = {edit.name: self.kept.goals(self.name_of(total, edit)) for edit in edits}
        known += [Outcome(edit, earlier[edit.name], is_kept=True) for edit in edits if earlier[edit.name]]
        return Work(crate, total, known, [edit for edit in edits if not earlier[edit.name]])

    def outcomes(self, work: Work, below: pathlib.Path) -> Iterator[Outcome]:
        """Each of the edits, tried or as it is known."""
        yield from work.known
        if not work.left:
            return
        with tempfile.TemporaryDirectory(prefix="wrong-bodies-") as room:
            checker = Checker(self.plan, self.kit, work.crate, below, pathlib.Path(room), self.checks)
            is_same = True  # whether the files stand as they were when the sum was made, looked at after each check
            for outcome in tried(checker, work.left):
                if checker.checks > work.checks:
                    work.checks, is_same = checker.checks, self.sum_of(work.crate) == work.total
                if outcome.is_refused and is_same:
                    self.kept.keep(self.name_of(work.total, outcome.edit), outcome.goals)
                yield outcome

    def counted(self, work: Work, below: pathlib.Path) -> tuple[int, int, int]:
        """How many edits are refused, how many are not, and how many of the first an earlier run refused."""
        begun, found = time.monotonic(), []
        for outcome in self.outcomes(work, below):
            found.append(outcome)
            if not outcome.is_refused:
                print(f"{work.crate.name}/{outcome.edit.name}: {outcome.why}", flush=True)
            elif self.says_goals:
                print(f"{work.crate.name}/{outcome.edit.name}: {'; '.join(dict.fromkeys(outcome.goals))}", flush=True)
        passed, kept = sum(one.is_refused for one in found), sum(one.is_kept for one in found)
        words = f"{passed} of {len(found)} refused, {kept} of them by an earlier run, {work.checks} checks"
        print(f"{work.crate.name}: {words} ({time.monotonic() - begun:.0f} s)", file=sys.stderr, flush=True)
        return passed, len(found) - passed, kept

    def side_by_side(self, works: list[Work], below: pathlib.Path, jobs: int) -> list[tuple[int, int, int]]:
        """The counts of each crate, those with the most work first, as many at once as memory holds."""
        memory = Memory(free_memory())

        def one(work: Work) -> tuple[int, int, int]:
            with memory.taken(work.crate.memory if work.left else 0):
                if self.checks.have_ended:
                    return 0, len(work.known) + len(work.left), 0
                try:
                    return self.counted(work, below)
                except (OSError, ValueError, LookupError) as fault:  # no room on the disk, say: the others go on
                    print(f"{work.crate.name}: its edits were not tried to the end: {fault!r}", flush=True)
                    return 0, len(work.known) + len(work.left), 0

        with concurrent.futures.ThreadPoolExecutor(jobs) as pool:
            try:
                return list(pool.map(one, sorted(works, key=lambda work: -work.crate.work * len(work.left))))
            except BaseException:
                self.checks.end()  # else the pool waits for each of them
                raise


def applicable(name: str, edits: list[Edit]) -> tuple[int, int, int]:
    """How many edits can be applied, and how many cannot."""
    wrong = faults(edits)
    for edit, why in wrong.items():
        print(f"{name}/{edit}: cannot be applied: {why}")
    return len(edits) - len(wrong), len(wrong), 0


def asked_for() -> argparse.Namespace:
    words = argparse.ArgumentParser(description=__doc__, formatter_class=argparse.RawDescriptionHelpFormatter)
    words.add_argument("crates", nargs="*", metavar="CRATE", help="a crate whose edits are tried")
    words.add_argument("--only", action="append", metavar="NAME", help="of these names alone")
    words.add_argument("--apply", action="store_true", help="only look that each can be applied, in a second")
    words.add_argument("--goals", action="store_true", help="print the goals that each leaves open")
    words.add_argument("--anew", action="store_true", help="take nothing from earlier runs")
    words.add_argument("--jobs", type=int, default=len(os.sched_getaffinity(0)), metavar="N", help="crates at a time")
    words.add_argument("--libraries", type=pathlib.Path, metavar="FOLDER", help="another out/proved of tools/build.py")
    asked = words.parse_args()
    names = sorted(path.name for path in (TOP / "crates").iterdir())
    if unknown := set(asked.crates) - set(names):
        words.error(f"no crate {', '.join(sorted(unknown))}")
    asked.crates = asked.crates or names
    return asked


def main() -> int:
    asked = asked_for()
    end_at_sigterm()
    edits = {name: edits_of(TOP / "crates" / name) for name in asked.crates}
    if asked.only:
        known = {edit.name.partition("/")[2] for of in edits.values() for edit in of}
        if unknown := sorted(set(asked.only) - known):
            sys.exit(f"no edit of these crates is called {', '.join(unknown)}")
        edits = {name: [edit for edit in of if edit.name.partition("/")[2] in asked.only] for name, of in edits.items()}
    edits = {name: of for name, of in edits.items() if of}
    if asked.apply:
        counts = [applicable(name, of) for name, of in edits.items()]
    else:
        cost = Cost()
        run = Run(whole_plan(), Kit.found(), Kept(folder(), asked.anew), asked.goals)
        works = [run.begin(name, of) for name, of in edits.items()]
        names = [work.crate.name for work in works if work.left]
        with libraries(run.plan, names, asked.libraries, asked.jobs) as below:
            counts = run.side_by_side(works, below, asked.jobs)
        run.kept.shrink()
        print(f"wrong bodies: {sum(work.checks for work in works)} checks, {cost}", file=sys.stderr)
    passed, failed, kept = (sum(column) for column in zip(*counts)) if counts else (0, 0, 0)
    if kept:
        print(f"{kept} of them were refused by an earlier run on this machine, over the same files")
    print(f"{passed} passed, {failed} failed")
    return 1 if failed or not counts else 0


if __name__ == "__main__":
    sys.exit(main())
