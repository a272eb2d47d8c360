#!/usr/bin/env python3
"""Proves crates over what is proved of those below them: tools/check.py [--tests] CRATE .. [-- WORDS OF THE CHECK]

    tools/check.py dms_face
    tools/check.py --tests dms_face_tests
    tools/check.py dms_face -- --only checking::check --allow-holes

The crates below are taken as tools/build.py proved them, and those that changed since then are proved first, as it does
it and where it finds them again. Of a crate itself what an earlier check proved is kept: a check takes from 20 seconds
to some minutes. With --tests its tests are proved, built and run. Words behind `--` go to the kit's `rattle check`.

The output is the checker's. The exit status is that of the first crate that fails, and no crate after it is looked at.
"""

from __future__ import annotations

import argparse
import os
import subprocess
import sys

from build import fault

from building.ending import end_at_sigterm
from building.plan import Crate
from building.proofs import Proofs, proofs
from building.schedule import MOST_JOBS, Schedule
from building.static import KEPT, held
from tries.libraries import below, whole_plan

_SECONDS = 60  # of one test


class Checks:
    """Checks of crates over what stands proved below them."""

    def __init__(self, over: Proofs, processors: int) -> None:
        self.over, self.jobs = over, max(1, min(MOST_JOBS, processors))

    def words(self, crate: Crate) -> list[str]:
        """The words of a check of a crate, without the program's own."""
        heads = [line.partition(":")[0].split() for line in self.over.plan.lines]
        is_static = any(kind == ["staticlib"] for name, *kind in heads if name == crate.name)
        words = self.over.kit.checked(self.over.plan, crate, self.over.room, self.jobs)[2:]
        return [*words, *(["--crate-type", "staticlib"] if is_static else [])]

    def check(self, crate: Crate, more: list[str]) -> int:
        """Proves a crate, and returns the status."""
        kept = crate.folder / KEPT
        kept.mkdir(parents=True, exist_ok=True)
        rattle = f"{self.over.kit.folder}/bin/rattle"
        with held(crate):
            words = [rattle, "check", *self.words(crate), "--incremental", str(kept), *more]
            return subprocess.run(words, cwd=crate.folder, check=False).returncode

    def test(self, crate: Crate, more: list[str]) -> int:
        """Proves, builds and runs the tests of a crate, and returns the status."""
        kit, program = self.over.kit, crate.folder / f"out/{crate.name}_tests"
        made = program.with_suffix(".o")
        program.parent.mkdir(exist_ok=True)
        built = [f"{kit.folder}/bin/rattle", "build", *self.words(crate), "--test", *more]
        for words in (
            [*built, *kit.compiled(), "-o", str(made)],
            kit.linked(program, made),
            [f"{kit.folder}/bin/rattle-test", "--seconds", str(_SECONDS), str(program)],
        ):
            if status := subprocess.run(words, cwd=crate.folder, check=False).returncode:
                return status
        return 0


def _asked_for(words: list[str]) -> tuple[argparse.Namespace, list[str]]:
    """What is asked for, and the words of the check."""
    at = words.index("--") if "--" in words else len(words)
    parser = argparse.ArgumentParser(description=__doc__, formatter_class=argparse.RawDescriptionHelpFormatter)
    parser.add_argument("--tests", action="store_true", help="the tests of the crate, which are run too")
    processors = len(os.sched_getaffinity(0))
    parser.add_argument("--processors", type=int, default=processors, help="how many are taken; else all")
    parser.add_argument("crates", nargs="+", metavar="CRATE", help="a crate of crates.txt")
    asked = parser.parse_args(words[:at])
    known = whole_plan().crates
    if unknown := [name for name in asked.crates if name not in known]:
        parser.error(f"crates.txt has no {', '.join(unknown)}")
    return asked, words[at + 1 :]


def main() -> int:
    asked, more = _asked_for(sys.argv[1:])
    end_at_sigterm()
    plan = whole_plan()
    with proofs(plan) as over:
        wanted = below(plan, asked.crates)
        if lacking := wanted - over.proved():
            print(f"proved first: {', '.join(sorted(lacking))}", file=sys.stderr, flush=True)
            failed = Schedule(plan, wanted, over.proved(), asked.processors).run(over)
            if failed:
                return fault(failed)
        checks = Checks(over, asked.processors)
        for crate in map(plan.crates.__getitem__, asked.crates):
            status = (checks.test if asked.tests else checks.check)(crate, more)
            if status:
                return status
    return 0


if __name__ == "__main__":
    try:
        sys.exit(main())
    except KeyboardInterrupt:
        sys.exit(130)
