#!/usr/bin/env python3
"""Proves a crate and builds its static library: `tools/static_library.py CRATE` prints where it is.

    tools/static_library.py [--target aarch64-unknown-linux-gnu] [--cpu x86-64] [--standing] [--processors N] CRATE

The code is for processors of the level x86-64-v2, and for any with --cpu x86-64; for ARM64 it is for any.
The crates below are taken as tools/build.py or `rt ci` proved them, from the sources that stand here, so the crate
alone is proved, in some minutes; where tools/prove.py left its verdict on it, it is compiled alone. Those of which no
proof stands are proved first, as tools/build.py does it and where it finds them again. A library that was made from the
same is taken as it is, in a second.

With --standing no other crate is proved: where one lacks, nothing is built, a line `skipped libCRATE.a: why` says
which, and the exit status is 3. So it is where there is no kit; but a library that is there is then taken unseen.
"""

from __future__ import annotations

import argparse
import contextlib
import os
import pathlib
import shutil
import sys
import tempfile
from collections.abc import Iterator

from building.ending import end_at_sigterm
from building.kit import Kit
from building.plan import Plan
from building.proofs import Proofs, proofs
from building.schedule import MOST_JOBS, SECONDS_A_LINE, Schedule
from building.static import Static
from tries.libraries import gathered, whole_plan

LACKS = 3
_MOST_SHOWN = 3000


@contextlib.contextmanager
def libraries(mine: Proofs, wanted: set[str]) -> Iterator[Proofs]:
    """The statements of the crates below as tools/build.py left them, or else as the gate did; or some of them."""
    if wanted <= mine.proved():
        yield mine
        return
    with tempfile.TemporaryDirectory(prefix="static-library-") as folder:
        found = Proofs(mine.plan, mine.kit, pathlib.Path(folder) / "libraries")
        gathered(mine.plan, found, mine.room, wanted)
        yield found if wanted <= found.proved() else mine


def _built(library: Static, over: Proofs, processors: int) -> int:
    """Builds it over the crates below, and returns the status."""
    name, minutes = library.crate.name, library.crate.work * SECONDS_A_LINE / 60
    how = "making it of the gate's verdict" if library.is_checked else f"proving it, in some {minutes:.0f} minutes"
    print(f"{name}: {how}", file=sys.stderr, flush=True)
    ended = library.prove(over.room, max(1, min(MOST_JOBS, processors)))
    if ended.returncode:
        print(f"{ended.stdout[-_MOST_SHOWN:]}{ended.stderr[-_MOST_SHOWN:]}{name} is not built")
        return 1
    print(library.made)
    return 0


def over_what_stands(plan: Plan, asked: argparse.Namespace) -> int:
    """Builds it where it does not stand, with what lacks below it if that may be proved, and returns the status."""
    wanted = {*plan.below(asked.crate)}
    with proofs(plan) as mine:
        library = Static(mine, plan.crates[asked.crate], asked.target, asked.cpu)
        if library.stands():
            print(library.made)
            return 0
        with libraries(mine, wanted) as over:
            lacks = wanted - over.proved()
            if lacks and asked.standing:
                print(f"skipped lib{asked.crate}.a: no proof stands here of {' '.join(sorted(lacks))}")
                return LACKS
            failed = Schedule(plan, wanted, over.proved(), asked.processors).run(over) if lacks else None
            if failed:
                print(f"{failed.crate.name} is not proved: {failed.log}")
                return 1
            return _built(library, over, asked.processors)


def without_kit(plan: Plan, asked: argparse.Namespace) -> int:
    """Takes the library that is there."""
    nothing = Proofs(plan, Kit(pathlib.Path()), pathlib.Path())
    made = Static(nothing, plan.crates[asked.crate], asked.target, asked.cpu).made
    print(made if made.is_file() else f"skipped lib{asked.crate}.a: here is no rt")
    return 0 if made.is_file() else LACKS


def main() -> int:
    parser = argparse.ArgumentParser(description=__doc__, formatter_class=argparse.RawDescriptionHelpFormatter)
    parser.add_argument("--target", help="another than this machine")
    parser.add_argument("--cpu", help="another processor than the kit's usual one of the target")
    parser.add_argument("--standing", action="store_true", help="no other crate is proved")
    parser.add_argument(
        "--processors", type=int, default=len(os.sched_getaffinity(0)), help="how many are taken; else all"
    )
    parser.add_argument("crate", metavar="CRATE", help="the crate that the library is made of")
    asked, plan = parser.parse_args(), whole_plan()
    if asked.crate not in plan.crates:
        parser.error(f"crates.txt has no {asked.crate}")
    end_at_sigterm()
    return over_what_stands(plan, asked) if shutil.which("rt") else without_kit(plan, asked)


if __name__ == "__main__":
    try:
        sys.exit(main())
    except KeyboardInterrupt:
        sys.exit(130)
