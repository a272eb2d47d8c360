#!/usr/bin/env python3
"""Proves and builds the program, crates side by side, and runs it: tools/build.py [-- WORDS OF THE PROGRAM]

    tools/build.py -- code 3 1 A --address 192.0.2.1

Crates that do not stand on one another are proved at once, as many as there are processors and free memory. The one
that the longest chain of others waits for starts first, and on each processor. Of each that is done it says the time
that it took, and about how long the rest takes. With words it then runs the program on them, with its input, its
outputs and its exit status.

Each crate is proved from nothing, over the statements of those below it. A run that was stopped goes on where it was.
A crate that fails ends the run: the end of its log is shown, and the whole stands in its out/build.log.

What it proved is all that is built on: `make -C examples` and measures/run.sh prove their own crate over it, and
tools/check.py the crate that it is asked for. Where `rt` built a crate below since then, it may refuse one above, as
`proved over another build`: tools/build.py, called again, gives it what is proved of the sources as they stand.
"""

from __future__ import annotations

import argparse
import os
import sys

from building.ending import end_at_sigterm, raise_where_ended
from building.libraries import give_all
from building.plan import Plan
from building.proofs import Proofs, proofs
from building.running import Running
from building.schedule import Schedule
from tries.libraries import kit_program

_LINES_SHOWN = 40


def fault(failed: Running) -> int:
    print(*failed.log.read_text(errors="replace").splitlines()[-_LINES_SHOWN:], sep="\n", file=sys.stderr)
    print(f"{failed.crate.name} failed: {failed.log}", file=sys.stderr)
    return 1


def _built(plan: Plan, processors: int) -> int:
    """Proves the program and what is below it, builds it, and returns the status."""
    with proofs(plan) as way:
        failed = Schedule(plan, {*plan.crates}, way.proved(), processors).run(way)
        if failed:
            return fault(failed)
        status = way.link(plan.built)
        _give_rt(Proofs(plan, way.kit, way.room))
        return status


def _give_rt(proofs: Proofs) -> None:
    """Has `rt check` in a crate begin over what is proved; a run without that has built the program all the same."""
    try:
        busy = give_all(kit_program(proofs.kit), proofs)
        why = f"another one works in {busy}" if busy else ""
    except (Exception, SystemExit) as fault:  # another kit may have other names for all of this
        raise_where_ended(fault)
        why = str(fault)
    if why:
        print(f"rt check does not begin over this: {why}", file=sys.stderr, flush=True)


def main() -> int:
    parser = argparse.ArgumentParser(description=__doc__, formatter_class=argparse.RawDescriptionHelpFormatter)
    processors = len(os.sched_getaffinity(0))
    parser.add_argument("--processors", type=int, default=processors, help="how many are taken; else all")
    parser.add_argument("words", nargs="*", metavar="WORD", help="after --: what the program is run with")
    asked = parser.parse_args()
    end_at_sigterm()
    plan = Plan()
    status = _built(plan, max(1, asked.processors))
    if status == 0:
        print(f"the program is {plan.built}", file=sys.stderr, flush=True)
        if asked.words:
            os.execv(plan.built, [str(plan.built), *asked.words])
    return status


if __name__ == "__main__":
    try:
        sys.exit(main())
    except KeyboardInterrupt:
        sys.exit(130)
