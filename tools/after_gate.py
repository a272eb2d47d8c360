#!/usr/bin/env python3
"""What the gate does after tools/prove.py, on the program that it built: tools/after_gate.py

    tools/after_gate.py [--program crates/signtool/out/signtool] [--list] [STEP..]
    tools/after_gate.py --gate 'N passed, M failed' ..  the counts of what ran before, which are added

A step is a row of STEPS: its name, its command, the seconds after which it is stopped and counted as failed, and what
it needs beside bash, Python and a C compiler. Steps run side by side, one a processor. A step that lacks something is
skipped, and so is what a step says that it skipped, in a line `skipped NAME: why`. Of a step that fails the output is
shown.

The last two lines are `N skipped: names` and `N passed, N failed`; a line `failed: names` stands before them where a
step failed. The exit status is 0 where nothing failed, 9 where what ran before did or there is no program, and else 10
and the place of the first step that failed, from 1 in the order of --list: a log that was cut still tells which.
"""

from __future__ import annotations

import argparse
import os
import signal
import sys

from steps.cost import Cost
from steps.step import COUNTS, TOP, Outcome, Step, totals
from steps.together import adopt_orphans, end_children, ended

STEPS = (
    Step("vectors", "python3 -m trials.check_vectors --program {program}", 720),
    Step("model", "python3 -m trials.compare_model --program {program} --count 300", 720),
    Step("co-process", "python3 -m trials.compare_coprocess --signtool {program} --count 3000", 1200),
    Step("restored states", "python3 -m trials.restored --signtool {program} --count 300", 1200),
    Step("causes", "python3 -m trials.compare_causes --program {program} --count 1000", 720),
    Step("hostile datagrams", "python3 -m trials.hostile --program {program} --count 5000", 720),
    Step("faults of the program", "trials/program_faults.sh {program}", 600),
    Step("small stack", "python3 -m trials.small_stack --program {program}", 1200),
    Step("depths of calls", "tools/call_depths.py --program {program}", 720),
    Step("README's commands", "tools/readme_commands.py --program {program}", 720),
    Step("README's Rattle", "tools/readme_commands.py --rattle", 2400, "rt"),
    Step("pictures", "python3 -m trials.picture --read --program {program}", 600),
    Step("refused memory", "trials/refuse_memory.sh --built --short signtool", 1200),
    Step("refused memory in tests", "trials/refuse_memory.sh --built tests", 1200),
    Step("no memory", "trials/no_memory.sh --built --count 1000", 3600),
    Step("lasting", "python3 -m trials.lasting --short {program}", 1200),
    Step("conformance", "env -C python python3 -m tests.tester.short", 3000),
    Step("library for C", "python3 -m trials.c_library --short --program {program}", 3600),
    Step("helps", "tools/helps.sh", 1200),
    Step("control room", "env -C python python3 -m tests.room.short --signtool {program}", 3600),
    Step("tests of tools, types", "tools/python_tests.py", 3600),
    Step("house", "tools/house.py --check", 600),
    Step("table of objects", "tools/objects.py --check", 600),
    Step("table of definitions", "tools/definitions.py --check", 600),
    Step("worked rows", "tools/worked_rows.py --check", 600),
    Step("vectors as made", "tools/make_vectors.py --check", 600),
)
_BEFORE, _FIRST = 9, 11  # the exit status where what ran before failed, or the first step


def _outcomes(steps: list[Step], program: str) -> dict[str, Outcome]:
    """Runs the steps, those that may take longest first, and says of each how it went once it has ended."""
    found = {}
    for step, outcome in ended(steps, program, len(os.sched_getaffinity(0))):
        found[step.name] = outcome
        print(outcome.said, flush=True)
    return found


def _told(before: list[Outcome], found: dict[str, Outcome]) -> int:
    """Says which steps failed, and the counts of all; the exit status."""
    names = [step.name for step in STEPS]
    failed = [name for name in names if name in found and found[name].failed]
    if failed:
        print(f"failed: {', '.join(failed)}")
    if not totals([*before, *found.values()]):
        return 0
    return _FIRST + names.index(failed[0]) if failed else _BEFORE


def main() -> int:
    parser = argparse.ArgumentParser(description=__doc__, formatter_class=argparse.RawDescriptionHelpFormatter)
    parser.add_argument(
        "--program",
        default=str(TOP / "crates/signtool/out/signtool"),
        help="the program signtool, as tools/build.py makes it",
    )
    parser.add_argument(
        "--gate", action="append", default=[], help="the last line of tools/prove.py, of the wrong bodies"
    )
    parser.add_argument("--list", action="store_true", help="the steps and their limits, and nothing is run")
    parser.add_argument("steps", nargs="*", metavar="STEP", help="the steps of these names alone")
    asked = parser.parse_args()
    steps = [step for step in STEPS if not asked.steps or step.name in asked.steps]
    if asked.list:
        for step in steps:
            needs = f", needs {step.needs}" if step.needs else ""
            print(f"{step.name}: {step.command} (at most {step.limit} s{needs})")
        return 0
    if len(steps) < len(set(asked.steps)):
        parser.error("there is no such step: --list names all")
    signal.signal(signal.SIGTERM, lambda *_: sys.exit(143))  # which stops the steps: each has a session of its own
    adopt_orphans()
    cost = Cost()
    lines = [COUNTS.search(line) for line in asked.gate]
    # what printed no counts did not come to its end
    before = [Outcome(int(counts[1]), int(counts[2])) if counts else Outcome(failed=1) for counts in lines]
    if not os.access(asked.program, os.X_OK):
        steps = []
        before.append(Outcome(failed=1))
        print(f"there is no program at {asked.program}: tools/prove.py leaves it there, and so does tools/build.py")
    try:
        found = _outcomes(steps, os.path.abspath(asked.program))
    finally:
        end_children()
    print(f"steps: {cost}", file=sys.stderr)
    return _told(before, found)


if __name__ == "__main__":
    sys.exit(main())
