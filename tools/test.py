#!/usr/bin/env python3
"""The test of a minute, for who changed a line: tools/test.py

    tools/test.py [--program crates/signtool/out/signtool] [--list] [--without-crates] [STEP..]

It runs those steps of tools/after_gate.py that take seconds, side by side, the program beside the model for 40 seconds,
and the tests of Python but those that take a minute by themselves or have a server. Without a built program the
front ends run with the model, and what compares the program is skipped. What lacks pytest, mypy, the SNMP tools or
the kit is skipped by name.

Last, one at a time, tools/check.py proves each crate that changed: one of which a file of src/, specs/ or proofs/ is
not as in the last commit that main has too (of origin/main where there is one; on main without a remote, the last
commit), whether that is committed or not, or tracked by git or not. Crates above it are left to the gate. A check takes
20 seconds to 3 minutes where the crates below are proved (tools/build.py), and else proves them first.

How far it is and how long the rest takes is said on standard error. Of a step that fails the output is shown. The last
two lines are `N skipped: names` and `N passed, N failed`; the exit status is 0 where nothing failed. It is not the
gate.
"""

from __future__ import annotations

import argparse
import os
import signal
import sys
import time
from dataclasses import replace

import after_gate
from building.plan import Plan
from building.schedule import SECONDS_A_LINE
from steps.changed import changed
from steps.left import Left, in_words
from steps.step import TOP, Outcome, Step, totals
from steps.together import adopt_orphans, end_children, ended

MODEL = "model/signtool"
_OF_GATE = {  # what each takes, in seconds, alone
    "vectors": 5,
    "co-process": 2,
    "causes": 8,
    "faults of the program": 3,
    "README's commands": 3,
    "house": 3,
    "table of objects": 1,
    "table of definitions": 1,
    "worked rows": 1,
    "vectors as made": 7,
}
# what needs no server, no packages and no program
_OF_CONTROL = [f"python/tests/room/test_{part}.py" for part in ("fleet", "readings", "style")]
_OWN = (
    Step("model", "python3 -m trials.compare_model --program {program} --seconds 40", 900, "", 41),
    Step("tests of the tester", "tools/python_tests.py --quick python/tests/tester", 899, "", 25),
    Step("types", "tools/python_tests.py --types", 1198, "", 26),
    Step("layout of Python", "tools/python_tests.py --layout --changed", 600, "", 10),
    Step("tests of tools", "tools/python_tests.py --quick", 897, "", 20),
    Step("parts of the control room", f"tools/python_tests.py --quick {' '.join(_OF_CONTROL)}", 600, "", 4),
)
_OVER_MODEL = {"README's commands": f"tools/readme_commands.py --signtool {MODEL}"}
_LONGEST_CHECK = 3600


def _all_steps(is_built: bool) -> list[Step]:
    """The steps but those of crates; without a program those that can run over the model do."""
    of_gate = [replace(step, seconds=_OF_GATE[step.name]) for step in after_gate.STEPS if step.name in _OF_GATE]
    steps = [*_OWN, *of_gate]
    return steps if is_built else [replace(step, command=_OVER_MODEL.get(step.name, step.command)) for step in steps]


def _checks() -> tuple[list[Step], str]:
    """A check of each crate that changed, lowest first, and a word where there is none."""
    names, plan = changed(TOP), Plan()
    if names is None:
        return [], "skipped crates that changed: git does not tell which did"
    if not names:
        return [], "no crate changed since main"
    known = sorted((name for name in names if name in plan.uses), key=lambda name: (len(plan.below(name)), name))
    return [
        Step(
            f"check of {name}",
            f"tools/check.py {name}",
            _LONGEST_CHECK,
            "rt",
            plan.measured(name).work * SECONDS_A_LINE,
        )
        for name in known
    ], ""


def _is_older(program: str, checks: list[Step]) -> bool:
    """Whether a crate's code changed after the program was built."""
    built = os.path.getmtime(program)
    folders = (TOP / "crates" / step.name.removeprefix("check of ") / "src" for step in checks)
    return any(path.stat().st_mtime > built for folder in folders for path in folder.rglob("*.rt"))


class _Run:
    """Steps that run, with a word on how far they are."""

    def __init__(self, together: list[Step], alone: list[Step], program: str, processors: int) -> None:
        self.together, self.alone, self.program, self.processors = together, alone, program, processors
        self.left, self.begun = Left(together, alone, processors), time.monotonic()
        self.found: list[Outcome] = []

    def _print_progress(self) -> None:
        """How many steps are over, since when it runs, and how long the rest takes."""
        seconds, steps = time.monotonic() - self.begun, len(self.left.ends)
        words = f"{len(self.found)} of {steps} steps in {seconds:.0f} s"
        rest = f"; {in_words(self.left.after(seconds))} left" if len(self.found) < steps else ""
        print(words + rest, file=sys.stderr, flush=True)

    def outcomes(self) -> list[Outcome]:
        """What came of each step."""
        for steps, processors in ((self.together, self.processors), *(([step], 1) for step in self.alone)):
            for step, outcome in ended(steps, self.program, processors, self._print_progress):
                self.found.append(outcome)
                self.left.end(step.name, time.monotonic() - self.begun)
                print(outcome.said, flush=True)
                self._print_progress()
        return self.found


def _asked_for() -> argparse.Namespace:
    parser = argparse.ArgumentParser(description=__doc__, formatter_class=argparse.RawDescriptionHelpFormatter)
    parser.add_argument(
        "--program",
        default=str(TOP / "crates/signtool/out/signtool"),
        help="the program signtool, as tools/build.py makes it",
    )
    parser.add_argument("--list", action="store_true", help="the steps and what each takes alone, and nothing is run")
    parser.add_argument("--without-crates", action="store_true", help="what changed in crates is left to the gate")
    parser.add_argument("steps", nargs="*", metavar="STEP", help="the steps of these names alone")
    return parser.parse_args()


def main() -> int:
    asked = _asked_for()
    is_built = os.access(asked.program, os.X_OK)
    steps, (alone, why) = _all_steps(is_built), ([], "") if asked.without_crates else _checks()
    if unknown := set(asked.steps) - {step.name for step in [*steps, *alone]}:
        print(f"no step {', '.join(sorted(unknown))}: --list names all", file=sys.stderr)
        return 2
    steps, alone = ([step for step in of if not asked.steps or step.name in asked.steps] for of in (steps, alone))
    if asked.list:
        print(*(f"{step.name}: {step.command} ({in_words(step.seconds)})" for step in [*steps, *alone]), sep="\n")
        return 0
    signal.signal(signal.SIGTERM, lambda *_: sys.exit(143))
    adopt_orphans()
    found, lost = [], [step for step in steps if "{program}" in step.command and not is_built]
    for step in lost:
        found.append(Outcome(skipped=[step.name]))
        print(f"skipped {step.name}: there is no program at {asked.program}, which tools/build.py builds")
    if is_built and _is_older(asked.program, alone):
        print("the program is older than the crates that changed: tools/build.py builds it again")
    run = _Run(
        [step for step in steps if step not in lost],
        alone,
        os.path.abspath(asked.program),
        len(os.sched_getaffinity(0)),
    )
    try:
        found += run.outcomes()
    finally:
        end_children()
    if why and not asked.steps:
        found.append(Outcome(skipped=["crates that changed"] if why.startswith("skipped") else []))
        print(why)
    return totals(found)


if __name__ == "__main__":
    try:
        sys.exit(main())
    except KeyboardInterrupt:
        sys.exit(130)
