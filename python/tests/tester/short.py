"""The short form of the tests, for the gate: env -C python python3 -m tests.tester.short [--jobs 4]

It needs no pytest and no network but loopback, and leaves no process. The tests of python/tests/tester and every wrong
sign, each beginning with the chapter of its rule, in so many processes at a time. A line for each that fails or is
skipped; last `N passed, N failed`, and `, N skipped` where there are any.
"""

import argparse
import concurrent.futures
import importlib
import sys
import time
import traceback

from trials.wrong_signs.__main__ import BENCH, tried
from trials.wrong_signs.table import MUTANTS

MODULES = tuple(
    f"tests.tester.test_{part}"
    for part in (
        "signs",
        "nearly_right",
        "on_the_way",
        "judge",
        "udp",
        "held",
        "parts",
        "reports",
        "resume",
        "person",
        "several",
        "texts",
        "load",
        "files",
        "claims",
        "device_claims",
        "besides",
        "ways",
        "seconds",
        "verdicts",
        "watch",
        "ask_vectors",
        "describe",
    )
)


def names() -> list[tuple[str, str]]:
    """Module and name of each test."""
    return [
        (module, name)
        for module in MODULES
        for name in vars(importlib.import_module(module))
        if name.startswith("test_")
    ]


def run(module: str, name: str) -> tuple[str, str, str]:
    """A test: its name, how it ended, and why."""
    try:
        getattr(importlib.import_module(module), name)()
    except BaseException as fault:  # a skip of pytest is no Exception
        if type(fault).__name__ == "Skipped":
            return name, "skipped", str(fault)
        return name, "failed", traceback.format_exc()
    return name, "passed", ""


def mutant(at: int, until: float) -> tuple[str, str, str]:
    """A wrong sign; on a machine that is too busy the last ones are left out."""
    if time.monotonic() > until:
        return f"the wrong sign {MUTANTS[at].name}", "skipped", "the time was over"
    outcome = tried(MUTANTS[at], BENCH, "model", is_short=True)
    return f"the wrong sign {outcome.name}", "passed" if outcome.is_found else "failed", outcome.words


def main() -> int:
    parser = argparse.ArgumentParser(
        prog="env -C python python3 -m tests.tester.short", description="the short form of the tester's tests"
    )
    parser.add_argument("--jobs", type=int, default=4, help="so many at a time")
    parser.add_argument("--seconds", type=float, default=150, help="after so many no wrong sign is begun")
    asked = parser.parse_args()
    until = time.monotonic() + asked.seconds
    counts = {"passed": 0, "failed": 0, "skipped": 0}
    with concurrent.futures.ProcessPoolExecutor(asked.jobs) as pool:
        waiting = [pool.submit(run, *test) for test in names()] + [
            pool.submit(mutant, at, until) for at in range(len(MUTANTS))
        ]
        for done in concurrent.futures.as_completed(waiting):
            name, ending, why = done.result()
            counts[ending] += 1
            if ending != "passed":
                print(f"{ending} {name}: {why}", flush=True)
    skipped = f", {counts['skipped']} skipped" if counts["skipped"] else ""
    print(f"{counts['passed']} passed, {counts['failed']} failed{skipped}")
    return 1 if counts["failed"] else 0


if __name__ == "__main__":
    sys.exit(main())
