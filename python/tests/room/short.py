"""The tests of the control room that fit into the gate, and two short chaos, from python/:

    python3 -m tests.room.short [--signtool PATH]

All run side by side with a python3 that sees Debian's packages: each lane takes the next test, and they share one
server of PostgreSQL. What is skipped is said in lines `skipped NAME: why`; the last line counts, `N passed, M failed`.
"""

import argparse
import contextlib
import os
import re
import subprocess
import sys
import tempfile
from dataclasses import dataclass, field
from typing import Iterator

from trials.room.cluster import PORT, cluster
from wisangub.process.places import SIGNTOOL, TOP
from wisangub.refusal import Refusal, status_of
from wisangub.room import start

from .lanes import FOLDER

MODULES = ("pytest", "aiohttp", "jinja2", "psycopg")
CHAOS = (
    "--signs",
    "6",
    "--commands",
    "16",
    "--workers",
    "2",
    "--troubles",
    "6",
    "--tick",
    "0.5",
    "--lease",
    "5",
    "--seconds",
    "400",
)
ALONE = (
    "--signs",
    "3",
    "--commands",
    "6",
    "--workers",
    "0",
    "--tick",
    "0.5",
    "--lease",
    "5",
    "--seconds",
    "200",
    "--database",
    "sqlite",
)  # a service over SQLite whose connections alone keep the log from who ends beside it
BROWSER = "python/tests/room/test_browser*.py"  # some minutes by themselves: run by hand
PYTEST = ("-q", "-rs", "-p", "no:cacheprovider", "-p", "tests.room.lanes")
LANES = len(os.sched_getaffinity(0)) + 2  # since tests wait now and then
# of the server that the lanes share: nobody tidies up hundreds of small databases
SETTINGS = {"max_connections": "400", "autovacuum_naptime": "1h"}
WORDS = re.compile(r"(\d+) (passed|failed|error|errors)\b")
SKIPPED = re.compile(r"^SKIPPED \[\d+\] (\S+?)(?::\d+)?: (.*)$", re.MULTILINE)
LIMIT = 900  # seconds, on a machine that is busy
MOST_SHOWN = 6000


@dataclass
class Outcome:
    """What a program printed, as counts and as what it skipped."""

    passed: int = 0
    failed: int = 0
    skipped: list[str] = field(default_factory=list)


class Program:
    """A module of Python that runs to its end, its output in a file."""

    def __init__(self, python: str, environment: dict[str, str], module: str, *words: str) -> None:
        self.module = module
        self.output = tempfile.TemporaryFile()
        self.process = subprocess.Popen(
            [python, "-m", module, *words],
            cwd=TOP,
            env=environment,
            stdin=subprocess.DEVNULL,
            stdout=self.output,
            stderr=self.output,
        )

    def ended(self) -> tuple[int | None, str]:
        """Its exit status, none where it took too long, and what it printed."""
        try:
            status: int | None = self.process.wait(LIMIT)
        except subprocess.TimeoutExpired:
            self.process.terminate()
            self.process.wait()
            status = None
        self.output.seek(0)
        return status, self.output.read().decode(errors="replace")


def judged(program: Program) -> Outcome:
    """What came of it; of one that failed the output is shown."""
    status, said = program.ended()
    counts = {word.rstrip("s"): int(count) for count, word in WORDS.findall("\n".join(said.splitlines()[-2:]))}
    found = Outcome(counts.get("passed", 0), counts.get("failed", 0) + counts.get("error", 0))
    found.skipped = list(dict.fromkeys(f"{name}: {why}" for name, why in SKIPPED.findall(said)))
    if status:
        found.failed = max(found.failed, 1)
    if status is None or found.failed:
        found.failed = max(found.failed, 1)
        print(f"--- {program.module}, exit {status}\n{said[-MOST_SHOWN:].rstrip()}")
    print(f"{program.module}: {found.passed} passed, {found.failed} failed")
    return found


@contextlib.contextmanager
def server() -> Iterator[tuple[str, dict[str, str], list[str]]]:
    """A server of PostgreSQL that the lanes share: the kind of database that chaos has, what the lanes find in the
    environment, and what is skipped and why. Where there can be none it is SQLite's."""
    with contextlib.ExitStack() as stack:
        try:
            made = stack.enter_context(cluster(**SETTINGS))
        except Refusal as refused:
            yield "sqlite", {}, [f"chaos over PostgreSQL: {str(refused).splitlines()[-1]}"]
            return
        yield "postgresql", {PORT: str(made.port)}, []


def files() -> list[str]:
    """The files of tests but the browser's."""
    found = set(TOP.glob("python/tests/room/test_*.py")) - set(TOP.glob(BROWSER))
    return sorted(str(path.relative_to(TOP)) for path in found)


def short(python: str, program: str) -> int:
    """Tests and chaos, side by side."""
    environment = {**os.environ, "SIGNTOOL": program}
    alone = Program(python, environment, "trials.room.chaos", *ALONE, "--signtool", program)
    with server() as (kind, at, skipped), tempfile.TemporaryDirectory(prefix="lanes-") as folder:
        chaos = Program(python, environment, "trials.room.chaos", *CHAOS, "--database", kind, "--signtool", program)
        of_lanes = {**environment, **at, FOLDER: folder}
        lanes = [Program(python, of_lanes, "pytest", *PYTEST, *files()) for _ in range(LANES)]
        found = [judged(one) for one in (alone, chaos, *lanes)]
    for words in dict.fromkeys([*skipped, *(words for outcome in found for words in outcome.skipped)]):
        print(f"skipped {words}")
    failed = sum(outcome.failed for outcome in found)
    print(f"{sum(outcome.passed for outcome in found)} passed, {failed} failed")
    return 1 if failed else 0


def main() -> int:
    parser = argparse.ArgumentParser(
        prog="env -C python python3 -m tests.room.short",
        description=__doc__,
        formatter_class=argparse.RawDescriptionHelpFormatter,
    )
    parser.add_argument("--signtool", default=str(SIGNTOOL), metavar="PATH", help="the program")
    program = os.path.abspath(parser.parse_args().signtool)
    python = start.seeing(MODULES)
    if python is None or not os.access(program, os.X_OK):
        why = f"there is no program at {program}" if python else f"no python3 sees {', '.join(MODULES)}"
        print(f"skipped control room: {why}\n0 passed, 0 failed")
        return 0
    return short(python, program)


if __name__ == "__main__":
    sys.exit(status_of(main))
