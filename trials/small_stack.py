"""Runs each call of the program over its largest inputs with a small stack: `python3 -m trials.small_stack` prints `N
passed, N failed`.

    python3 -m trials.small_stack [--program crates/signtool/out/signtool] [--stack 256] [--only WORD] [--list]

The stack has 256 KB (`ulimit -s 256`), a thirty-second of what a process has else. The inputs are those of
trials/largest_inputs.py: descriptions and scripts of 1,048,576 octets, of many lines and of long ones, with their fault
on the first line and on the last; texts of 512 octets and more; datagrams of most bindings; co-processes with 10,000
lines. A call has to end in a minute with its status and its first words, and not by a signal; where no status is said
beforehand it is 0 or 1. With --only the calls whose name has that word; --list says their names alone.
"""

from __future__ import annotations

import argparse
import os
import pathlib
import subprocess
import sys
import tempfile
import time

from .largest_inputs import Case, cases

TOP = pathlib.Path(__file__).resolve().parent.parent
SECONDS = 60.0
_MOST_SAID = 200


def _ran(case: Case, program: str, stack: int, room: pathlib.Path) -> str:
    """What is wrong with how a call ended; empty where nothing is."""
    given, out, err = room / "in", room / "out", room / "err"
    given.write_bytes(case.stdin)
    words = ["sh", "-c", 'ulimit -c 0; ulimit -s "$0"; exec "$@"', str(stack), program, *case.words]
    with given.open("rb") as stdin, out.open("wb") as stdout, err.open("wb") as stderr:
        try:
            # nothing else in the environment: it takes its room of the stack
            status = subprocess.run(
                words, stdin=stdin, stdout=stdout, stderr=stderr, timeout=SECONDS, check=False, env={"PATH": os.defpath}
            ).returncode
        except subprocess.TimeoutExpired:
            return f"it did not end in {SECONDS:.0f} seconds"
    with out.open("rb") as printed:
        begin = printed.read(4096).decode(errors="replace")
    said = err.read_text(encoding="utf-8", errors="replace")
    what = f"it printed '{begin[:_MOST_SAID]}' and said '{said[:_MOST_SAID]}'"
    if status < 0 or status > 2:
        return f"it ended by signal {-status if status < 0 else status - 128}; {what}"
    if status != case.status and not (case.status < 0 and status < 2):
        return f"its status is {status}, and {case.status} is wanted; {what}"
    if not begin.startswith(case.first) or (status == 1 and not begin):
        return f"it is to print '{case.first}'; {what}"
    if not any(line.startswith(case.said) for line in said.splitlines() or [""]):
        return f"it is to say '{case.said}'; {what}"
    return ""


def main() -> int:
    parser = argparse.ArgumentParser(description=__doc__, formatter_class=argparse.RawDescriptionHelpFormatter)
    parser.add_argument(
        "--program",
        default=str(TOP / "crates/signtool/out/signtool"),
        help="the program signtool, as tools/build.py makes it",
    )
    parser.add_argument("--stack", type=int, default=256, metavar="KB", help="KiB of stack that a call has")
    parser.add_argument("--only", default="", metavar="WORD", help="the calls whose name has this word alone")
    parser.add_argument("--list", action="store_true", help="the names of the calls, and nothing is run")
    asked = parser.parse_args()
    program = os.path.abspath(asked.program)
    if not asked.list and not os.access(program, os.X_OK):
        print(f"there is no program at {program}: tools/build.py builds it", file=sys.stderr)
        return 2
    passed = failed = 0
    begun = time.monotonic()
    with tempfile.TemporaryDirectory() as room:
        for case in cases():
            if asked.only not in case.name:
                continue
            if asked.list:
                print(case.name)
                continue
            fault = _ran(case, program, asked.stack, pathlib.Path(room))
            passed, failed = passed + (not fault), failed + bool(fault)
            if fault:
                print(f"{case.name}: {fault}", flush=True)
    if not asked.list:
        print(f"{asked.stack} KB of stack, {time.monotonic() - begun:.0f} s")
        print(f"{passed} passed, {failed} failed")
    return 1 if failed else 0


if __name__ == "__main__":
    sys.exit(main())
