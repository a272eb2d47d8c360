#!/usr/bin/env python3
"""Counts the loads of a measure that wait for stores: what instructions do not show of its time.

    measures/stalls.py [--often N] [--window N] TOPIC NAME proved|by-hand

A load whose octets are those of several stores just before it waits some 13 cycles until they have reached the cache:
so it is where a value is moved in other pieces than it was written in. Each row is a load and the last store that it
waited for, as places in functions, and how often in a call. It runs the program that measures/run.sh builds under
valgrind's lackey (Debian's package valgrind) and wants a C compiler. The figures are the same whatever else the
machine does; one that is not whole depends on the call.
"""

from __future__ import annotations

import argparse
import bisect
import os
import pathlib
import subprocess
import sys
import tempfile
from collections import Counter
from dataclasses import dataclass

HERE = pathlib.Path(__file__).resolve().parent
MEASURE = HERE.parent / "crates/dms_measures/out/measure"
_BASE = 0x108000  # where valgrind puts a program whose place is free
_LONGEST = 1 << 20  # octets of a function
_OFTEN = 100
_WINDOW = 64  # instructions until a store has reached the cache


@dataclass(frozen=True)
class Traced:
    """What a trace came to: its instructions, and how often a load waited for a store, by both their addresses."""

    instructions: int
    waits: Counter[tuple[int, int]]


def read(text: str) -> Traced:
    """What `stalls` prints."""
    head, *lines = text.splitlines()
    pairs = (line.split() for line in lines)
    waits = {(int(load, 16), int(store, 16)): int(times) for times, load, store in pairs}
    return Traced(int(head.split()[1]), Counter(waits))


class Functions:
    """The functions of a program, by where they begin."""

    def __init__(self, listing: str) -> None:
        """Of what `nm -n` prints."""
        words = [line.split(None, 2) for line in listing.splitlines()]
        self.found = [(int(place, 16), name) for place, kind, name in words if kind in "tTwW"]
        self.begins = [begin for begin, _ in self.found]

    def place(self, address: int) -> str:
        """Where an instruction stands, `name+2f`; an address outside of the program is one of a library's."""
        at = bisect.bisect(self.begins, address - _BASE) - 1
        if at < 0 or address - _BASE - self.begins[at] >= _LONGEST:
            return f"a library's {address:x}"
        begin, name = self.found[at]
        return f"{name}+{address - _BASE - begin:x}"


def traced(stalls: pathlib.Path, window: int, words: list[str]) -> Traced:
    """Follows the trace of a run of the measures."""
    into, out_of = os.pipe()
    lackey = ["valgrind", "--tool=lackey", "--trace-mem=yes", f"--log-fd={out_of}", str(MEASURE), *words]
    with subprocess.Popen(lackey, pass_fds=[out_of], stdout=subprocess.DEVNULL, stderr=subprocess.DEVNULL) as run:
        os.close(out_of)
        with open(into, "rb") as trace:
            followed = subprocess.run([stalls, str(window)], stdin=trace, capture_output=True, text=True, check=True)
    if run.returncode:
        sys.exit(f"the measures ended with {run.returncode}: are topic and name those of `measure --list`?")
    return read(followed.stdout)


def compiled(folder: str) -> pathlib.Path:
    """The program that follows a trace."""
    made = pathlib.Path(folder) / "stalls"
    subprocess.run([os.environ.get("CC", "cc"), "-O2", "-o", made, HERE / "stalls.c"], check=True)
    return made


def a_call(often: int, once: Traced, twice: Traced) -> tuple[float, list[tuple[float, tuple[int, int]]]]:
    """The instructions of a call, and its waits, the most frequent first: those of twice as many calls less those of
    as many."""
    waits = Counter(twice.waits)
    waits.subtract(once.waits)
    each = [(times / often, pair) for pair, times in waits.most_common() if times > 0]
    return (twice.instructions - once.instructions) / often, each


def table(instructions: float, each: list[tuple[float, tuple[int, int]]], functions: Functions) -> list[str]:
    """The lines to print."""
    total = sum(times for times, _ in each)
    rows = [f"{times:.2f}  {functions.place(load)} waits for {functions.place(store)}" for times, (load, store) in each]
    return [f"{total:.2f} waits in {instructions:.0f} instructions", *rows]


def main() -> int:
    parser = argparse.ArgumentParser(description=__doc__, formatter_class=argparse.RawDescriptionHelpFormatter)
    parser.add_argument("--often", type=int, default=_OFTEN, help=f"how many calls are traced, then twice ({_OFTEN})")
    parser.add_argument("--window", type=int, default=_WINDOW, help=f"instructions a store is on its way ({_WINDOW})")
    parser.add_argument("topic", help="of the measure, as `measure --list` has it")
    parser.add_argument("name", help="of the measure, as `measure --list` has it")
    parser.add_argument("side", choices=["proved", "by-hand"], help="whose calls")
    asked = parser.parse_args()
    with tempfile.TemporaryDirectory() as folder:
        stalls, of = compiled(folder), ["--count", asked.topic, asked.name, asked.side]
        once, twice = (traced(stalls, asked.window, [*of, str(often)]) for often in (asked.often, 2 * asked.often))
    listing = subprocess.run(["nm", "-n", "--defined-only", MEASURE], capture_output=True, text=True, check=True).stdout
    print("\n".join(table(*a_call(asked.often, once, twice), Functions(listing))))
    return 0


if __name__ == "__main__":
    sys.exit(main())
