#!/usr/bin/env python3
"""Prints tables of the measures: the times of the proved calls and of those by hand, and their instructions.

    measures/measured.py [--instructions] [--times] [TOPIC ..]
    measures/measured.py --recorded               the tables of measures/measured.tsv, and a line a topic
    measures/measured.py --compare [TOPIC ..]     which take more instructions than stand there
    measures/measured.py --record [--keep-times] [TOPIC ..]   writes the new figures of what stands there
    measures/measured.py --growth                 whether twice the work takes the program twice the instructions

It runs the program that measures/run.sh builds, crates/dms_measures/out/measure; its `--list` names the topics. Times
are the least of interleaved passes of two milliseconds or more. Instructions are counted by callgrind (Debian's package
valgrind): those of no calls are taken from those of some. They are the same whatever else the machine does. With
neither option both are printed, and with --keep-times instructions alone: --record then leaves the times that stand
there, as those of a machine that does much else say little. With --compare the last line counts what was compared, and
the exit status is 1 where a measure takes over half a per cent more than is recorded, or where one that is recorded is
not measured. With --growth crates/signtool/out/signtool is counted, and the exit status is 1 where something grows
faster than its input.
"""

import argparse
import os
import pathlib
import re
import subprocess
import sys
import tempfile

from compared import compared
from growth import growth
from recorded import FILE, Row, read, renewed, summary, table, written

MEASURE = pathlib.Path(__file__).resolve().parent.parent / "crates/dms_measures/out/measure"


def lines(*words: str) -> list[list[str]]:
    ran = subprocess.run([MEASURE, *words], capture_output=True, text=True, check=True)
    return [line.split("\t") for line in ran.stdout.splitlines()]


def parts(folder: pathlib.Path) -> list[int]:
    """The instructions of each part that callgrind counted, in their order."""
    files = sorted(folder.glob("out.*.*"), key=lambda file: int(file.name.rsplit(".", 1)[1]))
    totals = (re.search(r"^(?:totals|summary): (\d+)", file.read_text(encoding="utf-8"), re.M) for file in files)
    return [int(total[1]) for total in totals if total]


def counted(rows: list[Row], topics: list[str]) -> None:
    """Counts the instructions of a call of each: a part for no calls and one for some, of both sides."""
    with tempfile.TemporaryDirectory() as folder:
        options = ["--tool=callgrind", f"--callgrind-out-file={folder}/out.%p", "--dump-line=no"]
        words = ["valgrind", *options, str(MEASURE), "--instructions", *topics]
        ran = subprocess.run(words, capture_output=True, text=True, check=True)
        totals = iter(parts(pathlib.Path(folder)))
        for row, line in zip(rows, ran.stdout.splitlines(), strict=True):
            _, _, *times = line.split("\t")
            none_and_some = [(next(totals), next(totals)) for _ in times]
            proved, by_hand = ((some - none) / int(often) for (none, some), often in zip(none_and_some, times))
            row.instructions = (proved, by_hand)


def compare(rows: list[Row]) -> int:
    """Says which measures take more instructions than are recorded; the exit status."""
    count, found = compared(read(FILE.read_text(encoding="utf-8")), rows)
    for line in found:
        print(line)
    print(f"{count} measures compared with measures/{FILE.name}, {len(found)} findings")
    return 1 if found or count == 0 else 0


def show(rows: list[Row]) -> None:
    """Prints a table a topic."""
    for topic in dict.fromkeys(row.topic for row in rows):
        print(table(rows, topic))


def measure(rows: list[Row], asked: argparse.Namespace) -> None:
    """Takes what is asked for: times, instructions, or both."""
    if asked.times or not (asked.instructions or asked.compare or asked.keep_times):
        before = os.getloadavg()[0]
        for row, (_, _, proved, by_hand) in zip(rows, lines(*asked.topics), strict=True):
            row.times = (float(proved), float(by_hand))
        print(f"Times were taken at a load of {before:.0f} to {os.getloadavg()[0]:.0f}.\n")
    if asked.instructions or not asked.times:
        counted(rows, asked.topics)


def options() -> argparse.Namespace:
    parser = argparse.ArgumentParser(description=__doc__, formatter_class=argparse.RawDescriptionHelpFormatter)
    which = parser.add_mutually_exclusive_group()
    which.add_argument("--instructions", action="store_true", help="instructions alone")
    which.add_argument("--times", action="store_true", help="times alone")
    which.add_argument("--recorded", action="store_true", help="the tables of what is recorded, and a line a topic")
    which.add_argument("--compare", action="store_true", help="which take more instructions than are recorded")
    which.add_argument("--record", action="store_true", help="writes the new figures of what is recorded")
    which.add_argument("--growth", action="store_true", help="whether twice the work takes twice the instructions")
    parser.add_argument("--keep-times", action="store_true", help="take none, and with --record leave those that stand")
    parser.add_argument("topics", nargs="*", metavar="TOPIC", help="these topics; else all")
    return parser.parse_args()


def main() -> int:
    asked = options()
    if asked.growth:
        return growth()
    if asked.recorded:
        rows = read(FILE.read_text(encoding="utf-8"))
        show(rows)
        print(summary(rows))
        return 0
    rows = [Row(topic, name) for topic, name in lines("--list", *asked.topics)]
    measure(rows, asked)
    if asked.compare:
        return compare(rows)
    show(rows)
    if asked.record:
        FILE.write_text(written(renewed(read(FILE.read_text(encoding="utf-8")), rows)), encoding="utf-8")
    return 0


if __name__ == "__main__":
    sys.exit(main())
