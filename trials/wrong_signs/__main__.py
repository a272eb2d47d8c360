"""Whether the tester finds the wrong signs: python3 -m trials.wrong_signs [--only NAME] [--sign FILE] [--jobs N]

A line for each that is not found as it should be, with --loud for each at all; last `N passed, N failed`, and what a
chapter's are at the median. With --default those that have a group are tried as a test without options tries them, to
its end: each has to be found, be it by whichever chapter, and of each group half within 150 seconds of the sign. With
--further others of these groups are, each of which has to be found. What random requests alone find counts as not
found: they come last, and a chapter has to ask for it. A line names the chapter that was the first to see it, and for a
test to its end each that did.
"""

import argparse
import concurrent.futures
import pathlib
import statistics
import sys
from dataclasses import dataclass

from model import text
from wisangub.tester.chapters import ALL
from wisangub.tester.chapters.random_requests import CHAPTER as RANDOM
from wisangub.tester.findings.differences import Difference
from wisangub.tester.findings.results import Quiet
from wisangub.tester.findings.rules import RULES
from wisangub.tester.sign.clock import Clock
from wisangub.tester.sign.judge import Judge, SignJudge
from wisangub.tester.sign.oracle import Oracle, made

from . import bench
from .load import Mutant, sign_of, unload
from .table import FURTHER, MUTANTS

MOST_DATAGRAMS = 10
MOST_SECONDS = 150.0  # of the sign, at the median of a group, with --default
MOST_SMALLER = 40.0  # seconds that a test without options makes a difference smaller
# the bench sign with a second font of other spacings, so that averages are to be rounded
BENCH = text.BENCH.replace(b"font 2 height 5 space 1 line 1", b"font 2 height 5 space 2 line 2")


@dataclass
class Outcome:
    name: str
    is_found: bool
    words: str
    seconds: float = 0.0  # of the sign, until it was found and shown small
    whole: float = 0.0  # of the sign, that the test took


class First(Quiet):
    """When the first difference was told that came again."""

    def __init__(self) -> None:
        self.clock: Clock | None = None
        self.seconds: float | None = None

    def found(self, difference: Difference) -> None:
        if self.clock is not None and self.seconds is None:
            self.seconds = self.clock.now()


def judges(program: str, description: bytes) -> tuple[Oracle, Judge]:
    """What the sign is beside: the program, or the model in this process."""
    if program == "model":
        return bench.ModelOracle(description), bench.ModelJudge(description)
    return made(program, description), SignJudge(program, description)


def description_for(mutant: Mutant, description: bytes) -> bytes:
    """The sign that a wrong one is like: what the wrong one has of its own stands in the lines of the bench sign's."""
    lines = ((b"has 1 0", b"has " + mutant.has), (b"order high", b"order " + mutant.order))
    for before, after in (*lines, (b"size 23 14", b"size " + mutant.size)):
        description = (b"\n" + description).replace(b"\n" + before + b"\n", b"\n" + after + b"\n")[1:]
    return description


def tried(
    mutant: Mutant,
    description: bytes,
    program: str,
    is_short: bool = False,
    is_default: bool = False,
    is_whole: bool = False,
) -> Outcome:
    """The test of a wrong sign, up to its first difference or to its end; the short form begins with its rule's
    chapter, and the default one asks for no slow cases."""
    wanted = RULES[mutant.rule].chapter
    description = description_for(mutant, description)
    oracle, judge = judges(program, description)
    sign, first_told = sign_of([mutant], description), First()
    most = None if is_whole else 1
    try:
        session = bench.session(
            description,
            sign,
            oracle,
            judge,
            requests=400,
            is_slow=not is_default,
            most_differences=most,
            watcher=first_told,
        )
        first_told.clock = session.pair.clock
        session.most_seconds = MOST_SMALLER if is_default else session.most_seconds
        chapters = sorted(ALL, key=lambda chapter: chapter.name != wanted) if is_short else ALL
        found = session.run([held for held in chapters if not (is_default and held.is_slow)]).differences()
    finally:
        oracle.end()
        judge.end()
        unload([mutant])
    whole = session.pair.clock.now()
    seconds = whole if first_told.seconds is None else first_told.seconds
    if not found:
        return Outcome(mutant.name, False, f"{wanted}: nothing differs", seconds, whole)
    first, seen_in = found[0], ", ".join(dict.fromkeys(one.found_in for one in found))
    good = first.rule.chapter == wanted and first.datagrams <= MOST_DATAGRAMS and first.is_repeated
    found_as = f"found as {first.rule.chapter} ({first.rule.key}), {first.title}, {first.datagrams} datagrams"
    said = f"{wanted} ({mutant.rule}): {found_as}, in {seen_in}, {seconds:.0f} s of {whole:.0f}"
    is_found = (first.is_repeated if is_default else good) and seen_in != RANDOM.name
    return Outcome(mutant.name, is_found, said, seconds, whole)


def medians(chosen: list[Mutant], outcomes: list[Outcome], is_by_chapter: bool) -> list[tuple[str, float, float]]:
    """The seconds at the median of each group, or of each chapter's: until one was found, and of the whole test."""
    held: dict[str, list[Outcome]] = {}
    for mutant, outcome in zip(chosen, outcomes):
        held.setdefault(RULES[mutant.rule].chapter if is_by_chapter else mutant.group, []).append(outcome)
    return [
        (name, statistics.median(one.seconds for one in found), statistics.median(one.whole for one in found))
        for name, found in held.items()
    ]


def main() -> int:
    parser = argparse.ArgumentParser(
        prog="python3 -m trials.wrong_signs", description="whether the tester finds the wrong signs"
    )
    parser.add_argument("--only", action="append", default=[], help="this wrong sign alone; may be given again")
    parser.add_argument("--sign", type=pathlib.Path, help="a description; else the bench sign")
    parser.add_argument("--signtool", default="model", help="the program that is the oracle; else the model")
    parser.add_argument("--jobs", type=int, default=1, help="so many at a time")
    parser.add_argument("--loud", action="store_true", help="says how each was found")
    parser.add_argument("--default", action="store_true", help="those with a group, as a test without options")
    parser.add_argument("--further", action="store_true", help="others of these groups, as a test without options")
    asked = parser.parse_args()
    description = asked.sign.read_bytes() if asked.sign else BENCH
    known, is_default = (FURTHER if asked.further else MUTANTS), asked.default or asked.further
    chosen = [mutant for mutant in known if not asked.only or any(part in mutant.name for part in asked.only)]
    chosen = [mutant for mutant in chosen if mutant.group or not is_default]
    outcomes: list[Outcome] = []
    with concurrent.futures.ProcessPoolExecutor(asked.jobs) as pool:
        waiting = [
            pool.submit(tried, one, description, asked.signtool, False, is_default, asked.default) for one in chosen
        ]
        for done in waiting:
            outcome = done.result()
            outcomes.append(outcome)
            if asked.loud or not outcome.is_found:
                print(f"{'' if outcome.is_found else 'NOT FOUND '}{outcome.name}: {outcome.words}", flush=True)
    found, held = sum(outcome.is_found for outcome in outcomes), medians(chosen, outcomes, not is_default)
    slow = [name for name, seconds, _ in held if asked.default and seconds > MOST_SECONDS]
    for name, seconds, whole in held:
        print(f"{name}: found after {seconds:.0f} s at the median, the whole test {whole:.0f} s")
    print(f"{found} passed, {len(outcomes) - found + len(slow)} failed")
    return 0 if found == len(outcomes) and not slow else 1


if __name__ == "__main__":
    sys.exit(main())
