"""Compares what the program says of a line that is refused with the model: python3 -m trials.compare_causes

    python3 -m trials.compare_causes [--count 2000] [--seed 1] [--program crates/signtool/out/signtool]

A row for each cause that there is, worked by hand (cause_rows.py), and then random descriptions and scripts, most of
them at fault, go to `check --sign`, `sign --sign`, `centre --sign` and `replay`. Of one that is at fault the line has
to stand on standard output, and on standard error what is wrong with it; of one that is not nothing is said. It prints
each case that differs, how many causes of which kind were said, and last `N passed, M failed`. The same seed makes the
same cases.
"""

import argparse
import collections
import re
import subprocess
import sys

from model import causes, text
from trials import cause_rows
from wisangub.process.places import SIGNTOOL, program

from .cause_cases import Cases

_EMPTY = "the standard input is empty: < FILE gives it one"


def _foretold(words: list[str], octets: bytes) -> causes.Cause | None:
    """The line that is at fault, and what is wrong with it."""
    if words[0] == "replay":
        return causes.of_script(octets)
    return causes.of_description(octets) if words[0] == "check" else causes.before_lines(octets)


def said(program: str, words: list[str], octets: bytes) -> tuple[str, str, int]:
    """What a call prints, up to its first line where it is no fault, what it says, and its status."""
    ended = subprocess.run([program, *words], input=octets, capture_output=True, timeout=60, check=False)
    output = ended.stdout.decode("latin-1")
    return output if output.startswith("line ") else "", ended.stderr.decode("latin-1"), ended.returncode


def wanted(cause: causes.Cause | None, octets: bytes) -> tuple[str, str, int]:
    """The same by the model."""
    if cause is None:
        return "", "", 0
    line, words = cause
    return f"line {line}\n", f"line {line}: {words}\n" + ("" if octets else _EMPTY + "\n"), 1


def _is_by_both(cause: causes.Cause | None, words: list[str], octets: bytes) -> bool:
    """Whether the model's own reader names the same line."""
    try:
        if words[0] == "replay":
            text.replayed(octets)
        elif words[0] == "check":
            text.described(octets)
        else:
            return True
    except text.Bad as bad:
        return cause is not None and cause[0] == bad.line
    return cause is None


def _kind_of(cause: causes.Cause) -> str:
    """A cause without its places and numbers."""
    return re.sub(r"[0-9]+", "N", re.sub(r"^word [0-9]+: ", "", cause[1]))


def _by_hand(program: str) -> tuple[int, int]:
    """How many rows there are, and of how many the program says something else."""
    calls = [(["check", "A", "--sign"], row) for row in cause_rows.described()]
    calls += [(["replay"], row) for row in cause_rows.scripts()]
    failed = 0
    for words, (octets, at, why) in calls:
        found, told = said(program, words, octets), wanted((at, why), octets)
        if found != told:
            failed += 1
            print(f"by hand: {words} with {octets!r}\n  wanted  {told}\n  program {found}")
    return len(calls), failed


def main() -> int:
    options = argparse.ArgumentParser(description="what the program says of a refused line, beside the model")
    options.add_argument("--count", type=int, default=2000, help="how many inputs")
    options.add_argument("--seed", type=int, default=1, help="of all that is random: the same again gives the same")
    options.add_argument(
        "--program", type=program, default=str(SIGNTOOL), help="the program signtool, as tools/build.py makes it"
    )
    asked = options.parse_args()
    cases, (rows, failed) = Cases(asked.seed), _by_hand(asked.program)
    kinds: collections.Counter[str] = collections.Counter()
    for at in range(asked.count):
        words, octets = cases.case()
        cause = _foretold(words, octets)
        found = said(asked.program, words, octets)
        if found != wanted(cause, octets) or not _is_by_both(cause, words, octets):
            failed += 1
            print(f"case {at}: {words} with {octets!r}\n  model   {wanted(cause, octets)}\n  program {found}")
        kinds[_kind_of(cause) if cause else "nothing"] += 1
    for kind, count in sorted(kinds.items(), key=lambda one: -one[1]):
        print(f"{count:6} {kind}")
    print(f"{rows + asked.count - failed} passed, {failed} failed")
    return 1 if failed else 0


if __name__ == "__main__":
    sys.exit(main())
