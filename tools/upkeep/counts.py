"""A bar of the page on tests: the numbers that it says are about those that are counted."""

from __future__ import annotations

import re
from dataclasses import dataclass

from .tree import Tree

PAGE = "docs/TESTING.md"
LAST = "The last whole gate: "
_OFF = 0.1  # of the number, and no more
_OWN = r"crates/(?!\w+_tests/|dms_measures/)\w+/src/.*\.rt"  # what is neither a test nor a measure
_FUNCTION = r'(?m)^\s*(?:pub(?:\([\w ]+\))? )?(?:const )?(?:extern "C" )?fn '
_TEST = r"(?m)^def test_"
_OF_FRONT_ENDS = r"(?:process|endpoint(?:/\w+)?)"


@dataclass(frozen=True)
class _Count:
    """What stands after `some N` on the page; in these files it is what is found, or each file where nothing is."""

    words: str
    files: str
    found: str = ""

    def of(self, tree: Tree) -> int:
        names = [name for name in tree.names if re.fullmatch(self.files, name)]
        return sum(len(re.findall(self.found, tree.text(name))) for name in names) if self.found else len(names)


COUNTS = (
    _Count("crates", r"crates\.txt", r"(?m)^\w[^:\n]*:"),
    _Count("functions", _OWN, _FUNCTION),
    _Count("clauses", _OWN, r"\bensures\b"),
    _Count("wrong bodies", r"crates/\w+/(?:must-fail|wrong-bodies)/[^/]+\.edit"),
    _Count("tests in Rattle", r"crates/\w+/src/.*\.rt", r"#\[test\]"),
    _Count("cases of vectors", r"vectors/\w+\.jsonl", r"(?m)^."),
    _Count("wrong signs", r"trials/wrong_signs/\w+\.txt", r"(?m)^rule: "),
    _Count("kinds of trial", r"trials/lasting\.py", r'": _?Kind\('),
    _Count("tests of tools", rf"(?:(?:tools/\w+|measures|model)/tests|python/tests/{_OF_FRONT_ENDS})/\w+\.py", _TEST),
    _Count("tests of the tester", r"python/tests/tester/\w+\.py", _TEST),
    _Count("tests of the control room", r"python/tests/room/\w+\.py", _TEST),
    _Count("bars", r"tools/upkeep/bars\.py", r"(?m)^    Bar\("),
    _Count("steps", r"tools/after_gate\.py", r"(?m)^    Step\("),
)


def said(text: str, words: str) -> list[int]:
    """The numbers that a page says of this."""
    spaced = r"\s+".join(["some", r"([\d,]+)", *words.split()])
    numbers = re.findall(rf"\b{spaced}\b", text)
    return [int(number.replace(",", "")) for number in numbers]


def stale(tree: Tree) -> list[str]:
    """Numbers that are further off than a tenth, or that the page does not say, or the last gate's line."""
    if not tree.has(PAGE):
        return []
    text = tree.text(PAGE)
    found = [] if f"\n{LAST}" in text else [f"{PAGE}: no line '{LAST}..'"]
    for count in COUNTS:
        number, numbers = count.of(tree), said(text, count.words)
        if not numbers:
            found.append(f"{PAGE}: it does not say 'some {number:,} {count.words}'")
        found += [
            f"{PAGE}: some {one:,} {count.words}, where there are {number:,}"
            for one in numbers
            if abs(one - number) > _OFF * number
        ]
    return found
