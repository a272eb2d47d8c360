"""A bar of the test crates: each row of hexadecimal in a file of rows stands after words that say what it is."""

import re

from .tree import Tree

FILES = re.compile(r"crates/(?:\w+_tests/src/(?:\w+/)*cases|dms_sign_bench/src/scripts)\.rt")
_ROW = re.compile(r"(?i)[0-9a-f]{16}|(?:\\x[0-9a-f]{2}){8}")
_WORDS = re.compile(r"\s*(?://|#)")
# what another row ends with, or begins with where it is a line of its own
_OTHER = re.compile(r'\s*$|<|.*\),$|.*";$| {4}b?"')


def _has_words(lines: list[str], at: int) -> bool:
    """Whether words stand above this line, before any other row. An answer has those of its line, which begins with
    `>`."""
    for line in reversed(lines[:at]):
        if _WORDS.match(line):
            return True
        if _OTHER.match(line) or line.startswith(">") and lines[at].startswith(">"):
            return False
    return False


def without_words(tree: Tree) -> list[str]:
    """Rows of hexadecimal that nothing is said of."""
    found = []
    for name in filter(FILES.fullmatch, tree.names):
        lines = [line for _, line in tree.lines(name)]
        found += [
            f"{name}:{at + 1}: a row without words before it"
            for at, line in enumerate(lines)
            if _ROW.search(line) and not _WORDS.match(line) and not _has_words(lines, at)
        ]
    return found
