"""The table of wrong signs: name, rule and edit of each, as the files beside this one have them."""

import pathlib

from .load import Mutant

FOLDER = pathlib.Path(__file__).resolve().parent
_USUAL = {"has": "1 0", "order": "high", "size": "23 14"}
FILES = ("wire.txt", "objects.txt", "rows.txt", "showing.txt", "edges.txt")
FURTHER_FILES = tuple(
    f"further/{name}.txt" for name in ("times_and_contents", "texts", "tags", "lines", "sizes", "times_and_rows")
)


def mutant(lines: list[str]) -> Mutant:
    """The wrong sign of a paragraph: name, `rule:`, `file:`, the lines before and after, and perhaps `group:`, `has:`,
    `order:` and `size:`."""
    words = dict(line.split(": ", 1) for line in lines[1:] if line[0] not in "-+")
    old, new = ("".join(line[1:] + "\n" for line in lines if line[0] == sign) for sign in "-+")
    has, order, size = (words.get(word, usual).encode() for word, usual in _USUAL.items())
    return Mutant(lines[0], words["rule"], words["file"], old, new, has, order, size, words.get("group", ""))


def read(name: str) -> list[Mutant]:
    held = (FOLDER / name).read_text(encoding="utf-8")
    paragraphs = [[line for line in part.split("\n") if line and line[0] != "#"] for part in held.split("\n\n")]
    return [mutant(lines) for lines in paragraphs if lines]


MUTANTS: list[Mutant] = [found for name in FILES for found in read(name)]
FURTHER: list[Mutant] = [found for name in FURTHER_FILES for found in read(name)]  # of groups, tried by hand alone
