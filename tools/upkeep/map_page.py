"""docs/MAP.md: the names that its table cites, where each is defined, and links to those lines."""

import functools
import pathlib
import re
from collections.abc import Iterator
from dataclasses import dataclass

from .tree import Tree

PAGE = "docs/MAP.md"
_CITED = re.compile(r"\[?`([a-z_]+)/([\w/]+)(?:: (\w+))?`(?:\]\([^)\s]*\))?")
_COLUMNS = ("definition", "code", "proof", "test")
_PLACES = {
    "definition": ("specs/{}.antt",),
    "code": ("src/{}.rt",),
    "proof": ("proofs/{}.antt", "src/{}.rt"),
    "test": ("src/{}.rt", "src/tests/{}.rt", "proofs/{}.antt"),
}


@functools.cache
def _defined(path: pathlib.Path, name: str) -> int:
    """The number of the first line on which a file defines the name, or 0."""
    kinds = "fn|struct|enum|trait|const|type" if path.suffix == ".rt" else "record|data"
    said = re.compile(rf"\b(?:{kinds}) {name}\b" + ("" if path.suffix == ".rt" else rf"|^(?:[a-z]+ )*{name} :"))
    lines = path.read_text(encoding="utf-8").splitlines()
    return next((number for number, line in enumerate(lines, 1) if said.search(line)), 0)


@dataclass(frozen=True)
class Cited:
    """A name of a cell: of a crate, in a file of one of the column's folders."""

    top: pathlib.Path
    column: str
    crate: str
    file: str
    name: str

    @property
    def text(self) -> str:
        return f"{self.crate}/{self.file}" + (f": {self.name}" if self.name else "")

    def place(self) -> str | None:
        """The file, from docs/, and the line where the name is defined; none where it is not."""
        folders = (f"crates/dms_{self.crate}", f"crates/{self.crate}")
        places = [f"{folder}/{place.format(self.file)}" for folder in folders for place in _PLACES[self.column]]
        there = [place for place in places if (self.top / place).is_file()]
        if not self.name:
            return f"../{there[0]}" if there else None
        lines = {place: _defined(self.top / place, self.name) for place in there}
        return next((f"../{place}#L{line}" for place, line in lines.items() if line), None)


def _cells(line: str) -> list[str]:
    """The cells of a row of the table, each with its blanks; none of another line."""
    row = line.strip().strip("|").split("|")
    return row if line.startswith("|") and len(row) == 1 + len(_COLUMNS) else []


def _cited(top: pathlib.Path, line: str) -> Iterator[tuple[str, list[Cited]]]:
    """The cells of a row of the table behind its first, with the names that each cites."""
    for column, cell in zip(_COLUMNS, _cells(line)[1:]):
        yield cell, [Cited(top, column, *found) for found in _CITED.findall(cell)]


def missing(tree: Tree) -> list[str]:
    """What the page cites and is not there."""
    found = []
    for number, line in tree.lines(PAGE):
        for cell, names in _cited(tree.top, line):
            if cell.strip() in _COLUMNS or not cell.strip(" -"):
                continue
            if _CITED.sub("", cell).strip(", "):
                found.append(f"{PAGE}:{number}: {cell.strip()} is no name")
            found += [f"{PAGE}:{number}: no {name.column} {name.text}" for name in names if not name.place()]
    return found


def _linked_cell(top: pathlib.Path, column: str, cell: str) -> str:
    """A cell with a link at each name that is defined."""

    def link(found: re.Match[str]) -> str:
        name = Cited(top, column, found[1], found[2], found[3] or "")
        place = name.place()
        return f"[`{name.text}`]({place})" if place else f"`{name.text}`"

    return _CITED.sub(link, cell)


def _linked(top: pathlib.Path, line: str) -> str:
    """A line of the page with its links."""
    row = _cells(line)
    cells = [_linked_cell(top, column, cell) for column, cell in zip(_COLUMNS, row[1:])]
    return f"|{'|'.join((row[0], *cells))}|" if row else line


def linked(tree: Tree) -> str:
    """The page with its links as they are to be."""
    return "\n".join(_linked(tree.top, line) for _, line in tree.lines(PAGE))


def stale(tree: Tree) -> list[str]:
    """Rows whose links lead elsewhere than to the line of their name."""
    if not tree.has(PAGE):
        return []
    pairs = zip(tree.lines(PAGE), linked(tree).split("\n"))
    return [
        f"{PAGE}:{number}: a link leads elsewhere (tools/house.py --links mends it)"
        for (number, line), wanted in pairs
        if line != wanted
    ]


def write(tree: Tree) -> None:
    """Writes the page with its links."""
    (tree.top / PAGE).write_text(linked(tree), encoding="utf-8")
