"""The table of objects: crates/dms_mib/specs/Objects.antt, with its limits in crates/dms_codes/specs/Limits.antt."""

from __future__ import annotations

import pathlib
import re
from dataclasses import dataclass

TABLE, _LIMITS = "crates/dms_mib/specs/Objects.antt", "crates/dms_codes/specs/Limits.antt"
_ROW = re.compile(r'(?:scalar|column)_row (\w+) = row \(codes "(\w+)"\) (\w+) (\d+) (\w+) (\w+|\(.*\))')
_ORDER = re.compile(r"(One|EachRow) (\w+)")
_LIMIT = re.compile(r"(?m)^(\w+) = (\d+)$")
_WORD = re.compile(r"(\w+) (\d+)")
_GROUP = re.compile(r"(?m)^group_number (\w+) = (\d+)$")
_NODE = re.compile(r"(?m)^node_numbers (\w+) = group_number (\w+) ∷ (.*) ∷ \[\]$")
_ACCESS = ("Read", "Write", "Command")


class BadTable(Exception):
    """A table, or a file that is made of it, that is not as it should be."""


@dataclass(frozen=True)
class Syntax:
    """A type of the table with its numbers."""

    kind: str
    numbers: tuple[int, ...]
    words: tuple[str, ...]  # the numbers as the table has them, limits by their names

    @property
    def bounds(self) -> tuple[int, int] | None:
        """The least and the greatest value, or size, where the type has them."""
        return (self.numbers[0], self.numbers[-1]) if self.numbers else None


@dataclass(frozen=True)
class Object:
    """An object, which has a row of the table."""

    name: str  # as the MIB has it, "dmsNumVolatileMsg"
    variant: str  # as the crates have it, "NumVolatileMsg"
    node: str
    place: str  # the numbers of its node below dms, "5" or "5.8.1"
    number: int
    access: str
    syntax: Syntax
    is_column: bool
    said: str
    words: list[tuple[str, str]]


def _syntax(text: str, limits: dict[str, int]) -> Syntax:
    kind, *words = text.strip("()").split()
    sizes = {"Whole": 0, "Address": 0, "Range": 2, "Asks": 4, "Octets": 2}
    if sizes.get(kind) != len(words) or not all(word.isdigit() or word in limits for word in words):
        raise BadTable(f"{TABLE}: no syntax {text}")
    numbers = tuple(limits[word] if word in limits else int(word) for word in words)
    return Syntax(kind, numbers, tuple(words))


def read(top: pathlib.Path) -> list[Object]:
    """The objects in the order of the table's last list, each with the comment above its row."""
    text, limits = ((top / name).read_text(encoding="utf-8") for name in (TABLE, _LIMITS))
    return _read(text, {name: int(number) for name, number in _LIMIT.findall(limits)})


def _read(text: str, limits: dict[str, int]) -> list[Object]:
    nodes = dict(_GROUP.findall(text))
    nodes |= {node: f"{nodes[group]}.{rest.replace(' ∷ ', '.')}" for node, group, rest in _NODE.findall(text)}
    _, _, rows = text.partition("\n-- ---- the table\n")
    rows, _, order = rows.partition("\nevery_object =\n")
    columns = {column for kind, column in _ORDER.findall(order) if kind == "EachRow"}
    objects: dict[str, Object] = {}
    said: list[str] = []
    row = ""
    for line in [*rows.splitlines(), ""]:
        if row and not line.startswith("    "):
            found = _ROW.fullmatch(row)
            if not found:
                raise BadTable(f"{TABLE}: no row: {row}")
            objects[found[1]] = _object_of(found, " ".join(said), nodes, limits, found[1] in columns)
            said, row = [], ""
        if line.startswith("--"):
            said.append(line.removeprefix("--").strip())
        elif " = row (" in f"{line} " or row:
            row = f"{row} {line.strip()}".strip()
        else:
            said = []
    listed = [name for _, name in _ORDER.findall(order.partition("[]")[0])]
    if sorted(listed) != sorted(objects):
        raise BadTable(f"{TABLE}: every_object does not name each row once")
    return [objects[name] for name in listed]


def _object_of(row: re.Match[str], said: str, nodes: dict[str, str], limits: dict[str, int], is_column: bool) -> Object:
    """An object of a row, what is said above it, and the numbers of the nodes."""
    variant, name, node, number, access, written = row.groups()
    if node not in nodes or access not in _ACCESS:
        raise BadTable(f"{TABLE}: {name} has no such node or access")
    if not said or '"' in said or "|" in said:
        raise BadTable(f'{TABLE}: {name} wants a comment above it, without the signs " and |')
    said, _, rest = said.partition(" Words: ")
    words, syntax = _WORD.findall(rest), _syntax(written, limits)
    if words and syntax.bounds != (int(words[0][1]), int(words[-1][1])):
        raise BadTable(f"{TABLE}: {name} has words for other numbers than {syntax.bounds}")
    return Object(name, variant, node, nodes[node], int(number), access, syntax, is_column, said, words)
