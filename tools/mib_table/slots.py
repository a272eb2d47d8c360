"""Whether each name that can be set has a slot of its own, in which a SET marks that it met the name: else names of one
slot are compared one by one. Nothing is proved of it."""

from __future__ import annotations

import pathlib
import re
from collections.abc import Iterator

from mib_table.table import Object

SLOTS = "crates/dms_sign_access/specs/Slots.antt"
_FILES = (SLOTS, "crates/dms_codes/specs/Limits.antt", "crates/dms_codes/specs/Memory.antt")
_NUMBER = re.compile(r"(?m)^(\w+) = (\d+)$")
_Name = tuple[int, int, int]  # the last octets of its content, which say which it is


def shared(top: pathlib.Path, objects: list[Object]) -> list[str]:
    """A line for each name that can be set and has the slot of another one."""
    texts = [(top / name).read_text(encoding="utf-8") for name in _FILES]
    numbers = {word: int(number) for text in texts for word, number in _NUMBER.findall(text)}
    found, taken = [], dict[int, str]()
    for one in objects:
        for name in _names(one, numbers) if one.access != "Read" else ():
            slot = _slot(name, numbers)
            said = f"{one.name} {'.'.join(map(str, name[1:] if one.is_column else name[2:]))}"
            if slot in taken:
                found.append(f"{SLOTS}: {taken[slot]} and {said} share a slot: other factors are wanted")
            taken[slot] = said
    return found


def _names(one: Object, numbers: dict[str, int]) -> Iterator[_Name]:
    """The names of an object's instances that can be set, where a sign has its most rows."""
    if not one.is_column:
        yield int(one.place), one.number, 0
        return
    for kind in ("changeable", "volatile"):
        for number in range(1, numbers[f"most_{kind}_rows"] + 1):
            yield one.number, numbers[f"{kind}_memory"], number


def _slot(name: _Name, numbers: dict[str, int]) -> int:
    """`content_slot` of it."""
    first, second, last = name
    return (first * numbers["group_factor"] + second * numbers["object_factor"] + last) % numbers["slot_count"]
