"""What a sign claims to have beside the profile's objects: each by its name, its type, and what a manager may set."""

import pathlib
import re
from dataclasses import dataclass
from typing import Any

from wisangub.objects.known import BY_NAME, Known
from wisangub.refusal import Refusal
from wisangub.snmp import wire
from wisangub.snmp.names import TYPES
from wisangub.tester.requests.objects import Name, Value

_TAGS = {word: tag for tag, word in TYPES.items()}
_EXAMPLES: dict[int, Value] = {
    wire.NAME: (wire.NAME, (0, 0)),
    wire.ADDRESS: (wire.ADDRESS, bytes(4)),
    wire.NULL: (wire.NULL, b""),
    wire.OPAQUE: (wire.OPAQUE, b""),
}
_NUMBERS = (wire.INTEGER, wire.COUNTER, wire.GAUGE, wire.TICKS)
_LEAST_NUMBER, _MOST_NUMBER, _MOST_OCTETS = -(2**31), 2**32 - 1, 65535


@dataclass(frozen=True)
class DeviceClaim:
    """An object beside the profile's: whether the sign has it, what it reads at least and at most, as a number or by
    its length, and from what to what it can be set."""

    word: str
    name: Name
    tag: int
    is_there: bool = True
    reads: tuple[int, int] | None = None
    ends: tuple[int, int] | None = None

    def size(self, value: Value) -> int:
        """The number, or how many octets there are."""
        held = value[1]
        return held if isinstance(held, int) else len(held)

    def is_right(self, value: Value | None) -> bool:
        """Whether it may read this."""
        least, most = self.ends or self.reads or (_LEAST_NUMBER, _MOST_NUMBER)
        return value is not None and value[0] == self.tag and least <= self.size(value) <= most

    def example(self, size: int | None = None) -> Value:
        """A value of its type: of this size, or of the least that it reads."""
        least = (self.ends or self.reads or (0, 0))[0]
        if self.tag in _NUMBERS:
            return self.tag, least if size is None else size
        if self.tag == wire.OCTETS:
            return self.tag, b"a" * (least if size is None else size)
        return _EXAMPLES[self.tag]


def read(path: pathlib.Path, held: dict[str, Any]) -> tuple[DeviceClaim, ...]:
    """The claims of a part of a file. Raises Refusal that says what is at fault."""
    found = tuple(_claim(path, word, said) for word, said in held.items())
    for at, one in enumerate(found):
        if one.name in (other.name for other in found[:at]):
            raise Refusal(f"{path}: {one.word} stands twice")
    return found


def _claim(path: pathlib.Path, word: str, said: Any) -> DeviceClaim:
    """`false`: none; `true`: read alone; `[LEAST, MOST]`: can be set so; a table has `type` and perhaps `set`."""
    known, name = _named(path, word)
    table = said if isinstance(said, dict) else {}
    if set(table) - {"type", "set"} or table and not isinstance(table.get("type", ""), str):
        raise Refusal(f"{path}: {word} has no more than a type and what it can be set to")
    tag = _TAGS.get(table.get("type", ""), None if known is None else known.tag)
    if tag is None or known is not None and tag != known.tag:
        raise Refusal(f"{path}: {word} wants a type, {', '.join(_TAGS)}" if known is None else _other(path, known))
    said = table.get("set", True) if table else said
    if isinstance(said, bool):
        return DeviceClaim(word, name, tag, said, _reads(known))
    return DeviceClaim(word, name, tag, True, _reads(known), _ends(path, word, tag, said))


def _other(path: pathlib.Path, known: Known) -> str:
    return f"{path}: {known.name} is of the type {TYPES[known.tag]}"


def _named(path: pathlib.Path, word: str) -> tuple[Known | None, Name]:
    """The object that is known by a word, as sysName or moduleMake.1, and its instance; or numbers as they stand."""
    if re.fullmatch(r"[0-9]+(\.[0-9]+)+", word):
        name = tuple(map(int, word.split(".")))
        found = [one for one in BY_NAME.values() if one.numbers == name[: len(one.numbers)]]
        return (found[0] if found else None), name
    base, _, instance = word.partition(".")
    known = BY_NAME.get(base)
    if known is None:
        raise Refusal(f"{path}: {base} is no object of mibs/; another is written in numbers, with a type")
    if known.is_column != bool(instance) or instance and not re.fullmatch(r"[0-9]+(\.[0-9]+)*", instance):
        raise Refusal(
            f"{path}: {base} is a column, and wants a row, as {base}.1" if known.is_column else _scalar(path, base)
        )
    return known, (*known.numbers, *(map(int, instance.split(".")) if instance else (0,)))


def _scalar(path: pathlib.Path, base: str) -> str:
    return f"{path}: {base} is no column, and has no row"


def _reads(known: Known | None) -> tuple[int, int] | None:
    """What an object reads at least and at most."""
    if known is None or known.least is None or known.most is None:
        return None
    return known.least, known.most


def _ends(path: pathlib.Path, word: str, tag: int, said: Any) -> tuple[int, int]:
    """From what to what it can be set."""
    limits = (_LEAST_NUMBER, _MOST_NUMBER) if tag == wire.INTEGER else (0, _MOST_OCTETS)
    is_pair = isinstance(said, list) and len(said) == 2 and all(type(end) is int for end in said)
    if tag not in (wire.INTEGER, wire.OCTETS) or not is_pair or not limits[0] <= said[0] <= said[1] <= limits[1]:
        raise Refusal(f"{path}: {word} is true, false, or [LEAST, MOST] of an INTEGER or of an OCTET STRING's length")
    return said[0], said[1]
