"""The fields of a sign's state, read from its text: each line is one field's, and nothing is spelled in two ways."""

import re
from collections.abc import Callable
from dataclasses import dataclass
from typing import TypeVar

from .codes import CHANGEABLE, VOLATILE
from .description import ERROR, MODIFYING, Row
from .saved import OWN

MOST_ROWS = {CHANGEABLE: 64, VOLATILE: 16}
_NAMES = {CHANGEABLE: "changeable", VOLATILE: "volatile"}
_LONG, _TIME, _OCTET = 2**32 - 1, 65535, 255
_MOST_TEXT, _MOST_OWNER, _CODE, _ACTIVATION = 512, 127, 5, 12
Read = TypeVar("Read")


class Refused(Exception):
    """A text is no state, or none of this sign: the line, and why."""

    def __init__(self, line: int, why: str) -> None:
        super().__init__(f"line {line}: {why}")
        self.line = line


@dataclass
class Put:
    """What is shown or was kept; `remaining` is none where it has no end."""

    message: Row
    source: bytes
    mode: int
    address: bytes
    remaining: int | None
    defaults: tuple[int, ...]

    def lines(self) -> int:
        """How many lines it has."""
        return 5 if self.remaining is None else 6


@dataclass
class Fields:
    """All that a text says, its rows by their numbers."""

    rows: dict[int, list[tuple[int, Row]]]
    defaults: tuple[int, ...]
    own: dict[int, bytes]
    short_loss: int
    silence_limit: int
    silence: int
    shown: Put
    kept: Put
    errors: list[int]  # of a validation, an activation, a text, and the place of the last
    accepted: bytes
    failed: bytes
    power: bool


def number_of(word: bytes, most: int, least: int = 0) -> int:
    if not re.fullmatch(rb"0|[1-9][0-9]{0,9}", word) or not least <= int(word) <= most:
        raise ValueError
    return int(word)


def octets_of(word: bytes, most: int) -> bytes:
    if word == b"-":
        return b""
    if len(word) > 2 * most or not re.fullmatch(rb"(?:[0-9a-f]{2})+", word):
        raise ValueError
    return bytes.fromhex(word.decode())


def code_of(word: bytes, size: int) -> bytes:
    if len(word) != 2 * size or word == b"-":
        raise ValueError
    return octets_of(word, size)


def _message(words: list[bytes], status: int = MODIFYING) -> Row:
    text, owner, *numbers = words
    beacon, pixel, priority = (number_of(word, _OCTET) for word in numbers)
    return Row(octets_of(text, _MOST_TEXT), octets_of(owner, _MOST_OWNER), beacon, pixel, priority, status)


def _row(words: list[bytes], memory: int, least: int) -> tuple[int, Row]:
    number, status = number_of(words[0], MOST_ROWS[memory], least), number_of(words[1], ERROR, MODIFYING)
    return number, _message(words[2:], status)


def address_of(word: bytes) -> bytes:
    parts = word.split(b".")
    if len(parts) != 4:
        raise ValueError
    return bytes(number_of(part, _OCTET) for part in parts)


def _defaults(words: list[bytes]) -> tuple[int, ...]:
    if len(words) != 9:
        raise ValueError
    return tuple(number_of(word, _OCTET) for word in words)


class StateText:
    """The lines of a text, each with its newline, as far as they were not read."""

    def __init__(self, text: bytes) -> None:
        self.lines = re.findall(rb"[^\n]*\n|[^\n]+", text)
        self.at = 0

    def begins(self, name: str) -> bool:
        """Whether the next line has this name and a space behind it."""
        return self.at < len(self.lines) and self.lines[self.at].startswith(name.encode() + b" ")

    def field(self, name: str, wanted: str, read: Callable[[list[bytes]], Read]) -> Read:
        """What a function reads of the words behind a name."""
        line = self.lines[self.at] if self.at < len(self.lines) else b""
        self.at += 1
        try:
            if not line.endswith(b"\n") or not line.startswith(name.encode() + b" "):
                raise ValueError
            return read(line[len(name) + 1 : -1].split(b" "))
        except (ValueError, IndexError):
            raise Refused(self.at, f"{name} and {wanted} wanted") from None

    def word(self, name: str, wanted: str, read: Callable[[bytes], Read]) -> Read:
        """The same, of one word."""

        def alone(words: list[bytes]) -> Read:
            if len(words) != 1:
                raise ValueError
            return read(words[0])

        return self.field(name, wanted, alone)

    def number(self, name: str, most: int) -> int:
        wanted = "0 or 1" if most == 1 else f"a number to {most}"
        return self.word(name, wanted, lambda word: number_of(word, most))

    def code(self, name: str, size: int) -> bytes:
        return self.word(name, f"{'five' if size == _CODE else 'twelve'} octets", lambda word: code_of(word, size))

    def line(self, line: bytes, wanted: str) -> None:
        """A line without a value."""
        self.at += 1
        if self.lines[self.at - 1 : self.at] != [line + b"\n"]:
            raise Refused(self.at, f"{wanted} wanted")

    def rows(self, memory: int) -> list[tuple[int, Row]]:
        """The used rows of a type of memory, in the order of their numbers."""
        found: list[tuple[int, Row]] = []
        name, least, most = _NAMES[memory], 1, MOST_ROWS[memory]
        while least <= most and self.begins(name):
            wanted = f"a row of a number from {least} to {most}"
            found.append(self.field(name, wanted, lambda words: _row(words, memory, least)))
            least = found[-1][0] + 1
        return found

    def put(self, name: str) -> Put:
        """What is shown or was kept."""
        return Put(
            self.field(name, "a message", _message),
            self.code(f"{name}-source", _CODE),
            self.number(f"{name}-mode", _OCTET),
            self.word(f"{name}-address", "an address", address_of),
            self.number(f"{name}-remaining", _LONG) if self.begins(f"{name}-remaining") else None,
            self.field(f"{name}-defaults", "nine numbers", _defaults),
        )


def fields(text: bytes) -> Fields:
    """What a text says; raises Refused for the first line that is not as it must be."""
    lines = StateText(text)
    lines.line(b"state 1 sign", "state 1 sign")
    found = Fields(
        {memory: lines.rows(memory) for memory in (CHANGEABLE, VOLATILE)},
        lines.field("defaults", "nine numbers", _defaults),
        {place: lines.code(name, _CODE) for name, place in OWN.items()},
        lines.number("short-power-loss-time", _TIME),
        lines.number("time-comm-loss", _TIME),
        lines.number("silent", _LONG),
        lines.put("shown"),
        lines.put("kept"),
        [lines.number(name, _OCTET) for name in ("validate-error", "activate-error", "syntax-error")]
        + [lines.number("syntax-error-position", _TIME)],
        lines.code("accepted-code", _ACTIVATION),
        lines.code("failed-code", _ACTIVATION),
        lines.number("powered", 1) == 1,
    )
    lines.line(b"end", "end and nothing after it")
    if lines.at < len(lines.lines):
        raise Refused(lines.at, "end and nothing after it wanted")
    return found
