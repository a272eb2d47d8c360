"""What the chapters know of the sign: its description, its rows, its texts, and how codes are spelled."""

import copy
import functools
from dataclasses import dataclass, field

from wisangub.snmp.names import COLUMNS, SCALARS, Memory, scalar

from .requests.checksum import checksum
from .requests.objects import Binding, Name, Row, Value, instance, octets
from .requests.steps import Ask, put
from .sign.claims import Claims
from .sign.described import Description
from .sign.judge import Judge

ADDRESS = bytes([192, 0, 2, 1])
_NOBODY = bytes(4)
_NO_END = 65535  # minutes


@dataclass(eq=False)
class Context:
    """The sign as the chapters know it. `seed` and `requests` are of the random ones."""

    described: Description
    communities: tuple[bytes, bytes]
    judge: Judge
    seed: int = 1
    requests: int = 2000
    is_slow: bool = False
    claims: Claims = field(default_factory=Claims)
    texts: int | None = None  # how many texts are sent, where that is said
    device: dict[Name, Value] = field(default_factory=dict)  # what the sign's own objects read before they were set

    def with_seed(self, seed: int, requests: int) -> "Context":
        """The same with other random requests."""
        other = copy.copy(self)
        other.seed, other.requests = seed, requests
        return other

    @functools.cached_property
    def rows(self) -> list[Row]:
        """The rows that may be written."""
        changeable = [Row(Memory.CHANGEABLE, number + 1) for number in range(self.described.changeable)]
        return changeable + [Row(Memory.VOLATILE, number + 1) for number in range(self.described.volatile)]

    @functools.cached_property
    def outermost(self) -> list[Row]:
        """The first and the last row of each memory that may be written."""
        memories = [[row for row in self.rows if row.memory == memory] for memory in (3, 4)]
        return list(dict.fromkeys(row for rows in memories for row in (*rows[:1], *rows[-1:])))

    @functools.cached_property
    def permanent(self) -> list[Row]:
        """The permanent rows."""
        return [Row(Memory.PERMANENT, number + 1) for number in range(len(self.described.permanent))]

    @property
    def beyond(self) -> list[tuple[int, int]]:
        """Rows that the sign has not, by one, of those memories whose rows are counted."""
        described = self.described
        return [
            (2, 0),
            (2, len(described.permanent) + 1),
            (3, 0),
            (3, described.changeable + 1),
            (4, 0),
            (4, described.volatile + 1),
            (5, 0),
            (5, 2),
        ]

    @property
    def defaults(self) -> tuple[int, ...]:
        """The nine defaults of the description."""
        return self.described.face.defaults

    @functools.cached_property
    def characters(self) -> list[bytes]:
        """Texts of one character that fit under the defaults, those that are seen first, and the narrowest."""
        font = self.described.face.known_font(self.defaults[4])
        found = sorted(
            (not glyph.is_lit, glyph.width, number)
            for number, glyph in font.glyphs.items()
            if number < 256 and number not in b"[]"
        )
        texts = [bytes([number]) for _, _, number in found]
        return [text for text in texts if self.fault(text) is None]

    def character(self, at: int = 0) -> bytes:
        """A character that fits; nothing where the sign has none."""
        return self.characters[at % len(self.characters)] if self.characters else b""

    def fault(self, text: bytes, defaults: tuple[int, ...] | None = None) -> tuple[int, int] | None:
        """The fault of a text on this sign, under its defaults or others."""
        return self.judge.fault(text, defaults or self.defaults)

    def crc(self, text: bytes, beacon: int = 0, pixel: int = 0) -> int:
        """The checksum of a message, of 16 bits."""
        return checksum(text, beacon, pixel)

    def code(self, row: Row, crc: int, priority: int = 255, minutes: int = _NO_END, address: bytes = ADDRESS) -> bytes:
        """The code of an activation, of twelve octets."""
        return minutes.to_bytes(2, "big") + bytes([priority]) + self.message_code(row, crc) + address

    def blank_code(
        self, number: int = 1, priority: int = 255, minutes: int = _NO_END, address: bytes = ADDRESS
    ) -> bytes:
        """The code of the activation of a blank message."""
        return self.code(Row(Memory.BLANK, number), 0, priority, minutes, address)

    def message_code(self, row: Row, crc: int) -> bytes:
        """The code of five octets."""
        spelled = crc.to_bytes(2, "little" if self.described.swapped else "big")
        return bytes([row.memory]) + row.number.to_bytes(2, "big") + spelled

    @property
    def blank(self) -> bytes:
        """The code of blank message 1, of five octets."""
        return self.message_code(Row(Memory.BLANK, 1), 0)

    @functools.cached_property
    def instances(self) -> list[Name]:
        """The names of all that the sign claims to have, in order."""
        return [name for name in self.all_instances if not self.claims.is_missing(name)]

    @functools.cached_property
    def all_instances(self) -> list[Name]:
        """The names of all that a sign of the profile has with these rows, in order."""
        rows = [
            *self.permanent,
            *self.rows,
            Row(Memory.CURRENT, 1),
            *[Row(Memory.BLANK, number) for number in range(1, 256)],
        ]
        names = [*(instance(*place) for place in SCALARS), *(row.cell(column) for row in rows for column in COLUMNS)]
        return sorted(names)

    @property
    def known_code(self) -> bytes:
        """What is activated in the known state: blank message 1."""
        return self.blank_code(address=_NOBODY)

    @property
    def refused_code(self) -> bytes:
        """The code that is refused last in the known state: no type of memory."""
        return bytes(12)


def activate(code: bytes, rule: str = "") -> Ask:
    """A SET of dmsActivateMessage."""
    return put(activation(code), rule=rule)


def activation(code: bytes) -> Binding:
    """The binding of an activation."""
    return scalar("dmsActivateMessage"), octets(code)


def remaining(minutes: int) -> Binding:
    """The binding of dmsMessageTimeRemaining."""
    return scalar("dmsMessageTimeRemaining"), (2, minutes)
