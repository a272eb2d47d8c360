"""Random names and values: those that a sign has, near to them, and others."""

import random

from wisangub.snmp import wire
from wisangub.snmp.names import SCALARS, Memory, scalar
from wisangub.tester.context import ADDRESS, Context
from wisangub.tester.requests.hostile_datagrams import Maker
from wisangub.tester.requests.objects import (
    DEFAULTS,
    OWN_CODES,
    SHOWN_CELLS,
    STATE_SCALARS,
    Binding,
    Name,
    Row,
    Value,
    cell,
    instance,
    integer,
    octets,
    word_of,
)
from wisangub.tester.requests.texts import tags_of

_BOUNDS = [*range(13), 100, 127, 128, 254, 255, 256, 65534, 65535, 65536, -1, 2**31 - 1, 2**32 - 1]
# of the defaults that do not go from 0 to 255; few fonts, so that some are there
_LIMITS = {
    "defaultBackgroundColor": (0, 9),
    "defaultForegroundColor": (0, 9),
    "defaultFont": (0, 4),
    "defaultJustificationLine": (2, 4),
    "defaultJustificationPage": (2, 4),
    "dmsShortPowerLossTime": (0, 65535),
}
_TAGS = [wire.INTEGER, wire.OCTETS, wire.NULL, wire.ADDRESS, wire.COUNTER, wire.OPAQUE, wire.NAME]


class Values:
    """Random names and values about few rows; what a row was last written is known."""

    def __init__(self, context: Context, seed: int) -> None:
        self.context, self.chance = context, random.Random(seed)
        self.maker = Maker(seed)
        changeable = [row for row in context.rows if row.memory == Memory.CHANGEABLE]
        volatile = [row for row in context.rows if row.memory == Memory.VOLATILE]
        self.rows = list(dict.fromkeys([*changeable[:2], *volatile[:1], *changeable[-1:], *volatile[-1:]]))
        self.held: dict[Row, tuple[bytes, int, int]] = {}
        one = context.character()
        bad = [b"[zz]", b"[nl10]", one + b"[", b"[fo255]", one * 200, b"[jl4]" + one + b"[jl2]"]
        good = [
            b"",
            one,
            one * 2,
            one + b"[nl]" + context.character(1),
            one + b"[np]" + one,
            b"[jp2]" + one,
            b"[fl]" + one,
        ]
        self.texts = [text for text in good + bad if not tags_of(text) & context.claims.tags]

    # --- names and values ------------------------------------------------------------------------------------

    def name(self) -> Name:
        """A name to read."""
        draw = self.chance.random()
        if draw < 0.45:
            return self.chance.choice(STATE_SCALARS)
        if draw < 0.55:
            return self.chance.choice(SHOWN_CELLS)
        if draw < 0.85 and self.rows:
            return self.chance.choice(self.rows).cell(self.chance.randint(1, 9))
        if draw < 0.93:
            return instance(*self.chance.choice(list(SCALARS)))
        near = self.chance.choice(
            [
                cell(self.chance.randint(0, 10), self.chance.randint(1, 8), self.chance.choice([0, 1, 2, 255, 256])),
                instance(self.chance.randint(1, 7), self.chance.randint(0, 25)),
                scalar("defaultBackgroundColor")[:-1],
                scalar("dmsActivateMessage") + (1,),
            ]
        )
        return near

    def wild(self) -> Value:
        """A value of any type."""
        tag = self.chance.choice(_TAGS)
        if tag == wire.INTEGER:
            return integer(self.chance.choice(_BOUNDS))
        if tag == wire.COUNTER:
            return tag, self.chance.choice([0, 1, 255])
        if tag == wire.NAME:
            return tag, (1, 3, 6)
        return tag, b"" if tag == wire.NULL else self.chance.randbytes(
            4 if tag == wire.ADDRESS else self.chance.choice([0, 1, 5, 12])
        )

    def setting(self) -> Binding:
        """A scalar that may be written, with a value that may fit."""
        name = self.chance.choice([*DEFAULTS, *OWN_CODES, scalar("dmsShortPowerLossTime")])
        if self.chance.random() < 0.08:
            return name, self.wild()
        if name in OWN_CODES:
            return name, octets(self.message_code())
        least, most = _LIMITS.get(word_of(name), (0, 255))
        return name, integer(self.chance.choice([least, most, self.chance.randint(least, most), most + 1]))

    def field(self, row: Row) -> Binding:
        """A field of a row, with a value that may fit."""
        draw = self.chance.random()
        text, beacon, pixel = self.held.get(row, (b"", 0, 0))
        if draw < 0.5:
            text = self.chance.choice(self.texts)
            bound = row.text(text)
        elif draw < 0.6:
            bound = row.owner(self.chance.choice([b"", b"me", b"o" * 127, b"o" * 128]))
        elif draw < 0.75:
            beacon = self.chance.choice([0, 1, 1, 2])
            bound = row.beacon(beacon)
        elif draw < 0.85:
            pixel = self.chance.choice([0, 0, 1, 2])
            bound = row.pixel(pixel)
        elif draw < 0.97:
            bound = row.priority(self.chance.choice([0, 1, 2, 100, 255, 256]))
        else:
            return row.cell(self.chance.choice([3, 4, 6, 7, 8])), self.wild()
        self.held[row] = (text, min(beacon, 1), min(pixel, 1))
        return bound

    def target(self) -> tuple[Row, int]:
        """A row to activate, and the checksum that it may have."""
        draw = self.chance.random()
        if draw < 0.45 and self.rows:
            row = self.chance.choice(self.rows)
            return row, self.context.crc(*self.held.get(row, (b"", 0, 0)))
        if draw < 0.65 or not self.context.permanent:
            return Row(Memory.BLANK, self.chance.choice([1, 2, 100, 254, 255, 0, 256])), self.chance.choice([0, 5])
        if draw < 0.85:
            at = self.chance.randrange(len(self.context.permanent))
            held = self.context.described.permanent[at]
            return self.context.permanent[at], self.context.crc(held.text, held.beacon, held.pixel)
        if draw < 0.95:
            held_text = self.held.get(self.chance.choice(self.rows), (b"", 0, 0)) if self.rows else (b"", 0, 0)
            return Row(Memory.CURRENT, 1), self.chance.choice([0, self.context.crc(*held_text)])
        return Row(self.chance.choice([0, 1, 6, 8]), 1), 0

    def message_code(self) -> bytes:
        """A code of five octets."""
        row, crc = self.target()
        return self.context.message_code(row, crc)

    def code(self) -> bytes:
        """A code of an activation, of twelve octets."""
        row, crc = self.target()
        if self.chance.random() < 0.1:
            crc ^= 1 << self.chance.randrange(16)
        priority = self.chance.choice([255, 255, 255, 200, 100, 99, 1, 0])
        minutes = self.chance.choice([65535] * 4 + [0, 1, 2, 65534])
        return self.context.code(row, crc, priority, minutes, self.chance.choice([ADDRESS, bytes(4)]))
