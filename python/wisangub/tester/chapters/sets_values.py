"""SET: ranges of each object, one past each end, and types."""

from typing import Iterator

from wisangub.snmp import wire
from wisangub.snmp.names import SCALARS, Memory, scalar
from wisangub.tester.context import Context
from wisangub.tester.requests.objects import (
    COMMANDS,
    DEFAULTS,
    NULL,
    OWN_CODES,
    RANGES,
    Binding,
    Column,
    Name,
    Row,
    Value,
    integer,
    octets,
)
from wisangub.tester.requests.steps import put

from .block import Block, alone, look, look_at, modify

# numbers that a SET writes alone; the minutes that are left are commanded
NUMBERS = [word for word in RANGES if word in SCALARS.values() and word not in COMMANDS]
_CELLS = {Column.BEACON: "dmsMessageBeacon", Column.PIXEL_SERVICE: "dmsMessagePixelService"}
_CELLS |= {Column.PRIORITY: "dmsMessageRunTimePriority"}
_OTHER_TYPES: list[Value] = [
    octets(b"\3"),
    octets(b""),
    NULL,
    (wire.GAUGE, 3),
    (wire.COUNTER, 3),
    (wire.TICKS, 3),
    (wire.OPAQUE, b"\3"),
    (wire.ADDRESS, b"\0\0\0\3"),
    (wire.NAME, (1, 3)),
]


def _around(name: Name, least: int, most: int) -> list[Binding]:
    """Values at each end and one past it, and some far away."""
    return [
        (name, integer(value))
        for value in (
            least,
            most,
            least - 1,
            most + 1,
            -1,
            2**31 - 1,
            2**31,
            2**32 - 1,
            -(2**31),
            most + 256,
            most + 65536,
        )
    ]


def numbers_of(context: Context) -> list[tuple[Name, int, int]]:
    """The scalars that hold numbers, with what they take."""
    return [(scalar(word), *context.claims.range_of(word)) for word in NUMBERS]


def other_values(context: Context) -> list[Binding]:
    """Each of these, and each code that the sign activates itself, with another value than in the known state."""
    held = dict(zip(DEFAULTS, context.defaults))
    numbers = [(name, most if least == held.get(name, 0) else least) for name, least, most in numbers_of(context)]
    codes = [(name, octets(context.message_code(Row(Memory.BLANK, name[-2]), 0))) for name in OWN_CODES]
    return [*[(name, integer(value)) for name, value in numbers], *codes]


def scalars(context: Context) -> Iterator[Block]:
    """Cases of each scalar's range and types."""
    for name, least, most in numbers_of(context):
        yield Block(
            "ranges", "ranges", [step for bound in _around(name, least, most) for step in (put(bound), look_at(name))]
        )
    fonts = {font.number for font in context.described.face.fonts}
    numbers = [0, 1, 255, 256, -1, *sorted(fonts), *[number for number in range(1, 7) if number not in fonts]]
    yield Block(
        "the default font",
        "default font",
        [
            step
            for number in numbers
            for step in (put((scalar("defaultFont"), integer(number))), look_at(scalar("defaultFont")))
        ],
    )
    for name in [*map(scalar, NUMBERS), scalar("defaultFont"), scalar("dmsMessageTimeRemaining")]:
        yield Block("types", "bad value", alone([(name, value) for value in _OTHER_TYPES]))
    yield Block("after that", "bad value", look())
    for name in OWN_CODES:
        good: list[Binding] = [(name, octets(code)) for code in (b"\7\0\2\0\0", bytes(5), b"\xff" * 5, b"\3\0\1\1\2")]
        bad: list[Binding] = [
            (name, value)
            for value in (octets(bytes(4)), octets(bytes(6)), octets(b""), integer(7), (wire.OPAQUE, bytes(5)))
        ]
        yield Block("own codes", "own codes", [step for bound in good for step in (put(bound), look_at(name))])
        yield Block("lengths of own codes", "bad value", [*alone(bad), look_at(name)])
    lengths = [octets(bytes(size)) for size in (0, 11, 13)] + [integer(1), (wire.OPAQUE, bytes(12))]
    yield Block(
        "lengths of activation codes",
        "bad value",
        [*alone([(scalar("dmsActivateMessage"), value) for value in lengths]), *look()],
    )
    yield Block(
        "minutes out of range",
        "ranges",
        [*alone([(scalar("dmsMessageTimeRemaining"), integer(value)) for value in (-1, 65536, 2**32 - 1)]), *look()],
    )


def cells(context: Context, row: Row) -> Iterator[Block]:
    """Cases of the range and types of a row's fields."""
    bounds = [
        bound for column, word in _CELLS.items() for bound in _around(row.cell(column), *context.claims.range_of(word))
    ]
    yield Block(
        "ranges of fields",
        "ranges",
        [modify(row), *[step for bound in bounds for step in (put(bound), look_at(bound[0]))]],
        True,
    )
    texts: list[Binding] = [(row.cell(Column.TEXT), octets(b"A" * size)) for size in (0, 1, 512, 513, 514, 700)]
    owners: list[Binding] = [(row.cell(Column.OWNER), octets(b"A" * size)) for size in (0, 127, 128, 129, 255, 256)]
    yield Block(
        "lengths of fields",
        "ranges",
        [modify(row), *[step for bound in texts + owners for step in (put(bound), look_at(bound[0]))]],
        True,
    )
    any_octets: list[Binding] = [(row.cell(column), octets(bytes([0, 1, 128, 255, 10, 13]))) for column in (3, 4)]
    yield Block("any octets", "set", [modify(row), put(*any_octets), *look(row)], True)
    types = [
        (row.cell(column), value)
        for column in (3, 4, 6, 7, 8, 9)
        for value in _OTHER_TYPES
        if column not in (3, 4) or value[0] != wire.OCTETS
    ]
    yield Block(
        "types of fields",
        "bad value",
        [modify(row), *alone(types), put((row.cell(Column.TEXT), integer(1))), *look(row)],
        True,
    )
    out: list[Binding] = [row.text(b"A" * 513), row.owner(b"A" * 128), row.beacon(2), row.pixel(2), row.priority(0)]
    out += [
        row.priority(256),
        (row.cell(Column.TEXT), integer(1)),
        (row.cell(Column.OWNER), integer(1)),
        (row.cell(Column.PRIORITY), octets(b"1")),
    ]
    yield Block("bad values of a row that is not modifying", "order of causes", [*alone(out), *look(row)], True)
    asked = [row.status(value) for value in (0, 1, 2, 3, 4, 5, 9, 10, -1, 256 + 6)]
    yield Block("what a row is asked", "ranges", [*alone(asked), *look(row)], True)
