"""Datagrams that nobody in order sends, and what each end makes of them: python3 -m trials.hostile hands them to both
ends, and the tester to a sign under test."""

import random
from collections.abc import Iterator, Sequence
from typing import TypeVar

from wisangub.snmp import wire

MOST_DATAGRAM = wire.MOST_DATAGRAM
DMS = (1, 3, 6, 1, 4, 1, 1206, 4, 2, 3)
GET, GET_NEXT, RESPONSE, SET, TRAP = wire.GET, wire.GET_NEXT, wire.RESPONSE, wire.SET, 0xA4
READER, WRITER = b"public", b"admin"
Choice = TypeVar("Choice")
Datagram = tuple[str, bytes]  # the end that it is for, and its octets
Message = tuple[int, bytes, int, int, int, list[wire.Binding]]


# --- what each end makes of a datagram --------------------------------------------------------------------------------


def message_of(octets: bytes) -> Message | None:
    """Kind, community, request number, error-status, error-index and bindings, or None where no message is spelled."""
    message = wire.spelled(octets)
    if message is None:
        return None
    return message.kind, message.community, message.number, message.status, message.index, message.bindings


def is_answered(octets: bytes) -> bool:
    """Whether the bench sign answers: a request of one of its two communities."""
    message = message_of(octets)
    return message is not None and message[0] != RESPONSE and message[1] in (READER, WRITER)


def is_waited_for(octets: bytes, number: int) -> bool:
    """Whether the centre looks at it while it waits for this number."""
    message = message_of(octets)
    return message is not None and message[0] == RESPONSE and message[1] == WRITER and message[2] == number


# what the writer may write: the octets' lengths or the numbers that are in range
NUMBERS: dict[wire.Name, range] = (
    {(4, n): range(10) for n in (1, 2)}
    | {(4, n): range(256) for n in (3, 4, 8, 9)}
    | {
        (4, 5): range(1, 256),
        (4, 6): range(2, 5),
        (4, 7): range(2, 5),
        (6, 4): range(65536),
        (6, 10): range(65536),
        (6, 13): range(65536),
    }
)
LENGTHS: dict[wire.Name, range] = {(6, 3): range(12, 13)} | {(6, n): range(5, 6) for n in (8, 9, 12, 14, 15)}
CELLS = {
    3: (0x04, range(513)),
    4: (0x04, range(128)),
    6: (0x02, range(2)),
    7: (0x02, range(2)),
    8: (0x02, range(1, 256)),
    9: (0x02, range(6, 9)),
}
ROWS = ((3, 1), (3, 2), (4, 1))


def may_be_written(binding: wire.Binding) -> bool:
    """Whether a binding has a value that its object may be written."""
    name, (tag, value) = binding
    if name[: len(DMS)] != DMS:
        return False
    rest = name[len(DMS) :]
    if rest[:-1] in NUMBERS and rest[-1] == 0:
        return tag == 0x02 and value in NUMBERS[rest[:-1]]
    if rest[:-1] in LENGTHS and rest[-1] == 0:
        return tag == 0x04 and len(value) in LENGTHS[rest[:-1]]
    if len(rest) == 7 and rest[:4] == (5, 8, 1, rest[3]) and rest[3] in CELLS and rest[4:] in [(t, n) for t, n in ROWS]:
        return False
    if len(rest) == 6 and rest[:3] == (5, 8, 1) and rest[3] in CELLS and rest[4:] in ROWS:
        wanted, among = CELLS[rest[3]]
        return tag == wanted and (value if tag == 0x02 else len(value)) in among
    return False


def is_in_order(octets: bytes) -> bool:
    """Whether it is a SET of the writer's that the sign need not refuse."""
    message = message_of(octets)
    return message is not None and message[0] == SET and message[1] == WRITER and all(map(may_be_written, message[5]))


# --- making -----------------------------------------------------------------------------------------------------------

BOUNDS = [
    0,
    1,
    -1,
    127,
    128,
    -128,
    -129,
    255,
    256,
    32767,
    32768,
    65535,
    65536,
    2**31 - 1,
    2**31,
    -(2**31),
    -(2**31) - 1,
    2**32 - 1,
    2**32,
    2**63,
    -(2**63),
]
IN_RANGE = [number for number in BOUNDS if -(2**31) <= number < 2**32]
COMMUNITIES = [
    READER,
    WRITER,
    b"",
    b"p",
    b"Admin",
    b"admi",
    b"admin ",
    b"admin\0",
    b"\0",
    b"a" * 32,
    b"a" * 33,
    b"a" * 127,
    b"a" * 128,
    b"a" * 255,
    b"a" * 600,
]
TAGS = [
    0x02,
    0x04,
    0x05,
    0x06,
    0x30,
    0x40,
    0x41,
    0x42,
    0x43,
    0x44,
    0x45,
    0x22,
    0x24,
    0x10,
    0x00,
    0x1F,
    0x5F,
    0xA0,
    0xA1,
    0xA2,
    0xA3,
    0xA4,
    0xA5,
    0xB0,
    0xBF,
    0xFF,
]


class Maker:
    """Makes datagrams, the same for the same seed."""

    def __init__(self, seed: int) -> None:
        self.random = random.Random(seed)
        self.rate = 0.0

    def one(self, choices: Sequence[Choice]) -> Choice:
        return self.random.choice(choices)

    def happens(self) -> bool:
        return self.random.random() < self.rate

    def length(self, size: int) -> bytes:
        if not self.happens():
            if size < 128:
                return bytes([size])
            digits = size.to_bytes((size.bit_length() + 7) // 8, "big")
            return bytes([128 + len(digits)]) + digits
        form = self.random.randrange(6)
        if form == 0:
            count = self.random.randrange(1, 5)
            return bytes([128 + count]) + int(size % 256**count).to_bytes(count, "big")
        if form == 1:
            return self.one(
                [b"\x80", b"\x85\x00\x00\x00\x00\x00", b"\xff", b"\x84\xff\xff\xff\xff", b"\x81", b"\x82\x00"]
            )
        if form == 2:
            return bytes([self.random.randrange(256)])
        return bytes([max(0, min(127, size + self.one([-2, -1, 1, 2, 64])))])

    def element(self, tag: int, content: bytes) -> bytes:
        tag = self.one(TAGS) if self.happens() else tag
        return bytes([tag]) + self.length(len(content)) + content

    def integer(self, number: int, tag: int = 0x02) -> bytes:
        number = self.one(BOUNDS) if self.happens() else number
        content = number.to_bytes((number if number >= 0 else ~number).bit_length() // 8 + 1, "big", signed=True)
        if self.happens():
            content = self.one(
                [b"", b"\0" + content, b"\xff" + content, content[1:], content + b"\0", b"\0" * 5, b"\x80" * 9]
            )
        return self.element(tag, content)

    def name(self, numbers: wire.Name) -> bytes:
        if self.happens():
            numbers = self.one(
                [
                    (1, 3),
                    numbers[:-1] if len(numbers) > 2 else DMS[:-1],
                    numbers + (0,),
                    numbers + (2**32 - 1,),
                    (2, 2**32 - 81),
                    (1, 3) + (1,) * 126,
                    (1, 3) + (1,) * 127,
                    (0, 0),
                    (2, 999),
                    DMS,
                    DMS + (5, 8, 1, 9, 7, 255),
                    DMS + (99, 0),
                ]
            )
        content = wire.name_content(numbers)
        if self.happens():
            content = self.one(
                [
                    b"",
                    b"\x80" + content,
                    content + b"\x80",
                    content + b"\xff" * 5 + b"\x7f",
                    content[:-1] + b"\xff",
                    b"\x90\x80\x80\x80\x00",
                ]
            )
        return self.element(0x06, content)

    def bound(self) -> int:
        return self.one(BOUNDS if self.happens() else IN_RANGE)

    def value(self) -> bytes:
        kind = self.random.randrange(8 if self.rate else 6)
        if kind == 0:
            return self.integer(self.bound())
        if kind == 1:
            return self.element(0x04, self.random.randbytes(self.one([0, 1, 5, 12, 13, 32, 128, 300])))
        if kind == 2:
            return self.name(DMS + (6, 3, 0))
        if kind == 3:
            return self.element(0x44, self.random.randbytes(self.one([0, 7])))
        if kind == 4:
            return self.element(0x40, self.random.randbytes(self.one([0, 3, 5]) if self.happens() else 4))
        if kind == 6:
            return self.integer(self.bound(), self.one([0x41, 0x42, 0x43]))
        if kind == 7:
            inner = b""
            for _ in range(self.one([1, 2, 40, 300])):
                size = bytes([len(inner)]) if len(inner) < 128 else b"\x82" + len(inner).to_bytes(2, "big")
                inner = b"\x30" + size + inner
            return inner
        return self.element(0x05, b"")

    def object(self) -> wire.Name:
        rows = list(ROWS) + [(2, 1), (2, 2), (3, 0), (3, 3), (3, 65535), (5, 1), (7, 255), (7, 256), (9, 1)]
        if self.random.randrange(2):
            return DMS + (5, 8, 1, self.random.randrange(11)) + self.one(rows)
        others = [(2, 3), (5, 1), (5, 9), (6, 6), (6, 17), (6, 24), (6, 11), (7, 1)]
        return DMS + self.one([*NUMBERS, *LENGTHS, *others]) + (0,)

    def message(self, kind: int, number: int) -> bytes:
        """A request or a reply with this number, of which each field may be changed."""
        count = self.one([0, 1, 1, 1, 1, 2, 3])
        bindings = [self.element(0x30, self.name(self.object()) + self.value()) for _ in range(count)]
        if self.happens():
            bindings = (bindings or [self.element(0x30, self.name((1, 3)) + b"\x05\x00")]) * self.one([2, 3, 20])
        listed = self.element(0x30, b"".join(bindings))
        status = self.one([0, 0, 0, 1, 2, 3, 5, 6, -1])
        numbers = self.integer(number) + self.integer(status) + self.integer(self.one([0, 0, 1, 2, 255]))
        pdu = self.element(kind, numbers + listed)
        community = self.one(COMMUNITIES) if self.happens() else self.one([READER, WRITER])
        version = self.integer(0 if not self.happens() else self.one([1, 2, 3]))
        return self.element(0x30, version + self.element(0x04, community) + pdu)

    def changed(self, octets: bytes) -> bytes:
        """The octets with a change of their own: one octet, a cut end, octets after the end, neighbours."""
        if not octets:
            return octets
        at = self.random.randrange(len(octets))
        change = self.random.randrange(9)
        if change == 0:
            return octets[:at] + bytes([self.random.randrange(256)]) + octets[at + 1 :]
        if change == 1:
            return octets[:at] + bytes([octets[at] ^ (1 << self.random.randrange(8))]) + octets[at + 1 :]
        if change == 2:
            return octets[:at]
        if change == 3:
            return octets + self.random.randbytes(self.random.randrange(1, 5))
        if change == 4:
            return octets[:at] + octets[at + 2 :]
        if change == 5:
            return octets[: at + 2] + octets[at:]
        if change == 6:
            return octets[:at] + octets[at : at + 2][::-1] + octets[at + 2 :]
        if change == 7:
            return octets[at:]
        return octets + octets

    def hostile(self, kinds: list[int], number: int) -> bytes:
        """Octets near to a message."""
        draw = self.random.randrange(400)
        if draw == 0:
            return self.random.randbytes(self.one([0, 1, 2, 20, 100]))
        if draw == 1:
            return self.message(self.one(kinds), number).ljust(self.one([MOST_DATAGRAM, MOST_DATAGRAM + 1]), b"\0")
        self.rate = self.one([0.0, 0.0, 0.005, 0.02, 0.1])
        made = self.message(self.one(kinds), number)
        for _ in range(self.one([0, 0, 0, 1, 1, 2])):
            made = self.changed(made)
        return made

    def to_sign(self) -> bytes:
        """A datagram for a sign."""
        while True:
            octets = self.hostile([GET, GET, GET_NEXT, GET_NEXT, SET, SET, SET, RESPONSE, TRAP], self.bound())
            if not is_in_order(octets):
                return octets

    def to_centre(self, waiting: int) -> bytes:
        """A datagram for a central system."""
        while True:
            number = self.one(BOUNDS[:4] + [waiting] * 6 + [waiting + 1, waiting - 1])
            octets = self.hostile([RESPONSE] * 6 + [GET, SET, TRAP], number)
            if not is_waited_for(octets, waiting):
                return octets


def first(kind: int) -> bytes:
    """The publication's first request, dmsMessageStatus.3.1 asked to be modified, and its reply."""
    maker = Maker(0)
    listed = maker.element(0x30, maker.element(0x30, maker.name(DMS + (5, 8, 1, 9, 3, 1)) + maker.integer(6)))
    pdu = maker.element(kind, maker.integer(1) + maker.integer(0) + maker.integer(0) + listed)
    return maker.element(0x30, maker.integer(0) + maker.element(0x04, WRITER) + pdu)


REQUEST, REPLY = first(SET), first(RESPONSE)
assert message_of(REQUEST) is not None and is_in_order(REQUEST) and is_waited_for(REPLY, 1)


def alike(octets: bytes) -> Iterator[bytes]:
    """Every datagram that is near this one."""
    for at, octet in enumerate(octets):
        yield octets[:at]
        for other in range(256):
            if other != octet:
                yield octets[:at] + bytes([other]) + octets[at + 1 :]
    for more in range(1, 5):
        yield octets + bytes(more)
    for at in range(len(octets) - 1):
        first, second = octets[at : at + 1], octets[at + 1 : at + 2]
        yield octets[:at] + octets[at + 2 :]
        yield octets[:at] + first + second + first + second + octets[at + 2 :]
        yield octets[:at] + second + first + octets[at + 2 :]


def near() -> Iterator[Datagram]:
    """Those of the first request to the sign and of its reply to the centre, which waits for number 1."""
    for octets in alike(REQUEST):
        if not is_in_order(octets):
            yield "sign", octets
    for octets in alike(REPLY):
        if not is_waited_for(octets, 1):
            yield "centre", octets


def random_ones(maker: Maker, waiting: int) -> Iterator[Datagram]:
    while True:
        yield ("sign", maker.to_sign()) if maker.random.randrange(2) else ("centre", maker.to_centre(waiting))


def all_to_sign(maker: Maker, count: int) -> Iterator[bytes]:
    """Every datagram near the first request, and so many random ones, those that change the sign too."""
    kinds = [GET, GET, GET_NEXT, GET_NEXT, SET, SET, SET, RESPONSE, TRAP]
    yield from alike(REQUEST)
    for _ in range(count):
        yield maker.hostile(kinds, maker.bound())
