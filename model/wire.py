"""Datagrams: BER elements and SNMPv1 messages, read with their first fault and written in their shortest form."""

from collections.abc import Collection
from dataclasses import dataclass, field
from typing import Any

MOST_DATAGRAM = 1472
GET, GET_NEXT, RESPONSE, SET = 0xA0, 0xA1, 0xA2, 0xA3
INTEGER, OCTETS, NULL, NAME, SEQUENCE, ADDRESS, COUNTER, GAUGE, TICKS, OPAQUE = (
    0x02,
    0x04,
    0x05,
    0x06,
    0x30,
    0x40,
    0x41,
    0x42,
    0x43,
    0x44,
)
VALUES = (INTEGER, OCTETS, NULL, NAME, ADDRESS, COUNTER, GAUGE, TICKS, OPAQUE)
NO_ERROR, TOO_BIG, NO_SUCH_NAME, BAD_VALUE, GENERAL = 0, 1, 2, 3, 5
Name = tuple[int, ...]
Tagged = tuple[int, Any]  # a tag, and the number, the octets or the name that it tells of
Binding = tuple[Name, Tagged]


class Fault(Exception):
    """Why octets spell no message: the kind of the first fault and its offset."""

    def __init__(self, kind: str, offset: int) -> None:
        super().__init__(f"{kind} at {offset}")
        self.kind, self.offset = kind, offset


@dataclass
class Message:
    """An SNMPv1 message, its version left out."""

    kind: int
    community: bytes
    number: int
    status: int = 0
    index: int = 0
    bindings: list[Binding] = field(default_factory=list)


class _Reader:
    """The octets of a datagram from `at` on, up to the end of the element around them."""

    def __init__(self, octets: bytes, at: int, end: int) -> None:
        self.octets, self.at, self.end = octets, at, end

    def element(self, tags: Collection[int], outermost: bool = False) -> tuple[int, "_Reader"]:
        """The tag, the offset of the length and a reader of the content; the octets after it are next."""
        if self.at >= self.end:
            raise Fault("Truncated", self.end)
        tag = self.octets[self.at]
        if tag not in tags:
            raise Fault("BadTag", self.at)
        length_at = self.at + 1
        if length_at >= self.end:
            raise Fault("Truncated", self.end)
        size, after = self.octets[length_at], length_at + 1
        if size >= 128:
            digits = size - 128
            if not 1 <= digits <= 4:
                raise Fault("BadLength", length_at)
            if after + digits > self.end:
                raise Fault("Truncated", self.end)
            size = int.from_bytes(self.octets[after : after + digits], "big")
            after += digits
        if after + size > self.end:
            raise Fault("Truncated", self.end) if outermost else Fault("LengthPast", length_at)
        if tag == NULL and size != 0 or tag == ADDRESS and size != 4:
            raise Fault("BadLength", length_at)
        self.at = after + size
        return tag, _Reader(self.octets, after, after + size)

    def content(self) -> bytes:
        return self.octets[self.at : self.end]

    def integer(self, least: int = -(2**31)) -> int:
        content = self.content()
        if not content or len(content) > 1 and (content[0], content[1] >> 7) in ((0, 0), (255, 1)):
            raise Fault("BadInteger", self.at)
        number = int.from_bytes(content, "big", signed=True)
        if not least <= number < 2**32:
            raise Fault("BadInteger", self.at)
        return number

    def name(self) -> Name:
        numbers, number, begun = [], 0, False
        for octet in self.content():
            if not begun and octet == 128:
                raise Fault("BadName", self.at)
            number, begun = number * 128 + octet % 128, octet >= 128
            if number >= 2**32:
                raise Fault("BadName", self.at)
            if not begun:
                numbers.append(number)
                number = 0
        if begun or not 1 <= len(numbers) <= 127:
            raise Fault("BadName", self.at)
        first = min(numbers[0] // 40, 2)
        return (first, numbers[0] - 40 * first, *numbers[1:])

    def value(self) -> Tagged:
        tag, content = self.element(VALUES)
        if tag == INTEGER:
            return tag, content.integer()
        if tag in (COUNTER, GAUGE, TICKS):
            return tag, content.integer(0)
        if tag == NAME:
            return tag, content.name()
        return tag, bytes(content.content())

    def ended(self) -> None:
        if self.at < self.end:
            raise Fault("TrailingBytes", self.at)


def read(octets: bytes) -> Message:
    """The message that the octets spell; raises the first fault."""
    if len(octets) > MOST_DATAGRAM:
        raise Fault("TooLong", MOST_DATAGRAM)
    datagram = _Reader(octets, 0, len(octets))
    _, message = datagram.element((SEQUENCE,), outermost=True)
    _, version = message.element((INTEGER,))
    if version.integer() != 0:
        raise Fault("BadVersion", version.at)
    _, community = message.element((OCTETS,))
    kind, pdu = message.element((GET, GET_NEXT, RESPONSE, SET))
    numbers = []
    for _ in range(3):
        _, content = pdu.element((INTEGER,))
        numbers.append(content.integer())
    _, listed = pdu.element((SEQUENCE,))
    bindings = []
    while listed.at < listed.end:
        _, binding = listed.element((SEQUENCE,))
        _, name = binding.element((NAME,))
        numbers_of_name = name.name()
        bindings.append((numbers_of_name, binding.value()))
        binding.ended()
    pdu.ended()
    message.ended()
    datagram.ended()
    number, status, index = numbers
    return Message(kind, bytes(community.content()), number, status, index, bindings)


def spelled(octets: bytes) -> Message | None:
    """The message, or None where the octets spell none."""
    try:
        return read(octets)
    except Fault:
        return None


def element(tag: int, content: bytes) -> bytes:
    """An element with the shortest length."""
    size = len(content)
    if size < 128:
        return bytes([tag, size]) + content
    digits = size.to_bytes((size.bit_length() + 7) // 8, "big")
    return bytes([tag, 128 + len(digits)]) + digits + content


def integer(number: int, tag: int = INTEGER) -> bytes:
    """An INTEGER in its fewest octets."""
    return element(tag, number.to_bytes((number if number >= 0 else ~number).bit_length() // 8 + 1, "big", signed=True))


def _name_content(numbers: Name) -> bytes:
    content = b""
    for number in (40 * numbers[0] + numbers[1], *numbers[2:]):
        digits = [number % 128]
        while number >= 128:
            number //= 128
            digits.insert(0, 128 + number % 128)
        content += bytes(digits)
    return content


def name(numbers: Name) -> bytes:
    """An OBJECT IDENTIFIER."""
    return element(NAME, _name_content(numbers))


def value(tagged: Tagged) -> bytes:
    """A value with its tag."""
    tag, held = tagged
    if tag in (INTEGER, COUNTER, GAUGE, TICKS):
        return integer(held, tag)
    if tag == NAME:
        return name(held)
    return element(tag, held)


def binding(bound: Binding) -> bytes:
    """A name and its value."""
    return element(SEQUENCE, name(bound[0]) + value(bound[1]))


def written(message: Message) -> bytes:
    """The canonical octets; more than a datagram where they are too big."""
    listed = element(SEQUENCE, b"".join(map(binding, message.bindings)))
    pdu = element(message.kind, integer(message.number) + integer(message.status) + integer(message.index) + listed)
    return element(SEQUENCE, integer(0) + element(OCTETS, message.community) + pdu)
