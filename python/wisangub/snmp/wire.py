"""The one codec of what is shipped: BER elements and messages of SNMPv1 (X.690, RFC 1157).

They are read with their first fault, as docs/PROFILE.md has it, and written in their shortest form.
"""

import functools
import re
from collections.abc import Collection, Iterable, Iterator
from dataclasses import dataclass, field
from typing import Any

from .gets import MOST_DATAGRAM as MOST_DATAGRAM

_MOST_DIGITS = 4  # octets of a length after the first
_SHORT = 128  # lengths and numbers of a name below it take one octet
INTEGER, OCTETS, NULL, NAME, SEQUENCE = 0x02, 0x04, 0x05, 0x06, 0x30
ADDRESS, COUNTER, GAUGE, TICKS, OPAQUE = 0x40, 0x41, 0x42, 0x43, 0x44
_COUNTED = (COUNTER, GAUGE, TICKS)
VALUES = (INTEGER, OCTETS, NULL, NAME, ADDRESS, *_COUNTED, OPAQUE)
_KINDS = (GET, GET_NEXT, RESPONSE, SET) = (0xA0, 0xA1, 0xA2, 0xA3)
NO_ERROR, TOO_BIG, NO_SUCH_NAME, BAD_VALUE, _READ_ONLY, GENERAL = range(6)
_SIZES = {NULL: 0, ADDRESS: 4}  # of contents that have one size
# a name's numbers below 2^32, each in its fewest octets, 1 to 127 of them
NAMES = re.compile(
    rb"(?:[\x00-\x7f]|[\x81-\xff][\x80-\xff]{0,2}[\x00-\x7f]|[\x81-\x8f][\x80-\xff]{3}[\x00-\x7f]){1,127}"
)
_NUMBERS = re.compile(rb"[\x80-\xff]*[\x00-\x7f]")
_Place = tuple[int, int]  # where a content begins and ends
Name = tuple[int, ...]
Tagged = tuple[int, Any]  # a tag, and the number, the octets or the name that it tells of
Binding = tuple[Name, Tagged]


class Fault(Exception):
    """Why octets spell no message: the kind of the first fault and its offset."""

    def __init__(self, kind: str, offset: int) -> None:
        super().__init__(f"{kind} at {offset}")
        self.kind, self.offset = kind, offset


@dataclass
class Message:
    """A request or a Response: its PDU's tag, community, request's number, error-status, error-index and bindings."""

    kind: int
    community: bytes
    number: int
    status: int = 0
    index: int = 0
    bindings: list[Binding] = field(default_factory=list)


# --- reading ----------------------------------------------------------------------------------------------------------


def content(octets: bytes, at: int, end: int, tags: Collection[int], is_outermost: bool = False) -> _Place:
    """The content of the element at `at` that has one of these tags, within one that ends at `end`."""
    if at >= end:
        raise Fault("Truncated", end)
    if octets[at] not in tags:
        raise Fault("BadTag", at)
    if at + 1 >= end:
        raise Fault("Truncated", end)
    size, begin = octets[at + 1], at + 2
    if size >= _SHORT:
        digits = size - _SHORT
        if not 1 <= digits <= _MOST_DIGITS:
            raise Fault("BadLength", at + 1)
        if begin + digits > end:
            raise Fault("Truncated", end)
        begin, size = begin + digits, int.from_bytes(octets[begin : begin + digits], "big")
    if begin + size > end:
        raise Fault("Truncated", end) if is_outermost else Fault("LengthPast", at + 1)
    if _SIZES.get(octets[at], size) != size:
        raise Fault("BadLength", at + 1)
    return begin, begin + size


def _integer_of(octets: bytes, begin: int, end: int, least: int = -(2**31)) -> int:
    """The number of a content, in its fewest octets, from `least` to 2^32 - 1."""
    if begin == end or end - begin > 1 and (octets[begin], octets[begin + 1] >> 7) in ((0, 0), (255, 1)):
        raise Fault("BadInteger", begin)
    number = int.from_bytes(octets[begin:end], "big", signed=True)
    if not least <= number < 2**32:
        raise Fault("BadInteger", begin)
    return number


def _number_of(octets: bytes) -> int:
    """The number that octets spell, seven bits in each."""
    number = 0
    for octet in octets:
        number = _SHORT * number + octet % _SHORT
    return number


@functools.lru_cache(maxsize=4096)
def _numbers_of(held: bytes) -> Name | None:
    """The numbers of a name's content, the first two of which stand in one; None where it spells no name."""
    if not NAMES.fullmatch(held):
        return None
    first, *rest = map(_number_of, _NUMBERS.findall(held))
    root = min(first // 40, 2)
    return (root, first - 40 * root, *rest)


def _name_of(octets: bytes, begin: int, end: int) -> Name:
    """The name of a content."""
    numbers = _numbers_of(bytes(octets[begin:end]))
    if numbers is None:
        raise Fault("BadName", begin)
    return numbers


def _value_at(octets: bytes, at: int, end: int) -> tuple[Tagged, int]:
    """The value of a binding that begins there, and where it ends."""
    begin, after = content(octets, at, end, VALUES)
    tag = octets[at]
    if tag == INTEGER:
        return (tag, _integer_of(octets, begin, after)), after
    if tag in _COUNTED:
        return (tag, _integer_of(octets, begin, after, 0)), after
    if tag == NAME:
        return (tag, _name_of(octets, begin, after)), after
    return (tag, bytes(octets[begin:after])), after


def _bindings_of(octets: bytes, at: int, end: int) -> Iterator[Binding]:
    """The bindings of a list's content."""
    while at < end:
        begin, at = content(octets, at, end, (SEQUENCE,))
        named, after = content(octets, begin, at, (NAME,))
        numbers = _name_of(octets, named, after)
        held, after = _value_at(octets, after, at)
        _ended(after, at)
        yield numbers, held


def _ended(at: int, end: int) -> None:
    """Nothing comes after the last member of an element."""
    if at < end:
        raise Fault("TrailingBytes", at)


def read(octets: bytes) -> Message:
    """The message that the octets spell; raises the first fault."""
    size = len(octets)
    if size > MOST_DATAGRAM:
        raise Fault("TooLong", MOST_DATAGRAM)
    at, message = content(octets, 0, size, (SEQUENCE,), is_outermost=True)
    version, at = content(octets, at, message, (INTEGER,))
    if _integer_of(octets, version, at) != 0:
        raise Fault("BadVersion", version)
    community, after = content(octets, at, message, (OCTETS,))
    at, pdu = content(octets, after, message, _KINDS)
    numbers = []
    for _ in range(3):
        begin, at = content(octets, at, pdu, (INTEGER,))
        numbers.append(_integer_of(octets, begin, at))
    at, listed = content(octets, at, pdu, (SEQUENCE,))
    bindings = list(_bindings_of(octets, at, listed))
    _ended(listed, pdu)
    _ended(pdu, message)
    _ended(message, size)
    return Message(octets[after], bytes(octets[community:after]), numbers[0], numbers[1], numbers[2], bindings)


def spelled(octets: bytes) -> Message | None:
    """The message, or None where the octets spell none."""
    try:
        return read(octets)
    except Fault:
        return None


# --- writing ----------------------------------------------------------------------------------------------------------


def element(tag: int, *contents: bytes) -> bytes:
    """A tag, the size of what is in it, and that."""
    held = b"".join(contents)
    size = len(held)
    if size < _SHORT:
        return bytes((tag, size)) + held
    digits = size.to_bytes((size.bit_length() + 7) // 8, "big")
    return bytes((tag, _SHORT | len(digits))) + digits + held


def integer(number: int, tag: int = INTEGER) -> bytes:
    """An INTEGER, or what is written like one: as few octets as hold it with its sign."""
    magnitude = number if number >= 0 else -number - 1
    return element(tag, number.to_bytes(magnitude.bit_length() // 8 + 1, "big", signed=True))


def _arc(number: int) -> bytes:
    """A number of a name: seven bits an octet, all but the last of them marked."""
    octets = [number & 0x7F]
    while number := number >> 7:
        octets.append(_SHORT | number & 0x7F)
    return bytes(reversed(octets))


@functools.lru_cache(maxsize=4096)
def name_content(numbers: Name) -> bytes:
    """The content of an OBJECT IDENTIFIER, whose first two numbers stand in one."""
    return b"".join(map(_arc, (40 * numbers[0] + numbers[1], *numbers[2:])))


def name(numbers: Name) -> bytes:
    """An OBJECT IDENTIFIER."""
    return element(NAME, name_content(numbers))


def value(tagged: Tagged) -> bytes:
    """A value with its tag."""
    tag, held = tagged
    if tag == INTEGER or tag in _COUNTED:
        return integer(held, tag)
    return name(held) if tag == NAME else element(tag, held)


def binding(bound: Binding) -> bytes:
    """A name and its value."""
    return element(SEQUENCE, name(bound[0]), value(bound[1]))


def written(message: Message) -> bytes:
    """The octets of a message in its shortest form; more than a datagram has where it is too big."""
    return _written(message, element(SEQUENCE, *map(binding, message.bindings)))


def _written(message: Message, listed: bytes) -> bytes:
    """The octets of a message with this list of bindings."""
    numbers = map(integer, (message.number, message.status, message.index))
    pdu = element(message.kind, *numbers, listed)
    return element(SEQUENCE, integer(0), element(OCTETS, message.community), pdu)


@functools.lru_cache(maxsize=512)
def _asked(names: tuple[Name, ...]) -> bytes:
    """The list of bindings that asks for these names."""
    return element(SEQUENCE, *(binding((one, (NULL, b""))) for one in names))


def get(community: bytes, number: int, names: Iterable[Name]) -> bytes:
    """The octets of a Get of these names under a request's number."""
    return _written(Message(GET, community, number), _asked(tuple(names)))
