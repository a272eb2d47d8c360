"""Datagrams: what each spells, or its first fault."""

from collections.abc import Iterable, Iterator

from model import wire
from wisangub.snmp.names import KINDS, TYPES

from .messages import GET_STATUS, NULL, Case, cell, request

_Named = tuple[str, bytes]


def _around(parts: Iterable[bytes], outer: int = 0x30) -> bytes:
    return wire.element(outer, b"".join(parts))


def _get_with(
    version: bytes = b"\2\1\0",
    community: bytes = b"\4\6public",
    number: bytes = b"\2\1\1",
    status: bytes = b"\2\1\0",
    index: bytes = b"\2\1\0",
    name: bytes | None = None,
    value: bytes = b"\5\0",
    kind: int = wire.GET,
    more: bytes = b"",
) -> bytes:
    """A Get of dmsMessageStatus.3.1 that has these elements."""
    name = wire.name(cell("dmsMessageStatus")) if name is None else name
    pdu = wire.element(kind, number + status + index + _around([_around([name, value])]))
    return _around([version, community, pdu + more])


def _get_of(listed: bytes) -> bytes:
    """A Get whose list of bindings has these octets."""
    return _around([b"\2\1\0", b"\4\6public", wire.element(0xA0, b"\2\1\1\2\1\0\2\1\0" + _around([listed]))])


def _long_form(octets: bytes, digits: int) -> bytes:
    """An element whose length has so many octets."""
    size = octets[1]
    return octets[:1] + bytes([128 + digits]) + size.to_bytes(digits, "big") + octets[2:]


def _lengths() -> Iterator[_Named]:
    yield "a Get of dmsMessageStatus.3.1", GET_STATUS
    for size in range(len(GET_STATUS)):
        yield f"the first {size} octets of that Get", GET_STATUS[:size]
    for more in range(1, 5):
        yield f"that Get and {more} octets after it", GET_STATUS + bytes(more)
    for digits in range(1, 5):
        yield f"the outer length in {digits} octets", _long_form(GET_STATUS, digits)
        yield f"the version's length in {digits} octets", _get_with(version=_long_form(b"\2\1\0", digits))
        yield f"the community's length in {digits} octets", _get_with(community=_long_form(b"\4\6public", digits))
        yield f"the value's length in {digits} octets", _get_with(value=_long_form(b"\5\0", digits))
    for octet, words in ((0x80, "without an end"), (0x85, "of five octets"), (0xFF, "of 127 octets")):
        yield f"an outer length {words}", bytes([0x30, octet]) + GET_STATUS[2:]
        yield f"a community whose length is {words}", _get_with(community=bytes([4, octet]) + b"public")
    yield "an outer length of more than there is", b"\x30\x84\xff\xff\xff\xff"
    yield "a community that passes its message", _get_with(community=b"\4\x7fpublic")


def tags() -> Iterator[_Named]:
    for tag in (0x02, 0x04, 0x31, 0x10, 0xA0):
        yield f"an outer tag of {tag:#04x}", bytes([tag]) + GET_STATUS[1:]
    for tag in (0x04, 0x0A, 0x22, 0x82):
        yield f"a version with the tag {tag:#04x}", _get_with(version=bytes([tag, 1, 0]))
        yield f"a request-id with the tag {tag:#04x}", _get_with(number=bytes([tag, 1, 1]))
    for tag in (0x02, 0x05, 0x24, 0x40):
        yield f"a community with the tag {tag:#04x}", _get_with(community=bytes([tag, 6]) + b"public")
    for kind in (0xA0, 0xA1, 0xA2, 0xA3, 0xA4, 0xA5, 0xA6, 0x30, 0xBF):
        yield f"a PDU with the tag {kind:#04x}", _get_with(kind=kind)


def _numbers() -> Iterator[_Named]:
    for version in (1, 2, 3, 127, -1):
        yield f"version {version}", _get_with(version=wire.integer(version))
    bounds = [0, 1, -1, 127, 128, 255, 256, 32767, 32768, 65535, 2**31 - 1, 2**31, -(2**31), 2**32 - 1]
    for number in bounds:
        yield f"request-id {number}", _get_with(number=wire.integer(number))
        yield f"an INTEGER of {number}", _get_with(value=wire.integer(number))
    for number in (2**32, -(2**31) - 1, 2**63, -(2**63)):
        yield f"request-id {number}, out of range", _get_with(number=wire.integer(number))
        yield f"an INTEGER of {number}, out of range", _get_with(value=wire.integer(number))
    for content, words in (
        (b"", "no octets"),
        (b"\0\0", "a needless zero"),
        (b"\0\x7f", "a needless zero before 127"),
        (b"\xff\xff", "a needless 255"),
        (b"\0\x80", "a zero that is needed"),
        (b"\xff\x7f", "a 255 that is needed"),
    ):
        yield f"an error-index of {words}", _get_with(index=wire.element(2, content))
        yield f"a value of {words}", _get_with(value=wire.element(2, content))
        yield f"a Gauge of {words}", _get_with(value=wire.element(0x42, content))
    for tag in (0x41, 0x42, 0x43):
        for number in (0, 1, 2**32 - 1, -1, 2**32):
            yield f"a {TYPES[tag]} of {number}", _get_with(value=wire.integer(number, tag))


def sizes() -> Iterator[_Named]:
    for size in (0, 3, 4, 5):
        yield f"an IpAddress of {size} octets", _get_with(value=wire.element(0x40, bytes(size)))
    for size in (0, 1, 127, 128, 255, 256):
        yield f"an OCTET STRING of {size} octets", _get_with(value=wire.element(4, b"A" * size))
        yield f"an Opaque of {size} octets", _get_with(value=wire.element(0x44, b"A" * size))
    for size in (0, 1, 32, 33, 127, 128):
        yield f"a community of {size} octets", _get_with(community=wire.element(4, b"c" * size))
    yield "a NULL with an octet", _get_with(value=b"\5\1\0")
    for tag in (0x03, 0x30, 0x45, 0x24, 0x80):
        yield f"a value with the tag {tag:#04x}", _get_with(value=bytes([tag, 0]))


def names() -> Iterator[_Named]:
    for count in (2, 126, 127, 128):
        yield f"a name of {count} numbers", _get_with(name=wire.name((1, 3) + (1,) * (count - 2)))
    yield "a name of 129 numbers, one more than there may be", _get_with(name=wire.name((1, 3) + (1,) * 127))
    known: list[tuple[wire.Name, str]] = [
        ((0, 0), "0.0"),
        ((0, 39), "0.39"),
        ((1, 0), "1.0"),
        ((1, 39), "1.39"),
        ((2, 0), "2.0"),
        ((2, 47), "2.47"),
        ((2, 48), "2.48"),
        ((2, 2**32 - 81), "the greatest first pair"),
        ((1, 3, 2**32 - 1), "the greatest number"),
        ((1, 3, 127), "1.3.127"),
        ((1, 3, 128), "1.3.128"),
        ((1, 3, 16383), "1.3.16383"),
        ((1, 3, 16384), "1.3.16384"),
    ]
    for name, words in known:
        yield f"the name {words}", _get_with(name=wire.name(name))
        yield f"the name {words} as a value", _get_with(value=wire.name(name))
    for content, words in (
        (b"", "no octets"),
        (b"\x80\x01", "a first digit of 0"),
        (b"\x2b\x80\x01", "a later first digit of 0"),
        (b"\x2b\x81", "no last digit"),
        (b"\x90\x80\x80\x80\x00", "2^32"),
        (b"\x2b\xff\xff\xff\xff\x7f", "more than 2^32"),
    ):
        yield f"a name with {words}", _get_with(name=wire.element(6, content))
        yield f"a value that is a name with {words}", _get_with(value=wire.element(6, content))


def bindings() -> Iterator[_Named]:
    yield "octets after a PDU", _get_with(more=b"\5\0")
    yield "no bindings", request(wire.GET, [], b"public")
    yield "a binding without a value", _get_of(_around([wire.name((1, 3))]))
    yield "a binding with two values", _get_of(_around([wire.name((1, 3)), b"\5\0\5\0"]))
    yield "a binding that is no SEQUENCE", _get_of(b"\5\0")
    for count in (2, 30, 200):
        yield f"{count} bindings", request(wire.GET, [((1, 3), NULL)] * count, b"public")
    yield "1,472 octets that are no message", bytes(1472)
    yield "1,473 octets", bytes(1473)


def datagrams() -> Iterator[_Named]:
    for some in (_lengths, tags, _numbers, sizes, names, bindings):
        yield from some()


def _value_words(tagged: wire.Tagged) -> Case:
    tag, held = tagged
    if tag == wire.NAME:
        return {"type": TYPES[tag], "value": ".".join(map(str, held))}
    return {"type": TYPES[tag], "value": held.hex() if isinstance(held, bytes) else held}


def cases() -> Iterator[Case]:
    for name, octets in datagrams():
        case: Case = {"name": name, "octets": octets.hex()}
        try:
            message = wire.read(octets)
            listed = [{"name": ".".join(map(str, bound)), **_value_words(value)} for bound, value in message.bindings]
            case["message"] = {
                "kind": KINDS[message.kind],
                "community": message.community.hex(),
                "request-id": message.number,
                "error-status": message.status,
                "error-index": message.index,
                "bindings": listed,
            }
            case["canonical"] = wire.written(message).hex()
        except wire.Fault as fault:
            case["fault"], case["offset"] = fault.kind, fault.offset
        yield case
