"""Datagrams at the edges of what docs/PROFILE.md has as a message, each with whether it is one."""

from typing import Iterator

from model import wire

NAME = b"\x2b\x06\x01\x04\x01\x89\x36\x04\x02\x03\x06\x0a\x00"


def element(tag: int, content: bytes) -> bytes:
    return bytes(wire.element(tag, content))


def request(
    value: bytes = b"\x02\x01\x07",
    name: bytes = element(wire.NAME, NAME),
    numbers: tuple[bytes, bytes, bytes] = (b"\x01", b"\0", b"\0"),
    version: bytes = b"\x02\x01\0",
    kind: int = wire.SET,
    community: bytes = b"admin",
) -> bytes:
    """A request with these parts, as they are spelled."""
    listed = element(wire.SEQUENCE, element(wire.SEQUENCE, name + value))
    pdu = b"".join(element(wire.INTEGER, number) for number in numbers) + listed
    return element(wire.SEQUENCE, version + element(wire.OCTETS, community) + element(kind, pdu))


def of_numbers() -> Iterator[tuple[bytes, bool]]:
    """Integers and counters at the ends of their ranges, in their fewest octets and in more."""
    rows = [
        (b"\x7f\xff\xff\xff", True, True),
        (b"\0\xff\xff\xff\xff", True, True),
        (b"\0\x80\0\0\0", True, True),
        (b"\x01\0\0\0\0", False, False),
        (b"\x80\0\0\0", True, False),
        (b"\xff\x7f\xff\xff\xff", False, False),
        (b"\xff", True, False),
        (b"\0", True, True),
        (b"\0\0", False, False),
        (b"\0\x7f", False, False),
        (b"\0\x80", True, True),
        (b"\xff\x80", False, False),
        (b"\xff\x7f", True, False),
        (b"\0\0\xff\xff\xff\xff", False, False),
        (b"", False, False),
    ]
    for content, is_integer, is_counter in rows:
        yield request(value=element(wire.INTEGER, content)), is_integer
        for tag in (wire.COUNTER, wire.GAUGE, wire.TICKS):
            yield request(value=element(tag, content)), is_counter
        for place in range(3):
            numbers = [b"\x01"] * 3
            numbers[place] = content
            yield request(numbers=(numbers[0], numbers[1], numbers[2])), is_integer


def of_names() -> Iterator[tuple[bytes, bool]]:
    """Names of as many numbers as there may be, and numbers as great as they may be."""
    rows = [
        (b"\x01" * 127, True),
        (b"\x01" * 128, False),
        (b"\x01", True),
        (b"", False),
        (b"\x8f\xff\xff\xff\x7f", True),
        (b"\x88\x80\x80\x80\0", True),
        (b"\x90\x80\x80\x80\0", False),
        (b"\x81\x80\x80\x80\x80\0", False),
        (b"\x80\x01", False),
        (b"\x2b\x80\x01", False),
        (b"\x2b\x81\0", True),
        (b"\x2b\xff\xff\xff\x7f", True),
        (b"\x2b\xff\xff\xff\xff\x7f", False),
        (b"\x2b\x81", False),
        (b"\x8f\xff\xff\xff\x7f" * 127, True),
    ]
    for content, is_name in rows:
        yield request(name=element(wire.NAME, content)), is_name
        yield request(value=element(wire.NAME, content)), is_name


def of_values() -> Iterator[tuple[bytes, bool]]:
    """Values of every tag, and lengths of every form."""
    for tag in range(256):
        content = {wire.NULL: b"", wire.ADDRESS: b"\x7f\0\0\1", wire.NAME: NAME}.get(tag, b"\x07")
        yield request(value=element(tag, content)), tag in wire.VALUES
    for size in (0, 3, 5):
        yield request(value=element(wire.ADDRESS, bytes(size))), False
    yield request(value=element(wire.NULL, b"\0")), False
    for digits in (b"\x81\0", b"\x82\0\0", b"\x84\0\0\0\0"):
        yield request(value=b"\x05" + digits), True
        yield request(value=b"\x44" + digits), True
    for digits in (b"\x81\x01", b"\x82\0\x01", b"\x83\0\0\x01", b"\x84\0\0\0\x01"):
        yield request(value=b"\x02" + digits + b"\x07"), True
    for digits in (b"\x80", b"\x85\0\0\0\0\x01", b"\xff", b"\x02", b"\x84\x01\0\0\x01"):
        yield request(value=b"\x02" + digits + b"\x07"), False
    yield request(value=b"\x02\x01\x07\x05\0"), False
    yield request(value=b""), False


def of_messages() -> Iterator[tuple[bytes, bool]]:
    """Versions, kinds, communities, and datagrams of as many octets as there may be."""
    yield request(version=b"\x02\x81\x01\0"), True
    for version in (b"\x02\x01\x01", b"\x02\x01\x03", b"\x02\x02\0\0", b"\x02\0", b"\x04\x01\0", b""):
        yield request(version=version), False
    for kind in range(256):
        yield request(kind=kind), kind in (wire.GET, wire.GET_NEXT, wire.RESPONSE, wire.SET)
    for community in (b"public", b"admin", b"", b"a" * 200):
        for kind in (wire.GET, wire.GET_NEXT, wire.RESPONSE, wire.SET):
            yield request(kind=kind, community=community), True
    size = wire.MOST_DATAGRAM - len(request(value=element(wire.OPAQUE, bytes(1000)))) + 1000
    for more, is_one in ((-1, True), (0, True), (1, False), (2, False)):
        made = request(value=element(wire.OPAQUE, bytes(size + more)))
        assert len(made) == wire.MOST_DATAGRAM + more
        yield made, is_one
    whole = request()
    yield whole + b"\0", False
    yield from ((whole[:end], False) for end in range(len(whole)))


def edges() -> Iterator[tuple[bytes, bool]]:
    """All of them."""
    for some in (of_numbers, of_names, of_values, of_messages):
        yield from some()
