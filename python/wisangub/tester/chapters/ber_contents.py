"""BER: contents of elements, which are integers, values of each type, and names."""

from typing import Iterator

from wisangub.snmp import wire
from wisangub.tester.requests import spelling
from wisangub.tester.requests.spelling import NOWHERE
from wisangub.tester.requests.steps import Raw

from .ber_forms import BAD_TAGS, raw
from .block import Block

_INTEGERS = ("version", "number", "status", "index")


def integers() -> Iterator[Block]:
    """Cases of what an INTEGER's content may be."""
    good = [
        b"\x7f",
        b"\x00\x80",
        b"\x80",
        b"\xff\x7f",
        b"\x7f\xff\xff\xff",
        b"\x80\0\0\0",
        b"\0\xff\xff\xff\xff",
        b"\xff",
        b"\0\x80\0\0\0",
    ]
    needless = [b"", b"\0\0", b"\0\x7f", b"\xff\xff", b"\xff\x80", b"\0\0\0\0\0\1"]
    outside = [
        b"\1\0\0\0\0",
        b"\xff\x7f\xff\xff\xff",
        b"\0\xff\xff\xff\xff\xff",
        b"\x7f\xff\xff\xff\xff\xff\xff\xff",
        b"\x80" + bytes(8),
    ]
    for place in ("status", "index"):
        yield Block(
            "status and index", "not looked at", [raw("", {place: spelling.holding(content)}) for content in good]
        )
    yield Block(
        "request numbers", "not looked at", [raw("", {"number": spelling.holding(content)}) for content in good]
    )
    for place in _INTEGERS:
        yield Block(
            "forms of integers", "integers", [raw("", {place: spelling.holding(content)}) for content in needless]
        )
        yield Block(
            "the range of integers",
            "integer range",
            [raw("", {place: spelling.holding(content)}) for content in outside],
        )
    versions = [b"\1", b"\2", b"\3", b"\xff", b"\x7f"]
    yield Block("versions", "messages", [raw("", {"version": spelling.holding(content)}) for content in versions])


def _value(rule: str, tag: int, content: bytes) -> Raw:
    """A Get of no instance with this value."""
    return raw(rule, {}, name=wire.name_content(NOWHERE), value=content, tag=tag)


def values() -> Iterator[Block]:
    """Values of each type; a reply that refuses repeats them in their shortest form."""
    yield Block(
        "integers as values",
        "",
        [
            _value("integers", wire.INTEGER, content)
            for content in (b"\0", b"\x80", b"\0\xff\xff\xff\xff", b"\x80\0\0\0")
        ],
    )
    yield Block(
        "integers as values", "", [_value("integers", wire.INTEGER, content) for content in (b"", b"\0\0", b"\xff\xff")]
    )
    yield Block(
        "integers as values",
        "",
        [_value("integer range", wire.INTEGER, content) for content in (b"\1\0\0\0\0", b"\xff\x7f\xff\xff\xff")],
    )
    for tag in (wire.COUNTER, wire.GAUGE, wire.TICKS):
        good, bad = (b"\0", b"\x7f", b"\0\xff\xff\xff\xff"), (b"\xff", b"\x80\0\0\0", b"\1\0\0\0\0", b"\0\0", b"")
        yield Block("counters", "counters", [_value("", tag, content) for content in good + bad])
    yield Block("NULL", "null", [_value("", wire.NULL, content) for content in (b"", b"\0", b"\5\0")])
    yield Block("addresses", "addresses", [_value("", wire.ADDRESS, bytes(size)) for size in (4, 0, 3, 5, 8)])
    yield Block(
        "octets",
        "long lengths",
        [_value("", tag, bytes(range(size))) for tag in (wire.OCTETS, wire.OPAQUE) for size in (0, 1, 200)],
    )
    yield Block(
        "other types",
        "bindings",
        [_value("", tag, content) for tag in BAD_TAGS + bytes([0x30, 0xA0, 0xA2]) for content in (b"", b"\0")],
    )
    yield Block(
        "names as values",
        "names",
        [_value("", wire.NAME, content) for content in (b"\x2b", b"", b"\x80\1", b"\x2b\x81")],
    )


def names() -> Iterator[Block]:
    """Cases of what a name's content may be."""
    most = wire.name_content((1, 3) + (2**32 - 1,) * 3)
    good = [
        b"\x2b",
        b"\0",
        b"\x27",
        b"\x28",
        b"\x4f",
        b"\x50",
        b"\x7f",
        b"\x81\0",
        b"\x88\x37",
        most,
        b"\x2b" + bytes(126),
        b"\x8f\xff\xff\xff\x7f",
        wire.name_content(NOWHERE),
    ]
    yield Block("names", "names", [raw("", {}, name=name) for name in good])
    bad = [b"", b"\x80", b"\x80\x2b", b"\x2b\x80\1", b"\x2b\x81", b"\x81", b"\x2b\x06\x80\x01\x05"]
    yield Block("forms of names", "names", [raw("", {}, name=name) for name in bad])
    limits = [
        b"\x2b" + bytes(127),
        b"\x90\x80\x80\x80\0",
        b"\x2b\x90\x80\x80\x80\0",
        b"\x2b\xff\xff\xff\xff\x7f",
        b"\x2b" + bytes(300),
    ]
    yield Block("limits of names", "name limits", [raw("", {}, name=name) for name in limits])
