"""Datagrams spelled by hand: a Get of which any element may be written in another form."""

from typing import Callable, Mapping

from wisangub.snmp import wire
from wisangub.snmp.names import scalar

from .objects import instance

Form = Callable[[int, bytes], bytes]  # the octets of an element, from its tag and its content

PLACES = ("message", "version", "community", "pdu", "number", "status", "index", "list", "binding", "name", "value")
HEIGHT = scalar("vmsSignHeightPixels")
NOWHERE = instance(2, 5)  # no instance: a reply to it repeats the binding


def length_of(octets: int) -> Form:
    """The long form with so many octets of length."""
    return lambda tag, content: bytes([tag, 128 + octets]) + len(content).to_bytes(octets, "big") + content


def first_octet(octet: int, more: bytes = b"") -> Form:
    """This octet where the length begins, and these after it."""
    return lambda tag, content: bytes([tag, octet]) + more + content


def longer(by: int) -> Form:
    """A length that is off by so many, in the shortest form of its own."""
    return (
        lambda tag, content: bytes([tag])
        + wire.element(0, bytes(len(content) + by))[1 : -(len(content) + by) or None]
        + content
    )


def tagged(tag: int) -> Form:
    """Another tag."""
    return lambda _, content: wire.element(tag, content)


def holding(content: bytes) -> Form:
    """Another content."""
    return lambda tag, _: wire.element(tag, content)


def followed(more: bytes) -> Form:
    """Octets after the last member of the content."""
    return lambda tag, content: wire.element(tag, content + more)


def without() -> Form:
    """The element is left out."""
    return lambda tag, content: b""


def twice() -> Form:
    """The element, and once more."""
    return lambda tag, content: 2 * wire.element(tag, content)


def spelled(
    number: int,
    community: bytes,
    changes: Mapping[str, Form],
    kind: int = wire.GET,
    name: bytes | None = None,
    value: bytes = b"",
    tag: int = wire.NULL,
) -> bytes:
    """A request of one binding with these changes, by place."""

    def element(place: str, own_tag: int, content: bytes) -> bytes:
        return changes.get(place, wire.element)(own_tag, content)

    def small(held: int) -> bytes:
        return wire.integer(held)[2:]

    content = name if name is not None else wire.name_content(HEIGHT)
    bound = element("binding", wire.SEQUENCE, element("name", wire.NAME, content) + element("value", tag, value))
    numbers = element("number", wire.INTEGER, small(number)) + element("status", wire.INTEGER, b"\0")
    pdu = element("pdu", kind, numbers + element("index", wire.INTEGER, b"\0") + element("list", wire.SEQUENCE, bound))
    head = element("version", wire.INTEGER, b"\0") + element("community", wire.OCTETS, community)
    return element("message", wire.SEQUENCE, head + pdu)
