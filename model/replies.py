"""What a request is answered with: the values that are asked for, an error, or tooBig where that is too long."""

from collections.abc import Iterable
from typing import Protocol

from . import wire


class Readable(Protocol):
    """What has objects: what a name reads, and the name that comes next."""

    def value(self, name: wire.Name) -> wire.Tagged | None:
        """The value of an instance; None where there is no such instance."""

    def after(self, name: wire.Name) -> wire.Name | None:
        """The first name that stands behind this one; None behind the last."""


class Joined:
    """Several sources as one: the first that has a name reads it, and the least of what comes next is next."""

    def __init__(self, sources: Iterable[Readable]) -> None:
        self.sources = list(sources)

    def value(self, name: wire.Name) -> wire.Tagged | None:
        """What the first source reads that has the name."""
        return next((held for source in self.sources if (held := source.value(name)) is not None), None)

    def after(self, name: wire.Name) -> wire.Name | None:
        """The least of the names that come next in each."""
        return min((found for source in self.sources if (found := source.after(name)) is not None), default=None)


Outcome = tuple[int, int, list[wire.Binding]]  # the error-status, the index, and the bindings


def read(message: wire.Message, objects: Readable) -> Outcome:
    """What a Get or a GetNext finds."""
    found: list[wire.Binding] = []
    for at, (asked, _) in enumerate(message.bindings, 1):
        name = asked if message.kind == wire.GET else objects.after(asked)
        value = None if name is None else objects.value(name)
        if name is None or value is None:
            return wire.NO_SUCH_NAME, at, message.bindings
        found.append((name, value))
    return wire.NO_ERROR, 0, found


def written(message: wire.Message, outcome: Outcome) -> bytes:
    """The octets of the answer to a message."""
    reply = wire.written(wire.Message(wire.RESPONSE, message.community, message.number, *outcome))
    if len(reply) > wire.MOST_DATAGRAM:
        too_big = wire.TOO_BIG, 0, message.bindings
        reply = wire.written(wire.Message(wire.RESPONSE, message.community, message.number, *too_big))
    return reply
