"""What a sequence is made of: requests, octets as they stand, and seconds that pass."""

from dataclasses import dataclass, replace
from typing import Callable, Sequence, Union

from wisangub.snmp import wire

from .messages import written
from .objects import NULL, Binding, Name

FIRST_NUMBER, LAST_NUMBER = 0x010000, 0x7FFFFF  # each takes three octets, so that sizes do not hang on them


@dataclass(frozen=True)
class Ask:
    """A request. Those with one `group` have one request number in a run of a sequence: the same octets again."""

    kind: int
    bindings: tuple[Binding, ...]
    is_writer: bool = True
    rule: str = ""
    group: int | None = None
    community: bytes | None = None  # another than the two

    def octets(self, number: int, communities: tuple[bytes, bytes]) -> bytes:
        community = self.community if self.community is not None else communities[self.is_writer]
        return written(wire.Message(self.kind, community, number, 0, 0, list(self.bindings)))

    def with_bindings(self, bindings: Sequence[Binding]) -> "Ask":
        return replace(self, bindings=tuple(bindings))


@dataclass(frozen=True)
class Raw:
    """A datagram made by hand: `make` is given the request number and the communities of reader and writer."""

    make: Callable[[int, tuple[bytes, bytes]], bytes]
    rule: str = ""
    group: int | None = None
    is_quiet: bool = False  # nothing is sent after it to see that it has no answer

    def octets(self, number: int, communities: tuple[bytes, bytes]) -> bytes:
        return self.make(number, communities)


@dataclass(frozen=True)
class Wait:
    """So many ticks of the sign. None at all waits for the next one only where it is near."""

    ticks: int = 1
    rule: str = ""


Step = Union[Ask, Raw, Wait]


def get(*names: Name, rule: str = "", is_writer: bool = True) -> Ask:
    """A Get of these names."""
    return Ask(wire.GET, tuple((name, NULL) for name in names), is_writer, rule)


def get_next(*names: Name, rule: str = "", is_writer: bool = True) -> Ask:
    """A GetNext of these names."""
    return Ask(wire.GET_NEXT, tuple((name, NULL) for name in names), is_writer, rule)


def put(*bindings: Binding, rule: str = "", is_writer: bool = True) -> Ask:
    """A SET of these bindings."""
    return Ask(wire.SET, bindings, is_writer, rule)


def fixed(octets: bytes, rule: str = "") -> Raw:
    """Octets as they stand."""
    return Raw(lambda _number, _communities: octets, rule)


def looks(names: Sequence[Name], rule: str = "", share: int = 40) -> list[Ask]:
    """Gets of all these names, so many in a datagram."""
    return [get(*names[at : at + share], rule=rule) for at in range(0, len(names), share)]


def datagrams(steps: Sequence[Step]) -> int:
    """How many datagrams a sequence sends."""
    return sum(not isinstance(step, Wait) for step in steps)
