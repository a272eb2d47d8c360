"""How two replies to one request differ."""

import functools
from dataclasses import dataclass
from enum import Enum

from wisangub.snmp import wire
from wisangub.snmp.mib import Mib
from wisangub.snmp.names import KINDS, TYPES, status_word
from wisangub.tester.requests.messages import spelled
from wisangub.tester.requests.objects import Name, spoken


class Kind(Enum):
    """The classes of differences."""

    NO_ANSWER = "no answer"
    ANSWER = "an answer to what has none"
    UNREADABLE = "a reply that is no message"
    SPELLING = "another spelling of the same message"
    HEAD = "another kind, community or request number"
    STATUS = "another error-status or error-index"
    BINDINGS = "other names or another number of bindings"
    VALUE = "other values"
    STATE = "another state"


@dataclass(frozen=True)
class Mismatch:
    """What is different, and for which names where that can be said."""

    kind: Kind
    names: tuple[Name, ...] = ()


def mismatch(ours: bytes | None, theirs: bytes | None, masked: frozenset[Name] = frozenset()) -> Mismatch | None:
    """How the replies differ, None where they are the same. Values of the masked names are not looked at."""
    if ours == theirs:
        return None
    if theirs is None:
        return Mismatch(Kind.NO_ANSWER)
    if ours is None:
        return Mismatch(Kind.ANSWER)
    want, have = spelled(ours), spelled(theirs)
    assert want is not None
    if have is None:
        return Mismatch(Kind.UNREADABLE)
    if want == have:
        return Mismatch(Kind.SPELLING)
    return _between(want, have, masked)


def _between(want: wire.Message, have: wire.Message, masked: frozenset[Name]) -> Mismatch | None:
    """How two messages differ."""
    if (want.kind, want.community, want.number) != (have.kind, have.community, have.number):
        return Mismatch(Kind.HEAD)
    if (want.status, want.index) != (have.status, have.index):
        return Mismatch(Kind.STATUS)
    if [name for name, _ in want.bindings] != [name for name, _ in have.bindings]:
        return Mismatch(Kind.BINDINGS, _differing_names(want, have))
    names = tuple(
        name for (name, value), (_, other) in zip(want.bindings, have.bindings) if value != other and name not in masked
    )
    return Mismatch(Kind.VALUE, names) if names else None


def _differing_names(want: wire.Message, have: wire.Message) -> tuple[Name, ...]:
    return tuple(
        name for at, (name, _) in enumerate(want.bindings) if at >= len(have.bindings) or have.bindings[at][0] != name
    )


@functools.lru_cache(maxsize=1)
def _words() -> Mib:
    """The words of values, where the MIB is here."""
    return Mib.read()


def value_words(tagged: tuple[int, int | bytes | Name], name: Name = ()) -> str:
    """A value for readers, with the word that it has as one of this object: `5 (error)`."""
    tag, held = tagged
    if isinstance(held, int):
        word = _words().word(name, held) if tag == wire.INTEGER and name else ""
        said = f"{held} ({word})" if word else str(held)
        return said if tag == wire.INTEGER else f"{TYPES[tag]} {held}"
    if isinstance(held, tuple):
        return f"{TYPES[tag]} {spoken(held)}"
    if tag == wire.ADDRESS:
        return ".".join(map(str, held))
    if tag == wire.NULL:
        return "NULL"
    if held and all(32 <= octet < 127 for octet in held):
        return f'{TYPES[tag]} "{held.decode()}"'
    return f"{TYPES[tag]} {held.hex() or 'of no octets'}"


def shown(octets: bytes) -> str:
    """Octets as text, with those that are no printable ASCII as \\x and two digits."""
    return "".join(chr(octet) if 32 <= octet < 127 else f"\\x{octet:02x}" for octet in octets)


def fields(octets: bytes | None) -> list[str]:
    """A datagram's fields for readers, a line each."""
    if octets is None:
        return ["no answer"]
    try:
        message = wire.read(octets)
    except wire.Fault as fault:
        return [f"no message: {fault.kind} at octet {fault.offset}"]
    community = shown(message.community)
    head = f"{KINDS[message.kind]} of {community}, request-id {message.number}"
    if message.kind == wire.RESPONSE or message.status or message.index:
        head += f", {status_word(message.status)}, index {message.index}"
    return [head] + [f"{spoken(name)} = {value_words(value, name)}" for name, value in message.bindings]
