"""The messages that octets spell, read once each: nobody changes them."""

import functools

from wisangub.snmp import wire

from .objects import NULL

_KEPT: dict[bytes, wire.Message] = {}
_MOST_KEPT = 256


@functools.lru_cache(maxsize=4096)
def _read(octets: bytes) -> wire.Message | None:
    found: wire.Message | None = wire.spelled(octets)
    return found


def spelled(octets: bytes) -> wire.Message | None:
    """The message, or None where the octets spell none."""
    return _KEPT.get(octets) or _read(octets)


def written(message: wire.Message) -> bytes:
    """The message's octets. What a request of names alone spells is known without reading it back."""
    octets: bytes = wire.written(message)
    is_plain = all(value == NULL and max(name) < 2**31 for name, value in message.bindings)
    if is_plain and len(octets) <= wire.MOST_DATAGRAM and 0 <= message.number < 2**31:
        if len(_KEPT) >= _MOST_KEPT:
            _KEPT.clear()
        _KEPT[octets] = message
    return octets


def status_of(octets: bytes | None) -> int | None:
    """The error-status that a reply spells; None where it is no message."""
    message = spelled(octets) if octets is not None else None
    return None if message is None else message.status
