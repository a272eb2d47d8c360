"""What is said of a datagram: its message field by field, in the words of the MIB."""

from . import wire
from .mib import Mib
from .names import KINDS, status_word


def _printed(octets: bytes) -> str:
    """A text in quotes where all octets are printable, else their digits; `-` for none."""
    if octets and all(32 <= octet < 127 for octet in octets):
        return '"' + octets.decode("ascii") + '"'
    return octets.hex() or "-"


def _value_of(mib: Mib, name: tuple[int, ...], value: tuple[int, object]) -> str:
    """A value in words."""
    tag, held = value
    if tag == wire.NULL:
        return ""
    if isinstance(held, int):
        word = mib.word(name, held)
        return f"{word}({held})" if word else str(held)
    if tag == wire.NAME and isinstance(held, tuple):
        return ".".join(map(str, held))
    assert isinstance(held, bytes)
    return ".".join(map(str, held)) if tag == wire.ADDRESS else _printed(held)


def fields_of(mib: Mib, octets: bytes) -> dict[str, object]:
    """What a datagram says, field by field; or why it says nothing."""
    try:
        message = wire.read(octets)
    except wire.Fault as fault:
        return {"fault": fault.kind, "offset": fault.offset}
    fields: dict[str, object] = {
        "kind": KINDS[message.kind],
        "community": message.community.decode("latin-1"),
        "request-id": message.number,
    }
    if message.kind == wire.RESPONSE:
        fields["error-status"] = status_word(message.status)
        fields["error-index"] = message.index
    fields["bindings"] = [
        {"name": mib.name(name), "value": _value_of(mib, name, value)} for name, value in message.bindings
    ]
    return fields
