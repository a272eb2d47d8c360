"""Which datagrams are Gets: what a front end looks at before it reads a message. The codec, `wire`, is imported where a
message is read, since it takes a tenth of a start."""

MOST_DATAGRAM = 1472  # octets
_OCTETS, _SEQUENCE, _GETS = 0x04, 0x30, (0xA0, 0xA1)
_SHORT = 128  # lengths below it take one octet


def is_get(octets: bytes) -> bool:
    """Whether it is a Get or a GetNext by its outer elements: their lengths and the version in the shortest form, and
    the PDU's tag. Whatever a datagram spells, one for which this is true changes nothing but the silence of a sign."""
    message = _shortest(octets, 0, _SEQUENCE)
    if message is None or message[1] != len(octets) or octets[message[0] : message[0] + 3] != b"\x02\x01\x00":
        return False
    community = _shortest(octets, message[0] + 3, _OCTETS)
    if community is None:
        return False
    tag = octets[community[1]] if community[1] < len(octets) else -1
    pdu = _shortest(octets, community[1], tag) if tag in _GETS else None
    return pdu is not None and pdu[1] == len(octets)


def _shortest(octets: bytes, at: int, tag: int) -> tuple[int, int] | None:
    """Where the content begins and ends of the element at `at`, which has this tag and its length in the shortest
    form."""
    size = octets[at + 1] if at + 1 < len(octets) and octets[at] == tag else _SHORT
    if size < _SHORT:  # as mostly
        return (at + 2, at + 2 + size) if at + 2 + size <= len(octets) else None
    from . import wire

    try:
        begin, end = wire.content(octets, at, len(octets), (tag,))
    except wire.Fault:
        return None
    is_shortest = begin - at == len(wire.element(tag, bytes(end - begin))) - (end - begin)
    return (begin, end) if is_shortest else None
