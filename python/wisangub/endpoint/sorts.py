"""What a datagram can do to a sign, by the datagram alone: what a front end has to know before it records one. It is
read as docs/PROFILE.md has it, since one that is taken for none that a sign answers is in no journal."""

import enum

from wisangub.snmp.gets import is_get


class Sort(enum.Enum):
    """UNANSWERED: no sign answers it, and it changes nothing. HEARD: it changes nothing but that a silence is over,
    where it is answered. CHANGING: all else."""

    UNANSWERED = enum.auto()
    HEARD = enum.auto()
    CHANGING = enum.auto()


# names of their own: to look one up in the class takes as long as a call
UNANSWERED, HEARD, CHANGING = Sort.UNANSWERED, Sort.HEARD, Sort.CHANGING


def sort_of(octets: bytes, reader: bytes, writer: bytes) -> Sort:
    """What it can do to a sign with these communities."""
    if is_get(octets):
        return HEARD
    from wisangub.snmp import wire

    found = wire.spelled(octets)
    if found is None or found.kind == wire.RESPONSE or found.community not in (reader, writer):
        return UNANSWERED
    return CHANGING if (found.kind, found.community) == (wire.SET, writer) else HEARD
