"""What answers a Get with the reading community, and a Get that goes out once, from a socket of its own."""

import socket
import time

from wisangub.snmp import wire
from wisangub.snmp.names import status_word

from .log import Log
from .sockets import Address, Waiting, received, sent

PATIENCE = 1.0  # seconds that a Get waits which goes out once
Name = tuple[int, ...]
Values = list[int | str]  # an integer, or octets as digits, for each name that was asked for


class Refused(str):
    """Why a Response has no values, in words: its error-status, and the place of the name at fault, from 1 on."""

    status: int
    place: int

    @classmethod
    def of(cls, message: wire.Message) -> "Refused":
        made = cls(f"error-status {message.status}, {status_word(message.status)}")
        made.status, made.place = message.status, message.index
        return made


def answer(octets: bytes, community: bytes, number: int) -> wire.Message | None:
    """The Response to a Get; None where the octets are none."""
    message: wire.Message | None = wire.spelled(octets)
    if message is None or message.kind != wire.RESPONSE or message.community != community or message.number != number:
        return None
    return message


def _worded(value: tuple[int, object]) -> int | str:
    """An integer, or octets as digits."""
    held = value[1]
    return held if isinstance(held, int) else bytes(held).hex() if isinstance(held, bytes) else str(held)


def said(octets: bytes, community: bytes, number: int, asked: list[Name]) -> Values | str | None:
    """The values of a Response to a Get, or why it has none; None where the octets are no Response to it."""
    message = answer(octets, community, number)
    if message is None:
        return None
    if message.status:
        return Refused.of(message)
    if [name for name, _ in message.bindings] != asked:
        return "the reply does not answer what was asked"
    return [_worded(value) for _, value in message.bindings]


def once(
    to: Address, waiting: Waiting, community: bytes, number: int, asked: list[Name], log: Log | None
) -> Values | None:
    """Asks a sign once: what it says within a second. No lost datagram, and nothing else that goes wrong, is more than
    no answer."""
    try:
        family = socket.AF_INET6 if len(to) == 4 else socket.AF_INET
        with socket.socket(family, socket.SOCK_DGRAM) as own:
            own.connect(to)
            octets = wire.get(community, number, asked)
            if log:
                log.datagram("reading", to, octets)
            return None if sent(own, octets) else _awaited(own, waiting, community, number, asked, log)
    except OSError:
        return None


def _awaited(
    own: socket.socket, waiting: Waiting, community: bytes, number: int, asked: list[Name], log: Log | None
) -> Values | None:
    """The values of the Response, where one comes in time."""
    ends = time.monotonic() + PATIENCE
    while (left := ends - time.monotonic()) > 0 and not waiting.is_stopped:
        waiting.until([own.fileno()], left)
        heard = received(own)
        if heard is None:
            continue
        if log:
            log.datagram("reading", heard[1], heard[0])
        found = said(heard[0], community, number, asked)
        if found is not None:
            return found if isinstance(found, list) else None
    return None
